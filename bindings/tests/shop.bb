%schema
{"classes": [{"name": "job", "slots": [{"name": "due", "kind": "int"}, {"name": "price", "kind": "int"}]}]}
%sources
// The input of the blocks on the pages for hosts: a job is priced by the host, and then billed.
source price on job { when create job; rate 10; native; }
source bill on job { when update job.price; rate 20; do { with job = it as job { say job, job.price; } } }
