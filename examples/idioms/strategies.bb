%schema
{"classes": [{"name": "job", "slots": [{"name": "done", "kind": "bool"}]}],
 "spaces": [{"name": "foci", "classes": ["focus"], "dims": []}]}
%units
{"units": [{"name": "rush", "class": "focus", "slots": {"source": "fast", "weight": 20, "active": false}},
           {"name": "first", "class": "job"}, {"name": "second", "class": "job"}],
 "spaces": [["rush", "foci"]]}
%sources
// Two strategies for the same jobs. The ratings prefer the cheap one, the focus the fast one while it is active.
source cheap on job {
  when create job;
  rate 10;
  revalidate { with job = it as job { answer not(job.done); } answer false; }
  do { with job = it as job { set job.done = true; say "cheap", job; } }
}

source fast on job {
  when create job;
  rate 5;
  revalidate { with job = it as job { answer not(job.done); } answer false; }
  do { with job = it as job { set job.done = true; say "fast", job; } }
}

// The first job took too long.
source hurry on job {
  when update job.done;
  rate 30;
  require {
    for focus in find focus in foci { if not(focus.active) { rate 30; } }
    decline;
  }
  do { for focus in find focus in foci { set focus.active = true; } }
}
