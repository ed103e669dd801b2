%schema
{"classes": [{"name": "worker",
              "slots": [{"name": "free", "kind": "bool", "default": true}],
              "links": [{"name": "job", "to": "job", "many": false, "inverse": "worker"}]},
             {"name": "job",
              "slots": [{"name": "urgency", "kind": "int"}],
              "links": [{"name": "worker", "to": "worker", "many": false, "inverse": "job"}]}],
 "spaces": [{"name": "staff", "classes": ["worker"], "dims": []}]}
%units
{"units": [{"name": "ann", "class": "worker"},
           {"name": "fence", "class": "job", "slots": {"urgency": 3}},
           {"name": "roof", "class": "job", "slots": {"urgency": 7}}],
 "spaces": [["ann", "staff"]]}
%sources
// The most urgent job goes to a worker who is free. While none is, each job is pending below the floor.
source begin on job {
  when create job;
  rate -1;
  require {
    with job = it as job {
      for worker in find worker in staff { if worker.free { rate job.urgency; } }
    }
    rate -1;
  }
  retrigger on worker when update worker.free; {
    with job = it as job {
      for worker in find worker in staff { if worker.free { rate job.urgency; } }
    }
    rate -1;
  }
  do {
    with job = it as job {
      let open = true;
      for worker in find worker in staff {
        if open and worker.free {
          open = false;
          set worker.free = false;
          link worker.job job;
          say "begins", job.urgency;
        }
      }
    }
  }
}

// A worker who has a job ends it when nothing more urgent is to do.
source finish on worker {
  when link worker.job;
  rate 0;
  do {
    with worker = it as worker {
      with job = worker.job { unlink worker.job job; }
      set worker.free = true;
    }
  }
}
