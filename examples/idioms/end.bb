%schema
{"classes": [{"name": "job", "slots": [{"name": "hours", "kind": "int"}, {"name": "done", "kind": "bool"}]},
             {"name": "shift", "slots": [{"name": "closed", "kind": "bool"}]}],
 "spaces": [{"name": "jobs", "classes": ["job"], "dims": []}, {"name": "shifts", "classes": ["shift"], "dims": []}]}
%units
{"units": [{"name": "saw", "class": "job", "slots": {"hours": 3}}, {"name": "paint", "class": "job", "slots": {"hours": 4}},
           {"name": "today", "class": "shift"}],
 "spaces": [["saw", "jobs"], ["paint", "jobs"], ["today", "shifts"]]}
%sources
source work on job {
  when create job;
  rate 5;
  do { with job = it as job { set job.done = true; } }
}

// At quiescence all work is done. A slot keeps the report to one, as quiescence comes again after it.
source close on shift {
  when quiescence;
  rate 1;
  require {
    for shift in find shift in shifts { if not(shift.closed) { rate 1; } }
    decline;
  }
  do {
    let hours = 0;
    for job in find job in jobs { hours = hours + job.hours; }
    for shift in find shift in shifts { set shift.closed = true; }
    say "hours", hours;
  }
}
