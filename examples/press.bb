%schema
{
  "labels": [{"name": "state", "values": ["waiting", "printing", "printed"]}],
  "classes": [
    {"name": "press", "slots": [{"name": "name", "kind": "text"}, {"name": "free", "kind": "bool", "default": true}],
     "links": [{"name": "job", "to": "job", "many": false, "inverse": "press"}]},
    {"name": "job",
     "slots": [{"name": "name", "kind": "text"}, {"name": "hours", "kind": "int"}, {"name": "due", "kind": "int"},
               {"name": "state", "kind": "label", "of": "state"}],
     "links": [{"name": "press", "to": "press", "many": false, "inverse": "job"}]}
  ],
  "spaces": [
    {"name": "shop", "classes": ["press"], "dims": []},
    {"name": "tray", "classes": ["job"], "dims": [{"name": "state", "kind": "label", "of": "state"}]}
  ]
}
%units
{
  "units": [{"name": "north", "class": "press", "slots": {"name": "north"}},
            {"name": "south", "class": "press", "slots": {"name": "south"}}],
  "spaces": [["north", "shop"], ["south", "shop"]]
}
%sources
// A print shop with two presses. What happens comes from outside: the host posts each job as it comes, and that a press
// is free when it has ended. The sources decide which job is next. examples/c/press.c and bindings/python/examples/press.py
// are such hosts.

// Begins a job on a press that is free, the most urgent first. While none is, the job waits below the floor.
source begin on job {
  when enter job tray;
  rate -1;
  require {
    with job = it as job {
      for press in find press in shop { if press.free { rate 1000 - job.due; } }
    }
    rate -1;
  }
  retrigger on press when update press.free; {
    with job = it as job {
      for press in find press in shop { if press.free { rate 1000 - job.due; } }
    }
    rate -1;
  }
  do {
    with job = it as job {
      for press in find press in shop {
        if press.free and job.state = state:waiting {
          set press.free = false;
          set job.state = state:printing;
          link press.job job;
          say press, press.name, "begins", job.name, job.hours, job.due;
        }
      }
    }
  }
}

// What a press has printed leaves the tray when the press is free again.
source deliver on press {
  when update press.free;
  rate 5000;
  require {
    with press = it as press { if press.free { rate 5000; } }
    decline;
  }
  do {
    with press = it as press {
      with job = press.job {
        set job.state = state:printed;
        unlink press.job job;
        leave job tray;
      }
    }
  }
}
