%schema
{
  "labels": [{"name": "state", "values": ["waiting", "printing", "printed"]}],
  "classes": [
    {"name": "day", "slots": [{"name": "minute", "kind": "int"}]},
    {"name": "press", "slots": [{"name": "name", "kind": "text"}, {"name": "until", "kind": "int"}],
     "links": [{"name": "job", "to": "job", "many": false, "inverse": "press"}]},
    {"name": "job",
     "slots": [{"name": "name", "kind": "text"}, {"name": "minutes", "kind": "int"}, {"name": "due", "kind": "int"},
               {"name": "state", "kind": "label", "of": "state"}],
     "links": [{"name": "press", "to": "press", "many": false, "inverse": "job"}]}
  ],
  "spaces": [
    {"name": "shop", "classes": ["press"], "dims": []},
    {"name": "wall", "classes": ["day"], "dims": []},
    {"name": "tray", "classes": ["job"], "dims": [{"name": "state", "kind": "label", "of": "state"}]}
  ]
}
%units
{
  "units": [{"name": "today", "class": "day"},
            {"name": "north", "class": "press", "slots": {"name": "north"}},
            {"name": "south", "class": "press", "slots": {"name": "south"}}],
  "spaces": [["today", "wall"], ["north", "shop"], ["south", "shop"]]
}
%sources
// A print shop with two presses whose whole state is on the blackboard, so that a host that was killed goes on from a
// history alone. The host posts each job as it comes, and the minute. bindings/python/examples/day.py is such a host.

// A press whose job has ended is free: the job is printed and leaves the tray.
source deliver on press {
  when link press.job;
  rate -1;
  retrigger on day when update day.minute; {
    with day = ev as day {
      with press = it as press { if not(day.minute < press.until) { rate 5000; } }
    }
    decline;
  }
  do {
    with press = it as press {
      with job = press.job {
        set job.state = state:printed;
        unlink press.job job;
        leave job tray;
        say press.name, "has printed", job.name;
      }
    }
  }
}

// Begins a job on a press that has none, the most urgent first. While none is free, the job is pending below the floor.
source begin on job {
  when enter job tray;
  rate -1;
  require {
    with job = it as job {
      for press in find press in shop { if size(press.job) = 0 { rate 1000 - job.due; } }
    }
    rate -1;
  }
  retrigger on press when unlink press.job; when link press.job; {
    with job = it as job {
      for press in find press in shop { if size(press.job) = 0 { rate 1000 - job.due; } }
    }
    rate -1;
  }
  do {
    with job = it as job {
      for day in find day in wall {
        for press in find press in shop {
          if size(press.job) = 0 and job.state = state:waiting {
            set job.state = state:printing;
            set press.until = day.minute + job.minutes;
            link press.job job;
            say day.minute, press.name, "begins", job.name;
          }
        }
      }
    }
  }
}
