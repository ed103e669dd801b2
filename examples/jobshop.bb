%schema
{
  "labels": [{"name": "state", "values": ["waiting", "done"]}],
  "classes": [
    {"name": "clock", "slots": [{"name": "now", "kind": "int"}, {"name": "worn", "kind": "bool"}]},
    {"name": "machine",
     "slots": [{"name": "name", "kind": "text"}, {"name": "free", "kind": "int"},
               {"name": "up", "kind": "bool", "default": true}],
     "links": [{"name": "steps", "to": "step", "many": true, "inverse": "on"}]},
    {"name": "job",
     "slots": [{"name": "name", "kind": "text"}, {"name": "due", "kind": "int"}],
     "links": [{"name": "steps", "to": "step", "many": true, "inverse": "of"}]},
    {"name": "step",
     "slots": [{"name": "length", "kind": "int"}, {"name": "earliest", "kind": "int"},
               {"name": "ready", "kind": "bool"}, {"name": "state", "kind": "label", "of": "state"},
               {"name": "span", "kind": "interval"}],
     "links": [{"name": "on", "to": "machine", "many": false, "inverse": "steps"},
               {"name": "of", "to": "job", "many": false, "inverse": "steps"},
               {"name": "next", "to": "step", "many": false, "inverse": "before"},
               {"name": "before", "to": "step", "many": false, "inverse": "next"}]}
  ],
  "spaces": [
    {"name": "shop", "classes": ["clock", "machine"], "dims": []},
    {"name": "chart", "classes": ["step"],
     "dims": [{"name": "span", "kind": "ordered"}, {"name": "state", "kind": "label", "of": "state"}]}
  ]
}
%units
{
  "units": [
    {"name": "clock", "class": "clock"},
    {"name": "lathe", "class": "machine", "slots": {"name": "lathe"}},
    {"name": "mill", "class": "machine", "slots": {"name": "mill"}},
    {"name": "gear", "class": "job", "slots": {"name": "gear", "due": 14}},
    {"name": "shaft", "class": "job", "slots": {"name": "shaft", "due": 9}},
    {"name": "plate", "class": "job", "slots": {"name": "plate", "due": 18}},
    {"name": "gear 1", "class": "step", "slots": {"length": 4}},
    {"name": "gear 2", "class": "step", "slots": {"length": 3}},
    {"name": "shaft 1", "class": "step", "slots": {"length": 2}},
    {"name": "shaft 2", "class": "step", "slots": {"length": 5}},
    {"name": "plate 1", "class": "step", "slots": {"length": 4}},
    {"name": "plate 2", "class": "step", "slots": {"length": 2}}
  ],
  "links": [
    ["gear 1", "on", "lathe"], ["gear 2", "on", "mill"],
    ["shaft 1", "on", "lathe"], ["shaft 2", "on", "mill"],
    ["plate 1", "on", "mill"], ["plate 2", "on", "lathe"],
    ["gear 1", "of", "gear"], ["gear 2", "of", "gear"],
    ["shaft 1", "of", "shaft"], ["shaft 2", "of", "shaft"],
    ["plate 1", "of", "plate"], ["plate 2", "of", "plate"],
    ["gear 1", "next", "gear 2"], ["shaft 1", "next", "shaft 2"], ["plate 1", "next", "plate 2"]
  ],
  "spaces": [["clock", "shop"], ["lathe", "shop"], ["mill", "shop"]]
}
%sources
// A job shop. Each job is a chain of steps, and each step wants one machine. What can start waits on the agenda, rated
// by how little time its job has to spare; each cycle starts the most urgent step.

// The first step of each job can start at once.
source begin on step {
  when create step;
  rate 1000;
  require {
    with step = it as step {
      with earlier = step.before { decline; } else { rate 1000; }
    }
    decline;
  }
  do {
    with step = it as step { set step.ready = true; }
  }
}

// Starts a step as soon as the step before it has ended and its machine is free.
source start on step {
  when update step.ready;
  rate 0;
  require {
    with step = it as step {
      with machine = step.on {
        with job = step.of {
          if machine.up { rate 100 - job.due + step.earliest + step.length; }
        }
      }
    }
    decline;
  }
  // A machine that breaks down takes its steps off the agenda.
  obviate on machine when update machine.up; {
    with step = it as step {
      with machine = step.on { answer machine = ev and not(machine.up); }
    }
    answer false;
  }
  // As time goes by, what waits has less to spare.
  retrigger on clock when update clock.now; {
    with clock = ev as clock {
      with step = it as step {
        with job = step.of { rate 100 - job.due + max(clock.now, step.earliest) + step.length; }
      }
    }
    decline;
  }
  do {
    with step = it as step {
      with machine = step.on {
        let first = max(step.earliest, machine.free);
        let last = first + step.length;
        set step.span = [first, last];
        set machine.free = last;
        enter step chart;
        with job = step.of { say job.name, "on the", machine.name, step.span; }
        set step.state = state:done;
        for clock in find clock in shop {
          if clock.now < first { set clock.now = first; }
        }
      }
    }
  }
}

// A step that is done lets the next one of its job start, not before its own end.
source release on step {
  when update step.state;
  rate 900;
  do {
    with step = it as step {
      with later = step.next {
        set later.earliest = high(step.span);
        set later.ready = true;
      }
    }
  }
}

// At 4 or soon after it the mill breaks down, once.
source trouble on clock {
  when update clock.now;
  rate 2000;
  require {
    with clock = it as clock {
      if 4 <= clock.now and not(clock.worn) { rate 2000; }
    }
    decline;
  }
  do {
    with clock = it as clock { set clock.worn = true; }
    for machine in find machine in shop {
      if machine.name = "mill" {
        say machine.name, "breaks down";
        set machine.up = false;
      }
    }
  }
}

// When nothing else can be done, what is broken is mended in three hours, and its steps can start again.
source mend on focus {
  when quiescence;
  rate 1;
  require {
    for machine in find machine in shop { if not(machine.up) { rate 1; } }
    decline;
  }
  do {
    for machine in find machine in shop {
      if not(machine.up) {
        set machine.free = machine.free + 3;
        set machine.up = true;
        say machine.name, "is mended at", machine.free;
        for step in machine.steps {
          if step.ready and step.state = state:waiting { set step.ready = true; }
        }
      }
    }
  }
}

// What comes of each job, told once its last step has its time. Nothing is rated lower, so it is told when there is
// nothing else to do.
source report on step {
  when enter step chart;
  rate 0;
  require {
    with step = it as step {
      with later = step.next { decline; } else { rate 0; }
    }
    decline;
  }
  do {
    with step = it as step {
      with job = step.of {
        let late = high(step.span) - job.due;
        if 0 < late { say job.name, "is late by", late; } else { say job.name, "is in time"; }
      }
    }
  }
}
