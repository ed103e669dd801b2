%schema
{"labels": [{"name": "state", "values": ["open", "done"]}],
 "classes": [{"name": "bed",
              "slots": [{"name": "name", "kind": "text"}, {"name": "water", "kind": "int", "default": 5},
                        {"name": "sun", "kind": "bool"}],
              "links": [{"name": "jobs", "to": "job", "many": true, "inverse": "at"}]},
             {"name": "job",
              "slots": [{"name": "state", "kind": "label", "of": "state"}],
              "links": [{"name": "at", "to": "bed", "many": false, "inverse": "jobs"}]},
             {"name": "rain", "slots": [{"name": "amount", "kind": "int"}]}],
 "spaces": [{"name": "garden", "classes": ["bed"], "dims": [{"name": "water", "kind": "ordered"}]}]}
%units
{"units": [{"name": "a", "class": "bed", "slots": {"name": "beans", "water": 2}},
           {"name": "b", "class": "bed", "slots": {"name": "mint", "water": 6}}],
 "spaces": [["a", "garden"], ["b", "garden"]]}
%sources
// Beds that want water, and what waters them. docs/users/LANGUAGE.md builds it in steps.

source want on bed {
  when update bed.water;
  rate 10;
  require {
    with bed = it as bed {
      if bed.water < 4 { rate 10 - bed.water; }
    }
    decline;
  }
  obviate on bed when update bed.water; { answer it = ev; }
  do {
    with bed = it as bed {
      say bed.name, "wants water";
      new job: job;
      link job.at bed;
    }
  }
}

source pour on job {
  when link job.at;
  rate 5;
  obviate on bed when update bed.water; {
    with job = it as job {
      with bed = job.at { answer bed = ev and not(bed.water < 4); }
    }
    answer false;
  }
  retrigger on bed when update bed.sun; {
    with job = it as job {
      with bed = job.at {
        if bed = ev and bed.sun { rate 50; }
      }
    }
    decline;
  }
  revalidate {
    with job = it as job {
      with bed = job.at { answer bed.water < 4; }
    }
    answer false;
  }
  do {
    with job = it as job {
      with bed = job.at {
        let level = bed.water + 5;
        set bed.water = level;
        say "water for", bed.name, level;
      }
      delete job;
    }
  }
}

source dusk on focus {
  when quiescence;
  rate 1;
  require {
    if size(find bed in garden where water within [8, 100]) = 0 { rate 1; }
    decline;
  }
  do {
    let lost = 0;
    for bed in find bed in garden where water within [5, 100] {
      set bed.water = bed.water - 4;
      lost = lost + 1;
    }
    say "a dry day for", lost;
  }
}

source morning on focus {
  when quiescence;
  rate 2;
  require {
    for bed in find bed in garden { if bed.sun { decline; } }
    rate 2;
  }
  do {
    for bed in find bed in garden {
      if bed.name = "mint" { set bed.sun = true; }
    }
  }
}

source gardener on bed {
  when update bed.sun;
  rate 100;
  do {
    new first: focus;
    set first.source = "pour";
    set first.weight = 40;
    say "in the sun, water first";
  }
}
