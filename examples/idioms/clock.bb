%schema
{"classes": [{"name": "clock", "slots": [{"name": "now", "kind": "int"}]},
             {"name": "train", "slots": [{"name": "due", "kind": "int"}]}],
 "spaces": [{"name": "wall", "classes": ["clock"], "dims": []}]}
%units
{"units": [{"name": "clock", "class": "clock"}, {"name": "train", "class": "train", "slots": {"due": 2}}],
 "spaces": [["clock", "wall"]]}
%sources
// The one clock is alone in a space, where each source finds it. It ticks when nothing else is to do.
source tick on focus {
  when quiescence;
  rate 1;
  require {
    for clock in find clock in wall { if clock.now < 2 { rate 1; } }
    decline;
  }
  do { for clock in find clock in wall { set clock.now = clock.now + 1; } }
}

// A train is pending below the floor until the clock shows its time.
source depart on train {
  when create train;
  rate -1;
  retrigger on clock when update clock.now; {
    with clock = ev as clock {
      with train = it as train { if clock.now = train.due { rate 5; } }
    }
    decline;
  }
  do { for clock in find clock in wall { say "departs at", clock.now; } }
}
