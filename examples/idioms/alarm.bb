%schema
{"classes": [{"name": "clock", "slots": [{"name": "now", "kind": "int"}]},
             {"name": "ticket", "slots": [{"name": "alarm", "kind": "int"}]}],
 "spaces": [{"name": "wall", "classes": ["clock"], "dims": []}]}
%units
{"units": [{"name": "clock", "class": "clock"}, {"name": "leak", "class": "ticket", "slots": {"alarm": 2}}],
 "spaces": [["clock", "wall"]]}
%sources
// The one clock, which ticks when nothing else is to do.
source tick on focus {
  when quiescence;
  rate 1;
  require {
    for clock in find clock in wall { if clock.now < 4 { rate 1; } }
    decline;
  }
  do { for clock in find clock in wall { set clock.now = clock.now + 1; } }
}

// A ticket's alarm is pending below the floor until its time. Setting the next alarm triggers the source again.
source remind on ticket {
  when update ticket.alarm;
  rate -1;
  retrigger on clock when update clock.now; {
    with clock = ev as clock {
      with ticket = it as ticket { if clock.now = ticket.alarm { rate 5; } }
    }
    decline;
  }
  do {
    with ticket = it as ticket {
      say "still open at", ticket.alarm;
      set ticket.alarm = ticket.alarm + 2;
    }
  }
}
