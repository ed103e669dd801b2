%schema
{"classes": [{"name": "stop", "slots": [{"name": "name", "kind": "text"}],
              "links": [{"name": "next", "to": "stop", "many": false, "inverse": "before"},
                        {"name": "before", "to": "stop", "many": false, "inverse": "next"},
                        {"name": "buses", "to": "bus", "many": true, "inverse": "at"}]},
             {"name": "bus", "links": [{"name": "at", "to": "stop", "many": false, "inverse": "buses"}]}]}
%units
{"units": [{"name": "a", "class": "stop", "slots": {"name": "quay"}},
           {"name": "b", "class": "stop", "slots": {"name": "market"}}, {"name": "bus", "class": "bus"}],
 "links": [["a", "next", "b"], ["bus", "at", "a"]]}
%sources
// One activation goes one stop. Its link is the event of the next, so a chain of any length is walked.
source drive on bus {
  when link bus.at;
  rate 5;
  do {
    with bus = it as bus {
      with stop = bus.at {
        say "at the", stop.name;
        with next = stop.next { link bus.at next; } else { say "the last stop"; }
      }
    }
  }
}
