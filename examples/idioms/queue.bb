%schema
{"classes": [{"name": "desk", "links": [{"name": "waiting", "to": "client", "many": true, "inverse": "desk"}]},
             {"name": "client", "slots": [{"name": "name", "kind": "text"}],
              "links": [{"name": "desk", "to": "desk", "many": false, "inverse": "waiting"}]}]}
%units
{"units": [{"name": "desk", "class": "desk"}, {"name": "ann", "class": "client", "slots": {"name": "ann"}},
           {"name": "bo", "class": "client", "slots": {"name": "bo"}}],
 "links": [["desk", "waiting", "ann"], ["desk", "waiting", "bo"]]}
%sources
// A link slot has its units in the order of linking. Who comes or goes leaves one activation, which serves the first.
source serve on desk {
  when link desk.waiting;
  when unlink desk.waiting;
  rate 5;
  require {
    with desk = it as desk { if 0 < size(desk.waiting) { rate 5; } }
    decline;
  }
  obviate on desk when link desk.waiting; when unlink desk.waiting; { answer it = ev; }
  do {
    with desk = it as desk {
      let none = true;
      for client in desk.waiting {
        if none { none = false; say "serves", client.name; delete client; }
      }
    }
  }
}
