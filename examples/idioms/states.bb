%schema
{"labels": [{"name": "state", "values": ["off", "dim", "bright"]}],
 "classes": [{"name": "lamp", "slots": [{"name": "state", "kind": "label", "of": "state"}]}, {"name": "push"}],
 "spaces": [{"name": "lamps", "classes": ["lamp"], "dims": []}]}
%units
{"units": [{"name": "lamp", "class": "lamp"}, {"name": "first", "class": "push"}, {"name": "second", "class": "push"},
           {"name": "third", "class": "push"}],
 "spaces": [["lamp", "lamps"]]}
%sources
// The state is a label. Each push makes one transition: off, dim, bright, off.
source change on push {
  when create push;
  rate 5;
  do {
    for lamp in find lamp in lamps {
      let next = state:off;
      if lamp.state = state:off { next = state:dim; }
      if lamp.state = state:dim { next = state:bright; }
      set lamp.state = next;
    }
  }
}

// What a state does when it is entered is a source of its own.
source glow on lamp {
  when update lamp.state;
  rate 9;
  require {
    with lamp = it as lamp { if lamp.state = state:bright { rate 9; } }
    decline;
  }
  do { say "bright"; }
}
