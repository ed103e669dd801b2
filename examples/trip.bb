%schema
{
  "classes": [
    {"name": "trip", "slots": [{"name": "goal", "kind": "text"}],
     "links": [{"name": "legs", "to": "leg", "many": true, "inverse": "trip", "owns": true}]},
    {"name": "leg", "slots": [{"name": "by", "kind": "text"}, {"name": "off", "kind": "bool"}],
     "links": [{"name": "trip", "to": "trip", "many": false, "inverse": "legs"},
               {"name": "seats", "to": "seat", "many": true, "inverse": "leg", "owns": true}]},
    {"name": "seat", "slots": [{"name": "price", "kind": "int"}],
     "links": [{"name": "leg", "to": "leg", "many": false, "inverse": "seats"}]}
  ]
}
%units
{
  "units": [
    {"name": "oslo", "class": "trip", "slots": {"goal": "Oslo"}},
    {"name": "train", "class": "leg", "slots": {"by": "train"}},
    {"name": "ferry", "class": "leg", "slots": {"by": "ferry"}},
    {"name": "bench", "class": "seat", "slots": {"price": 40}},
    {"name": "cabin", "class": "seat", "slots": {"price": 90}},
    {"name": "rome", "class": "trip", "slots": {"goal": "Rome"}},
    {"name": "plane", "class": "leg", "slots": {"by": "plane"}}
  ],
  "links": [
    ["oslo", "legs", "train"], ["oslo", "legs", "ferry"], ["rome", "legs", "plane"],
    ["train", "seats", "bench"], ["ferry", "seats", "cabin"]
  ]
}
%sources
// Trips with their legs, and the seats that are booked for these. A trip owns its legs, and a leg its seats: who gives up
// a trip deletes one unit, and the events of all that goes with it tell the others.

// A storm comes up, and no ferry goes.
source storm on leg {
  when create leg;
  rate 20;
  require {
    with leg = it as leg {
      if leg.by = "ferry" { rate 20; }
    }
    decline;
  }
  do {
    with leg = it as leg { set leg.off = true; }
  }
}

// A trip of which a leg is off is given up.
source give_up on leg {
  when update leg.off;
  rate 10;
  do {
    with leg = it as leg {
      with trip = leg.trip {
        let back = 0;
        for one in trip.legs {
          for seat in one.seats { back = back + seat.price; }
        }
        say "no trip to", trip.goal, "and back come", back;
        delete trip;
      }
    }
  }
}

// Whoever waits for a seat hears of it.
source free on seat {
  when delete seat;
  rate 5;
  do { say "seat", it, "is free"; }
}
