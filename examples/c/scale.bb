%schema
{
  "labels": [{"name": "belt", "values": ["none", "letters", "freight"]}],
  "classes": [
    {"name": "parcel", "slots": [{"name": "name", "kind": "text"}, {"name": "grams", "kind": "int"},
                                 {"name": "belt", "kind": "label", "of": "belt"}]}
  ]
}
%sources
// A post office with a scale that is not ours: its host weighs. Where `weigh` is due the run stops, and the host answers.
// examples/c/scale.c and bindings/python/examples/scale.py are such hosts.
source weigh on parcel {
  when create parcel;
  rate 20;
  native;
}

// A parcel that was weighed goes on a belt.
source sort on parcel {
  when update parcel.grams;
  rate 10;
  do {
    with parcel = it as parcel {
      if 2000 < parcel.grams { set parcel.belt = belt:freight; } else { set parcel.belt = belt:letters; }
      say parcel.name, parcel.belt, parcel.grams;
    }
  }
}
