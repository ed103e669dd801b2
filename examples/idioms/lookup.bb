%schema
{"classes": [{"name": "price", "slots": [{"name": "code", "kind": "int"}, {"name": "cents", "kind": "int"}]},
             {"name": "item", "slots": [{"name": "code", "kind": "int"}]}],
 "spaces": [{"name": "prices", "classes": ["price"], "dims": [{"name": "code", "kind": "ordered"}]}]}
%units
{"units": [{"name": "pen", "class": "price", "slots": {"code": 7, "cents": 120}},
           {"name": "ink", "class": "price", "slots": {"code": 9, "cents": 450}},
           {"name": "first", "class": "item", "slots": {"code": 9}},
           {"name": "second", "class": "item", "slots": {"code": 8}}],
 "spaces": [["pen", "prices"], ["ink", "prices"]]}
%sources
// Prices are found by their code, which is a dimension of their space.
source ask on item {
  when create item;
  rate 1;
  do {
    with item = it as item {
      let none = true;
      for price in find price in prices where code within [item.code, item.code] {
        none = false;
        say item.code, "costs", price.cents;
      }
      if none { say item.code, "is unknown"; }
    }
  }
}
