"""The input of the tests. Each sort of name stands in it, `bb check` accepts it, and its code says "rain"."""

GARDEN = """\
%schema
{"labels": [{"name": "state", "values": ["open", "done"]}],
 "classes": [{"name": "thing", "slots": [{"name": "size", "kind": "int", "default": 3}]},
             {"name": "bed", "parent": "thing",
              "slots": [{"name": "water", "kind": "int"},
                        {"name": "state", "kind": "label", "of": "state", "default": "done"}],
              "links": [{"name": "jobs", "to": "job", "many": true, "inverse": "at", "owns": true}]},
             {"name": "job",
              "slots": [{"name": "water", "kind": "interval"}, {"name": "on", "kind": "bool"},
                        {"name": "note", "kind": "text", "default": "none"}],
              "links": [{"name": "at", "to": "bed", "many": false, "inverse": "jobs"}]},
             {"name": "rain", "slots": [{"name": "count", "kind": "int"}]}],
 "spaces": [{"name": "garden", "classes": ["bed", "job"], "dims": [{"name": "water", "kind": "ordered"}]},
            {"name": "marked", "classes": ["bed"], "dims": [{"name": "state", "kind": "label", "of": "state"}]}]}
%units
{"units": [{"name": "a", "class": "bed", "slots": {"water": 2, "state": "open", "size": 1}},
           {"name": "j", "class": "job"},
           {"name": "f", "class": "focus", "slots": {"source": "want", "area": "bed"}}],
 "links": [["a", "jobs", "j"]],
 "spaces": [["a", "garden"], ["a", "marked"], ["j", "garden"]]}
%sources
// Beds that want water.
source want on bed {
  when update bed.water; when link bed.jobs; when enter bed garden;
  rate 10;
  obviate on thing when update bed.state; { answer it = ev; }
  do {
    with here = it as bed {
      let level = here.water + here.size;
      new task: job;
      link here.jobs task;
      set here.state = state:open;
      if task.on { say "on", level; }
      for other in find thing in garden where and(water within [0, level], not(all)) { say other.size; }
      for each in here.jobs { with back = each.at { enter back marked; say each.note; } }
    }
    for bed in find bed in marked where state is state:done { say bed.water; }
    new steer: focus;
    set steer.source = "want";
    set steer.area = "bed";
  }
}
source tally on rain {
  when create rain;
  rate 1;
  native;
}
%bundle
source crop job 4
when enter job garden
when update job.on
do 4242430201000100047261696e000000000000000302000029012e
"""
