%schema
{
  "classes": [
    {"name": "shop", "slots": [{"name": "best", "kind": "int", "default": 9223372036854775807}]},
    {"name": "machine", "slots": [{"name": "number", "kind": "int"}],
     "links": [{"name": "steps", "to": "step", "many": true, "inverse": "on"}]},
    {"name": "job", "slots": [{"name": "number", "kind": "int"}],
     "links": [{"name": "steps", "to": "step", "many": true, "inverse": "of"}]},
    {"name": "step",
     "slots": [{"name": "index", "kind": "int"}, {"name": "length", "kind": "int"}, {"name": "left", "kind": "int"},
               {"name": "at", "kind": "int"}, {"name": "span", "kind": "interval"}],
     "links": [{"name": "on", "to": "machine", "many": false, "inverse": "steps"},
               {"name": "of", "to": "job", "many": false, "inverse": "steps"},
               {"name": "nodes", "to": "node", "many": true, "inverse": "step"}]},
    {"name": "node",
     "slots": [{"name": "depth", "kind": "int"}, {"name": "start", "kind": "int"}, {"name": "bound", "kind": "int"},
               {"name": "left", "kind": "int"}],
     "links": [{"name": "step", "to": "step", "many": false, "inverse": "nodes"}]}
  ],
  "spaces": [
    {"name": "floor", "classes": ["shop", "job"], "dims": []},
    {"name": "chart", "classes": ["step"], "dims": [{"name": "at", "kind": "ordered"}]}
  ]
}
%units
{
  "units": [
    {"name": "shop", "class": "shop"},
    {"name": "machine 1", "class": "machine", "slots": {"number": 1}},
    {"name": "machine 2", "class": "machine", "slots": {"number": 2}},
    {"name": "machine 3", "class": "machine", "slots": {"number": 3}},
    {"name": "machine 4", "class": "machine", "slots": {"number": 4}},
    {"name": "machine 5", "class": "machine", "slots": {"number": 5}},
    {"name": "machine 6", "class": "machine", "slots": {"number": 6}},
    {"name": "job 1", "class": "job", "slots": {"number": 1}},
    {"name": "job 2", "class": "job", "slots": {"number": 2}},
    {"name": "job 3", "class": "job", "slots": {"number": 3}},
    {"name": "job 4", "class": "job", "slots": {"number": 4}},
    {"name": "job 5", "class": "job", "slots": {"number": 5}},
    {"name": "job 6", "class": "job", "slots": {"number": 6}},
    {"name": "1.1", "class": "step", "slots": {"index": 1, "length": 1, "left": 26}},
    {"name": "1.2", "class": "step", "slots": {"index": 2, "length": 3, "left": 25}},
    {"name": "1.3", "class": "step", "slots": {"index": 3, "length": 6, "left": 22}},
    {"name": "1.4", "class": "step", "slots": {"index": 4, "length": 7, "left": 16}},
    {"name": "1.5", "class": "step", "slots": {"index": 5, "length": 3, "left": 9}},
    {"name": "1.6", "class": "step", "slots": {"index": 6, "length": 6, "left": 6}},
    {"name": "2.1", "class": "step", "slots": {"index": 1, "length": 8, "left": 47}},
    {"name": "2.2", "class": "step", "slots": {"index": 2, "length": 5, "left": 39}},
    {"name": "2.3", "class": "step", "slots": {"index": 3, "length": 10, "left": 34}},
    {"name": "2.4", "class": "step", "slots": {"index": 4, "length": 10, "left": 24}},
    {"name": "2.5", "class": "step", "slots": {"index": 5, "length": 10, "left": 14}},
    {"name": "2.6", "class": "step", "slots": {"index": 6, "length": 4, "left": 4}},
    {"name": "3.1", "class": "step", "slots": {"index": 1, "length": 5, "left": 34}},
    {"name": "3.2", "class": "step", "slots": {"index": 2, "length": 4, "left": 29}},
    {"name": "3.3", "class": "step", "slots": {"index": 3, "length": 8, "left": 25}},
    {"name": "3.4", "class": "step", "slots": {"index": 4, "length": 9, "left": 17}},
    {"name": "3.5", "class": "step", "slots": {"index": 5, "length": 1, "left": 8}},
    {"name": "3.6", "class": "step", "slots": {"index": 6, "length": 7, "left": 7}},
    {"name": "4.1", "class": "step", "slots": {"index": 1, "length": 5, "left": 35}},
    {"name": "4.2", "class": "step", "slots": {"index": 2, "length": 5, "left": 30}},
    {"name": "4.3", "class": "step", "slots": {"index": 3, "length": 5, "left": 25}},
    {"name": "4.4", "class": "step", "slots": {"index": 4, "length": 3, "left": 20}},
    {"name": "4.5", "class": "step", "slots": {"index": 5, "length": 8, "left": 17}},
    {"name": "4.6", "class": "step", "slots": {"index": 6, "length": 9, "left": 9}},
    {"name": "5.1", "class": "step", "slots": {"index": 1, "length": 9, "left": 25}},
    {"name": "5.2", "class": "step", "slots": {"index": 2, "length": 3, "left": 16}},
    {"name": "5.3", "class": "step", "slots": {"index": 3, "length": 5, "left": 13}},
    {"name": "5.4", "class": "step", "slots": {"index": 4, "length": 4, "left": 8}},
    {"name": "5.5", "class": "step", "slots": {"index": 5, "length": 3, "left": 4}},
    {"name": "5.6", "class": "step", "slots": {"index": 6, "length": 1, "left": 1}},
    {"name": "6.1", "class": "step", "slots": {"index": 1, "length": 3, "left": 30}},
    {"name": "6.2", "class": "step", "slots": {"index": 2, "length": 3, "left": 27}},
    {"name": "6.3", "class": "step", "slots": {"index": 3, "length": 9, "left": 24}},
    {"name": "6.4", "class": "step", "slots": {"index": 4, "length": 10, "left": 15}},
    {"name": "6.5", "class": "step", "slots": {"index": 5, "length": 4, "left": 5}},
    {"name": "6.6", "class": "step", "slots": {"index": 6, "length": 1, "left": 1}},
    {"name": "root", "class": "node"}
  ],
  "links": [
    ["1.1", "of", "job 1"], ["1.1", "on", "machine 3"],
    ["1.2", "of", "job 1"], ["1.2", "on", "machine 1"],
    ["1.3", "of", "job 1"], ["1.3", "on", "machine 2"],
    ["1.4", "of", "job 1"], ["1.4", "on", "machine 4"],
    ["1.5", "of", "job 1"], ["1.5", "on", "machine 6"],
    ["1.6", "of", "job 1"], ["1.6", "on", "machine 5"],
    ["2.1", "of", "job 2"], ["2.1", "on", "machine 2"],
    ["2.2", "of", "job 2"], ["2.2", "on", "machine 3"],
    ["2.3", "of", "job 2"], ["2.3", "on", "machine 5"],
    ["2.4", "of", "job 2"], ["2.4", "on", "machine 6"],
    ["2.5", "of", "job 2"], ["2.5", "on", "machine 1"],
    ["2.6", "of", "job 2"], ["2.6", "on", "machine 4"],
    ["3.1", "of", "job 3"], ["3.1", "on", "machine 3"],
    ["3.2", "of", "job 3"], ["3.2", "on", "machine 4"],
    ["3.3", "of", "job 3"], ["3.3", "on", "machine 6"],
    ["3.4", "of", "job 3"], ["3.4", "on", "machine 1"],
    ["3.5", "of", "job 3"], ["3.5", "on", "machine 2"],
    ["3.6", "of", "job 3"], ["3.6", "on", "machine 5"],
    ["4.1", "of", "job 4"], ["4.1", "on", "machine 2"],
    ["4.2", "of", "job 4"], ["4.2", "on", "machine 1"],
    ["4.3", "of", "job 4"], ["4.3", "on", "machine 3"],
    ["4.4", "of", "job 4"], ["4.4", "on", "machine 4"],
    ["4.5", "of", "job 4"], ["4.5", "on", "machine 5"],
    ["4.6", "of", "job 4"], ["4.6", "on", "machine 6"],
    ["5.1", "of", "job 5"], ["5.1", "on", "machine 3"],
    ["5.2", "of", "job 5"], ["5.2", "on", "machine 2"],
    ["5.3", "of", "job 5"], ["5.3", "on", "machine 5"],
    ["5.4", "of", "job 5"], ["5.4", "on", "machine 6"],
    ["5.5", "of", "job 5"], ["5.5", "on", "machine 1"],
    ["5.6", "of", "job 5"], ["5.6", "on", "machine 4"],
    ["6.1", "of", "job 6"], ["6.1", "on", "machine 2"],
    ["6.2", "of", "job 6"], ["6.2", "on", "machine 4"],
    ["6.3", "of", "job 6"], ["6.3", "on", "machine 6"],
    ["6.4", "of", "job 6"], ["6.4", "on", "machine 1"],
    ["6.5", "of", "job 6"], ["6.5", "on", "machine 5"],
    ["6.6", "of", "job 6"], ["6.6", "on", "machine 3"]
  ],
  "spaces": [
    ["shop", "floor"], ["job 1", "floor"], ["job 2", "floor"], ["job 3", "floor"], ["job 4", "floor"], ["job 5", "floor"], ["job 6", "floor"]
  ]
}
%sources
// A job shop as a search. Each node of the search is a unit: a step that would start at a time, after the steps of the
// nodes above it. The agenda is the search's list of open nodes. The deepest comes first; of one depth, the one with the
// lowest bound; of these, the one whose job has most left to do. A better schedule obviates every node that can't be
// better still.

source search on node {
  when create node;
  rate 0;
  require {
    with node = it as node { rate 1000000 * node.depth - 10 * node.bound + node.left + 1000000; }
    decline;
  }
  obviate on shop when update shop.best; {
    with shop = ev as shop {
      with node = it as node { answer shop.best <= node.bound; }
    }
    answer false;
  }
  do {
    with node = it as node {
      // What another branch started is taken back.
      for step in find step in chart where at within [node.depth, 9223372036854775807] {
        leave step chart;
        set step.at = 0;
      }
      with step = node.step {
        set step.span = [node.start, node.start + step.length];
        set step.at = node.depth;
        enter step chart;
      }
      // Of the steps that can be next, the one that would end first names the machine that is branched on.
      let first = 9223372036854775807;
      let wanted = 0;
      let longest = 0;
      for job in find job in floor {
        let due = true;
        let ready = 0;
        for step in job.steps {
          if 0 < step.at {
            ready = max(ready, high(step.span));
          } else {
            if due {
              due = false;
              with machine = step.on {
                let free = 0;
                for other in machine.steps { if 0 < other.at { free = max(free, high(other.span)); } }
                if max(ready, free) + step.length < first {
                  first = max(ready, free) + step.length;
                  wanted = machine.number;
                }
              }
            }
          }
        }
        longest = max(longest, ready);
      }
      // Each step that could start on it before then is a branch, unless its bound says that it can't be better.
      for shop in find shop in floor {
        for job in find job in floor {
          let due = true;
          let ready = 0;
          for step in job.steps {
            if 0 < step.at {
              ready = max(ready, high(step.span));
            } else {
              if due {
                due = false;
                with machine = step.on {
                  if machine.number = wanted {
                    let free = 0;
                    let load = 0;
                    for other in machine.steps {
                      if 0 < other.at { free = max(free, high(other.span)); } else { load = load + other.length; }
                    }
                    let start = max(ready, free);
                    let bound = max(node.bound, start + max(step.left, load));
                    if start < first and bound < shop.best {
                      new branch: node;
                      set branch.start = start;
                      set branch.depth = node.depth + 1;
                      set branch.bound = bound;
                      set branch.left = step.left;
                      link branch.step step;
                    }
                  }
                }
              }
            }
          }
        }
        // With no step left, the schedule is whole.
        if wanted = 0 {
          set shop.best = longest;
          say "length", longest;
          for step in find step in chart { with job = step.of { say job.number, step.index, step.span; } }
        }
      }
      delete node;
    }
  }
}
