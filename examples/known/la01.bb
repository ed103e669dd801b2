%schema
{
  "classes": [
    {"name": "shop", "slots": [{"name": "best", "kind": "int", "default": 9223372036854775807}]},
    {"name": "machine", "slots": [{"name": "number", "kind": "int"}],
     "links": [{"name": "steps", "to": "step", "many": true, "inverse": "on"}]},
    {"name": "job", "slots": [{"name": "number", "kind": "int"}],
     "links": [{"name": "steps", "to": "step", "many": true, "inverse": "of"}]},
    {"name": "step",
     "slots": [{"name": "index", "kind": "int"}, {"name": "length", "kind": "int"}, {"name": "left", "kind": "int"},
               {"name": "at", "kind": "int"}, {"name": "span", "kind": "interval"}],
     "links": [{"name": "on", "to": "machine", "many": false, "inverse": "steps"},
               {"name": "of", "to": "job", "many": false, "inverse": "steps"},
               {"name": "nodes", "to": "node", "many": true, "inverse": "step"}]},
    {"name": "node",
     "slots": [{"name": "depth", "kind": "int"}, {"name": "start", "kind": "int"}, {"name": "bound", "kind": "int"},
               {"name": "left", "kind": "int"}],
     "links": [{"name": "step", "to": "step", "many": false, "inverse": "nodes"}]}
  ],
  "spaces": [
    {"name": "floor", "classes": ["shop", "job"], "dims": []},
    {"name": "chart", "classes": ["step"], "dims": [{"name": "at", "kind": "ordered"}]}
  ]
}
%units
{
  "units": [
    {"name": "shop", "class": "shop"},
    {"name": "machine 1", "class": "machine", "slots": {"number": 1}},
    {"name": "machine 2", "class": "machine", "slots": {"number": 2}},
    {"name": "machine 3", "class": "machine", "slots": {"number": 3}},
    {"name": "machine 4", "class": "machine", "slots": {"number": 4}},
    {"name": "machine 5", "class": "machine", "slots": {"number": 5}},
    {"name": "job 1", "class": "job", "slots": {"number": 1}},
    {"name": "job 2", "class": "job", "slots": {"number": 2}},
    {"name": "job 3", "class": "job", "slots": {"number": 3}},
    {"name": "job 4", "class": "job", "slots": {"number": 4}},
    {"name": "job 5", "class": "job", "slots": {"number": 5}},
    {"name": "job 6", "class": "job", "slots": {"number": 6}},
    {"name": "job 7", "class": "job", "slots": {"number": 7}},
    {"name": "job 8", "class": "job", "slots": {"number": 8}},
    {"name": "job 9", "class": "job", "slots": {"number": 9}},
    {"name": "job 10", "class": "job", "slots": {"number": 10}},
    {"name": "1.1", "class": "step", "slots": {"index": 1, "length": 21, "left": 258}},
    {"name": "1.2", "class": "step", "slots": {"index": 2, "length": 53, "left": 237}},
    {"name": "1.3", "class": "step", "slots": {"index": 3, "length": 95, "left": 184}},
    {"name": "1.4", "class": "step", "slots": {"index": 4, "length": 55, "left": 89}},
    {"name": "1.5", "class": "step", "slots": {"index": 5, "length": 34, "left": 34}},
    {"name": "2.1", "class": "step", "slots": {"index": 1, "length": 21, "left": 186}},
    {"name": "2.2", "class": "step", "slots": {"index": 2, "length": 52, "left": 165}},
    {"name": "2.3", "class": "step", "slots": {"index": 3, "length": 16, "left": 113}},
    {"name": "2.4", "class": "step", "slots": {"index": 4, "length": 26, "left": 97}},
    {"name": "2.5", "class": "step", "slots": {"index": 5, "length": 71, "left": 71}},
    {"name": "3.1", "class": "step", "slots": {"index": 1, "length": 39, "left": 222}},
    {"name": "3.2", "class": "step", "slots": {"index": 2, "length": 98, "left": 183}},
    {"name": "3.3", "class": "step", "slots": {"index": 3, "length": 42, "left": 85}},
    {"name": "3.4", "class": "step", "slots": {"index": 4, "length": 31, "left": 43}},
    {"name": "3.5", "class": "step", "slots": {"index": 5, "length": 12, "left": 12}},
    {"name": "4.1", "class": "step", "slots": {"index": 1, "length": 77, "left": 354}},
    {"name": "4.2", "class": "step", "slots": {"index": 2, "length": 55, "left": 277}},
    {"name": "4.3", "class": "step", "slots": {"index": 3, "length": 79, "left": 222}},
    {"name": "4.4", "class": "step", "slots": {"index": 4, "length": 66, "left": 143}},
    {"name": "4.5", "class": "step", "slots": {"index": 5, "length": 77, "left": 77}},
    {"name": "5.1", "class": "step", "slots": {"index": 1, "length": 83, "left": 237}},
    {"name": "5.2", "class": "step", "slots": {"index": 2, "length": 34, "left": 154}},
    {"name": "5.3", "class": "step", "slots": {"index": 3, "length": 64, "left": 120}},
    {"name": "5.4", "class": "step", "slots": {"index": 4, "length": 19, "left": 56}},
    {"name": "5.5", "class": "step", "slots": {"index": 5, "length": 37, "left": 37}},
    {"name": "6.1", "class": "step", "slots": {"index": 1, "length": 54, "left": 330}},
    {"name": "6.2", "class": "step", "slots": {"index": 2, "length": 43, "left": 276}},
    {"name": "6.3", "class": "step", "slots": {"index": 3, "length": 79, "left": 233}},
    {"name": "6.4", "class": "step", "slots": {"index": 4, "length": 92, "left": 154}},
    {"name": "6.5", "class": "step", "slots": {"index": 5, "length": 62, "left": 62}},
    {"name": "7.1", "class": "step", "slots": {"index": 1, "length": 69, "left": 413}},
    {"name": "7.2", "class": "step", "slots": {"index": 2, "length": 77, "left": 344}},
    {"name": "7.3", "class": "step", "slots": {"index": 3, "length": 87, "left": 267}},
    {"name": "7.4", "class": "step", "slots": {"index": 4, "length": 87, "left": 180}},
    {"name": "7.5", "class": "step", "slots": {"index": 5, "length": 93, "left": 93}},
    {"name": "8.1", "class": "step", "slots": {"index": 1, "length": 38, "left": 246}},
    {"name": "8.2", "class": "step", "slots": {"index": 2, "length": 60, "left": 208}},
    {"name": "8.3", "class": "step", "slots": {"index": 3, "length": 41, "left": 148}},
    {"name": "8.4", "class": "step", "slots": {"index": 4, "length": 24, "left": 107}},
    {"name": "8.5", "class": "step", "slots": {"index": 5, "length": 83, "left": 83}},
    {"name": "9.1", "class": "step", "slots": {"index": 1, "length": 17, "left": 233}},
    {"name": "9.2", "class": "step", "slots": {"index": 2, "length": 49, "left": 216}},
    {"name": "9.3", "class": "step", "slots": {"index": 3, "length": 25, "left": 167}},
    {"name": "9.4", "class": "step", "slots": {"index": 4, "length": 44, "left": 142}},
    {"name": "9.5", "class": "step", "slots": {"index": 5, "length": 98, "left": 98}},
    {"name": "10.1", "class": "step", "slots": {"index": 1, "length": 77, "left": 370}},
    {"name": "10.2", "class": "step", "slots": {"index": 2, "length": 79, "left": 293}},
    {"name": "10.3", "class": "step", "slots": {"index": 3, "length": 43, "left": 214}},
    {"name": "10.4", "class": "step", "slots": {"index": 4, "length": 75, "left": 171}},
    {"name": "10.5", "class": "step", "slots": {"index": 5, "length": 96, "left": 96}},
    {"name": "root", "class": "node"}
  ],
  "links": [
    ["1.1", "of", "job 1"], ["1.1", "on", "machine 2"],
    ["1.2", "of", "job 1"], ["1.2", "on", "machine 1"],
    ["1.3", "of", "job 1"], ["1.3", "on", "machine 5"],
    ["1.4", "of", "job 1"], ["1.4", "on", "machine 4"],
    ["1.5", "of", "job 1"], ["1.5", "on", "machine 3"],
    ["2.1", "of", "job 2"], ["2.1", "on", "machine 1"],
    ["2.2", "of", "job 2"], ["2.2", "on", "machine 4"],
    ["2.3", "of", "job 2"], ["2.3", "on", "machine 5"],
    ["2.4", "of", "job 2"], ["2.4", "on", "machine 3"],
    ["2.5", "of", "job 2"], ["2.5", "on", "machine 2"],
    ["3.1", "of", "job 3"], ["3.1", "on", "machine 4"],
    ["3.2", "of", "job 3"], ["3.2", "on", "machine 5"],
    ["3.3", "of", "job 3"], ["3.3", "on", "machine 2"],
    ["3.4", "of", "job 3"], ["3.4", "on", "machine 3"],
    ["3.5", "of", "job 3"], ["3.5", "on", "machine 1"],
    ["4.1", "of", "job 4"], ["4.1", "on", "machine 2"],
    ["4.2", "of", "job 4"], ["4.2", "on", "machine 1"],
    ["4.3", "of", "job 4"], ["4.3", "on", "machine 5"],
    ["4.4", "of", "job 4"], ["4.4", "on", "machine 3"],
    ["4.5", "of", "job 4"], ["4.5", "on", "machine 4"],
    ["5.1", "of", "job 5"], ["5.1", "on", "machine 1"],
    ["5.2", "of", "job 5"], ["5.2", "on", "machine 4"],
    ["5.3", "of", "job 5"], ["5.3", "on", "machine 3"],
    ["5.4", "of", "job 5"], ["5.4", "on", "machine 2"],
    ["5.5", "of", "job 5"], ["5.5", "on", "machine 5"],
    ["6.1", "of", "job 6"], ["6.1", "on", "machine 2"],
    ["6.2", "of", "job 6"], ["6.2", "on", "machine 3"],
    ["6.3", "of", "job 6"], ["6.3", "on", "machine 5"],
    ["6.4", "of", "job 6"], ["6.4", "on", "machine 1"],
    ["6.5", "of", "job 6"], ["6.5", "on", "machine 4"],
    ["7.1", "of", "job 7"], ["7.1", "on", "machine 4"],
    ["7.2", "of", "job 7"], ["7.2", "on", "machine 5"],
    ["7.3", "of", "job 7"], ["7.3", "on", "machine 2"],
    ["7.4", "of", "job 7"], ["7.4", "on", "machine 3"],
    ["7.5", "of", "job 7"], ["7.5", "on", "machine 1"],
    ["8.1", "of", "job 8"], ["8.1", "on", "machine 3"],
    ["8.2", "of", "job 8"], ["8.2", "on", "machine 1"],
    ["8.3", "of", "job 8"], ["8.3", "on", "machine 2"],
    ["8.4", "of", "job 8"], ["8.4", "on", "machine 4"],
    ["8.5", "of", "job 8"], ["8.5", "on", "machine 5"],
    ["9.1", "of", "job 9"], ["9.1", "on", "machine 4"],
    ["9.2", "of", "job 9"], ["9.2", "on", "machine 2"],
    ["9.3", "of", "job 9"], ["9.3", "on", "machine 5"],
    ["9.4", "of", "job 9"], ["9.4", "on", "machine 1"],
    ["9.5", "of", "job 9"], ["9.5", "on", "machine 3"],
    ["10.1", "of", "job 10"], ["10.1", "on", "machine 5"],
    ["10.2", "of", "job 10"], ["10.2", "on", "machine 4"],
    ["10.3", "of", "job 10"], ["10.3", "on", "machine 3"],
    ["10.4", "of", "job 10"], ["10.4", "on", "machine 2"],
    ["10.5", "of", "job 10"], ["10.5", "on", "machine 1"]
  ],
  "spaces": [
    ["shop", "floor"], ["job 1", "floor"], ["job 2", "floor"], ["job 3", "floor"], ["job 4", "floor"], ["job 5", "floor"], ["job 6", "floor"], ["job 7", "floor"], ["job 8", "floor"], ["job 9", "floor"], ["job 10", "floor"]
  ]
}
%sources
// A job shop as a search. Each node of the search is a unit: a step that would start at a time, after the steps of the
// nodes above it. The agenda is the search's list of open nodes. The deepest comes first; of one depth, the one with the
// lowest bound; of these, the one whose job has most left to do. A better schedule obviates every node that can't be
// better still.

source search on node {
  when create node;
  rate 0;
  require {
    with node = it as node { rate 1000000 * node.depth - 10 * node.bound + node.left + 1000000; }
    decline;
  }
  obviate on shop when update shop.best; {
    with shop = ev as shop {
      with node = it as node { answer shop.best <= node.bound; }
    }
    answer false;
  }
  do {
    with node = it as node {
      // What another branch started is taken back.
      for step in find step in chart where at within [node.depth, 9223372036854775807] {
        leave step chart;
        set step.at = 0;
      }
      with step = node.step {
        set step.span = [node.start, node.start + step.length];
        set step.at = node.depth;
        enter step chart;
      }
      // Of the steps that can be next, the one that would end first names the machine that is branched on.
      let first = 9223372036854775807;
      let wanted = 0;
      let longest = 0;
      for job in find job in floor {
        let due = true;
        let ready = 0;
        for step in job.steps {
          if 0 < step.at {
            ready = max(ready, high(step.span));
          } else {
            if due {
              due = false;
              with machine = step.on {
                let free = 0;
                for other in machine.steps { if 0 < other.at { free = max(free, high(other.span)); } }
                if max(ready, free) + step.length < first {
                  first = max(ready, free) + step.length;
                  wanted = machine.number;
                }
              }
            }
          }
        }
        longest = max(longest, ready);
      }
      // Each step that could start on it before then is a branch, unless its bound says that it can't be better.
      for shop in find shop in floor {
        for job in find job in floor {
          let due = true;
          let ready = 0;
          for step in job.steps {
            if 0 < step.at {
              ready = max(ready, high(step.span));
            } else {
              if due {
                due = false;
                with machine = step.on {
                  if machine.number = wanted {
                    let free = 0;
                    let load = 0;
                    for other in machine.steps {
                      if 0 < other.at { free = max(free, high(other.span)); } else { load = load + other.length; }
                    }
                    let start = max(ready, free);
                    let bound = max(node.bound, start + max(step.left, load));
                    if start < first and bound < shop.best {
                      new branch: node;
                      set branch.start = start;
                      set branch.depth = node.depth + 1;
                      set branch.bound = bound;
                      set branch.left = step.left;
                      link branch.step step;
                    }
                  }
                }
              }
            }
          }
        }
        // With no step left, the schedule is whole.
        if wanted = 0 {
          set shop.best = longest;
          say "length", longest;
          for step in find step in chart { with job = step.of { say job.number, step.index, step.span; } }
        }
      }
      delete node;
    }
  }
}
