%schema
{
  "labels": [
    {"name": "kind", "values": ["ell", "arrow", "fork", "tee"]},
    {"name": "sign", "values": ["plus", "minus", "away", "towards"]}
  ],
  "classes": [
    {"name": "page", "slots": [{"name": "reported", "kind": "bool"}]},
    {"name": "sign", "slots": [{"name": "label", "kind": "label", "of": "sign"}]},
    {"name": "entry",
     "slots": [{"name": "kind", "kind": "label", "of": "kind"}, {"name": "first", "kind": "label", "of": "sign"},
               {"name": "second", "kind": "label", "of": "sign"}, {"name": "third", "kind": "label", "of": "sign"}]},
    {"name": "line", "slots": [{"name": "from", "kind": "int"}, {"name": "to", "kind": "int"}],
     "links": [{"name": "ends", "to": "end", "many": true, "inverse": "line"}]},
    {"name": "junction", "slots": [{"name": "kind", "kind": "label", "of": "kind"}],
     "links": [{"name": "ends", "to": "end", "many": true, "inverse": "junction"},
               {"name": "labellings", "to": "labelling", "many": true, "inverse": "junction"}]},
    {"name": "end", "slots": [{"name": "place", "kind": "int"}],
     "links": [{"name": "line", "to": "line", "many": false, "inverse": "ends"},
               {"name": "junction", "to": "junction", "many": false, "inverse": "ends"},
               {"name": "options", "to": "option", "many": true, "inverse": "end"},
               {"name": "given", "to": "given", "many": true, "inverse": "end"}]},
    {"name": "given", "slots": [{"name": "label", "kind": "label", "of": "sign"}],
     "links": [{"name": "end", "to": "end", "many": false, "inverse": "given"}]},
    {"name": "labelling",
     "links": [{"name": "junction", "to": "junction", "many": false, "inverse": "labellings"},
               {"name": "options", "to": "option", "many": true, "inverse": "labellings"}]},
    {"name": "option", "slots": [{"name": "label", "kind": "label", "of": "sign"}],
     "links": [{"name": "end", "to": "end", "many": false, "inverse": "options"},
               {"name": "labellings", "to": "labelling", "many": true, "inverse": "options"}]}
  ],
  "spaces": [
    {"name": "signs", "classes": ["sign"], "dims": []},
    {"name": "catalogue", "classes": ["entry"], "dims": [{"name": "kind", "kind": "label", "of": "kind"}]},
    {"name": "pages", "classes": ["page"], "dims": []},
    {"name": "drawing", "classes": ["line"], "dims": []}
  ]
}
%units
{"units": [
  {"name": "page", "class": "page"},
  {"name": "plus", "class": "sign", "slots": {"label": "plus"}},
  {"name": "minus", "class": "sign", "slots": {"label": "minus"}},
  {"name": "away", "class": "sign", "slots": {"label": "away"}},
  {"name": "towards", "class": "sign", "slots": {"label": "towards"}},
  {"name": "ell 1", "class": "entry", "slots": {"kind": "ell", "first": "towards", "second": "away"}},
  {"name": "ell 2", "class": "entry", "slots": {"kind": "ell", "first": "away", "second": "towards"}},
  {"name": "ell 3", "class": "entry", "slots": {"kind": "ell", "first": "towards", "second": "minus"}},
  {"name": "ell 4", "class": "entry", "slots": {"kind": "ell", "first": "minus", "second": "away"}},
  {"name": "ell 5", "class": "entry", "slots": {"kind": "ell", "first": "away", "second": "plus"}},
  {"name": "ell 6", "class": "entry", "slots": {"kind": "ell", "first": "plus", "second": "towards"}},
  {"name": "arrow 1", "class": "entry", "slots": {"kind": "arrow", "first": "towards", "second": "plus", "third": "away"}},
  {"name": "arrow 2", "class": "entry", "slots": {"kind": "arrow", "first": "minus", "second": "plus", "third": "minus"}},
  {"name": "arrow 3", "class": "entry", "slots": {"kind": "arrow", "first": "plus", "second": "minus", "third": "plus"}},
  {"name": "fork 1", "class": "entry", "slots": {"kind": "fork", "first": "plus", "second": "plus", "third": "plus"}},
  {"name": "fork 2", "class": "entry", "slots": {"kind": "fork", "first": "minus", "second": "minus", "third": "minus"}},
  {"name": "fork 3", "class": "entry", "slots": {"kind": "fork", "first": "minus", "second": "away", "third": "towards"}},
  {"name": "fork 4", "class": "entry", "slots": {"kind": "fork", "first": "towards", "second": "minus", "third": "away"}},
  {"name": "fork 5", "class": "entry", "slots": {"kind": "fork", "first": "away", "second": "towards", "third": "minus"}},
  {"name": "tee 1", "class": "entry", "slots": {"kind": "tee", "first": "plus", "second": "towards", "third": "away"}},
  {"name": "tee 2", "class": "entry", "slots": {"kind": "tee", "first": "minus", "second": "towards", "third": "away"}},
  {"name": "tee 3", "class": "entry", "slots": {"kind": "tee", "first": "away", "second": "towards", "third": "away"}},
  {"name": "tee 4", "class": "entry", "slots": {"kind": "tee", "first": "towards", "second": "towards", "third": "away"}},
  {"name": "junction 1", "class": "junction", "slots": {"kind": "ell"}},
  {"name": "1 to 2", "class": "end", "slots": {"place": 1}},
  {"name": "1 to 6", "class": "end", "slots": {"place": 2}},
  {"name": "junction 2", "class": "junction", "slots": {"kind": "arrow"}},
  {"name": "2 to 7", "class": "end", "slots": {"place": 1}},
  {"name": "2 to 3", "class": "end", "slots": {"place": 2}},
  {"name": "2 to 1", "class": "end", "slots": {"place": 3}},
  {"name": "junction 3", "class": "junction", "slots": {"kind": "fork"}},
  {"name": "3 to 8", "class": "end", "slots": {"place": 1}},
  {"name": "3 to 4", "class": "end", "slots": {"place": 2}},
  {"name": "3 to 2", "class": "end", "slots": {"place": 3}},
  {"name": "junction 4", "class": "junction", "slots": {"kind": "arrow"}},
  {"name": "4 to 3", "class": "end", "slots": {"place": 1}},
  {"name": "4 to 9", "class": "end", "slots": {"place": 2}},
  {"name": "4 to 5", "class": "end", "slots": {"place": 3}},
  {"name": "junction 5", "class": "junction", "slots": {"kind": "fork"}},
  {"name": "5 to 10", "class": "end", "slots": {"place": 1}},
  {"name": "5 to 6", "class": "end", "slots": {"place": 2}},
  {"name": "5 to 4", "class": "end", "slots": {"place": 3}},
  {"name": "junction 6", "class": "junction", "slots": {"kind": "arrow"}},
  {"name": "6 to 1", "class": "end", "slots": {"place": 1}},
  {"name": "6 to 5", "class": "end", "slots": {"place": 2}},
  {"name": "6 to 11", "class": "end", "slots": {"place": 3}},
  {"name": "junction 7", "class": "junction", "slots": {"kind": "ell"}},
  {"name": "7 to 8", "class": "end", "slots": {"place": 1}},
  {"name": "7 to 2", "class": "end", "slots": {"place": 2}},
  {"name": "junction 8", "class": "junction", "slots": {"kind": "arrow"}},
  {"name": "8 to 9", "class": "end", "slots": {"place": 1}},
  {"name": "8 to 3", "class": "end", "slots": {"place": 2}},
  {"name": "8 to 7", "class": "end", "slots": {"place": 3}},
  {"name": "junction 9", "class": "junction", "slots": {"kind": "fork"}},
  {"name": "9 to 8", "class": "end", "slots": {"place": 1}},
  {"name": "9 to 10", "class": "end", "slots": {"place": 2}},
  {"name": "9 to 4", "class": "end", "slots": {"place": 3}},
  {"name": "junction 10", "class": "junction", "slots": {"kind": "arrow"}},
  {"name": "10 to 11", "class": "end", "slots": {"place": 1}},
  {"name": "10 to 5", "class": "end", "slots": {"place": 2}},
  {"name": "10 to 9", "class": "end", "slots": {"place": 3}},
  {"name": "junction 11", "class": "junction", "slots": {"kind": "ell"}},
  {"name": "11 to 6", "class": "end", "slots": {"place": 1}},
  {"name": "11 to 10", "class": "end", "slots": {"place": 2}},
  {"name": "line 1 2", "class": "line", "slots": {"from": 1, "to": 2}},
  {"name": "line 2 3", "class": "line", "slots": {"from": 2, "to": 3}},
  {"name": "line 3 4", "class": "line", "slots": {"from": 3, "to": 4}},
  {"name": "line 4 5", "class": "line", "slots": {"from": 4, "to": 5}},
  {"name": "line 5 6", "class": "line", "slots": {"from": 5, "to": 6}},
  {"name": "line 6 1", "class": "line", "slots": {"from": 6, "to": 1}},
  {"name": "line 7 8", "class": "line", "slots": {"from": 7, "to": 8}},
  {"name": "line 8 9", "class": "line", "slots": {"from": 8, "to": 9}},
  {"name": "line 9 10", "class": "line", "slots": {"from": 9, "to": 10}},
  {"name": "line 10 11", "class": "line", "slots": {"from": 10, "to": 11}},
  {"name": "line 2 7", "class": "line", "slots": {"from": 2, "to": 7}},
  {"name": "line 3 8", "class": "line", "slots": {"from": 3, "to": 8}},
  {"name": "line 4 9", "class": "line", "slots": {"from": 4, "to": 9}},
  {"name": "line 5 10", "class": "line", "slots": {"from": 5, "to": 10}},
  {"name": "line 6 11", "class": "line", "slots": {"from": 6, "to": 11}},
  {"name": "given 1 6", "class": "given", "slots": {"label": "away"}},
  {"name": "given 6 11", "class": "given", "slots": {"label": "away"}},
  {"name": "given 11 10", "class": "given", "slots": {"label": "away"}},
  {"name": "given 10 9", "class": "given", "slots": {"label": "away"}},
  {"name": "given 9 8", "class": "given", "slots": {"label": "away"}},
  {"name": "given 8 7", "class": "given", "slots": {"label": "away"}},
  {"name": "given 7 2", "class": "given", "slots": {"label": "away"}},
  {"name": "given 2 1", "class": "given", "slots": {"label": "away"}}
], "links": [
  ["junction 1", "ends", "1 to 2"],
  ["junction 1", "ends", "1 to 6"],
  ["junction 2", "ends", "2 to 7"],
  ["junction 2", "ends", "2 to 3"],
  ["junction 2", "ends", "2 to 1"],
  ["junction 3", "ends", "3 to 8"],
  ["junction 3", "ends", "3 to 4"],
  ["junction 3", "ends", "3 to 2"],
  ["junction 4", "ends", "4 to 3"],
  ["junction 4", "ends", "4 to 9"],
  ["junction 4", "ends", "4 to 5"],
  ["junction 5", "ends", "5 to 10"],
  ["junction 5", "ends", "5 to 6"],
  ["junction 5", "ends", "5 to 4"],
  ["junction 6", "ends", "6 to 1"],
  ["junction 6", "ends", "6 to 5"],
  ["junction 6", "ends", "6 to 11"],
  ["junction 7", "ends", "7 to 8"],
  ["junction 7", "ends", "7 to 2"],
  ["junction 8", "ends", "8 to 9"],
  ["junction 8", "ends", "8 to 3"],
  ["junction 8", "ends", "8 to 7"],
  ["junction 9", "ends", "9 to 8"],
  ["junction 9", "ends", "9 to 10"],
  ["junction 9", "ends", "9 to 4"],
  ["junction 10", "ends", "10 to 11"],
  ["junction 10", "ends", "10 to 5"],
  ["junction 10", "ends", "10 to 9"],
  ["junction 11", "ends", "11 to 6"],
  ["junction 11", "ends", "11 to 10"],
  ["line 1 2", "ends", "1 to 2"],
  ["line 1 2", "ends", "2 to 1"],
  ["line 2 3", "ends", "2 to 3"],
  ["line 2 3", "ends", "3 to 2"],
  ["line 3 4", "ends", "3 to 4"],
  ["line 3 4", "ends", "4 to 3"],
  ["line 4 5", "ends", "4 to 5"],
  ["line 4 5", "ends", "5 to 4"],
  ["line 5 6", "ends", "5 to 6"],
  ["line 5 6", "ends", "6 to 5"],
  ["line 6 1", "ends", "6 to 1"],
  ["line 6 1", "ends", "1 to 6"],
  ["line 7 8", "ends", "7 to 8"],
  ["line 7 8", "ends", "8 to 7"],
  ["line 8 9", "ends", "8 to 9"],
  ["line 8 9", "ends", "9 to 8"],
  ["line 9 10", "ends", "9 to 10"],
  ["line 9 10", "ends", "10 to 9"],
  ["line 10 11", "ends", "10 to 11"],
  ["line 10 11", "ends", "11 to 10"],
  ["line 2 7", "ends", "2 to 7"],
  ["line 2 7", "ends", "7 to 2"],
  ["line 3 8", "ends", "3 to 8"],
  ["line 3 8", "ends", "8 to 3"],
  ["line 4 9", "ends", "4 to 9"],
  ["line 4 9", "ends", "9 to 4"],
  ["line 5 10", "ends", "5 to 10"],
  ["line 5 10", "ends", "10 to 5"],
  ["line 6 11", "ends", "6 to 11"],
  ["line 6 11", "ends", "11 to 6"],
  ["given 1 6", "end", "1 to 6"],
  ["given 6 11", "end", "6 to 11"],
  ["given 11 10", "end", "11 to 10"],
  ["given 10 9", "end", "10 to 9"],
  ["given 9 8", "end", "9 to 8"],
  ["given 8 7", "end", "8 to 7"],
  ["given 7 2", "end", "7 to 2"],
  ["given 2 1", "end", "2 to 1"]
], "spaces": [
  ["page", "pages"],
  ["plus", "signs"],
  ["minus", "signs"],
  ["away", "signs"],
  ["towards", "signs"],
  ["ell 1", "catalogue"],
  ["ell 2", "catalogue"],
  ["ell 3", "catalogue"],
  ["ell 4", "catalogue"],
  ["ell 5", "catalogue"],
  ["ell 6", "catalogue"],
  ["arrow 1", "catalogue"],
  ["arrow 2", "catalogue"],
  ["arrow 3", "catalogue"],
  ["fork 1", "catalogue"],
  ["fork 2", "catalogue"],
  ["fork 3", "catalogue"],
  ["fork 4", "catalogue"],
  ["fork 5", "catalogue"],
  ["tee 1", "catalogue"],
  ["tee 2", "catalogue"],
  ["tee 3", "catalogue"],
  ["tee 4", "catalogue"],
  ["line 1 2", "drawing"],
  ["line 2 3", "drawing"],
  ["line 3 4", "drawing"],
  ["line 4 5", "drawing"],
  ["line 5 6", "drawing"],
  ["line 6 1", "drawing"],
  ["line 7 8", "drawing"],
  ["line 8 9", "drawing"],
  ["line 9 10", "drawing"],
  ["line 10 11", "drawing"],
  ["line 2 7", "drawing"],
  ["line 3 8", "drawing"],
  ["line 4 9", "drawing"],
  ["line 5 10", "drawing"],
  ["line 6 11", "drawing"]
]}
%sources
// The lines of a drawing of polyhedra are labelled: convex, concave, or the boundary of what is in front. A junction
// proposes its labellings from the catalogue. An option is one label of one end of a line. When an option has no
// labelling left, the labellings at the other end of the line that need the same label are dropped, and so on.

source propose on junction {
  when create junction;
  rate 30;
  do {
    with junction = it as junction {
      for end in junction.ends {
        for sign in find sign in signs {
          new option: option;
          set option.label = sign.label;
          link end.options option;
        }
      }
      for entry in find entry in catalogue where kind is junction.kind {
        new labelling: labelling;
        link junction.labellings labelling;
        for end in junction.ends {
          let label = entry.first;
          if end.place = 2 { label = entry.second; }
          if end.place = 3 { label = entry.third; }
          for option in end.options { if option.label = label { link labelling.options option; } }
        }
      }
    }
  }
}

// What is known of the picture leaves one option at the end of a line.
source know on given {
  when create given;
  rate 20;
  do {
    with given = it as given {
      with end = given.end {
        for option in end.options {
          if not(option.label = given.label) { for labelling in option.labellings { delete labelling; } }
        }
      }
    }
  }
}

source drop on option {
  when create option;
  when unlink option.labellings;
  rate 10;
  require {
    with option = it as option { if size(option.labellings) = 0 { rate 10; } }
    decline;
  }
  obviate on option when unlink option.labellings; { answer it = ev; }
  do {
    with option = it as option {
      // A boundary that leads away from one end leads towards the other.
      let label = option.label;
      if option.label = sign:away { label = sign:towards; }
      if option.label = sign:towards { label = sign:away; }
      with end = option.end {
        with line = end.line {
          for other in line.ends {
            if not(other = end) {
              for rival in other.options {
                if rival.label = label { for labelling in rival.labellings { delete labelling; } }
              }
            }
          }
        }
      }
      delete option;
    }
  }
}

// The labels that are left of each line, seen from its first end, are the answer.
source report on page {
  when quiescence;
  rate 0;
  require {
    for page in find page in pages { if not(page.reported) { rate 0; } }
    decline;
  }
  do {
    for page in find page in pages { set page.reported = true; }
    for line in find line in drawing {
      let first = true;
      for end in line.ends {
        if first {
          first = false;
          for option in end.options { say line.from, line.to, option.label; }
        }
      }
    }
  }
}
