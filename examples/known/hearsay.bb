%schema
{
  "labels": [
    {"name": "category",
     "values": ["be", "there", "quantity", "list", "me", "which", "does", "you", "have", "item",
                "cite", "by", "about", "author", "topic", "joint"]}
  ],
  "classes": [
    {"name": "utterance",
     "slots": [{"name": "span", "kind": "interval"}, {"name": "ends", "kind": "interval"},
               {"name": "lost", "kind": "int", "default": 9223372036854775807}],
     "links": [{"name": "request", "to": "request", "many": false, "inverse": "utterance"}]},
    {"name": "moment", "slots": [{"name": "at", "kind": "int"}, {"name": "best", "kind": "int"}]},
    {"name": "arc",
     "slots": [{"name": "from", "kind": "int"}, {"name": "category", "kind": "label", "of": "category"},
               {"name": "to", "kind": "int"}]},
    {"name": "hypothesis",
     "slots": [{"name": "span", "kind": "interval"}, {"name": "lost", "kind": "int"},
               {"name": "score", "kind": "int"}]},
    {"name": "word", "parent": "hypothesis",
     "slots": [{"name": "text", "kind": "text"}, {"name": "category", "kind": "label", "of": "category"},
               {"name": "rating", "kind": "int"}],
     "links": [{"name": "phrases", "to": "phrase", "many": true, "inverse": "words"},
               {"name": "guesses", "to": "prediction", "many": true, "inverse": "words"},
               {"name": "requests", "to": "request", "many": true, "inverse": "names"}]},
    {"name": "phrase", "parent": "hypothesis",
     "slots": [{"name": "left", "kind": "int"}, {"name": "right", "kind": "int"}],
     "links": [{"name": "words", "to": "word", "many": true, "inverse": "phrases"},
               {"name": "guesses", "to": "prediction", "many": true, "inverse": "phrase", "owns": true},
               {"name": "requests", "to": "request", "many": true, "inverse": "phrase"}]},
    {"name": "prediction",
     "slots": [{"name": "category", "kind": "label", "of": "category"}, {"name": "state", "kind": "int"},
               {"name": "at", "kind": "int"}, {"name": "before", "kind": "bool"}],
     "links": [{"name": "phrase", "to": "phrase", "many": false, "inverse": "guesses"},
               {"name": "words", "to": "word", "many": true, "inverse": "guesses"}]},
    {"name": "request",
     "links": [{"name": "utterance", "to": "utterance", "many": false, "inverse": "request"},
               {"name": "phrase", "to": "phrase", "many": false, "inverse": "requests"},
               {"name": "names", "to": "word", "many": true, "inverse": "requests"}]}
  ],
  "spaces": [
    {"name": "control", "classes": ["utterance", "focus"], "dims": []},
    {"name": "time", "classes": ["moment"], "dims": [{"name": "at", "kind": "ordered"}]},
    {"name": "grammar", "classes": ["arc"],
     "dims": [{"name": "from", "kind": "ordered"}, {"name": "to", "kind": "ordered"},
              {"name": "category", "kind": "label", "of": "category"}]},
    {"name": "words", "classes": ["word"],
     "dims": [{"name": "span", "kind": "ordered"}, {"name": "category", "kind": "label", "of": "category"}]},
    {"name": "phrases", "classes": ["phrase"], "dims": [{"name": "span", "kind": "ordered"}]}
  ]
}
%units
{"units": [
  {"name": "utterance", "class": "utterance", "slots": {"span": [0, 42], "ends": [10, 11]}},
  {"name": "beginning", "class": "phrase"},
  {"name": "moment 0", "class": "moment"},
  {"name": "patience", "class": "focus"},
  {"name": "islands", "class": "focus", "slots": {"source": "seed", "weight": 10000, "active": true}},
  {"name": "0 be 1", "class": "arc", "slots": {"from": 0, "category": "be", "to": 1}}, {"name": "0 does 12", "class": "arc", "slots": {"from": 0, "category": "does", "to": 12}},
  {"name": "0 list 3", "class": "arc", "slots": {"from": 0, "category": "list", "to": 3}}, {"name": "0 which 5", "class": "arc", "slots": {"from": 0, "category": "which", "to": 5}},
  {"name": "1 quantity 4", "class": "arc", "slots": {"from": 1, "category": "quantity", "to": 4}}, {"name": "1 there 2", "class": "arc", "slots": {"from": 1, "category": "there", "to": 2}},
  {"name": "2 quantity 4", "class": "arc", "slots": {"from": 2, "category": "quantity", "to": 4}}, {"name": "3 me 2", "class": "arc", "slots": {"from": 3, "category": "me", "to": 2}},
  {"name": "3 quantity 4", "class": "arc", "slots": {"from": 3, "category": "quantity", "to": 4}}, {"name": "4 about 8", "class": "arc", "slots": {"from": 4, "category": "about", "to": 8}},
  {"name": "4 by 9", "class": "arc", "slots": {"from": 4, "category": "by", "to": 9}}, {"name": "4 item 6", "class": "arc", "slots": {"from": 4, "category": "item", "to": 6}},
  {"name": "5 item 7", "class": "arc", "slots": {"from": 5, "category": "item", "to": 7}}, {"name": "6 about 8", "class": "arc", "slots": {"from": 6, "category": "about", "to": 8}},
  {"name": "6 by 9", "class": "arc", "slots": {"from": 6, "category": "by", "to": 9}}, {"name": "7 cite 8", "class": "arc", "slots": {"from": 7, "category": "cite", "to": 8}},
  {"name": "7 cite 9", "class": "arc", "slots": {"from": 7, "category": "cite", "to": 9}}, {"name": "8 topic 11", "class": "arc", "slots": {"from": 8, "category": "topic", "to": 11}},
  {"name": "9 author 10", "class": "arc", "slots": {"from": 9, "category": "author", "to": 10}}, {"name": "10 about 8", "class": "arc", "slots": {"from": 10, "category": "about", "to": 8}},
  {"name": "10 joint 9", "class": "arc", "slots": {"from": 10, "category": "joint", "to": 9}}, {"name": "11 by 9", "class": "arc", "slots": {"from": 11, "category": "by", "to": 9}},
  {"name": "11 joint 8", "class": "arc", "slots": {"from": 11, "category": "joint", "to": 8}}, {"name": "12 you 13", "class": "arc", "slots": {"from": 12, "category": "you", "to": 13}},
  {"name": "13 have 2", "class": "arc", "slots": {"from": 13, "category": "have", "to": 2}},
  {"name": "DO 0", "class": "word", "slots": {"text": "DO", "category": "does", "span": [0, 2], "rating": 76}},
  {"name": "GIVE 0", "class": "word", "slots": {"text": "GIVE", "category": "list", "span": [0, 3], "rating": 75}},
  {"name": "IS 0", "class": "word", "slots": {"text": "IS", "category": "be", "span": [0, 3], "rating": 55}},
  {"name": "ARE 0", "class": "word", "slots": {"text": "ARE", "category": "be", "span": [0, 4], "rating": 66}},
  {"name": "SHOW 0", "class": "word", "slots": {"text": "SHOW", "category": "list", "span": [0, 4], "rating": 52}},
  {"name": "WHAT 0", "class": "word", "slots": {"text": "WHAT", "category": "which", "span": [0, 4], "rating": 78}},
  {"name": "LIST 0", "class": "word", "slots": {"text": "LIST", "category": "list", "span": [0, 5], "rating": 78}},
  {"name": "WERE 0", "class": "word", "slots": {"text": "WERE", "category": "be", "span": [0, 5], "rating": 79}},
  {"name": "WHICH 0", "class": "word", "slots": {"text": "WHICH", "category": "which", "span": [0, 5], "rating": 76}},
  {"name": "YOU 2", "class": "word", "slots": {"text": "YOU", "category": "you", "span": [2, 5], "rating": 77}},
  {"name": "ME 3", "class": "word", "slots": {"text": "ME", "category": "me", "span": [3, 7], "rating": 76}},
  {"name": "ANY 4", "class": "word", "slots": {"text": "ANY", "category": "quantity", "span": [4, 9], "rating": 68}},
  {"name": "PAPERS 4", "class": "word", "slots": {"text": "PAPERS", "category": "item", "span": [4, 11], "rating": 77}},
  {"name": "HAVE 5", "class": "word", "slots": {"text": "HAVE", "category": "have", "span": [5, 9], "rating": 75}},
  {"name": "THERE 5", "class": "word", "slots": {"text": "THERE", "category": "there", "span": [5, 9], "rating": 78}},
  {"name": "MANY 5", "class": "word", "slots": {"text": "MANY", "category": "quantity", "span": [5, 10], "rating": 77}},
  {"name": "ARTICLES 5", "class": "word", "slots": {"text": "ARTICLES", "category": "item", "span": [5, 13], "rating": 75}},
  {"name": "SOME 7", "class": "word", "slots": {"text": "SOME", "category": "quantity", "span": [7, 11], "rating": 74}},
  {"name": "ANY 9", "class": "word", "slots": {"text": "ANY", "category": "quantity", "span": [9, 13], "rating": 76}},
  {"name": "BY 9", "class": "word", "slots": {"text": "BY", "category": "by", "span": [9, 13], "rating": 64}},
  {"name": "FROM 9", "class": "word", "slots": {"text": "FROM", "category": "by", "span": [9, 14], "rating": 74}},
  {"name": "ABOUT 10", "class": "word", "slots": {"text": "ABOUT", "category": "about", "span": [10, 15], "rating": 76}},
  {"name": "BOOKS 11", "class": "word", "slots": {"text": "BOOKS", "category": "item", "span": [11, 16], "rating": 75}},
  {"name": "CITE 11", "class": "word", "slots": {"text": "CITE", "category": "cite", "span": [11, 16], "rating": 77}},
  {"name": "ABOUT 13", "class": "word", "slots": {"text": "ABOUT", "category": "about", "span": [13, 18], "rating": 77}},
  {"name": "MENTION 13", "class": "word", "slots": {"text": "MENTION", "category": "cite", "span": [13, 20], "rating": 75}},
  {"name": "FEIGENBAUM 13", "class": "word", "slots": {"text": "FEIGENBAUM", "category": "author", "span": [13, 26], "rating": 85}},
  {"name": "NILSSON 14", "class": "word", "slots": {"text": "NILSSON", "category": "author", "span": [14, 23], "rating": 75}},
  {"name": "ON 16", "class": "word", "slots": {"text": "ON", "category": "about", "span": [16, 18], "rating": 74}},
  {"name": "NEWELL 16", "class": "word", "slots": {"text": "NEWELL", "category": "author", "span": [16, 23], "rating": 78}},
  {"name": "CHESS 18", "class": "word", "slots": {"text": "CHESS", "category": "topic", "span": [18, 23], "rating": 76}},
  {"name": "LANGUAGE 18", "class": "word", "slots": {"text": "LANGUAGE", "category": "topic", "span": [18, 30], "rating": 86}},
  {"name": "LEARNING 20", "class": "word", "slots": {"text": "LEARNING", "category": "topic", "span": [20, 28], "rating": 75}},
  {"name": "MINSKY 20", "class": "word", "slots": {"text": "MINSKY", "category": "author", "span": [20, 28], "rating": 71}},
  {"name": "ON 23", "class": "word", "slots": {"text": "ON", "category": "about", "span": [23, 26], "rating": 75}},
  {"name": "OR 23", "class": "word", "slots": {"text": "OR", "category": "joint", "span": [23, 26], "rating": 73}},
  {"name": "AND 26", "class": "word", "slots": {"text": "AND", "category": "joint", "span": [26, 30], "rating": 68}},
  {"name": "NEWELL 26", "class": "word", "slots": {"text": "NEWELL", "category": "author", "span": [26, 33], "rating": 68}},
  {"name": "VISION 26", "class": "word", "slots": {"text": "VISION", "category": "topic", "span": [26, 33], "rating": 66}},
  {"name": "AND 28", "class": "word", "slots": {"text": "AND", "category": "joint", "span": [28, 30], "rating": 62}},
  {"name": "ABOUT 28", "class": "word", "slots": {"text": "ABOUT", "category": "about", "span": [28, 33], "rating": 74}},
  {"name": "OR 30", "class": "word", "slots": {"text": "OR", "category": "joint", "span": [30, 33], "rating": 62}},
  {"name": "PROOFS 30", "class": "word", "slots": {"text": "PROOFS", "category": "topic", "span": [30, 36], "rating": 86}},
  {"name": "FELDMAN 30", "class": "word", "slots": {"text": "FELDMAN", "category": "author", "span": [30, 42], "rating": 84}},
  {"name": "WINOGRAD 30", "class": "word", "slots": {"text": "WINOGRAD", "category": "author", "span": [30, 42], "rating": 64}},
  {"name": "AND 33", "class": "word", "slots": {"text": "AND", "category": "joint", "span": [33, 36], "rating": 64}},
  {"name": "ON 33", "class": "word", "slots": {"text": "ON", "category": "about", "span": [33, 36], "rating": 66}},
  {"name": "CHESS 33", "class": "word", "slots": {"text": "CHESS", "category": "topic", "span": [33, 42], "rating": 60}},
  {"name": "LEARNING 33", "class": "word", "slots": {"text": "LEARNING", "category": "topic", "span": [33, 42], "rating": 62}},
  {"name": "BY 36", "class": "word", "slots": {"text": "BY", "category": "by", "span": [36, 38], "rating": 65}},
  {"name": "BOOKS 36", "class": "word", "slots": {"text": "BOOKS", "category": "item", "span": [36, 42], "rating": 85}},
  {"name": "ROBOTS 36", "class": "word", "slots": {"text": "ROBOTS", "category": "topic", "span": [36, 42], "rating": 58}},
  {"name": "SIMON 36", "class": "word", "slots": {"text": "SIMON", "category": "author", "span": [36, 42], "rating": 62}},
  {"name": "SPEECH 36", "class": "word", "slots": {"text": "SPEECH", "category": "topic", "span": [36, 42], "rating": 63}},
  {"name": "REDDY 38", "class": "word", "slots": {"text": "REDDY", "category": "author", "span": [38, 42], "rating": 62}}
], "spaces": [
  ["utterance", "control"], ["beginning", "phrases"], ["moment 0", "time"], ["patience", "control"],
  ["islands", "control"], ["0 be 1", "grammar"], ["0 does 12", "grammar"], ["0 list 3", "grammar"],
  ["0 which 5", "grammar"], ["1 quantity 4", "grammar"], ["1 there 2", "grammar"], ["2 quantity 4", "grammar"],
  ["3 me 2", "grammar"], ["3 quantity 4", "grammar"], ["4 about 8", "grammar"], ["4 by 9", "grammar"],
  ["4 item 6", "grammar"], ["5 item 7", "grammar"], ["6 about 8", "grammar"], ["6 by 9", "grammar"],
  ["7 cite 8", "grammar"], ["7 cite 9", "grammar"], ["8 topic 11", "grammar"], ["9 author 10", "grammar"],
  ["10 about 8", "grammar"], ["10 joint 9", "grammar"], ["11 by 9", "grammar"], ["11 joint 8", "grammar"],
  ["12 you 13", "grammar"], ["13 have 2", "grammar"], ["DO 0", "words"], ["GIVE 0", "words"], ["IS 0", "words"],
  ["ARE 0", "words"], ["SHOW 0", "words"], ["WHAT 0", "words"], ["LIST 0", "words"], ["WERE 0", "words"],
  ["WHICH 0", "words"], ["YOU 2", "words"], ["ME 3", "words"], ["ANY 4", "words"], ["PAPERS 4", "words"],
  ["HAVE 5", "words"], ["THERE 5", "words"], ["MANY 5", "words"], ["ARTICLES 5", "words"], ["SOME 7", "words"],
  ["ANY 9", "words"], ["BY 9", "words"], ["FROM 9", "words"], ["ABOUT 10", "words"], ["BOOKS 11", "words"],
  ["CITE 11", "words"], ["ABOUT 13", "words"], ["MENTION 13", "words"], ["FEIGENBAUM 13", "words"],
  ["NILSSON 14", "words"], ["ON 16", "words"], ["NEWELL 16", "words"], ["CHESS 18", "words"], ["LANGUAGE 18", "words"],
  ["LEARNING 20", "words"], ["MINSKY 20", "words"], ["ON 23", "words"], ["OR 23", "words"], ["AND 26", "words"],
  ["NEWELL 26", "words"], ["VISION 26", "words"], ["AND 28", "words"], ["ABOUT 28", "words"], ["OR 30", "words"],
  ["PROOFS 30", "words"], ["FELDMAN 30", "words"], ["WINOGRAD 30", "words"], ["AND 33", "words"], ["ON 33", "words"],
  ["CHESS 33", "words"], ["LEARNING 33", "words"], ["BY 36", "words"], ["BOOKS 36", "words"], ["ROBOTS 36", "words"],
  ["SIMON 36", "words"], ["SPEECH 36", "words"], ["REDDY 38", "words"]
]}
%sources
// An utterance is understood as Hearsay-II did it: sources propose, extend and drop hypotheses at several levels. A
// word is what may have been said at a time. A phrase is words that meet in time, on a path of the grammar from its
// left state to its right one. A hypothesis has lost what the best words of each moment are rated above its own. Work
// on it is rated by its score: 20 for each moment less what it has lost. The answer is the sentence that has lost
// least.

// Moment by moment, finds the best rating of a word, and what each word that ends there has lost.
source measure on moment {
  when enter moment time;
  rate 9000;
  do {
    with moment = it as moment {
      for utterance in find utterance in control {
        if moment.at < high(utterance.span) {
          let best = 0;
          for word in find word in words where span covers [moment.at, moment.at + 1] { best = max(best, word.rating); }
          new next: moment;
          set next.at = moment.at + 1;
          set next.best = moment.best + best;
          enter next time;
        }
      }
      for word in find word in words where span overlaps [moment.at, moment.at] {
        if high(word.span) = moment.at {
          for first in find moment in time where at within [low(word.span), low(word.span)] {
            let length = moment.at - first.at;
            set word.lost = moment.best - first.best - word.rating * length;
            set word.score = 20 * length - word.lost;
          }
        }
      }
    }
  }
}

// Makes a word an island: phrases that grow to both sides, one for each place of its category in the grammar. This is
// below the floor while there is no active focus on it.
source seed on word {
  when update word.score;
  rate 0;
  require { with word = it as word { rate word.score - 10000; } decline; }
  do {
    with word = it as word {
      for arc in find arc in grammar where category is word.category {
        new phrase: phrase;
        link phrase.words word;
        set phrase.span = word.span;
        set phrase.left = arc.from;
        set phrase.right = arc.to;
        set phrase.lost = word.lost;
        set phrase.score = word.score;
        enter phrase phrases;
      }
    }
  }
}

// Predicts the categories that the grammar admits on each side of a phrase.
source predict on phrase {
  when enter phrase phrases;
  rate 0;
  require { with phrase = it as phrase { rate phrase.score; } decline; }
  obviate on phrase when delete phrase; { answer it = ev; }
  do {
    with phrase = it as phrase {
      for arc in find arc in grammar where from within [phrase.right, phrase.right] {
        new guess: prediction;
        set guess.category = arc.category;
        set guess.state = arc.to;
        set guess.at = high(phrase.span);
        link guess.phrase phrase;
      }
      for arc in find arc in grammar where to within [phrase.left, phrase.left] {
        new guess: prediction;
        set guess.category = arc.category;
        set guess.state = arc.from;
        set guess.at = low(phrase.span);
        set guess.before = true;
        link guess.phrase phrase;
      }
    }
  }
}

// Verifies a prediction by the words of its category that meet its phrase, however little they score.
source verify on prediction {
  when link prediction.phrase;
  rate 0;
  require { with guess = it as prediction { with phrase = guess.phrase { rate phrase.score; } } decline; }
  obviate on prediction when delete prediction; { answer it = ev; }
  do {
    with guess = it as prediction {
      for word in find word in words where and(category is guess.category, span overlaps [guess.at, guess.at]) {
        let edge = low(word.span);
        if guess.before { edge = high(word.span); }
        if edge = guess.at { link guess.words word; }
      }
    }
  }
}

// Joins a phrase and each verified word to a longer phrase, unless that has lost as much as the sentence.
source concat on prediction {
  when link prediction.words;
  rate 0;
  require {
    with guess = it as prediction {
      with phrase = guess.phrase {
        let best = -9223372036854775808;
        for word in guess.words { best = max(best, word.score); }
        rate phrase.score + best;
      }
    }
    decline;
  }
  obviate on prediction when link prediction.words; when delete prediction; { answer it = ev; }
  do {
    let limit = 0;
    for utterance in find utterance in control { limit = utterance.lost; }
    with guess = it as prediction {
      with phrase = guess.phrase {
        for word in guess.words {
          if phrase.lost + word.lost < limit {
            new longer: phrase;
            set longer.span = [min(low(phrase.span), low(word.span)), max(high(phrase.span), high(word.span))];
            set longer.left = phrase.left;
            set longer.right = phrase.right;
            if guess.before { set longer.left = guess.state; link longer.words word; }
            for part in phrase.words { link longer.words part; }
            if not(guess.before) { set longer.right = guess.state; link longer.words word; }
            set longer.lost = phrase.lost + word.lost;
            set longer.score = phrase.score + word.score;
            enter longer phrases;
          }
        }
      }
      delete guess;
    }
  }
}

// Phrases of the same time between the same states are rivals. Deletes the one that has lost more.
source compete on phrase {
  when enter phrase phrases;
  rate 9000;
  require {
    with phrase = it as phrase {
      for rival in find phrase in phrases where and(span within phrase.span, span covers phrase.span) {
        if not(rival = it) and rival.left = phrase.left and rival.right = phrase.right { rate 9000; }
      }
    }
    decline;
  }
  obviate on phrase when delete phrase; { answer it = ev; }
  do {
    let beaten = false;
    with phrase = it as phrase {
      let left = phrase.left;
      let right = phrase.right;
      let lost = phrase.lost;
      for rival in find phrase in phrases where and(span within phrase.span, span covers phrase.span) {
        if not(rival = it) and rival.left = left and rival.right = right {
          if lost < rival.lost { delete rival; } else { beaten = true; }
        }
      }
    }
    if beaten { with phrase = it as phrase { delete phrase; } }
  }
}

// A phrase of the whole utterance, from the grammar's first state to one of its last, is a sentence. Makes a request of
// it, with the authors and topics to look for, and deletes that of a sentence that has lost more.
source understand on phrase {
  when enter phrase phrases;
  rate 8000;
  require {
    with phrase = it as phrase {
      for utterance in find utterance in control {
        if phrase.left = 0 and low(utterance.ends) <= phrase.right and phrase.lost < utterance.lost {
          if low(phrase.span) = 0 and high(phrase.span) = high(utterance.span) { rate 8000; }
        }
      }
    }
    decline;
  }
  obviate on phrase when delete phrase; { answer it = ev; }
  do {
    with phrase = it as phrase {
      for utterance in find utterance in control {
        with worse = utterance.request { delete worse; }
        new request: request;
        link request.utterance utterance;
        link request.phrase phrase;
        say "sentence", phrase.lost;
        for word in phrase.words { say word.text, word.span; }
        for word in phrase.words {
          if word.category = category:author or word.category = category:topic {
            say "request", word.category, word.text;
            link request.names word;
          }
        }
        set utterance.lost = phrase.lost;
      }
    }
  }
}

// Once there is a sentence, deletes the phrases that have lost more, and the islands, and their focus is inactive: a
// better sentence would grow from the beginning, too.
source stop on utterance {
  when update utterance.lost;
  rate 9000;
  do {
    with utterance = it as utterance {
      let lost = utterance.lost;
      for phrase in find phrase in phrases {
        if lost < phrase.lost or 0 < phrase.left or 0 < low(phrase.span) { delete phrase; }
      }
    }
    for focus in find focus in control { if focus.source = "seed" { set focus.active = false; } }
  }
}

// Work on a score below 0 is pending until nothing else is left. Then a focus on everything raises it, step by step, as
// far as there may be a better sentence.
source relax on focus {
  when quiescence;
  rate 1;
  require {
    for utterance in find utterance in control {
      for focus in find focus in control {
        if focus.source = "" and focus.weight < min(utterance.lost, 100 * high(utterance.span)) { rate 1; }
      }
    }
    decline;
  }
  do { for focus in find focus in control { if focus.source = "" { set focus.weight = focus.weight + 100; } } }
}
