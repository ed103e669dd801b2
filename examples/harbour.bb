%schema
{
  "labels": [
    {"name": "tone", "values": ["low", "beat", "song"]},
    {"name": "claim", "values": ["engine", "propeller", "whale", "boat"]}
  ],
  "classes": [
    {"name": "evidence",
     "slots": [{"name": "span", "kind": "interval"}, {"name": "belief", "kind": "int"}],
     "links": [{"name": "supports", "to": "hypothesis", "many": true, "inverse": "because"}]},
    {"name": "signal", "parent": "evidence",
     "slots": [{"name": "tone", "kind": "label", "of": "tone"}]},
    {"name": "hypothesis", "parent": "evidence",
     "slots": [{"name": "claim", "kind": "label", "of": "claim"}],
     "links": [{"name": "because", "to": "evidence", "many": true, "inverse": "supports"}]}
  ],
  "spaces": [
    {"name": "heard", "classes": ["signal"],
     "dims": [{"name": "span", "kind": "ordered"}, {"name": "tone", "kind": "label", "of": "tone"}]},
    {"name": "claims", "classes": ["hypothesis"],
     "dims": [{"name": "span", "kind": "ordered"}, {"name": "claim", "kind": "label", "of": "claim"}]}
  ]
}
%units
{
  "units": [
    {"name": "a", "class": "signal", "slots": {"span": [10, 40], "belief": 30, "tone": "low"}},
    {"name": "b", "class": "signal", "slots": {"span": [15, 35], "belief": 45, "tone": "beat"}},
    {"name": "c", "class": "signal", "slots": {"span": [30, 60], "belief": 40, "tone": "song"}},
    {"name": "d", "class": "signal", "slots": {"span": [38, 70], "belief": 25, "tone": "low"}},
    {"name": "e", "class": "signal", "slots": {"span": [80, 95], "belief": 50, "tone": "song"}}
  ],
  "spaces": [["a", "heard"], ["b", "heard"], ["c", "heard"], ["d", "heard"], ["e", "heard"]]
}
%sources
// A listening post at a harbour. Signals from the water are evidence for hypotheses (an engine, a propeller, a whale),
// and these are evidence for one more (a boat). What is believed most is worked on first, and what is believed of a
// part changes what is believed of the whole.

// Each signal becomes a hypothesis of what makes such a sound, or supports one that is there already.
source explain on signal {
  when enter signal heard;
  rate 0;
  require {
    with signal = it as signal { rate signal.belief; }
    decline;
  }
  do {
    with signal = it as signal {
      let claim = claim:engine;
      if signal.tone = tone:beat { claim = claim:propeller; }
      if signal.tone = tone:song { claim = claim:whale; }
      let known = false;
      for other in find hypothesis in claims where and(claim is claim, span overlaps signal.span) {
        link signal.supports other;
        let first = min(low(other.span), low(signal.span));
        let last = max(high(other.span), high(signal.span));
        set other.span = [first, last];
        known = true;
      }
      if not(known) {
        new guess: hypothesis;
        set guess.claim = claim;
        set guess.span = signal.span;
        link signal.supports guess;
        enter guess claims;
      }
    }
  }
}

// A hypothesis is believed as much as all that supports it.
source weigh on hypothesis {
  when link hypothesis.because;
  when unlink hypothesis.because;
  rate 500;
  // One pending activation of a hypothesis is enough, whatever comes to its support meanwhile.
  obviate on hypothesis when link hypothesis.because; when unlink hypothesis.because; { answer it = ev; }
  do {
    with guess = it as hypothesis {
      let sum = 0;
      for part in guess.because { sum = sum + part.belief; }
      if not(sum = guess.belief) { set guess.belief = sum; }
    }
  }
}

// What a hypothesis supports is weighed anew once the hypothesis is believed more, or less.
source pass_on on hypothesis {
  when update hypothesis.belief;
  rate 400;
  do {
    with guess = it as hypothesis {
      for whole in guess.supports {
        let sum = 0;
        for part in whole.because { sum = sum + part.belief; }
        set whole.belief = sum;
      }
    }
  }
}

// An engine and a propeller at one time are a boat.
source combine on hypothesis {
  when update hypothesis.belief;
  rate 0;
  require {
    with guess = it as hypothesis {
      if guess.claim = claim:engine and size(guess.supports) = 0 { rate guess.belief; }
    }
    decline;
  }
  revalidate {
    with guess = it as hypothesis { answer size(guess.supports) = 0; }
    answer false;
  }
  do {
    with engine = it as hypothesis {
      for propeller in find hypothesis in claims
          where and(claim is claim:propeller, span overlaps engine.span) {
        new boat: hypothesis;
        set boat.claim = claim:boat;
        set boat.span = [min(low(engine.span), low(propeller.span)), max(high(engine.span), high(propeller.span))];
        link boat.because engine;
        link boat.because propeller;
        enter boat claims;
      }
    }
  }
}

// Two claims that overlap and can't both be true: the one that is believed less goes, with its reasons.
source decide on hypothesis {
  when update hypothesis.belief;
  rate 100;
  require {
    with guess = it as hypothesis { if guess.claim = claim:boat { rate 100; } }
    decline;
  }
  do {
    with boat = it as hypothesis {
      let strength = boat.belief;
      for whale in find hypothesis in claims where and(claim is claim:whale, span overlaps boat.span) {
        if whale.belief < strength {
          say "no whale", whale.span, whale.belief, "against", strength;
          delete whale;
        }
      }
    }
  }
}

// At rest: what is left is what the post reports. It asks for nothing more, so the run ends.
source report on focus {
  when quiescence;
  rate 1;
  require {
    for guess in find hypothesis in claims where not(claim is claim:propeller) {
      if size(guess.supports) = 0 { rate 1; }
    }
    decline;
  }
  do {
    for guess in find hypothesis in claims {
      if size(guess.supports) = 0 { say guess.claim, guess.span, guess.belief; leave guess claims; }
    }
  }
}
