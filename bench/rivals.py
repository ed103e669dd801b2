#!/usr/bin/env python3
"""Runs the program beside what a user would pick in its place, whole programs both, and prints what each took.

    bench/rivals.py crates/bb/out/bb [--runs N] [--only WORD]

fire: notes, one source that says a line of each, beside CLIPS (Debian's package `clips`). chain: an activation makes the
next unit, again and again, beside CLIPS. retrieve: queries with some hits each in a space of two dimensions, beside a
plain program over Rust's ordered map (`rustc`), which reads the units from the same input. steer: a focus that comes and goes with each cycle, beside activations
that wait; alone. The figures are the fastest of some runs. The trace goes nowhere, as does what the others print.
"""

import argparse
import json
import shutil
import subprocess
import sys
import tempfile
import time
from pathlib import Path

NOTE = {"name": "note"}


def joined(schema, units, sources):
    """An input of the program."""
    parts = ["%schema", json.dumps(schema), "%units", json.dumps({"units": units}), "%sources", sources]
    return "\n".join(parts) + "\n"


# ---- fire

HAIL = 'source hail on note { when create note; rate 1; do { say "hello"; } }'


def fire(count):
    units = [{"name": "n%d" % i, "class": "note"} for i in range(count)]
    return joined({"classes": [NOTE]}, units, HAIL)


def fire_in_clips(count):
    facts = "".join("(note (number %d))" % i for i in range(count))
    return '(deftemplate note (slot number))\n(deffacts notes %s)\n' \
        '(defrule hail (note (number ?n)) => (printout t "hello" crlf))\n' % facts


# ---- chain

NEXT = """source next on step { when create step; rate 1; do {
  with s = it as step { if s.at < %d { new t: step; set t.at = s.at + 1; } delete s; }
} }"""


def chain(count):
    step = {"name": "step", "slots": [{"name": "at", "kind": "int", "default": 1}]}
    return joined({"classes": [step]}, [{"name": "first", "class": "step"}], NEXT % count)


def chain_in_clips(count):
    return "(deftemplate step (slot at))\n(deffacts first (step (at 1)))\n" \
        "(defrule next ?s <- (step (at ?n)) => (if (< ?n %d) then (assert (step (at (+ ?n 1))))) (retract ?s))\n" % count


# ---- retrieve

SPACE = {
    "classes": [
        {"name": "asker", "slots": [{"name": "at", "kind": "int"}, {"name": "seen", "kind": "int"}]},
        {"name": "box", "slots": [{"name": "x", "kind": "int"}, {"name": "y", "kind": "int"}]},
    ],
    "spaces": [
        {
            "name": "yard",
            "classes": ["box"],
            "dims": [{"name": "x", "kind": "ordered"}, {"name": "y", "kind": "ordered"}],
        }
    ],
}
# Ten boxes of each row are asked for at a time.
HITS = 10
SIDE = 256
ASK = """source ask on asker { when create asker; when update asker.at; rate 1; do {
  with a = it as asker {
    set a.seen = a.seen + size(find box in yard where and(x within [a.at %% 246, a.at %% 246 + 9], y within [a.at %% 256, a.at %% 256]));
    if a.at < %d { set a.at = a.at + 1; } else { say a.seen; }
  }
} }"""


def retrieve(count):
    boxes = [
        {"name": "b%d" % i, "class": "box", "slots": {"x": i % SIDE, "y": i // SIDE}} for i in range(SIDE * SIDE - 1)
    ]
    units = [*boxes, {"name": "asker", "class": "asker"}]
    spaces = [[it["name"], "yard"] for it in boxes]
    text = json.dumps({"units": units, "spaces": spaces})
    return "\n".join(["%schema", json.dumps(SPACE), "%units", text, "%sources", ASK % (count - 1)]) + "\n"


PLAIN = r"""
use std::collections::BTreeMap;
use std::io::Read;

enum Json {
    Number(i64),
    Text(String),
    List(Vec<Json>),
    Object(BTreeMap<String, Json>),
}

impl Json {
    fn list(&self) -> &[Json] {
        if let Json::List(list) = self { list } else { &[] }
    }

    fn get(&self, key: &str) -> Option<&Json> {
        if let Json::Object(members) = self { members.get(key) } else { None }
    }

    fn number(&self) -> Option<i64> {
        if let Json::Number(number) = self { Some(*number) } else { None }
    }

    fn is(&self, text: &str) -> bool {
        if let Json::Text(found) = self { found == text } else { false }
    }
}

struct Reader<'a> {
    bytes: &'a [u8],
    at: usize,
}

impl Reader<'_> {
    fn next(&mut self) -> u8 {
        while self.bytes[self.at].is_ascii_whitespace() {
            self.at += 1;
        }
        self.bytes[self.at]
    }

    fn take(&mut self, byte: u8) -> bool {
        let is_there = self.next() == byte;
        self.at += is_there as usize;
        is_there
    }

    fn text(&mut self) -> String {
        assert!(self.take(b'"'));
        let from = self.at;
        while self.bytes[self.at] != b'"' {
            assert_ne!(self.bytes[self.at], b'\\');
            self.at += 1;
        }
        self.at += 1;
        String::from_utf8(self.bytes[from..self.at - 1].to_vec()).unwrap()
    }

    fn value(&mut self) -> Json {
        match self.next() {
            b'"' => Json::Text(self.text()),
            b'[' => {
                self.at += 1;
                let mut list = Vec::new();
                while !self.take(b']') {
                    list.push(self.value());
                    self.take(b',');
                }
                Json::List(list)
            }
            b'{' => {
                self.at += 1;
                let mut members = BTreeMap::new();
                while !self.take(b'}') {
                    let key = self.text();
                    assert!(self.take(b':'));
                    members.insert(key, self.value());
                    self.take(b',');
                }
                Json::Object(members)
            }
            _ => {
                let from = self.at;
                while matches!(self.bytes[self.at], b'-' | b'0'..=b'9') {
                    self.at += 1;
                }
                Json::Number(std::str::from_utf8(&self.bytes[from..self.at]).unwrap().parse().unwrap())
            }
        }
    }
}

fn main() {
    let mut input = String::new();
    std::io::stdin().read_to_string(&mut input).unwrap();
    let from = input.find("%units\n").unwrap() + 7;
    let to = input.find("\n%sources").unwrap() + 1;
    let document = Reader { bytes: input[from..to].as_bytes(), at: 0 }.value();
    let mut by_x: BTreeMap<i64, Vec<(i64, u32)>> = BTreeMap::new();
    for (unit, entry) in document.get("units").unwrap().list().iter().enumerate() {
        if entry.get("class").unwrap().is("box") {
            let slots = entry.get("slots").unwrap();
            let (x, y) = (slots.get("x").unwrap().number().unwrap(), slots.get("y").unwrap().number().unwrap());
            by_x.entry(x).or_default().push((y, unit as u32));
        }
    }
    let mut seen = 0;
    for at in 0..COUNT {
        let (low, y) = (at % 246, at % 256);
        let hits: Vec<u32> = by_x
            .range(low..=low + 9)
            .flat_map(|(_, all)| all.iter().filter(|it| it.0 == y).map(|it| it.1))
            .collect();
        seen += hits.len();
    }
    println!("{seen}");
}
"""


# ---- steer

STEER = """source tick on clock { when create clock; when update clock.ticks; rate 9; do {
  with c = it as clock {
    for f in find focus in foci { delete f; }
    if c.ticks < %d { new f: focus; set f.source = "hail"; set f.weight = 1; enter f foci; set c.ticks = c.ticks + 1; }
  }
} }
source hail on note { when create note; rate 0 - 1; do { } }"""


def steer(count):
    clock = {"name": "clock", "slots": [{"name": "ticks", "kind": "int"}]}
    schema = {"classes": [NOTE, clock], "spaces": [{"name": "foci", "classes": ["focus"], "dims": []}]}
    units = [{"name": "n%d" % i, "class": "note"} for i in range(10_000)] + [{"name": "clock", "class": "clock"}]
    return joined(schema, units, STEER.replace("0 - 1", "-2") % (count - 1))


# ---- runs


def fastest(command, text, runs):
    """The seconds of the fastest of some runs."""
    took = []
    for _ in range(runs):
        with tempfile.TemporaryFile("w+") as stdin, tempfile.TemporaryFile() as stdout:
            stdin.write(text)
            stdin.seek(0)
            begun = time.perf_counter()
            ran = subprocess.run(command, stdin=stdin, stdout=stdout)
            took.append(time.perf_counter() - begun)
            if ran.returncode:
                raise SystemExit(f"{command[0]} answers {ran.returncode}")
    return min(took)


def clips(folder, text):
    (folder / "rules.clp").write_text(text)
    (folder / "run.bat").write_text(f'(load "{folder}/rules.clp")\n(reset)\n(run)\n(exit)\n')
    return ["clips", "-f2", str(folder / "run.bat")]


def plain(folder, count):
    (folder / "plain.rs").write_text(PLAIN.replace("COUNT", str(count)))
    subprocess.run(["rustc", "-O", "-o", folder / "plain", folder / "plain.rs"], check=True, cwd=folder)
    return [str(folder / "plain")]


# A title, how many, the program's input, and the rival with its command.
RACES = [
    ("fire", 60_000, fire, "CLIPS", lambda folder, count: clips(folder, fire_in_clips(count))),
    ("fire", 65_536, fire, "CLIPS", lambda folder, count: clips(folder, fire_in_clips(count))),
    ("chain", 1_000_000, chain, "CLIPS", lambda folder, count: clips(folder, chain_in_clips(count))),
    ("retrieve", 10_000, retrieve, "ordered map", plain),
    ("steer", 10_000, steer, None, None),
]
NEEDED = {"CLIPS": "clips", "ordered map": "rustc"}


def main():
    parser = argparse.ArgumentParser(description=__doc__, formatter_class=argparse.RawDescriptionHelpFormatter)
    parser.add_argument("program", help="the built program, crates/bb/out/bb")
    parser.add_argument("--runs", type=int, default=3, help="the fastest of so many runs counts")
    parser.add_argument("--only", default="", help="the races of this name")
    given = parser.parse_args()
    print("| Race | Number | bb, seconds | Beside | Seconds | Ratio |\n|---|---|---|---|---|---|")
    for title, count, make, rival, command in RACES:
        if given.only not in title:
            continue
        ours = fastest([given.program], make(count), given.runs)
        if rival is None or not shutil.which(NEEDED[rival]):
            print("| %s | %d | %.2f | %s | | |" % (title, count, ours, rival or ""), flush=True)
            continue
        with tempfile.TemporaryDirectory() as room:
            # The plain program reads the same input; CLIPS has its own.
            theirs = fastest(command(Path(room), count), make(count) if rival == "ordered map" else "", given.runs)
        print("| %s | %d | %.2f | %s | %.2f | %.1f |" % (title, count, ours, rival, theirs, ours / theirs), flush=True)


if __name__ == "__main__":
    sys.exit(main())
