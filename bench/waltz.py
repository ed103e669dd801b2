#!/usr/bin/env python3
"""Labels line drawings, beside CLIPS (Debian's package `clips`) on the same drawings, and prints the seconds of both.

    bench/waltz.py crates/bb/out/bb [--runs N]

The drawings are those of `examples/known/drawings.py`, with the outline known: a cube, a block in the shape of an L,
and rows of cubes. The rules for CLIPS make the same filter: a labelling is dropped if the other end of one of its lines
has no labelling left that agrees. Both have to give the same labels, or the script fails. The seconds are of the
processor, for whole programs with what they read and write; the fastest of some runs counts.
"""

import argparse
import re
import resource
import shutil
import subprocess
import sys
import tempfile
from pathlib import Path

sys.dont_write_bytecode = True
sys.path.insert(0, str(Path(__file__).resolve().parent.parent / "examples/known"))
import drawings  # noqa: E402

DRAWINGS = [
    ("cube", drawings.cube()),
    ("block", drawings.block()),
    ("row of 10 cubes", drawings.row(10)),
    ("row of 50 cubes", drawings.row(50)),
    ("row of 200 cubes", drawings.row(200)),
]
LABEL = re.compile(r"^(?:say )?(\d+) (\d+) (plus|minus|away|towards)$", re.M)

# A claim is a label of one end of a line in one labelling of its junction. An end is named by its two points.
RULES = """
(deftemplate end (slot at) (slot to) (slot place))
(deftemplate junction (slot at) (slot kind))
(deftemplate entry (slot kind) (slot number) (multislot labels))
(deftemplate claim (slot at) (slot to) (slot number) (slot label))
(defrule propose (declare (salience 30))
  (junction (at ?at) (kind ?kind))
  (entry (kind ?kind) (number ?number) (labels $?labels))
  (end (at ?at) (to ?to) (place ?place))
  =>
  (assert (claim (at ?at) (to ?to) (number ?number) (label (nth$ ?place ?labels)))))
(defrule know (declare (salience 20))
  (given ?at ?to ?label)
  (claim (at ?at) (to ?to) (number ?number) (label ~?label))
  =>
  (assert (dropped ?at ?number)))
(defrule drop (declare (salience 10))
  (claim (at ?at) (to ?to) (number ?number) (label ?label))
  (opposite ?label ?other)
  (not (claim (at ?to) (to ?at) (label ?other)))
  =>
  (assert (dropped ?at ?number)))
(defrule sweep (declare (salience 25))
  (dropped ?at ?number)
  ?claim <- (claim (at ?at) (number ?number))
  =>
  (retract ?claim))
(defrule report
  (line ?one ?other)
  (claim (at ?one) (to ?other) (label ?label))
  =>
  (printout t ?one " " ?other " " ?label crlf))
"""


def facts(lines, known):
    """A drawing and the catalogue, for CLIPS."""
    numbers = drawings.numbered(lines)
    for kind, entries in drawings.CATALOGUE.items():
        for number, entry in enumerate(entries):
            yield f"(entry (kind {kind}) (number {number}) (labels {' '.join(entry)}))"
    for label, other in drawings.OPPOSITE.items():
        yield f"(opposite {label} {other})"
    for point, others in drawings.neighbours(lines).items():
        kind, order = drawings.junction(point, others)
        yield f"(junction (at {numbers[point]}) (kind {kind}))"
        for place, other in enumerate(order, 1):
            yield f"(end (at {numbers[point]}) (to {numbers[other]}) (place {place}))"
    for one, other in lines:
        yield f"(line {numbers[one]} {numbers[other]})"
    for one, other in known:
        yield f"(given {numbers[one]} {numbers[other]} {drawings.AWAY})"


def clips(folder, lines, known):
    """The command that runs CLIPS on a drawing."""
    (folder / "rules.clp").write_text(f"{RULES}(deffacts drawing\n" + "\n".join(facts(lines, known)) + ")\n")
    (folder / "run.bat").write_text(f'(load "{folder}/rules.clp")\n(reset)\n(run)\n(exit)\n')
    return ["clips", "-f2", str(folder / "run.bat")]


def processor():
    """The seconds of the processor that the programs that have ended took."""
    used = resource.getrusage(resource.RUSAGE_CHILDREN)
    return used.ru_utime + used.ru_stime


def fastest(command, given, runs):
    """The seconds of the fastest of some runs, and the labels that it gives."""
    took, answers = [], set()
    for _ in range(runs):
        begun = processor()
        ran = subprocess.run(command, input=given, capture_output=True, text=True)
        took.append(processor() - begun)
        if ran.returncode:
            sys.exit(f"bench/waltz.py: {command[0]} ends with status {ran.returncode}")
        answers.add(frozenset((int(one), int(other), label) for one, other, label in LABEL.findall(ran.stdout)))
    if len(answers) != 1:
        sys.exit(f"bench/waltz.py: the runs of {command[0]} differ")
    return min(took), answers.pop()


def main():
    parser = argparse.ArgumentParser(description=__doc__, formatter_class=argparse.RawDescriptionHelpFormatter)
    parser.add_argument("program", help="the built program, crates/bb/out/bb")
    parser.add_argument("--runs", type=int, default=3, help="the fastest of so many runs counts")
    given = parser.parse_args()
    is_there = shutil.which("clips") is not None
    if not is_there:
        print("bench/waltz.py: CLIPS is not installed (Debian's package clips): bb alone", file=sys.stderr)
    print("| Drawing | Lines | bb, seconds | CLIPS, seconds | Ratio |\n|---|---|---|---|---|")
    for title, lines in DRAWINGS:
        known = drawings.outline(lines)
        ours, answer = fastest([given.program], drawings.input_of(lines, known), given.runs)
        if not answer:
            sys.exit(f"bench/waltz.py: no labels of the {title}")
        theirs = None
        if is_there:
            with tempfile.TemporaryDirectory() as folder:
                theirs, other = fastest(clips(Path(folder), lines, known), "", given.runs)
            if answer != other:
                sys.exit(f"bench/waltz.py: {title}: the labels differ in {sorted(answer ^ other)[:5]}")
        beside = f"{theirs:.3f} | {ours / theirs:.2f}" if theirs else "|"
        print(f"| {title} | {len(lines)} | {ours:.3f} | {beside} |", flush=True)


if __name__ == "__main__":
    main()
