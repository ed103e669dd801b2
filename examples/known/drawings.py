#!/usr/bin/env python3
"""Line drawings as inputs for the labelling of `waltz.bb`, and their labellings by exhaustive search.

    examples/known/drawings.py cube | block | row K [free] | ./bb

cube: a cube. block: a block in the shape of an L. row: K cubes in a row, each partly hidden by the one before it. The
outline is known to be a boundary, unless the word `free` follows. A drawing is points and lines; what sort of junction
a point is, and in which order its lines are, follows from that.
"""

import json
import math
import sys
from pathlib import Path

SOURCES = Path(__file__).resolve().parent / "waltz.bb"

# The labellings of the junctions of a drawing of polyhedra with three faces at each corner, without shadows:
# D. Huffman, Impossible Objects as Nonsense Sentences, 1971; M. Clowes, On Seeing Things, 1971. Lines are in
# counterclockwise order: those of an L around the side of less than 180 degrees, those of an arrow from barb to barb
# around the shaft, those of a T from the stem. A boundary has the nearer face on its right, and leads away from the
# junction or towards it.
PLUS, MINUS, AWAY, TOWARDS = "plus", "minus", "away", "towards"
CATALOGUE = {
    "ell": [
        (TOWARDS, AWAY),
        (AWAY, TOWARDS),
        (TOWARDS, MINUS),
        (MINUS, AWAY),
        (AWAY, PLUS),
        (PLUS, TOWARDS),
    ],
    "arrow": [(TOWARDS, PLUS, AWAY), (MINUS, PLUS, MINUS), (PLUS, MINUS, PLUS)],
    "fork": [
        (PLUS, PLUS, PLUS),
        (MINUS, MINUS, MINUS),
        (MINUS, AWAY, TOWARDS),
        (TOWARDS, MINUS, AWAY),
        (AWAY, TOWARDS, MINUS),
    ],
    "tee": [(stem, TOWARDS, AWAY) for stem in (PLUS, MINUS, AWAY, TOWARDS)],
}
SIGNS = (PLUS, MINUS, AWAY, TOWARDS)
OPPOSITE = {PLUS: PLUS, MINUS: MINUS, AWAY: TOWARDS, TOWARDS: AWAY}


def path(*points):
    """The lines from each of the points to the next."""
    return list(zip(points, points[1:]))


def cube():
    """The lines of a cube."""
    return row(1)


def block():
    """The lines of a block in the shape of an L."""
    front = [(0, 0), (8, 0), (8, 3), (3, 3), (3, 7), (0, 7)]
    back = [(x + 2, y + 2) for x, y in front]
    return path(*front, front[0]) + path(*back[1:]) + list(zip(front[1:], back[1:]))


def row(count):
    """The lines of some cubes in a row."""
    return [line for at in range(count) for line in cube_of_row(5 * at, at > 0, at < count - 1)]


def cube_of_row(x, is_hidden, hides):
    """The lines of a cube seen from above and from the right, with its left edge at x."""
    corner, far = (x + 4, 4), (x + 6, 6)
    front = path((x, 0), (x + 4, 0), corner)
    below, beside = ([(x + 5, 1)], [(x + 6, 4), (x + 6, 5)]) if hides else ([], [])
    right = path((x + 4, 0), *below, (x + 6, 2), *beside, far)
    top = path(far, (x + 2, 6)) + [(corner, far)]
    if is_hidden:
        return front + right + top + [((x, 0), (x, 1)), (corner, (x + 1, 4)), ((x + 1, 5), (x + 2, 6))]
    return front + right + top + path((x, 0), (x, 4), corner) + [((x, 4), (x + 2, 6))]


def angle(point, other):
    """The direction of another point, in degrees."""
    return math.degrees(math.atan2(other[1] - point[1], other[0] - point[0])) % 360


def neighbours(lines):
    """The points of a drawing, each with those that it has lines to."""
    found = {}
    for one, other in lines:
        found.setdefault(one, []).append(other)
        found.setdefault(other, []).append(one)
    return found


def junction(point, others):
    """What sort of junction a point is, and the other ends of its lines in the order of the catalogue."""
    others = sorted(others, key=lambda it: angle(point, it))
    gaps = [(angle(point, after) - angle(point, it)) % 360 for it, after in zip(others, others[1:] + others[:1])]
    straight = [at for at, gap in enumerate(gaps) if abs(gap - 180) < 1e-6]
    wide = [at for at, gap in enumerate(gaps) if gap > 180]
    if len(others) == 3 and straight:
        kind, first = "tee", straight[0] - 1
    elif len(others) == 3:
        kind, first = ("arrow", wide[0] + 1) if wide else ("fork", 0)
    else:
        kind, first = "ell", wide[0] + 1
    return kind, [others[(first + at) % len(others)] for at in range(len(others))]


def outline(lines):
    """The lines around a drawing, clockwise: what is drawn is on their right."""
    joined = neighbours(lines)
    start = min(joined)
    walk, at, back = [], start, 180
    while not walk or at != start:
        after = min(joined[at], key=lambda it: (back - angle(at, it)) % 360 or 360)
        walk.append((at, after))
        at, back = after, angle(after, at)
    return walk


def labellings(lines, known):
    """Each labelling of a drawing, by lines from one point to another, that agrees with the labels that are known."""
    junctions = {point: junction(point, others) for point, others in neighbours(lines).items()}

    def fitting(point, labels):
        kind, others = junctions[point]
        entries = [dict(zip(others, entry)) for entry in CATALOGUE[kind]]
        return [it for it in entries if all(labels.get((point, to), label) == label for to, label in it.items())]

    def extended(left, labels):
        if not left:
            yield labels
            return
        point, *rest = left
        for entry in fitting(point, labels):
            more = {line: label for to, label in entry.items() for line, label in both_ways(point, to, label)}
            yield from extended(rest, labels | more)

    given = {line: label for one, other in known for line, label in both_ways(one, other, AWAY)}
    yield from extended(in_reach([one for one, _ in known] or [min(junctions)], junctions), given)


def numbered(lines):
    """The points of a drawing, each with its number."""
    return {point: at for at, point in enumerate(neighbours(lines), 1)}


def labels(lines, known):
    """Each line with each label that it has in some labelling of the whole drawing."""
    numbers = numbered(lines)
    return {(numbers[one], numbers[to], it[one, to]) for it in labellings(lines, known) for one, to in lines}


def in_reach(points, junctions):
    """These points, and after them the others, nearest first."""
    found = list(points)
    for point in found:
        found += [it for it in junctions[point][1] if it not in found]
    return found


def both_ways(one, other, label):
    """A line's label as seen from each of its ends."""
    return [((one, other), label), ((other, one), OPPOSITE[label])]


def entries_of_catalogue():
    """The catalogue as units."""
    for kind, entries in CATALOGUE.items():
        for at, entry in enumerate(entries, 1):
            slots = {"kind": kind} | dict(zip(("first", "second", "third"), entry))
            yield {"name": f"{kind} {at}", "class": "entry", "slots": slots}


def document(lines, known):
    """The initial units of a drawing, as the document of an input."""
    joined = neighbours(lines)
    numbers = numbered(lines)
    units = [{"name": "page", "class": "page"}]
    units += [{"name": it, "class": "sign", "slots": {"label": it}} for it in SIGNS] + list(entries_of_catalogue())
    homes = {"page": "pages", "sign": "signs", "entry": "catalogue"}
    spaces = [[it["name"], homes[it["class"]]] for it in units]
    links = []
    for point, others in joined.items():
        kind, order = junction(point, others)
        units.append({"name": f"junction {numbers[point]}", "class": "junction", "slots": {"kind": kind}})
        for place, other in enumerate(order, 1):
            name = f"{numbers[point]} to {numbers[other]}"
            units.append({"name": name, "class": "end", "slots": {"place": place}})
            links.append([f"junction {numbers[point]}", "ends", name])
    for one, other in lines:
        a, b = numbers[one], numbers[other]
        name = f"line {a} {b}"
        units.append({"name": name, "class": "line", "slots": {"from": a, "to": b}})
        links += [[name, "ends", f"{a} to {b}"], [name, "ends", f"{b} to {a}"]]
        spaces.append([name, "drawing"])
    for one, other in known:
        a, b = numbers[one], numbers[other]
        units.append({"name": f"given {a} {b}", "class": "given", "slots": {"label": AWAY}})
        links.append([f"given {a} {b}", "end", f"{a} to {b}"])
    return {"units": units, "links": links, "spaces": spaces}


def text_of(given):
    """A document with one entry a line."""
    rows = [f'"{key}": [\n{rows_of(entries)}\n]' for key, entries in given.items()]
    return "{" + ", ".join(rows) + "}\n"


def rows_of(entries):
    """Entries of a document, one a line."""
    return ",\n".join(f"  {json.dumps(it)}" for it in entries)


def input_of(lines, known):
    """The input for a drawing: `waltz.bb` with other initial units."""
    head, _, rest = SOURCES.read_text().partition("%units\n")
    _, _, sources = rest.partition("%sources\n")
    return f"{head}%units\n{text_of(document(lines, known))}%sources\n{sources}"


def main():
    words = sys.argv[1:]
    is_free = words[-1:] == ["free"]
    words = words[: len(words) - is_free]
    if words in (["cube"], ["block"]):
        lines = {"cube": cube, "block": block}[words[0]]()
    elif len(words) == 2 and words[0] == "row" and words[1].isdigit() and int(words[1]):
        lines = row(int(words[1]))
    else:
        sys.exit(__doc__)
    print(input_of(lines, [] if is_free else outline(lines)), end="")


if __name__ == "__main__":
    main()
