"""What a corner of a polyhedron can look like: `check` compares it with the catalogue of `drawings.py`.

Three planes meet at the corner and make eight octants, each solid or empty. The eye is in an empty one, which is +++
after a turn of the corner, so each way to fill the other seven gives at most one junction. A T is not a corner: a line
ends there behind a face, and can have any label.
"""

from itertools import product

from drawings import AWAY, MINUS, PLUS, TOWARDS

OCTANTS = list(product((1, -1), repeat=3))
# The half axes counterclockwise as the eye sees them, each by its axis and its sign. Opposite ones are three apart.
AROUND = [(0, 1), (2, -1), (1, 1), (0, -1), (2, 1), (1, -1)]


def derived():
    """The labellings of L, arrow and fork, lines in the order of the catalogue."""
    found = {"ell": set(), "arrow": set(), "fork": set()}
    for filled in product((False, True), repeat=7):
        solid = {octant for octant, is_solid in zip(OCTANTS[1:], filled) if is_solid}
        if has_three_edges(solid):
            for kind, labels in looks(seen_lines(solid)):
                found[kind].add(labels)
    return found


def beside(half):
    """The four octants around a half axis."""
    axis, sign = half
    return [octant for octant in OCTANTS if octant[axis] == sign]


def has_three_edges(solid):
    """Whether the solid octants make a corner with one edge on each axis."""
    count = {half: len(solid.intersection(beside(half))) for half in AROUND}
    axes = [axis for axis, sign in AROUND if count[axis, sign] in (1, 3)]
    return sorted(axes) == [0, 1, 2] and not any(touches(half, solid) for half in AROUND)


def touches(half, solid):
    """Whether just two opposite octants around a half axis are solid."""
    axis, _ = half
    two = [octant for octant in beside(half) if octant in solid]
    return len(two) == 2 and all(two[0][it] != two[1][it] for it in range(3) if it != axis)


def seen_plane(order, solid):
    """The plane of the face that is seen where a line of sight crosses the planes in this order, or None."""
    octant = [1, 1, 1]
    for axis in order:
        octant[axis] = -1
        if tuple(octant) in solid:
            return axis
    return None


def seen_lines(solid):
    """The lines that are seen, by their places among the half axes, with their labels."""
    faces = [seen_plane(sector(place), solid) for place in range(6)]
    lines = []
    for place, half in enumerate(AROUND):
        right, left = faces[place - 1], faces[place]
        if right != left:
            lines.append((place, label(half, left, right, solid)))
    return lines


def sector(place):
    """The planes that a line of sight between a half axis and the next crosses, that of the lowest coordinate first."""
    (axis, sign), (other, _) = AROUND[place], AROUND[(place + 1) % 6]
    first, last = (other, axis) if sign > 0 else (axis, other)
    return [first, 3 - first - last, last]


def label(half, left, right, solid):
    """The label of a line whose faces to the left and right, as one leaves the corner, are in these planes."""
    is_left, is_right = (face not in (None, half[0]) for face in (left, right))
    if is_left and is_right:
        return PLUS if len(solid.intersection(beside(half))) == 1 else MINUS
    assert is_left or is_right
    return AWAY if is_right else TOWARDS


def looks(lines):
    """The kind of a junction with its labels in the order of the catalogue; a fork may begin with any line."""
    gaps = [(after - place) % 6 for (place, _), (after, _) in zip(lines, lines[1:] + lines[:1])]
    labels = [it for _, it in lines]
    wide = [at for at, gap in enumerate(gaps) if gap > 3]
    if len(lines) == 2 or len(lines) == 3 and wide:
        first = wide[0] + 1
        yield "ell" if len(lines) == 2 else "arrow", tuple(labels[first:] + labels[:first])
    elif len(lines) == 3:
        for first in range(3):
            yield "fork", tuple(labels[first:] + labels[:first])
