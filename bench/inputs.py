"""Inputs of growing size for growth.py: documents, units with their links and spaces, and bundles."""

# An input comes piece by piece: what a process held before it runs another counts as the other's memory.


def separated(pieces):
    between = ""
    for piece in pieces:
        yield between + piece
        between = ","


def units(name, count):
    yield '%schema\n{"classes":[{"name":"note"}]}\n%units\n{"units":['
    yield from separated('{"name":"%s","class":"note"}' % name(i) for i in range(count))
    yield "]}\n"


SLOTS = 64


def values(name, count):
    """Units of a class of 64 slots, each with a value for every eighth of them."""
    slots = ",".join('{"name":"s%d","kind":"int"}' % i for i in range(SLOTS))
    given = ",".join('"s%d":%d' % (i, i) for i in range(0, SLOTS, 8))
    yield '%%schema\n{"classes":[{"name":"note","slots":[%s]}]}\n%%units\n{"units":[' % slots
    yield from separated('{"name":"%s","class":"note","slots":{%s}}' % (name(i), given) for i in range(count))
    yield "]}\n"


def defaults(name, count):
    """Units of a class with as long a default text as there may be."""
    slot = '{"name":"text","kind":"text","default":"%s"}' % ("a" * 65_535)
    yield '%%schema\n{"classes":[{"name":"note","slots":[%s]}]}\n%%units\n{"units":[' % slot
    yield from separated('{"name":"%s","class":"note"}' % name(i) for i in range(count))
    yield "]}\n"


def values_of_no_slot(name, count):
    """One unit with values under so many names that no slot has."""
    yield '%schema\n{"classes":[{"name":"note"}]}\n%units\n{"units":[{"name":"a","class":"note","slots":{'
    yield from separated('"%s":0' % name(i) for i in range(count))
    yield "}}]}\n"


def classes(name, count):
    yield '%schema\n{"classes":['
    yield from separated('{"name":"%s"}' % name(i) for i in range(count))
    yield "]}\n"


LINKING_CLASSES = 255
LINKS_OF_A_CLASS = 59


def link(name, to, inverse):
    return '{"name":"%s","to":"%s","many":true,"inverse":"%s"}' % (name, to, inverse)


def inverses(name, count):
    """15,045 links to one class of so many slots, each with its inverse there. That class comes last."""
    yield '%schema\n{"classes":['
    for i in range(LINKING_CLASSES):
        there = separated(link("to_%d" % j, "all", "from_%d_%d" % (i, j)) for j in range(LINKS_OF_A_CLASS))
        yield '{"name":"c%d","links":[%s]},' % (i, "".join(there))
    yield '{"name":"all","slots":['
    yield from separated('{"name":"%s","kind":"int"}' % name(i) for i in range(count))
    yield '],"links":['
    yield from separated(
        link("from_%d_%d" % (i, j), "c%d" % i, "to_%d" % j)
        for i in range(LINKING_CLASSES)
        for j in range(LINKS_OF_A_CLASS)
    )
    yield "]}]}\n"


def keys(name, count):
    yield "%schema\n{"
    yield from separated('"%s":0' % name(i) for i in range(count))
    yield "}\n"


LINKED_CLASS = (
    '%schema\n{"classes":[{"name":"note","links":['
    '{"name":"next","to":"note","many":false,"inverse":"last"},{"name":"last","to":"note","many":false,"inverse":"next"},'
    '{"name":"parts","to":"note","many":true,"inverse":"whole"},{"name":"whole","to":"note","many":false,"inverse":"parts"}'
    "]}]}\n"
)


def linked(name, count, links):
    """Units of one class, and links between them, each by the numbers of its units."""
    yield LINKED_CLASS + '%units\n{"units":['
    yield from separated('{"name":"%s","class":"note"}' % name(i) for i in range(count))
    yield '],"links":['
    yield from separated('["%s","%s","%s"]' % (name(a), slot, name(b)) for a, slot, b in links)
    yield "]}\n"


def chain(name, count):
    """Each unit is linked to the next, one to one."""
    yield from linked(name, count, ((i, "next", i + 1) for i in range(count - 1)))


def hub(name, count):
    """One unit has all others as its parts."""
    yield from linked(name, count, ((0, "parts", i) for i in range(1, count)))


def moving(name, count):
    """One unit is linked to two others in turn, so many times: each link takes the one before it away."""
    yield from linked(name, 3, ((0, "next", 1 + i % 2) for i in range(count)))


def to_and_fro(name, count):
    """A fourth as many units, all parts of one hub, then all of another, then of the first again, and so on."""
    parts = count // 4
    yield from linked(name, parts + 2, ((i // parts % 2, "parts", 2 + i % parts) for i in range(count)))


SWEEP = """%%sources
source sweep on note { when create note; rate 1; do {
  with n = it as note { for part in n.parts { delete part; } }
} }
"""


def swept(name, count):
    """One unit has all others as its parts, and deletes them in one activation."""
    yield from hub(name, count)
    yield SWEEP % ()


OWNING_CLASSES = (
    '%schema\n{"classes":[{"name":"note","links":['
    '{"name":"parts","to":"note","many":true,"inverse":"whole","owns":true},'
    '{"name":"whole","to":"note","many":false,"inverse":"parts"}]},{"name":"first","parent":"note"}]}\n'
)

GIVE_UP = """%sources
source give_up on first { when create first; rate 1; do {
  with n = it as first { delete n; }
} }
"""


def owned(name, order, links):
    """Units in an order, of which number 0 is deleted in one activation, and links by which they own one another."""
    yield OWNING_CLASSES + '%units\n{"units":['
    yield from separated('{"name":"%s","class":"%s"}' % (name(i), "note" if i else "first") for i in order)
    yield '],"links":['
    yield from separated('["%s","parts","%s"]' % (name(a), name(b)) for a, b in links)
    yield "]}\n" + GIVE_UP


def owned_hub(name, count):
    """One unit owns all others."""
    yield from owned(name, range(count), ((0, i) for i in range(1, count)))


def owned_chain(name, count):
    """Each unit owns the next."""
    yield from owned(name, range(count), ((i, i + 1) for i in range(count - 1)))


def owned_backwards(name, count):
    """The same, each unit after its parts."""
    yield from owned(name, reversed(range(count)), ((i, i + 1) for i in range(count - 1)))


def placed(spaces, dims, name, count, pairs):
    """Units of one class with a number, and pairs of unit and space."""
    yield '%%schema\n{"classes":[{"name":"note","slots":[{"name":"at","kind":"int"}]}],"spaces":[%s]}\n' % ",".join(
        '{"name":"s%d","classes":["note"],"dims":[%s]}' % (i, dims) for i in range(spaces)
    )
    yield '%units\n{"units":['
    yield from separated('{"name":"%s","class":"note","slots":{"at":%d}}' % (name(i), i) for i in range(count))
    yield '],"spaces":['
    yield from separated('["%s","s%d"]' % (name(i), space) for i, space in pairs)
    yield "]}\n"


DIMENSION = '{"name":"at","kind":"ordered"}'


def members(name, count):
    """Each unit enters one space."""
    yield from placed(1, DIMENSION, name, count, ((i, 0) for i in range(count)))


def backwards(name, count):
    """The same, the last unit first."""
    yield from placed(1, DIMENSION, name, count, ((i, 0) for i in reversed(range(count))))


SPACES = 256


def everywhere(name, count):
    """So many pairs: each unit enters all spaces."""
    many = count // SPACES
    yield from placed(SPACES, DIMENSION, name, many, ((i, space) for i in range(many) for space in range(SPACES)))


CLEAR = """%sources
source clear on note { when create note; rate 1; do {
  with n = it as note { set n.at = n.at + 1; delete n; }
} }
"""


def cleared(name, count):
    """Each unit is in one of 256 spaces; an activation for each sets a slot of it and deletes it."""
    yield from placed(SPACES, DIMENSION, name, count, ((i, i % SPACES) for i in range(count)))
    yield CLEAR


OWN = """%sources
source once on note {
  when create note;
  rate 1;
  obviate on note when update note.at; { answer it = ev; }
  do { }
}
"""


def reacting(name, count):
    """Each unit has an activation, which the next event of the unit obviates, beside those of all units after it."""
    yield from placed(0, "", name, count, ())
    yield OWN


QUIET = "source quiet%d on word { when delete word; rate 1; do { } }\n"
WEIGH = """source weigh on focus { when create focus; rate 1; do {
  with f = it as focus { for w in find word in board { set f.weight = 1; } }
} }
"""


def weighed(name, count):
    """A focus whose area is as long a text as there may be, set once for each unit, beside 256 sources."""
    yield '%schema\n{"classes":[{"name":"word"}],"spaces":[{"name":"board","classes":["word"],"dims":[]}]}\n%units\n{"units":['
    yield '{"name":"f","class":"focus","slots":{"area":"%s"}},' % ("a" * 65_535)
    yield from separated('{"name":"%s","class":"word"}' % name(i) for i in range(count))
    yield '],"spaces":['
    yield from separated('["%s","board"]' % name(i) for i in range(count))
    yield "]}\n%sources\n" + "".join(QUIET % i for i in range(255)) + WEIGH


def objects(name, count):
    """A document of so many objects of one key."""
    yield '%schema\n{"classes":['
    yield from separated('{"a":0}' for _ in range(count))
    yield "]}\n"


# ---- bundles

NOTHING = "42424301" "01" "0000" "0000" "0000" "0000" "0001" "2e"
MOST_UNITS = 65_536


def noted(rest, count, **values):
    """Units of class `b`, beside class `a` and what more there is of classes."""
    yield '%%schema\n{"classes":[{"name":"a"},{"name":"b","slots":[{"name":"score","kind":"int"}]}%s]}\n' % rest
    given = ',"slots":{%s}' % ",".join('"%s":%d' % value for value in values.items()) if values else ""
    yield '%units\n{"units":['
    yield from separated('{"name":"u%d","class":"%s"%s}' % (i, "d" if rest else "b", given) for i in range(count))
    yield "]}\n%bundle\n"


def clauses(name, count):
    """One source with so many clauses of a class, and as many units of another class as can be live."""
    yield from noted("", MOST_UNITS)
    yield "source quiet a 1\n"
    for _ in range(count):
        yield "when create a\n"
    yield "do %s\n" % NOTHING


LISTED = 250


def listed(name, count):
    """Units of a class that none of 256 sources names, each of which names 250 others."""
    yield '%schema\n{"classes":[{"name":"a"},{"name":"b","parent":"a"}'
    yield "".join(',{"name":"d%d","parent":"a"}' % it for it in range(LISTED))
    yield ']}\n%units\n{"units":['
    yield from separated('{"name":"%s","class":"b"}' % name(it) for it in range(count))
    yield "]}\n%bundle\n"
    for number in range(256):
        yield "source s%d a 1\n" % number
        yield "".join("when create d%d\n" % it for it in range(LISTED))
        yield "do %s\n" % NOTHING


DEEPEST = 252


def deep(name, count):
    """Units of the deepest class, and 256 sources that none of them triggers."""
    between = ",".join(
        '{"name":"%s","parent":"%s"}' % ("d" if i == DEEPEST else "d%d" % i, "d%d" % (i - 1) if i else "b")
        for i in range(DEEPEST + 1)
    )
    yield from noted("," + between, count)
    for i in range(256):
        yield "source s%d a 1\nwhen create a\ndo %s\n" % (i, NOTHING)


def spaces(name, count):
    """A line of spaces."""
    yield '%schema\n{}\n%bundle\n'
    yield " " * count + "\n"


# 60 truth values on the stack, and 4,035 times `Not`: each place has a frame of 92 kinds.
WIDE_LOCALS, WIDE_STACK = 32, 60
WIDE = "42424301" + "%02x" % WIDE_LOCALS + "0000" * 4 + "%04x" % 4_096 + "0301" * WIDE_STACK + "15" * (4_095 - WIDE_STACK) + "2e"


def wide(name, count):
    """So many sources whose codes have wide frames; past 256 they are too many."""
    yield '%schema\n{"classes":[{"name":"a"}]}\n%bundle\n'
    for i in range(count):
        yield "source s%d a 1\nwhen create a\ndo %s\n" % (i, WIDE)


ANSWER_NO = "42424301" "02" "0000" "0000" "0000" "0000" "0002" "0300" "31"


def waiting(name, count):
    """So many activations of a source that waits below the floor, and as many events about which another is asked."""
    yield from noted("", count, score=1)
    yield "source low b -1\nwhen create b\ndo %s\n" % NOTHING
    yield "source asked b 1\nwhen delete b\nobviate b %s\nwhen update b.score\ndo %s\n" % (ANSWER_NO, NOTHING)
