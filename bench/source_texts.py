"""Source texts of growing size, up to the 16 MiB of an input, for growth.py: the worst of each kind for whoever reads,
compiles or places them."""

from itertools import chain, repeat

SCHEMA = '%schema\n{"classes":[{"name":"note","slots":[{"name":"score","kind":"int"}]}]}\n%sources\n'
# A part may have 4,096 ops, and `say 1;` has two of them.
SAYS = 2_000
# How many brackets may be open inside a part, whose own and whose source's are open too.
BRACKETS = 62


def source(number, statements):
    yield "source s%d on note {\n  when create note;\n  rate 1;\n  do {\n" % number
    yield from statements
    yield "  }\n}\n"


def text(statements):
    """A text of one source."""
    yield SCHEMA
    yield from source(0, statements)


def brackets(name, count):
    """So many statements, each as deep in brackets as can be. They are too many ops for one part."""
    yield from text(repeat("say %s1%s;\n" % ("(" * BRACKETS, ")" * BRACKETS), count))


def terms(name, count):
    """A sum of so many terms, in one line."""
    yield from text(chain(["say 1"], repeat("+1", count), [";\n"]))


def blocks(name, count):
    """Blocks in blocks, as deep as can be, so many times."""
    yield from text(repeat("if true { " * BRACKETS + "say 1; " + "} " * BRACKETS + "\n", count))


def comment(name, count):
    """One comment of so many characters, of three bytes each, and a fault behind it."""
    yield from text(chain(["// "], repeat("\u20ac", count), ["\n oops"]))


def line_feeds(name, count):
    """So many empty lines, and a fault behind them."""
    yield from text(chain(repeat("\n", count), ["oops"]))


def open_text(name, count):
    """A text constant of so many characters that does not end."""
    yield from text(chain(['say "'], repeat("a", count)))


def long_name(name, count):
    """A name of so many letters."""
    yield from text(chain(["let "], repeat("a", count), [" = 1;\n"]))


def names(name, count):
    """So many names, of which 32 at most are in scope."""
    yield from text("if true { let %s = 1; say %s; }\n" % (name(i), name(i)) for i in range(count))


def texts(name, count):
    """So many text constants that differ, too many for one part."""
    yield from text('say "%d";\n' % i for i in range(count))


def clauses(name, count):
    """One source with so many triggers."""
    yield SCHEMA
    yield "source s0 on note {\n"
    yield from repeat("when update note.score;\n", count)
    yield "rate 1; do { } }\n"


def sources(name, count):
    """256 sources, each with so many statements as one part can have, in brackets."""
    depth = max(count // SAYS // 2, 1)
    line = "say %s1%s;\n" % ("(" * depth, ")" * depth)
    yield SCHEMA
    for number in range(256):
        yield from source(number, repeat(line, SAYS))


def more_sources(name, count):
    """So many sources, more than the 256 that there may be."""
    yield SCHEMA
    for number in range(count):
        yield from source(number, [])


def patterns(name, count):
    """So many patterns of 64 nodes, each of another query, too many for one part."""
    schema = '{"classes":[{"name":"note","slots":[{"name":"score","kind":"int"}]}],"spaces":[{"name":"desk",' \
        '"classes":["note"],"dims":[{"name":"score","kind":"ordered"}]}]}'
    yield "%%schema\n%s\n%%sources\n" % schema
    nodes = ",".join("score within [%d, 7]" for _ in range(63))
    yield from source(0, ("say size(find note in desk where and(%s));\n" % (nodes % ((i,) * 63)) for i in range(count)))


def kinds(short):
    """A title, the unit that is counted, how an input is made, which names it has, from how many to how many."""
    plain = [("short", short)]
    return [
        ("Texts: statements deep in brackets", "statements", brackets, plain, 3_750, 120_000),
        ("Texts: a sum in one line", "terms", terms, plain, 250_000, 8_000_000),
        ("Texts: blocks in blocks", "nests", blocks, plain, 625, 20_000),
        ("Texts: a comment before a fault", "characters", comment, plain, 160_000, 5_120_000),
        ("Texts: empty lines before a fault", "lines", line_feeds, plain, 500_000, 16_000_000),
        ("Texts: a constant without end", "characters", open_text, plain, 500_000, 16_000_000),
        ("Texts: a name too long", "letters", long_name, plain, 500_000, 16_000_000),
        ("Texts: names in blocks", "names", names, plain, 12_500, 400_000),
        ("Texts: constants that differ", "constants", texts, plain, 30_000, 960_000),
        ("Texts: triggers of one source", "triggers", clauses, plain, 20_000, 640_000),
        ("Texts: 256 sources", "brackets", sources, plain, 8_000, 32_000),
        ("Texts: sources past the 256th", "sources", more_sources, plain, 6_000, 192_000),
        ("Texts: patterns of 64 nodes", "patterns", patterns, plain, 300, 9_600),
    ]
