"""Tests of what the server tells of names and words: hover, definitions, references, renames, the outline.

What is expected follows from the input (inputs.py) and from docs/users: each span is a piece of that text.
"""

from client import URI, Client, Error, of, place, span
from inputs import GARDEN

BOUNDS = "bounds: from -9223372036854775808 to 9223372036854775807"

# Where one points, what is told, and of which word.
HOVERS = [
    ("here.wa^ter +", "here.<<water>> +", f"slot water of class bed\nkind: int\n{BOUNDS}\ndefault: 0\ndimension of garden"),
    ("+ here.si^ze", "+ here.<<size>>", f"slot size of class thing\nkind: int\n{BOUNDS}\ndefault: 3"),
    ("if task.o^n", "if task.<<on>>", "slot on of class job\nkind: bool\nbounds: true or false\ndefault: false"),
    ("say each.no^te", "say each.<<note>>", 'slot note of class job\nkind: text\nbounds: at most 65,535 bytes\ndefault: "none"'),
    (
        "set here.st^ate",
        "set here.<<state>>",
        'slot state of class bed\nkind: label of state\nbounds: open, done\ndefault: "done"\ndimension of marked',
    ),
    ("link here.jo^bs", "link here.<<jobs>>", "link slot jobs of class bed\nkind: link to many job, which it owns\ninverse: at"),
    ("= each.a^t", "= each.<<at>>", "link slot at of class job\nkind: link to one bed\ninverse: jobs"),
    ("set steer.so^urce", "set steer.<<source>>", 'slot source of class focus\nkind: text\nbounds: at most 65,535 bytes\ndefault: ""'),
    (
        "= it as b^ed",
        "= it as <<bed>>",
        "class bed, below thing\n  size: int, default 3, of thing\n  water: int, default 0\n"
        '  state: label of state, default "done"\n  jobs: link to many job, which it owns\nspaces: garden, marked',
    ),
    ("find th^ing", "find <<thing>>", "class thing\n  size: int, default 3\nspaces: none admits it"),
    ("in gar^den where", "in <<garden>> where", "space garden\nclasses: bed, job\ndimensions:\n  water: ordered"),
    ("back mar^ked", "back <<marked>>", "space marked\nclasses: bed\ndimensions:\n  state: label of state"),
    (
        "and(wat^er",
        "and(<<water>>",
        "dimension water of space garden\nkind: ordered\nreads\n  bed.water: int\n  job.water: interval",
    ),
    ("is sta^te:done", "is <<state>>:done", "label set state\nlabels: open, done"),
    ("state:op^en;", "state:<<open>>;", "label open of state\nlabels: open, done"),
    ("with he^re", "with <<here>>", "here\nclass bed"),
    ("let lev^el", "let <<level>>", "level\na number"),
    ('"on", le^vel', '"on", <<level>>', "level\na number"),
    ("for ot^her", "for <<other>>", "other\nclass thing"),
    ("for ea^ch", "for <<each>>", "each\nclass job"),
    ("enter ba^ck", "enter <<back>>", "back\nclass bed"),
    ("new ta^sk", "new <<task>>", "task\nclass job"),
    ('["^a", "jobs"', '["<<a>>", "jobs"', "unit a, number 1\nclass bed"),
    ('"j", "gar^den"]', '"j", "<<garden>>"]', "space garden\nclasses: bed, job\ndimensions:\n  water: ordered"),
    ("source ta^lly", "source <<tally>>", "source tally on rain\nparts: native"),
    ("source cr^op", "source <<crop>>", "source crop on job\nparts: do"),
    ("i^t as bed", "<<it>> as bed", "it\nit is the activation's unit.\nclass bed"),
    ("it = e^v;", "it = <<ev>>;", "ev\nthe event's unit\nclass thing"),
    ("when li^nk", "when <<link>>", "link C.S\na partner is added to its link slot, or removed; both units of a link have their event"),
    (
        "li^nk here.jobs",
        "<<link>> here.jobs",
        "link u.s v;\nlinks u to v, a unit of the slot's class or below; replaces the link of a singular end; does nothing if they are linked",
    ),
    ("water wit^hin", "water <<within>>", "d within E: a <= lo and hi <= b\nof a unit at [lo, hi] and E, an interval [a, b]"),
    ("rate 10^;", None, None),
    ("// Be^ds", None, None),
    ('"o^n", level', None, None),
    ("%sou^rces", "<<%sources>>", "%sources\nsources as text"),
]

# Where one points, and the entry that declares it.
ENTRIES = [
    ("here.wa^ter +", '"bed", "parent": "thing",\n              "slots": [{"name": "<<water>>"'),
    ("+ here.si^ze", '"<<size>>", "kind"'),
    ("link here.jo^bs", '"links": [{"name": "<<jobs>>"'),
    ('"inverse": "jo^bs"', '"links": [{"name": "<<jobs>>"'),
    ("= it as b^ed", '{"name": "<<bed>>", "parent"'),
    ('"class": "be^d"', '{"name": "<<bed>>", "parent"'),
    ("crop jo^b 4", '{"name": "<<job>>",'),
    ("job gar^den\n", '{"name": "<<garden>>"'),
    ("and(wat^er", '"dims": [{"name": "<<water>>"'),
    ("is sta^te:done", '"labels": [{"name": "<<state>>"'),
    ("state:do^ne", '"<<done>>"]}]'),
    ('"jobs", "^j"]', '{"name": "<<j>>"'),
    ('steer.source = "wa^nt"', "source <<want>> on"),
    ('"source": "wa^nt"', "source <<want>> on"),
    ('steer.area = "be^d"', '{"name": "<<bed>>", "parent"'),
    ('"on", le^vel', "let <<level>>"),
    ("say be^d.water", "for <<bed>> in find bed in marked"),
    ("task: jo^b;", '{"name": "<<job>>",'),
]
NO_ENTRIES = ["new steer: foc^us", "set steer.so^urce", "i^t as bed", "r^ate 10", "// Be^ds"]

# A name, its new one, and all places of the old one.
RENAMES = [
    (
        "class",
        "new task: j^ob",
        "duty",
        ['"to": "<<job>>"', '{"name": "<<job>>",', '"bed", "<<job>>"]', '"j", "class": "<<job>>"', "task: <<job>>;", "crop <<job>> 4", "enter <<job>> garden", "update <<job>>.on"],
    ),
    (
        "slot that a dimension reads, with the other one that it reads",
        "here.wa^ter +",
        "wet",
        [
            '"slots": [{"name": "<<water>>", "kind": "int"',
            '"slots": [{"name": "<<water>>", "kind": "interval"',
            '"dims": [{"name": "<<water>>"',
            '{"<<water>>": 2',
            "update bed.<<water>>",
            "here.<<water>> +",
            "and(<<water>> within",
            "say bed.<<water>>",
        ],
    ),
    (
        "slot of a parent, whose name is reserved",
        "say other.si^ze",
        "width",
        ['"<<size>>", "kind"', '"<<size>>": 1', "here.<<size>>;", "other.<<size>>"],
    ),
    (
        "slot of a name like a reserved word, in the bundle too",
        "if task.o^n",
        "begun",
        ['"name": "<<on>>"', "if task.<<on>>", "update job.<<on>>"],
    ),
    (
        "link slot",
        "in here.jo^bs",
        "tasks",
        ['"links": [{"name": "<<jobs>>"', '"inverse": "<<jobs>>"', '["a", "<<jobs>>"', "when link bed.<<jobs>>", "link here.<<jobs>> task", "in here.<<jobs>>"],
    ),
    (
        "space",
        "in gar^den where",
        "yard",
        ['{"name": "<<garden>>"', '["a", "<<garden>>"]', '["j", "<<garden>>"]', "enter bed <<garden>>", "in <<garden>> where", "enter job <<garden>>"],
    ),
    (
        "source",
        "source wa^nt",
        "wish",
        ['"source": "<<want>>"', "source <<want>> on", 'source = "<<want>>"'],
    ),
    (
        "class that a focus names",
        '{"name": "b^ed", "parent"',
        "plot",
        [
            '{"name": "<<bed>>", "parent"',
            '"to": "<<bed>>"',
            '["<<bed>>", "job"]',
            '["<<bed>>"], "dims"',
            '"a", "class": "<<bed>>"',
            '"area": "<<bed>>"',
            "source want on <<bed>>",
            "when update <<bed>>.water",
            "when link <<bed>>.jobs",
            "when enter <<bed>> garden",
            "when update <<bed>>.state",
            "it as <<bed>>",
            "find <<bed>> in marked",
            'area = "<<bed>>"',
        ],
    ),
    (
        "label",
        "state:op^en",
        "new_one",
        ['"<<open>>", "done"', '"state": "<<open>>"', "state:<<open>>;"],
    ),
    (
        "label that is a default",
        "state:do^ne",
        "ready",
        ['"open", "<<done>>"]', '"default": "<<done>>"', "state:<<done>> {"],
    ),
    (
        "label set",
        "is sta^te:",
        "mode",
        ['"labels": [{"name": "<<state>>"', '"of": "<<state>>", "default"', '"of": "<<state>>"}]}]', "= <<state>>:open", "is <<state>>:done"],
    ),
    ("variable", "with he^re", "plot", ["with <<here>>", "= <<here>>.water", "+ <<here>>.size", "link <<here>>.jobs", "set <<here>>.state", "in <<here>>.jobs"]),
    ("variable with the name of a class", "say be^d.water", "plot", ["for <<bed>> in", "say <<bed>>.water"]),
    ("variable, by a name that is in scope elsewhere", "for ot^her", "each", ["for <<other>> in", "say <<other>>.size"]),
    ("unit", '["^j", "garden"', 'the "job"', ['{"name": "<<j>>"', '"jobs", "<<j>>"]', '["<<j>>", "garden"']),
]
# A name that stays: where, what it would be, and words of the reason.
STAYS = [
    ("new task: j^ob", "bed", '"bed" is taken: there is a class of this name'),
    ("new task: j^ob", "focus", '"focus" is taken'),
    ("new task: j^ob", "find", '"find" is a reserved word'),
    ("new task: j^ob", "Job", '"Job" is no name'),
    ("new task: j^ob", "a-b", '"a-b" is no name'),
    ("new task: j^ob", "a" * 32, "at most 31 bytes"),
    ("new task: j^ob", "", '"" is no name'),
    ("here.wa^ter +", "size", "is a reserved word"),
    ("here.wa^ter +", "jobs", '"jobs" is taken: class bed has a slot of this name'),
    ("here.wa^ter +", "note", '"note" is taken: class job has a slot of this name'),
    ("say other.si^ze", "water", '"water" is taken: class bed has a slot of this name'),
    ("in gar^den where", "marked", "there is a space of this name"),
    ("source wa^nt", "crop", "there is a source of this name"),
    ("state:op^en", "done", "there is a label of this name"),
    ("with he^re", "level", "it is in scope there"),
    ("for ea^ch", "here", "it is in scope there"),
    ('["^j", "garden"', "a", "there is a unit of this name"),
    ("source ta^lly", "count", "a native acts for tally"),
    ("source tally on ra^in", "snow", 'a code of the bundle has the text "rain"'),
    ("steer: fo^cus", "lens", "each schema has focus"),
    ("set steer.so^urce", "origin", "each schema has source"),
    ("r^ate 10", "speed", "no name of this input stands here"),
    ("// Be^ds", "plots", "no name of this input stands here"),
]


# Slots that are named like words, a search in the pattern of another, two entries of one name, and texts left and right.
ODD = """\
%schema
{"classes": [{"name": "mark", "slots": [{"name": "in", "kind": "int"}, {"name": "x", "kind": "int"}, {"name": "leave", "kind": "int"}],
              "links": [{"name": "on", "to": "mark", "many": false, "inverse": "as"},
                        {"name": "as", "to": "mark", "many": false, "inverse": "on"}]},
             {"name": "mark"}],
 "spaces": [{"name": "near", "classes": ["mark"], "dims": [{"name": "x", "kind": "ordered"}]},
            {"name": "far", "classes": ["mark"], "dims": [{"name": "in", "kind": "ordered"}]}]}
%sources
source odd on mark {
  when update mark.in;
  rate 1;
  do {
    with one = it as mark {
      with two = one.on {
        link one.on two;
        unlink two.as one;
        set one.leave = two.in;
        say one.leave, two;
        let sum = (one.x + two.x) * 2;
        let same = one.on = two;
        let span = [one.x, 7];
        let least = min(sum, 3);
        let other = one;
        for it2 in find mark in near where and(x within [0, size(find mark in far where in2 within [1, 2])], x less [5, 5]) { say sum; }
        say span, least, same, other;
      }
      for f in find focus in near { if "odd" = f.source { say f; } }
    }
  }
}
"""
ODD_HOVERS = [
    ("link one.on t^wo", "two\nclass mark"),
    ("two.as o^ne", "one\nclass mark"),
    ("say one.leave, t^wo", "two\nclass mark"),
    ("say one.le^ave, two", f"slot leave of class mark\nkind: int\n{BOUNDS}\ndefault: 0"),
    ("let s^um", "sum\na number"),
    ("let sa^me", "same\na truth value"),
    ("let sp^an", "span\nan interval"),
    ("let le^ast", "least\na number"),
    ("let ot^her", "other\nclass mark"),
    ("and(^x within", "dimension x of space near\nkind: ordered\nreads\n  mark.x: int"),
    (", ^x less [5", "dimension x of space near\nkind: ordered\nreads\n  mark.x: int"),
    ('"o^dd" = f', "source odd on mark\nparts: do"),
]


def same(found, wanted, what=""):
    assert found == wanted, f"{what}: {found!r}, and not {wanted!r}"


def by_start(ranges):
    return sorted(ranges, key=lambda it: (it["start"]["line"], it["start"]["character"]))


class Names:
    def hover(self):
        with of(GARDEN) as client:
            for mark, word, wanted in HOVERS:
                found = client.at("hover", place(GARDEN, mark))
                if wanted is None:
                    same(found, None, mark)
                else:
                    same(found["contents"], {"kind": "plaintext", "value": wanted}, mark)
                    same(found["range"], span(GARDEN, word), mark)

    def hover_of_names_in_odd_places(self):
        with of(ODD) as client:
            for mark, wanted in ODD_HOVERS:
                found = client.at("hover", place(ODD, mark))
                same(found and found["contents"]["value"], wanted, mark)
            first = span(ODD, '"classes": [{"name": "<<mark>>"')
            where = place(ODD, "source odd on m^ark")
            same(client.at("definition", where), {"uri": URI, "range": first})
            others = [it["range"] for it in client.at("references", where, context={"includeDeclaration": False})]
            same((first in others, span(ODD, '{"name": "<<mark>>"}],') in others), (False, True))

    def definition(self):
        with of(GARDEN) as client:
            for mark, entry in ENTRIES:
                same(client.at("definition", place(GARDEN, mark)), {"uri": URI, "range": span(GARDEN, entry)}, mark)
            for mark in NO_ENTRIES:
                same(client.at("definition", place(GARDEN, mark)), None, mark)

    def references(self):
        """All places of a name, of a dimension alone also where slots have it; with the entry or without."""
        marks = ['{"name": "<<garden>>"', '["a", "<<garden>>"]', '["j", "<<garden>>"]', "enter bed <<garden>>", "in <<garden>> where", "enter job <<garden>>"]
        spans = [{"uri": URI, "range": span(GARDEN, it)} for it in marks]
        with of(GARDEN) as client:
            where = place(GARDEN, "in gar^den where")
            same(client.at("references", where, context={"includeDeclaration": True}), spans)
            same(client.at("references", where, context={"includeDeclaration": False}), spans[1:])
            dims = client.at("references", place(GARDEN, "and(wat^er"), context={"includeDeclaration": True})
            same([it["range"] for it in dims], [span(GARDEN, '"dims": [{"name": "<<water>>"'), span(GARDEN, "and(<<water>>")])
            same(client.at("references", place(GARDEN, "r^ate 10"), context={"includeDeclaration": True}), [])

    def rename(self):
        with of(GARDEN) as client:
            for what, mark, name, marks in RENAMES:
                edits = client.at("rename", place(GARDEN, mark), newName=name)["changes"][URI]
                same(by_start(it["range"] for it in edits), by_start(span(GARDEN, it) for it in marks), what)
                same({it["newText"] for it in edits}, {name.replace('"', '\\"')}, what)
            same(client.at("rename", place(GARDEN, "new task: j^ob"), newName="job")["changes"][URI], [])

    def rename_refused(self):
        with of(GARDEN) as client:
            for mark, name, why in STAYS:
                try:
                    found = client.at("rename", place(GARDEN, mark), newName=name)
                except Error as error:
                    assert why in str(error) and error.code == -32803, (mark, name, str(error))
                else:
                    raise AssertionError(f"{mark} to {name}: {found}")

    def prepare_rename(self):
        with of(GARDEN) as client:
            found = client.at("prepareRename", place(GARDEN, "here.wa^ter +"))
            same(found, {"range": span(GARDEN, "here.<<water>> +"), "placeholder": "water"})
            for mark in ("steer: fo^cus", "source ta^lly", "r^ate 10"):
                try:
                    raise AssertionError(client.at("prepareRename", place(GARDEN, mark)))
                except Error as error:
                    same(error.code, -32803)

    def outline(self):
        """In levels for a client that knows them, else as a list."""
        levels = {"textDocument": {"documentSymbol": {"hierarchicalDocumentSymbolSupport": True}}}
        with Client(capabilities=levels) as client:
            client.open(GARDEN)
            found = client.ask("textDocument/documentSymbol", textDocument={"uri": URI})
        tree = [(it["name"], [(at["name"], [in_it["name"] for in_it in at["children"]]) for at in it["children"]]) for it in found]
        schema = [
            ("state", ["open", "done"]),
            ("thing", ["size"]),
            ("bed", ["water", "state", "jobs"]),
            ("job", ["water", "on", "note", "at"]),
            ("rain", ["count"]),
            ("garden", ["water"]),
            ("marked", ["state"]),
        ]
        same(tree[0], ("%schema", schema))
        same(tree[1], ("%units", [("a", []), ("j", []), ("f", [])]))
        same(tree[2:], [("%sources", [("want", ["obviate", "do"]), ("tally", ["native"])]), ("%bundle", [("crop", ["do"])])])
        bed = found[0]["children"][2]
        same(bed["selectionRange"], span(GARDEN, '{"name": "<<bed>>", "parent"'))
        same(bed["range"]["start"], place(GARDEN, '^{"name": "bed", "parent"'))
        same(found[2]["range"], {"start": place(GARDEN, "^%sources"), "end": place(GARDEN, "^%bundle")})
        with of(GARDEN) as client:
            listed = client.ask("textDocument/documentSymbol", textDocument={"uri": URI})
        flat = [it for header, inner in tree for it in [header, *(name for at, names in inner for name in [at, *names])]]
        same([it["name"] for it in listed], flat)
        same(listed[4]["name"], "thing")
        same((listed[4]["containerName"], listed[4]["location"]["uri"]), ("%schema", URI))
