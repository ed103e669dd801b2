"""Inputs with their answers, which stand in pieces that are written whole, as docs/users/formats/trace.md has it: an empty
line parts two of them. They were worked out by hand."""

from dataclasses import dataclass

NOTE = '{"classes":[{"name":"note"}]}'
ONE_NOTE = '{"units":[{"name":"a","class":"note"}]}'

THING = (
    '{"labels":[{"name":"hue","values":["red","green"]}],'
    '"classes":[{"name":"thing","slots":[{"name":"pos","kind":"interval"},'
    '{"name":"hue","kind":"label","of":"hue"},{"name":"score","kind":"int"}],'
    '"links":[{"name":"mate","to":"thing","many":false,"inverse":"mate_of"},'
    '{"name":"mate_of","to":"thing","many":false,"inverse":"mate"},'
    '{"name":"parts","to":"word","many":true,"inverse":"whole"}]},'
    '{"name":"word","parent":"thing","slots":[{"name":"count","kind":"int"}],'
    '"links":[{"name":"whole","to":"thing","many":false,"inverse":"parts"}]}],'
    '"spaces":[{"name":"board","classes":["thing"],'
    '"dims":[{"name":"pos","kind":"ordered"},{"name":"hue","kind":"label","of":"hue"}]},'
    '{"name":"desk","classes":["word"],"dims":[]}]}'
)
# A thing outside, and two words on the board.
THING_AND_WORDS = (
    '{"units":[{"name":"a","class":"thing"},{"name":"b","class":"word"},{"name":"c","class":"word"}],'
    '"spaces":[["b","board"],["c","board"]]}'
)

HAIL = "42424301010001000568656c6c6f000000000000000302000029012e"
# It goes over the words on the board, sets the score of its unit where that is live still, and deletes the word.
PRUNE = (
    "424243010400000001000200000000000300050700010700010800020000000b070001070001080002060002"
    "00000e0700010000000000010005000e000f050020000e06011e000006022c02000e0603050120000b010000"
    "0000000000012300060503282d00052e"
)

STEERING = """\
source steer on note { when create note; rate 500; do { new f: focus; set f.source = "echo"; set f.weight = 30; } }
source hail on note { when create note; rate 100; do { say "hail"; } }
source echo on note { when create note; rate 100; do { say "echo"; } }
"""


@dataclass
class Row:
    name: str
    input: bytes
    status: int
    answer: str
    words: tuple[str, ...] = ()

    @property
    def pieces(self):
        return [f"{it}\n".encode() for it in self.answer.strip("\n").split("\n\n")]

    @property
    def whole(self):
        return b"".join(self.pieces)

    @property
    def fronts(self):
        """What may be written where memory runs out: of a trace each front of whole pieces, of all else nothing."""
        pieces = self.pieces if b"\nfinish " in self.whole else []
        return {b"".join(pieces[:count]) for count in range(len(pieces) + 1)}


def input_of(schema, units, kind, sources):
    return f"%schema\n{schema}\n%units\n{units}\n%{kind}\n{sources}".encode()


FIRST = input_of(NOTE, ONE_NOTE, "bundle", f"source hail note 100\nwhen create note\ndo {HAIL}\n")
PRUNED = input_of(THING, THING_AND_WORDS, "bundle", f"source prune thing 1\nwhen create thing\ndo {PRUNE}\n")
STEERED = input_of(NOTE, ONE_NOTE, "sources", STEERING)
NATIVES = input_of(
    NOTE,
    ONE_NOTE,
    "sources",
    "source tally on note { when create note; rate 100; native; }\n"
    "source reaper on note { when create note; rate 200; native; }\n",
)

ROWS = [
    Row(
        "first",
        FIRST,
        0,
        """
create 1 note

trigger 1 hail unit 1 rating 100

cycle 1 act 1 hail unit 1 rating 100

say "hello"
end steps 3 found 0 budget 3

quiescence

finish quiescence
closed tally 0
closed reaper 0
""",
    ),
    Row(
        "prune",
        PRUNED,
        0,
        """
create 1 thing
create 2 word
create 3 word
enter 2 board
enter 3 board

trigger 1 prune unit 1 rating 1

trigger 2 prune unit 2 rating 1

trigger 3 prune unit 3 rating 1

cycle 1 act 1 prune unit 1 rating 1

set 1.score
leave 2 board
delete 2
set 1.score
leave 3 board
delete 3
end steps 25 found 2 budget 33

cycle 2 act 2 prune unit 2 rating 1

end steps 3 found 0 budget 15

cycle 3 act 3 prune unit 3 rating 1

end steps 3 found 0 budget 15

quiescence

finish quiescence
closed tally 0
closed reaper 0
""",
    ),
    Row(
        "natives",
        NATIVES,
        0,
        """
create 1 note

trigger 1 tally unit 1 rating 100
trigger 2 reaper unit 1 rating 200

cycle 1 act 2 reaper unit 1 rating 200

delete 1
end native 1

cycle 2 act 1 tally unit 1 rating 100

refused ask 1 1
end native 1

quiescence

finish quiescence
closed tally 1
closed reaper 1
""",
    ),
    Row(
        "steering",
        STEERED,
        0,
        """
create 1 note

trigger 1 steer unit 1 rating 500
trigger 2 hail unit 1 rating 100
trigger 3 echo unit 1 rating 100

cycle 1 act 1 steer unit 1 rating 500

create 2 focus
set 2.source
set 2.weight
end steps 9 found 0 budget 9

cycle 2 act 3 echo unit 1 rating 130

say "echo"
end steps 3 found 0 budget 3

cycle 3 act 2 hail unit 1 rating 100

say "hail"
end steps 3 found 0 budget 3

quiescence

finish quiescence
closed tally 0
closed reaper 0
""",
    ),
    Row(
        "limited",
        FIRST,
        3,
        """
create 1 note

trigger 1 hail unit 1 rating 100

finish limit
closed tally 0
closed reaper 0
""",
        ("run", "--limit=0"),
    ),
    Row(
        "check",
        STEERED,
        0,
        """
steer do ops 9 budget 9 9
hail do ops 3 budget 3 3
echo do ops 3 budget 3 3
checked 3
""",
        ("check",),
    ),
    Row(
        "compile",
        input_of(NOTE, ONE_NOTE, "sources", 'source hail on note { when create note; rate 100; do { say "hello"; } }'),
        0,
        f"""
source hail note 100
when create note
do {HAIL}
""",
        ("compile",),
    ),
    Row(
        "units",
        STEERED,
        0,
        """
{"links":[],"spaces":[],"units":[{"class":"note","name":"1","slots":{}},{"class":"focus","name":"2","slots":{"source":"echo","weight":30}}]}
""",
        ("units",),
    ),
    Row(
        "refused",
        input_of(NOTE, ONE_NOTE, "sources", "source hail on note {\n  when create note;\n  rate 1;\n  do { say hello; }\n}\n"),
        2,
        "refused compile hail 4:8 1",
    ),
    Row("too_deep", b"%schema\n" + b"[" * 128 + b"]" * 128, 2, "refused schema 1"),
]
