"""Tests of the function that reads what `bb check` writes, and of where a message leads.

The messages are those of docs/users/REFUSALS.md and docs/users/formats/inputs.md.
"""

from finding import span_of
from inputs import GARDEN
from input import Input
from messages import ERROR, INFORMATION, WARNING, code_of, costs_in, said_in
from text import Text

TOLD = """\
input:7:8: error[compile 1]: "hello" is no name here; in scope: it
  | source hail, line 4 of %sources
  |   do { say hello; }
  |        ^
input:9:3: warning[require]: source hail, require: it has no way to a rating, so no event triggers the source
  | source hail, require, line 4 of %sources
  |   require { decline; }
  |   ^
input: warning[test]: source hail, do, op 2 "As 3 4": no box is a job, so the test never holds
source  part        ops  loops  budget of 0 found   1  100  65,536
hail    require       1      0                  1  1    1       1
input:24:14: note[cost]: source hail, do: no test bounds it
input:3:1: error[schema 1]: it is not JSON
  | line 2 of %schema
  | %unit
  | ^
  | "%unit" is no header line: these are %schema, %units, %sources and %bundle
input: error[schema 5]: classes[3].links[0]: a name is used that is not declared
  | link "parts" of class "thing": no class "wrod" is declared
input:23: error[input sections]: a header line is out of order or there twice
  | line 23: "%sources" is there twice, first in line 12
input: warning[units 4]: the first units would be refused: units[0]: two units have one name
  | unit "a"
input:6: error[bundle code 4]: the bytes are no code: a byte names no op
  | line 3 of %bundle
  | byte 15 of the code, which has 16
input: error[rule 8]: source hail: there is no native of this name
input:10:12: error[lang 1]: "'" begins no token: a text stands in "double quotes"
  | line 4 of %sources
  |   do { say 'a'; }
  |            ^
input: note[more]: 3 more faults
"""
# Of each message: its severity, line and column of the input, what it begins with, its sentence, its number or name, and the
# notes that are left.
FOUND = [
    (ERROR, 7, 8, "", '"hello" is no name here; in scope: it', "compile 1", []),
    (WARNING, 9, 3, "source hail, require", "it has no way to a rating, so no event triggers the source", "require", []),
    (WARNING, 0, 0, 'source hail, do, op 2 "As 3 4"', "no box is a job, so the test never holds", "test", []),
    (INFORMATION, 24, 14, "source hail, do", "no test bounds it", "cost", []),
    (ERROR, 3, 1, "", "it is not JSON", "schema 1", ['"%unit" is no header line: these are %schema, %units, %sources and %bundle']),
    (ERROR, 0, 0, "schema, classes[3].links[0]", "a name is used that is not declared", "schema 5", ['link "parts" of class "thing": no class "wrod" is declared']),
    (ERROR, 23, 0, "", "a header line is out of order or there twice", "input sections", ['"%sources" is there twice, first in line 12']),
    (WARNING, 0, 0, "units, units[0]", "two units have one name", "units 4", ['unit "a"']),
    (ERROR, 6, 0, "", "the bytes are no code: a byte names no op", "bundle code 4", ["byte 15 of the code, which has 16"]),
    (ERROR, 0, 0, "source hail", "there is no native of this name", "rule 8", []),
    (ERROR, 10, 12, "", "\"'\" begins no token: a text stands in \"double quotes\"", "lang 1", []),
    (INFORMATION, 0, 0, "", "3 more faults", "more", []),
]
CODES = [
    ("refused lang 4:18 2\n", "lang 2"),
    ("refused compile hail 4:8 1\n", "compile 1"),
    ("refused input sections\n", "input sections"),
    ("refused schema 5\n", "schema 5"),
    ("refused bundle 3 2\n", "bundle 2"),
    ("refused bundle 3 code 4\n", "bundle code 4"),
    ("refused verify hail do 0 5\n", "verify 5"),
    ("refused rule hail 8\n", "rule 8"),
    ("hail do ops 3 budget 3 3\nchecked 1\n", ""),
    ("", ""),
]
# A message about the input of the tests, and the words that it is about there.
LEADS = [
    ("input:29:19: error: x", "here"),
    ("input:29:18: error: x", "here"),
    ("input:29:999: error: x", ";"),
    ("input:38:9: error: x", "new steer: focus;"[4:9]),
    ("input:22: error: x", "// Beds that want water."),
    ("input:999:1: error: x", ""),
    ("input: warning[test]: source crop, do, op 1: x", "do"),
    ("input: warning[test]: source want, obviate: x", "obviate"),
    ("input: note[cost]: source want, retrigger: x", "want"),
    ("input: error[rule 8]: source nobody: x", "%schema"),
    ('input: error[schema 7]: classes[1].slots[1]: x\n  | slot "state" of class "bed": no label set "state" is declared', "state"),
    ('input: error[schema 5]: classes[1]: x\n  | class "bed": no class "thing" is declared before it', "thing"),
    ('input: error[schema 2]: classes[1].links[0]: x\n  | link "jobs" of class "bed": the key "too" is missing', "jobs"),
    ("input: error[schema 4]: labels[0].values[1]: x", "done"),
    ("input: error[units 5]: links[0]: x", '["a", "jobs", "j"]'),
    ("input: warning[units 3]: the first units would be refused: spaces[2]: x\n  | no space \"garden\" is declared", "garden"),
    ("input: error[input utf8]: x", "%schema"),
]


class Messages:
    def messages(self):
        found = [(it.severity, it.line, it.column, it.place, it.sentence, it.code, it.notes) for it in said_in(TOLD)]
        for it, wanted in zip(found, FOUND, strict=True):
            assert it == wanted, f"{it}, and not {wanted}"

    def numbers_of_refusals(self):
        for output, wanted in CODES:
            assert code_of(output) == wanted, (output, code_of(output))

    def costs(self):
        output = "want require ops 14 budget 14 14\ntally native\ndusk do ops 24 budget 24 37\nchecked 3\n"
        assert costs_in(output) == {("want", "require"): ("14", "14", "14"), ("dusk", "do"): ("24", "24", "37")}

    def places(self):
        whole = Input(Text(GARDEN))
        for told, words in LEADS:
            start, end = span_of(said_in(told)[0], whole)
            assert GARDEN[start:end] == words, (told, GARDEN[start:end])

    def places_of_no_document(self):
        """A document of which nothing can be read, and an input of no lines."""
        for text in ("%schema\n", "%schema\n3", "%schema", "", "\n", "%units\n{"):
            whole = Input(Text(text))
            for told, _ in LEADS:
                start, end = span_of(said_in(told)[0], whole)
                assert 0 <= start <= end <= len(text), (text, told, start, end)
