"""Tests of what the server offers, at places of the input and of texts that are half typed.

What is expected follows from the grammar in docs/users/LANGUAGE.md and from the tables in docs/users/formats/inputs.md.
"""

from client import URI, of, place
from inputs import GARDEN

CLASSES = ["focus", "thing", "bed", "job", "rain"]
ORDINARY, LINKED = ["size", "water", "state"], ["jobs"]
CHANGES = ["new", "set", "link", "unlink", "enter", "leave", "delete", "say"]
STATEMENTS = ["let", "if", "with", "for"]
CALLS = ["true", "false", "min", "max", "low", "high", "not", "size"]
EVENTS = ["create", "delete", "update", "link", "unlink", "enter", "leave", "quiescence"]
TESTS = ["within", "covers", "overlaps", "less", "more", "is"]
PATTERNS = ["all", "and", "or", "not"]

# A piece of the text, what is typed in its place, and what is offered at `^`.
OFFERED = [
    # slots behind a dot: of the class of the unit, and of the sort that fits
    ("say bed.water;", "say bed.^;", ORDINARY),
    ("say bed.water;", "say bed.wa^", ORDINARY),
    ("say each.note;", "say each.^", ["water", "on", "note"]),
    ("set here.state = state:open;", "set here.^", ORDINARY),
    ("link here.jobs task;", "link here.^", LINKED),
    ("link here.jobs task;", "unlink here.^", LINKED),
    ("with back = each.at {", "with back = each.^", ["at"]),
    ("with back = each.at {", "with back = here.^", []),
    ("for each in here.jobs {", "for each in here.^", LINKED),
    ("let level = here.water + here.size;", "let level = size(here.^", LINKED),
    ("let level = here.water + here.size;", "let level = here.water + here.^", ORDINARY),
    ("set steer.source", "set steer.^", ["source", "area", "weight", "active"]),
    ("when update bed.water;", "when update bed.^;", ORDINARY),
    ("when link bed.jobs;", "when link bed.^", LINKED),
    # a unit of no known class: all slots
    ("say bed.water;", "say beds.^", ["source", "area", "weight", "active", "size", "water", "state", "on", "note", "count"]),
    # labels, spaces, classes
    ("set here.state = state:open;", "set here.state = state:^", ["open", "done"]),
    ("is state:done {", "is state:d^", ["open", "done"]),
    ("for bed in find bed in marked", "for bed in find bed in ^", ["garden", "marked"]),
    ("enter back marked;", "enter back ^;", ["garden", "marked"]),
    ("enter back marked;", "leave back ma^", ["garden", "marked"]),
    ("when enter bed garden;", "when enter bed ^;", ["garden", "marked"]),
    ("when enter bed garden;", "when enter ^;", CLASSES),
    ("with here = it as bed {", "with here = it as ^", CLASSES),
    ("new task: job;", "new task: ^;", CLASSES),
    ("for bed in find bed in marked", "for bed in find ^", CLASSES),
    ("source want on bed {", "source want on ^ {", CLASSES),
    ("obviate on thing when", "obviate on t^ when", CLASSES),
    # words of heads
    ("source tally on rain {", "^", ["source"]),
    ("source want on bed {", "source want ^", ["on"]),
    ("when enter bed garden;", "when ^", EVENTS),
    ("  rate 10;\n", "  ^\n", ["when", "rate", "require", "obviate", "retrigger", "revalidate", "do", "native"]),
    ("  do {\n    with", "  ^\n  do {\n    with", ["retrigger", "revalidate", "do", "native"]),
    ("obviate on thing when", "obviate ^", ["on"]),
    ("obviate on thing when", "obviate on thing ^", ["when"]),
    # words of statements: what ends a part stands in that part alone, changes in do alone
    ("answer it = ev; }", "^ }", [*STATEMENTS, "answer"]),
    ("say bed.water; }", "^ }", [*STATEMENTS, *CHANGES, "bed"]),
    ("say bed.water; }", "if true { } ^ }", ["else", *STATEMENTS, *CHANGES, "bed"]),
    ("for each in here.jobs {", "for each ^", ["in"]),
    ("for each in here.jobs {", "for each in ^", ["find", "task", "here", "it"]),
    ("with here = it as bed {", "with here = it ^", ["as"]),
    ("with here = it as bed {", "with ^", []),
    # values: names in scope, the innermost last; in a reaction the event's unit too
    ("say bed.water;", "say ^;", ["bed", "it", *CALLS, "state"]),
    ("answer it = ev;", "answer it = ^;", ["it", "ev", *CALLS, "state"]),
    ("say bed.water;", "say bed.water ^", ["and", "or"]),
    ("say bed.water;", "delete ^;", ["bed", "it"]),
    # searches
    ("where state is", "^ where state is", ["where"]),
    ("where state is state:done {", "where ^", ["state", *PATTERNS]),
    ("where state is state:done {", "where not(^", ["state", *PATTERNS]),
    ("where state is state:done {", "where and(all, ^", ["state", *PATTERNS]),
    ("where state is state:done {", "where state ^", TESTS),
    ("and(water within [0, level], not(all))", "and(water within [0, ^", ["level", "here", "task", "it", *CALLS, "state"]),
    # texts and comments
    ('steer.source = "want";', 'steer.source = "^', ["want", "tally", "crop"]),
    ('steer.area = "bed";', 'steer.area = "^', CLASSES),
    ('say "on", level;', 'say "^', []),
    ("// Beds that", "// B^ that", []),
    # documents: keys that are not there yet, and names that fit
    ('"default": 3}', '"default": 3, "^"}', ["of"]),
    ('"parent": "thing"', '"parent": "^"', CLASSES),
    ('"name": "on", "kind": "bool"', '"name": "on", "kind": "^"', ["int", "bool", "text", "label", "interval"]),
    ('"kind": "ordered"', '"kind": "^"', ["ordered", "label"]),
    ('"of": "state", "default": "done"', '"of": "^", "default": "done"', ["state"]),
    ('"of": "state", "default": "done"', '"of": "state", "default": "^"', ["open", "done"]),
    ('"to": "bed"', '"to": "^"', CLASSES),
    ('"inverse": "jobs"', '"inverse": "^"', ["jobs"]),
    ('["bed", "job"]', '["bed", "^"]', CLASSES),
    ('"name": "j", "class": "job"', '"name": "j", "class": "^"', CLASSES),
    ('{"water": 2, "state": "open", "size": 1}', '{"water": 2, "^"}', ["size", "state"]),
    ('"state": "open", "size": 1', '"state": "^", "size": 1', ["open", "done"]),
    ('"source": "want", "area"', '"source": "^", "area"', ["want", "tally", "crop"]),
    ('"area": "bed"}}', '"area": "^"}}', CLASSES),
    ('["a", "jobs", "j"]', '["a", "^", "j"]', ["jobs"]),
    ('["a", "jobs", "j"]', '["a", "jobs", "^"]', ["a", "j", "f"]),
    ('["a", "marked"]', '["a", "^"]', ["garden", "marked"]),
    ('["a", "marked"]', '["^", "marked"]', ["a", "j", "f"]),
    # headers that are not there yet, and the bundle
    ("%units\n", "%^\n", ["%units"]),
    ("when update job.on\n", "when ^\n", []),
]
# The order of names in scope does not matter.
SCOPES = [it for it in OFFERED if "here" in it[2]]


def offered(client, version, old, new):
    """What is offered where a piece of the input has another one in its place."""
    assert GARDEN.count(old) == 1, old
    text = GARDEN.replace(old, new)
    client.change(version, {"text": text.replace("^", "", 1)})
    at = text.index("^")
    line = text.rfind("\n", 0, at) + 1
    return client.at("completion", {"line": text.count("\n", 0, at), "character": at - line})


class Completion:
    def completion(self):
        with of(GARDEN) as client:
            for version, case in enumerate(OFFERED, 2):
                old, new, wanted = case
                found = [it["label"] for it in offered(client, version, old, new)]
                assert case in SCOPES and sorted(found) == sorted(wanted) or found == wanted, (new, found, wanted)

    def completion_of_values_in_documents(self):
        """A name has quotes where there are none yet, a truth value never."""
        with of(GARDEN) as client:
            cases = [('"parent": "thing"', '"parent": ^', '"bed"'), ('"parent": "thing"', '"parent": "^"', None), ('"many": true', '"many": ^', None)]
            for version, (old, new, wanted) in enumerate(cases, 2):
                found = {it["label"]: it.get("insertText") for it in offered(client, version, old, new)}
                assert found["true" if "many" in old else "bed"] == wanted, (new, found)

    def completion_tells_kinds(self):
        with of(GARDEN) as client:
            found = {it["label"]: it["detail"] for it in client.at("completion", place(GARDEN, "say bed.^water"))}
            assert found == {"size": "int", "water": "int", "state": "label of state"}, found
            found = {it["label"]: it.get("detail") for it in client.at("completion", place(GARDEN, "      ^let level"))}
            assert found["here"] == "bed" and found["say"] == "say E, ..;", found
            assert "level" not in found, "a name is not in scope before its statement"
            assert client.ask("textDocument/completion", textDocument={"uri": URI}, position={"line": 999, "character": 0}) == []
