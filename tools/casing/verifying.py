"""A table of codes that are verified, each as a part of the one source of a bundle that `bb check` reads."""

import json
import re

import faults
from comparing import difference
from entries import U16, number
from faults import Fault
from inserts import Scope, text_of

# The flaws by their numbers, and the lines of a bundle for each part: docs/users/formats/code.md and inputs.md have both.
FLAWS = ("Table", "Jump", "Loop", "Frame", "Depth", "Kind", "Dead", "Slot", "LinkClass", "Space", "Query", "Effect", "End")
DONE = "do 4242430101000000000000000000012e"
PARTS = {
    b"do": "do {code}",
    b"require": f"require {{code}}\n{DONE}",
    b"revalidate": f"revalidate {{code}}\n{DONE}",
    b"obviate": f"obviate {{of}} {{code}}\nwhen delete {{of}}\n{DONE}",
    b"retrigger": f"retrigger {{of}} {{code}}\nwhen delete {{of}}\n{DONE}",
}
OF_TWO = (b"obviate", b"retrigger")
# The class that each schema has before its own.
FIRST = "focus"
REFUSED = re.compile(r"refused verify a (\w+) (\d+) (\d+)\n")
CHECKED = re.compile(r"(a \w+ ops .*\n)+checked 1\n")


class Verified:
    """A table of codes, of one part under one schema."""

    def __init__(self, programs, names, entry):
        header = entry.first
        header.check((b"schema", b"part", b"head"))
        self.programs, self.scope = programs, Scope(names, programs.code)
        schema = text_of(names.text(self.option(header, b"schema"))).decode()
        self.head = names.text(header.option(b"head")) if header.option(b"head") else b""
        self.part, self.bundle = self.part_of(self.option(header, b"part"), classes_of(schema))
        self.front = f"%schema\n{schema}\n%bundle\n"

    @staticmethod
    def option(header, name):
        word = header.option(name)
        if word is None:
            raise Fault(faults.OPTIONS)
        return word

    @staticmethod
    def part_of(word, classes):
        """The name of a part, and the source of a bundle that has it, with a place for its code."""
        name, *numbers = word.split(b":")
        if name not in PARTS or len(numbers) != (2 if name in OF_TWO else 1):
            raise Fault(faults.PART)
        found = [number(it, U16) for it in numbers]
        if max(found) >= len(classes):
            raise Fault(faults.PART)
        of, last = classes[found[0]], classes[found[-1]]
        return name.decode(), f"source a {of} 1\nwhen create {of}\n" + PARTS[name].replace("{of}", last) + "\n"

    def compare(self, row):
        front, back = row.sides()
        code = self.programs.code(self.head + text_of(self.scope.expanded(back)))
        given = self.front + self.bundle.replace("{code}", code.decode())
        served = self.programs.serve(["check"], given.encode())
        return difference(front + b"\n" + row.below, self.verdict(served).encode() + b"\n")

    def verdict(self, served):
        """`accepted`, or the place and the name of the flaw, or else what the program wrote."""
        output = served.output.decode()
        refused = REFUSED.fullmatch(output)
        if served.status == 2 and refused and refused[1] == self.part and 0 < int(refused[3]) <= len(FLAWS):
            return f"{refused[2]} {FLAWS[int(refused[3]) - 1]}"
        if served.status == 0 and CHECKED.fullmatch(output):
            return "accepted"
        return output.removesuffix("\n")


def classes_of(schema):
    """The names of the classes of a schema, by their numbers."""
    try:
        return [FIRST, *(it["name"] for it in json.loads(schema)["classes"])]
    except (ValueError, KeyError, TypeError):
        raise Fault(faults.SCHEMA) from None
