"""Makes schemas, and first units that fit them."""

import json
from dataclasses import dataclass, field
from random import Random

INT_LIMIT = 1 << 63
# The class that each schema has, and its slots: what a unit of it weighs.
FOCUS = "focus"
WEIGHED = {"source": "text", "area": "text", "weight": "int", "active": "bool"}
NUMBERS = [0, 1, 2, 3, 5, -1, 10, 100, INT_LIMIT - 1, -INT_LIMIT]
TEXTS = ["", "a", "b\\n", '\\"', "é", "long enough to be more than a word", "r0", "r1", "c0", "focus"]
EVENTS = ["create", "delete", "update", "link", "unlink", "enter", "leave"]


@dataclass
class Slot:
    """An ordinary slot: its name, its kind, and the label set of a label."""

    name: str
    kind: str
    of: str = ""

    @property
    def sort(self):
        """The kind, with the set of a label."""
        return f"label {self.of}" if self.of else self.kind


@dataclass
class Link:
    """A link slot, and the class that it leads to."""

    name: str
    to: str
    many: bool
    inverse: str
    owns: bool


@dataclass
class Class:
    name: str
    parent: str = ""
    slots: list[Slot] = field(default_factory=list)
    links: list[Link] = field(default_factory=list)


@dataclass
class Space:
    name: str
    classes: list[str]
    dims: list[Slot]


@dataclass
class Schema:
    labels: dict[str, list[str]]
    classes: dict[str, Class]
    spaces: list[Space]

    def declared(self):
        """The classes that the document has to name."""
        return [it for it in self.classes.values() if it.name != FOCUS]

    def above(self, name):
        """A class and those that it descends from."""
        found = []
        while name:
            found.append(name)
            name = self.classes[name].parent
        return found

    def below(self, name):
        return [it for it in self.classes if name in self.above(it)]

    def slots(self, name):
        return [it for above in self.above(name) for it in self.classes[above].slots]

    def links(self, name):
        return [it for above in self.above(name) for it in self.classes[above].links]

    def spaces_of(self, name):
        return [it for it in self.spaces if set(self.above(name)) & set(it.classes)]


def some(random: Random, most):
    """So many, few rather than many."""
    return min(random.randint(0, most), random.randint(0, most))


# ---- schemas


def slot(random, name, labels):
    kind = random.choice(["int", "int", "text", "bool", "interval", "label"])
    if kind == "label" and labels:
        return Slot(name, kind, random.choice([*labels]))
    return Slot(name, "int" if kind == "label" else kind)


def couple(random, schema, number):
    """Two link slots that lead back to each other."""
    a, b = (random.choice(schema.declared()) for _ in range(2))
    there, back = f"l{number}", f"m{number}"
    owns = random.random() < 0.3
    many = not owns and random.random() < 0.5
    a.links.append(Link(there, b.name, random.random() < 0.7, back, owns))
    b.links.append(Link(back, a.name, many, there, False))


def space(random, schema, number):
    """A space whose dimensions are slots that all its classes have."""
    first = random.choice([*schema.classes])
    shared = [it for it in schema.slots(first) if it.kind in ("int", "interval", "label")]
    dims = [it for it in shared if random.random() < 0.7][:4]
    return Space(f"w{number}", [first], dims)


def schema(random: Random):
    labels = {f"e{i}": [f"v{i}{j}" for j in range(random.randint(1, 3))] for i in range(some(random, 2))}
    focus = Class(FOCUS, "", [Slot(name, kind) for name, kind in WEIGHED.items()])
    made = Schema(labels, {FOCUS: focus}, [])
    for i in range(random.randint(1, 4)):
        parent = random.choice([*made.classes]) if random.random() < 0.4 else ""
        slots = [slot(random, f"s{i}{j}", labels) for j in range(some(random, 4))]
        if i == 0 and random.random() < 0.3:
            slots.append(Slot("count", "int"))
        made.classes[f"c{i}"] = Class(f"c{i}", parent, slots)
    for i in range(some(random, 3)):
        couple(random, made, i)
    made.spaces.extend(space(random, made, i) for i in range(some(random, 2)))
    return made


def of_slot(it: Slot):
    return {"name": it.name, "kind": it.kind} | ({"of": it.of} if it.of else {})


def of_link(it: Link):
    found = {"name": it.name, "to": it.to, "many": it.many, "inverse": it.inverse}
    return found | ({"owns": True} if it.owns else {})


def of_class(it: Class):
    found = {"name": it.name} | ({"parent": it.parent} if it.parent else {})
    return found | {"slots": [of_slot(each) for each in it.slots], "links": [of_link(each) for each in it.links]}


def of_dim(it: Slot):
    return {"name": it.name, "kind": "label", "of": it.of} if it.of else {"name": it.name, "kind": "ordered"}


def of_space(it: Space):
    return {"name": it.name, "classes": it.classes, "dims": [of_dim(each) for each in it.dims]}


def schema_text(made: Schema):
    labels = [{"name": name, "values": values} for name, values in made.labels.items()]
    classes = [of_class(it) for it in made.declared()]
    return json.dumps({"labels": labels, "classes": classes, "spaces": [of_space(it) for it in made.spaces]})


# ---- first units


def value(random, schema, it: Slot):
    if it.kind == "int":
        return random.choice(NUMBERS)
    if it.kind == "bool":
        return random.random() < 0.5
    if it.kind == "interval":
        return sorted(random.choice(NUMBERS) for _ in range(2))
    if it.kind == "label":
        return random.choice(schema.labels[it.of])
    return random.choice(TEXTS)


def units_text(random, schema: Schema):
    units = {f"u{i}": random.choice([*schema.classes]) for i in range(some(random, 12))}
    entries = []
    for name, of in units.items():
        values = {it.name: value(random, schema, it) for it in schema.slots(of) if random.random() < 0.5}
        entries.append({"name": name, "class": of, "slots": values})
    links = []
    for name, of in units.items():
        for it in schema.links(of):
            ends = [other for other, its in units.items() if it.to in schema.above(its)]
            links += [[name, it.name, other] for other in ends if random.random() < 0.3]
    spaces = [[name, it.name] for name, of in units.items() for it in schema.spaces_of(of) if random.random() < 0.7]
    return json.dumps({"units": entries, "links": links, "spaces": spaces})
