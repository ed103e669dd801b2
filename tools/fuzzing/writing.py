"""Writes sources as text over a schema, with names that are mostly in scope and of the kind that is due."""

from dataclasses import dataclass, field
from random import Random

from making import EVENTS, NUMBERS, TEXTS, Schema, some

DEPTH = 3
# The natives of the program. The first sets the slot `count` of its unit, and the second deletes that.
NATIVES = ["tally", "reaper"]


@dataclass
class Scope:
    """The names that a statement may use: those of values by kind, and those of units by class, live or old."""

    values: dict[str, str] = field(default_factory=dict)
    live: dict[str, str] = field(default_factory=dict)
    old: dict[str, str] = field(default_factory=dict)

    def inner(self):
        return Scope(dict(self.values), dict(self.live), dict(self.old))

    def of_kind(self, kind):
        return [name for name, its in self.values.items() if its == kind]


class Writer:
    """Writes one source after another; each name that it makes up is a new one."""

    def __init__(self, random: Random, schema: Schema):
        self.random, self.schema, self.names, self.natives = random, schema, 0, [*NATIVES]

    def name(self):
        self.names += 1
        return f"n{self.names}"

    def is_likely(self, chance):
        return self.random.random() < chance

    # ---- expressions

    def read(self, kind, scope):
        """The slots of that kind of units that are live."""
        slots = ((name, it) for name, of in scope.live.items() for it in self.schema.slots(of))
        return [f"{name}.{it.name}" for name, it in slots if kind == it.sort]

    def leaf(self, kind, scope):
        known = scope.of_kind(kind) + self.read(kind, scope)
        if known and self.is_likely(0.6):
            return self.random.choice(known)
        if kind == "int":
            return str(self.random.choice(NUMBERS))
        if kind == "bool":
            return self.random.choice(["true", "false"])
        if kind == "text":
            return '"%s"' % self.random.choice(TEXTS)
        if kind == "interval":
            return f"[{self.random.choice(NUMBERS)}, {self.random.choice(NUMBERS)}]"
        of = kind.removeprefix("label ")
        return f"{of}:{self.random.choice(self.schema.labels[of])}"

    def expression(self, kind, scope, depth=2):
        if depth == 0 or self.is_likely(0.4):
            return self.leaf(kind, scope)
        part = lambda its: self.expression(its, scope, depth - 1)
        if kind == "int":
            forms = ["({} + {})", "({} - {})", "({} * {})", "min({}, {})", "max({}, {})"]
            if self.sequences(scope) and self.is_likely(0.2):
                return f"size({self.sequence(scope)[0]})"
            if self.is_likely(0.2):
                return "(%s %s %d)" % (part("int"), self.random.choice("/%"), self.random.choice([1, 2, 7]))
            return self.random.choice(forms).format(part("int"), part("int"))
        if kind == "bool":
            if self.is_likely(0.5):
                return "(%s %s %s)" % (part("int"), self.random.choice(["<", "<=", "="]), part("int"))
            forms = ["({} and {})", "({} or {})", "not({}) or {}"]
            return self.random.choice(forms).format(part("bool"), part("bool"))
        if kind == "interval":
            return f"[{part('int')}, {part('int')}]"
        return self.leaf(kind, scope)

    def pattern(self, dims, scope, depth=2):
        if depth and self.is_likely(0.3):
            word = self.random.choice(["and", "or"])
            return f"{word}({self.pattern(dims, scope, depth - 1)}, {self.pattern(dims, scope, depth - 1)})"
        if not dims or self.is_likely(0.2):
            return "all" if self.is_likely(0.5) else "not(all)"
        dim = self.random.choice(dims)
        if dim.of:
            return f"{dim.name} is {self.leaf(f'label {dim.of}', scope)}"
        word = self.random.choice(["within", "covers", "overlaps", "less", "more"])
        return f"{dim.name} {word} {self.expression('interval', scope, 1)}"

    def sequences(self, scope):
        """What there may be a sequence of: link slots of live units, and spaces."""
        links = [(name, it) for name, of in scope.live.items() for it in self.schema.links(of)]
        return links + [("", it) for it in self.schema.spaces]

    def sequence(self, scope):
        """A sequence, and the class of its units."""
        name, it = self.random.choice(self.sequences(scope))
        return (f"{name}.{it.name}", it.to) if name else self.find(it, scope)

    def find(self, space, scope):
        of = self.random.choice(self.schema.below(space.classes[0]))
        where = f" where {self.pattern(space.dims, scope)}" if self.is_likely(0.6) else ""
        return f"find {of} in {space.name}{where}", of

    # ---- statements

    def block(self, scope, changes, depth, last=""):
        inner = scope.inner()
        statements = [self.statement(inner, changes, depth) for _ in range(some(self.random, 4))]
        return "{ %s %s }" % (" ".join(statements), last)

    def statement(self, scope, changes, depth):
        loops = [self.write_for] * bool(self.sequences(scope))
        inner = [self.write_if, self.write_with, *loops] * (depth > 0)
        write = self.random.choice([self.let, self.let, self.say_or_assign, *inner, *[self.change] * (3 * changes)])
        return write(scope, changes, depth)

    def let(self, scope, changes, depth):
        kinds = ["int", "bool", "text", "interval"] + [f"label {it}" for it in self.schema.labels]
        kind, name = self.random.choice(kinds), self.name()
        made = f"let {name} = {self.expression(kind, scope)};"
        scope.values[name] = kind
        return made

    def say_or_assign(self, scope, changes, depth):
        if scope.values and self.is_likely(0.4 if changes else 1):
            name, kind = self.random.choice([*scope.values.items()])
            return f"{name} = {self.expression(kind, scope)};"
        if not changes:
            return self.let(scope, changes, depth)
        unit = self.random.choice(["it", *scope.old, *scope.live])
        said = [unit, self.expression("int", scope), self.leaf("text", scope)]
        return f"say {', '.join(said[: self.random.randint(1, 3)])};"

    def write_if(self, scope, changes, depth):
        other = f" else {self.block(scope, changes, depth - 1)}" if self.is_likely(0.3) else ""
        return f"if {self.expression('bool', scope)} {self.block(scope, changes, depth - 1)}{other}"

    def tests(self, scope):
        """The units that may be tested for a class, with each such class: a live one for those below its own."""
        old = [(unit, it) for unit, of in scope.old.items() for it in self.schema.below(of)]
        return old + [(unit, it) for unit, of in scope.live.items() for it in self.schema.below(of) if it != of]

    def write_with(self, scope, changes, depth):
        name, inner = self.name(), scope.inner()
        links = [(unit, it) for unit, of in scope.live.items() for it in self.schema.links(of) if not it.many]
        if links and self.is_likely(0.4):
            unit, it = self.random.choice(links)
            inner.live[name] = it.to
            return f"with {name} = {unit}.{it.name} {self.block(inner, changes, depth - 1)}"
        unit, of = self.random.choice(self.tests(scope))
        inner.live[name] = of
        other = f" else {self.block(scope, changes, depth - 1)}" if self.is_likely(0.3) else ""
        return f"with {name} = {unit} as {of} {self.block(inner, changes, depth - 1)}{other}"

    def write_for(self, scope, changes, depth):
        (text, of), name, inner = self.sequence(scope), self.name(), scope.inner()
        inner.live[name] = of
        return f"for {name} in {text} {self.block(inner, changes, depth - 1)}"

    def change(self, scope, changes, depth):
        if not scope.live or self.is_likely(0.15):
            name, of = self.name(), self.random.choice([*self.schema.classes])
            scope.live[name] = of
            return f"new {name}: {of};"
        unit, of = self.random.choice([*scope.live.items()])
        forms = [f"delete {unit};"]
        forms += [f"set {unit}.{it.name} = {self.expression(it.sort, scope)};" for it in self.schema.slots(of)]
        forms += [f"{self.random.choice(['enter', 'leave'])} {unit} {it.name};" for it in self.schema.spaces_of(of)]
        for it in self.schema.links(of):
            ends = [other for other, its in scope.live.items() if it.to in self.schema.above(its)]
            forms += [f"{self.random.choice(['link', 'unlink'])} {unit}.{it.name} {end};" for end in ends]
        made = self.random.choice(forms)
        if made.startswith("delete") and self.is_likely(0.9):
            self.age(scope)
        return made

    def age(self, scope):
        """After a delete no unit is taken for live that could be the deleted one, by and large."""
        scope.old |= scope.live
        scope.live.clear()

    # ---- sources

    def event(self, of):
        of = self.random.choice(self.schema.below(of))
        word = self.random.choice([*EVENTS, "create", "create"])
        if word == "update" and self.schema.slots(of):
            return f"update {of}.{self.random.choice(self.schema.slots(of)).name}"
        if word in ("link", "unlink") and self.schema.links(of):
            return f"{word} {of}.{self.random.choice(self.schema.links(of)).name}"
        if word in ("enter", "leave") and self.schema.spaces_of(of):
            return f"{word} {of} {self.random.choice(self.schema.spaces_of(of)).name}"
        return f"{word if word in ('create', 'delete') else 'create'} {of}"

    def events(self, of):
        events = [self.event(of) for _ in range(self.random.randint(1, 2))] + ["quiescence"] * self.is_likely(0.1)
        return " ".join(f"when {it};" for it in events)

    def answering(self, of, event_class, last):
        """A part that answers, and changes nothing."""
        scope = Scope(old={"it": of} | ({"ev": event_class} if event_class else {}))
        return self.block(scope, 0, DEPTH, last(scope.inner()))

    def source(self, number):
        of = self.random.choice([*self.schema.classes])
        name = self.natives.pop(0) if self.natives and self.is_likely(0.1) else f"r{number}"
        rate = lambda scope: f"rate {self.random.randint(0, 9)};" if self.is_likely(0.8) else "decline;"
        answer = lambda scope: f"answer {self.random.choice(['true', 'false'])};"
        parts = [f"source {name} on {of} {{", self.events(of)]
        parts.append(f"rate {self.random.randint(-1, 20)};")
        if self.is_likely(0.3):
            parts.append(f"require {self.answering(of, '', rate)}")
        for word, last in ("obviate", answer), ("retrigger", rate):
            if self.is_likely(0.2):
                event = self.random.choice([*self.schema.classes])
                parts.append(f"{word} on {event} {self.events(event)} {self.answering(of, event, last)}")
        if self.is_likely(0.2):
            parts.append(f"revalidate {self.answering(of, '', answer)}")
        act = f"do {self.block(Scope(old={'it': of}), 1, DEPTH)}"
        parts.append("native;" if name in NATIVES else act)
        return "\n  ".join(parts) + "\n}\n"

    def sources(self):
        return "".join(self.source(i) for i in range(self.random.randint(1, 4)))
