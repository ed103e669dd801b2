"""The words of the language: where each fits, and what LANGUAGE says of it, sentence by sentence."""

PARTS = ("require", "obviate", "retrigger", "revalidate", "do")
REACTIONS = ("obviate", "retrigger")
EVENTS = ("create", "delete", "update", "link", "unlink", "enter", "leave", "quiescence")
LINKS = ("link", "unlink")
MOVES = ("enter", "leave")
TESTS = ("within", "covers", "overlaps", "less", "more", "is")
STATEMENTS = ("let", "if", "with", "for")
CHANGES = ("new", "set", "link", "unlink", "enter", "leave", "delete", "say")
ENDS = {
    "require": ("rate", "decline"),
    "obviate": ("answer",),
    "retrigger": ("rate", "decline"),
    "revalidate": ("answer",),
    "do": (),
}
VALUES = ("true", "false", "min", "max", "low", "high", "not", "size")
RESERVED = frozenset(
    "source on when create delete update link unlink enter leave quiescence rate require obviate retrigger revalidate do"
    " native let if else with as for in find new set say decline answer where all and or not within covers overlaps less"
    " more is true false min max low high size it ev".split()
)

# What a word does where it begins an event, a part or a statement, or stands in a value: its form, and words of the page.
AS_EVENT = {
    "create": ("create C", "a unit of the class, or one below it, is created or deleted"),
    "delete": ("delete C", "a unit of the class, or one below it, is created or deleted"),
    "update": ("update C.S", "its ordinary slot is set, even to the value that it had"),
    "link": ("link C.S", "a partner is added to its link slot, or removed; both units of a link have their event"),
    "unlink": ("unlink C.S", "a partner is added to its link slot, or removed; both units of a link have their event"),
    "enter": ("enter C W", "it enters or leaves the space"),
    "leave": ("leave C W", "it enters or leaves the space"),
    "quiescence": ("quiescence", "no pending activation reaches the floor; the event's unit is 0, which is not a unit"),
}
IN_HEAD = {
    "source": ("source NAME on CLASS { .. }", "A source has a name and a class"),
    "on": ("on CLASS", "A trigger's class is the source's or below it; the class of a reaction's event is the reaction's or below it."),
    "when": ("when EVENT;", "when, on one line or more, names the events that trigger it."),
    "rate": ("rate INT;", "the rating, if there is no require"),
    "require": ("require { .. }", "asked at an event that triggers the source"),
    "obviate": ("obviate on CLASS when EVENT; { .. }", "asked at its events, for each pending activation"),
    "retrigger": ("retrigger on CLASS when EVENT; { .. }", "asked at its events, for each pending activation"),
    "revalidate": ("revalidate { .. }", "asked when an activation is chosen"),
    "do": ("do { .. }", "The activation executes do."),
    "native": ("native;", "Natives are sources whose act the host writes in its own language."),
}
FIND = "yields the units of class C or below that are in the space and match the pattern, in ascending number; without where, all of them."
PATTERN = "Patterns are all, and(P, ..), or(P, ..), not(P), and tests d op E on a dimension of the space."
INTERVALS = "of a unit at [lo, hi] and E, an interval [a, b]"
IN_PART = {
    "let": ("let n = E;", "names a value"),
    "if": ("if E { .. } else { .. }", "runs the first block if E is true, else the second"),
    "else": ("if E { .. } else { .. }", "else is free if the first block always ends."),
    "with": (
        "with n = u as C { .. }, with n = u.s { .. }",
        "runs the first block if the unit exists and is a C. C is u's class or below it; if u is live, only below it",
    ),
    "as": (
        "with n = u as C { .. } else { .. }",
        "runs the first block if the unit exists and is a C. C is u's class or below it; if u is live, only below it",
    ),
    "for": ("for n in Q { .. }", "runs the block for each unit of Q that still exists at its turn"),
    "in": ("for n in Q { .. }, find C in W where P", "runs the block for each unit of Q that still exists at its turn"),
    "find": ("find C in W where P", FIND),
    "where": ("find C in W where P", FIND),
    "new": ("new n: C;", "creates a unit of the class, with its defaults, in no space"),
    "set": ("set u.s = E;", "sets an ordinary slot"),
    "link": (
        "link u.s v;",
        "links u to v, a unit of the slot's class or below; replaces the link of a singular end; does nothing if they are linked",
    ),
    "unlink": ("unlink u.s v;", "removes the link, if there is one"),
    "enter": ("enter u W;", "enters or leaves the space, if it has not yet"),
    "leave": ("leave u W;", "enters or leaves the space, if it has not yet"),
    "delete": (
        "delete u;",
        "removes u's links, leaves its spaces, deletes it; likewise its parts, and theirs, in ascending number",
    ),
    "say": ("say E, ..;", "writes a line of the trace"),
    "rate": ("rate E;", "ends the part"),
    "answer": ("answer E;", "ends the part"),
    "decline": ("decline;", "ends the part"),
    "all": ("all", PATTERN),
    "and": ("a and b, and(P, ..)", "truth values; both sides are evaluated"),
    "or": ("a or b, or(P, ..)", "truth values; both sides are evaluated"),
    "not": ("not(a), not(P)", "the other one"),
    "within": ("d within E: a <= lo and hi <= b", INTERVALS),
    "covers": ("d covers E: lo <= a and b <= hi", INTERVALS),
    "overlaps": ("d overlaps E: lo <= b and a <= hi", INTERVALS),
    "less": ("d less E: hi < a, strictly", INTERVALS),
    "more": ("d more E: b < lo, strictly", INTERVALS),
    "is": ("d is E", "on a dimension of labels: its label is E"),
    "true": ("true, false", "truth value"),
    "false": ("true, false", "truth value"),
    "min": ("min(a, b)", "numbers"),
    "max": ("max(a, b)", "numbers"),
    "low": ("low(a)", "an interval"),
    "high": ("high(a)", "an interval"),
    "size": ("size(Q)", "its number of units"),
    "it": ("it", "it is the activation's unit."),
    "ev": ("ev", "the event's unit"),
}


def told_of(word: str, before: str, is_in_part: bool) -> tuple[str, str] | None:
    """The form of a word with what LANGUAGE says of it, by the word before it and by whether a part is open."""
    if before == "when":
        return AS_EVENT.get(word)
    senses = [IN_PART, IN_HEAD] if is_in_part else [IN_HEAD, IN_PART]
    return next((it[word] for it in senses if word in it), None)
