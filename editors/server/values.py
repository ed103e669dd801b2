"""What a name of a value is, where the text around it says so: a unit of a class, or a value of a kind."""

from typing import TYPE_CHECKING, NamedTuple

from tokens import Token
from words import CHANGES, STATEMENTS

if TYPE_CHECKING:
    from sources import Reader

NUMBER, TRUTH, TEXT, INTERVAL = "a number", "a truth value", "a text", "an interval"
KINDS = {"int": NUMBER, "bool": TRUTH, "text": TEXT, "interval": INTERVAL}
LONGEST = 200
ENDING = {";", "{", "}", "rate", "answer", "decline", *STATEMENTS, *CHANGES}
CALLS = {"min": NUMBER, "max": NUMBER, "low": NUMBER, "high": NUMBER, "size": NUMBER, "not": TRUTH}
# Operators, those that bind least first, with what they yield.
OPERATORS = (({"or", "and", "<", "<=", "="}, TRUTH), ({"+", "-", "*", "/", "%"}, NUMBER))


class Value(NamedTuple):
    """The class of a unit, or the kind of another value; nothing of either if it is not plain."""

    of: str = ""
    kind: str = ""


def value_of(reader: "Reader", at: int, before: str) -> Value:
    """What a name is that is declared at a token, behind `let`, `with`, `for` or `new`."""
    if before == "new":
        return Value(reader.token(at + 2).word if reader.token(at + 1).word == ":" else "")
    if before == "let":
        return value_of_expression(reader, at + 2, end_of(reader, at + 2))
    first, sign = reader.token(at + 2), reader.token(at + 3).word
    if first.word == "find":
        return Value(sign if reader.token(at + 3).sort == "word" else "")
    if sign == "as":
        return Value(reader.token(at + 4).word)
    return Value(partner_of(reader, at + 2) if sign == "." else "")


def end_of(reader: "Reader", start: int) -> int:
    """The token that ends a statement, or begins the next one. A longer one is looked at no further."""
    last = min(len(reader.tokens), start + LONGEST)
    return next((at for at in range(start, last) if reader.words[at] in ENDING), last)


def partner_of(reader: "Reader", at: int) -> str:
    """The class of the partners by `u.s`, which begins at a token."""
    slot = reader.schema.slot(reader.class_of(reader.token(at).word), reader.token(at + 2).word)
    return slot.to if slot else ""


def value_of_expression(reader: "Reader", start: int, end: int) -> Value:
    """What an expression yields, by the operator that binds least, or by its only term."""
    tokens = reader.tokens[start:end]
    while len(tokens) > 2 and tokens[0].word == "(" and closing(tokens) == len(tokens) - 1:
        start, tokens = start + 1, tokens[1:-1]
    outer = outer_words(tokens)
    for operators, kind in OPERATORS:
        if outer & operators:
            return Value(kind=kind)
    return value_of_term(reader, start, tokens)


def closing(tokens: list[Token]) -> int:
    """The index of the bracket that closes the first one."""
    depth = 0
    for at, token in enumerate(tokens):
        depth += (token.word in ("(", "[")) - (token.word in (")", "]"))
        if depth == 0:
            return at
    return -1


def outer_words(tokens: list[Token]) -> set[str]:
    """The words outside of brackets, but for a sign at the begin."""
    depth, found = 0, set()
    for at, token in enumerate(tokens):
        depth += token.word in ("(", "[")
        if depth == 0 and at:
            found.add(token.word)
        depth -= token.word in (")", "]") and depth > 0
    return found


def value_of_term(reader: "Reader", start: int, tokens: list[Token]) -> Value:
    """What a term yields: a written value, a name, a slot, a label or a call."""
    first, sign = (tokens[0], tokens[1].word if len(tokens) > 1 else "") if tokens else (None, "")
    if not first:
        return Value()
    if first.word == "[":
        return Value(kind=INTERVAL)
    if first.sort == "number" or first.word == "-":
        return Value(kind=NUMBER)
    if first.sort == "text":
        return Value(kind=TEXT)
    if first.word in ("true", "false"):
        return Value(kind=TRUTH)
    if sign == "(":
        return Value(kind=CALLS.get(first.word, ""))
    if sign == ":":
        return Value(kind=f"a label of {first.word}")
    if sign == "." and len(tokens) == 3:
        return value_of_slot(reader, start)
    if len(tokens) == 1:
        variable = reader.variable(first.word)
        return variable.value if variable else Value(reader.class_of(first.word))
    return Value()


def value_of_slot(reader: "Reader", at: int) -> Value:
    """The value of `u.s`, which begins at a token."""
    slot = reader.schema.slot(reader.class_of(reader.token(at).word), reader.token(at + 2).word)
    if not slot:
        return Value()
    return Value(kind=f"a label of {slot.of}" if slot.kind == "label" else KINDS.get(slot.kind, ""))
