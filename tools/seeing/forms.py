"""The forms of the lines of a trace and of refusals, as docs/users/formats/trace.md has them."""

import re

N = r"(0|[1-9][0-9]{0,38})"
Z = r"(0|-?[1-9][0-9]{0,38})"
NAME = r"([a-z][a-z0-9_]{0,30})"
PLAIN = r'[^"\\\x00-\x1f]*'
TEXT = rf'"{PLAIN}(?:\\(?:["\\bfnrt]|u00(?:0[0-7bef]|1[0-9a-f])){PLAIN})*"'
VALUE = rf"(?:{Z}|{NAME}|\[{Z},{Z}\]|\#{N}|{TEXT})"

# The forms of lines, each under its first word. `refused`, `end native` and `closed` tell of natives of a host, `post`
# and `end post` of what a host posted.
FORMS = {
    "create": rf"create {N} {NAME}",
    "set": rf"set {N}\.{NAME}",
    "link": rf"link {N}\.{NAME} {N}",
    "unlink": rf"unlink {N}\.{NAME} {N}",
    "enter": rf"enter {N} {NAME}",
    "leave": rf"leave {N} {NAME}",
    "delete": rf"delete {N}",
    "trigger": rf"trigger {N} {NAME} unit {N} rating {Z}",
    "decline": rf"decline {NAME} unit {N}",
    "obviate": rf"obviate {N}",
    "retrigger": rf"retrigger {N} {Z}",
    "cycle": rf"cycle {N} act {N} {NAME} unit {N} rating {Z}",
    "invalid": rf"invalid {N}",
    "say": rf"say(?: {VALUE})*",
    "refused": rf"refused ask {N} ([1-6])",
    "post": r"post",
    "end": rf"end (?:steps {N} found {N} budget {N}|native {N}|post {N})",
    "quiescence": r"quiescence",
    "finish": r"finish (quiescence|limit|full)",
    "closed": rf"closed {NAME} {Z}",
}
FORMS = {word: re.compile(form) for word, form in FORMS.items()}
REFUSAL = re.compile(r"refused (?:input|schema|units|lang|compile|bundle|verify|rule)(?: .*)?")


def told_unknown(text: str) -> str:
    """What is said of a line that is none, in one line of ASCII."""
    return f"no line of a trace: {ascii(text[:60] + '…' * (len(text) > 60))}"


def is_refusal(raw: bytes) -> bool:
    """Whether a trace that begins with this line is that of a refused input."""
    return REFUSAL.fullmatch(raw.decode(errors="replace").removesuffix("\n")) is not None


def told_refusal(text: str) -> str:
    """What is said of a first line that is none of a run's."""
    return (
        f"the input was refused, so there is no run to see: {text}" if REFUSAL.fullmatch(text) else told_unknown(text)
    )
