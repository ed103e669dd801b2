#!/usr/bin/env python3
"""The word lattice of `hearsay.bb` and others like it, and their sentences by exhaustive search.

    examples/known/lattice.py                      prints the sentences of the lattice, the best first
    examples/known/lattice.py SEED [left] | ./bb   runs a lattice with other ratings and more words

left: phrases grow from the beginning only, because the focus on islands is inactive. SEED 0 is the lattice of
`hearsay.bb` itself. A sentence is words that meet in time, from the beginning of the utterance to its end, on a path of
the grammar. Its rating is that of its words, each times its length.
"""

import json
import random
import sys
from dataclasses import dataclass
from pathlib import Path

SOURCES = Path(__file__).resolve().parent / "hearsay.bb"


@dataclass(frozen=True)
class Word:
    text: str
    category: str
    first: int
    last: int
    rating: int

    def total(self):
        return self.rating * (self.last - self.first)


@dataclass(frozen=True)
class Lattice:
    words: tuple
    arcs: tuple
    last: int
    ends: tuple

    def sentences(self, state=0, at=0):
        """Each way from a state at a time to the end."""
        if at == self.last and self.ends[0] <= state <= self.ends[1]:
            yield ()
        for start, category, end in self.arcs:
            if start == state:
                for word in self.words:
                    if (word.category, word.first) == (category, at):
                        yield from ((word, *rest) for rest in self.sentences(end, word.last))


def total(sentence):
    return sum(word.total() for word in sentence)


def text_of(sentence):
    return " ".join(word.text for word in sentence)


def parts():
    """What `hearsay.bb` has before its initial units, these as a document, and what it has after them."""
    head, _, rest = SOURCES.read_text().partition("%units\n")
    units, _, sources = rest.partition("%sources\n")
    return head, json.loads(units), sources


def lattice_of(given):
    """The lattice that a document has."""
    words, arcs, (utterance,) = (slots_of(given, it) for it in ("word", "arc", "utterance"))
    words = [Word(it["text"], it["category"], *it["span"], it["rating"]) for it in words]
    arcs = [(it["from"], it["category"], it["to"]) for it in arcs]
    return Lattice(tuple(words), tuple(arcs), utterance["span"][1], tuple(utterance["ends"]))


def slots_of(given, kind):
    """The slots of each unit of a class."""
    return [it["slots"] for it in given["units"] if it["class"] == kind]


def varied(given, seed):
    """The document with other ratings, and half as many words again between times at which words begin or end."""
    chance = random.Random(seed)
    old = lattice_of(given).words
    times = sorted({time for word in old for time in (word.first, word.last)})
    found = {(word.text, word.first, word.last): word.category for word in old}
    while len(found) < len(old) * 3 // 2:
        like, first, last = chance.choice(old), *sorted(chance.sample(times, 2))
        if abs(last - first - like.last + like.first) < 3:
            found[like.text, first, last] = like.category
    rated = [Word(text, it, first, last, chance.randint(50, 90)) for (text, first, last), it in found.items()]
    return with_words(given, rated)


def with_words(given, words):
    """The document with these words in place of its own."""
    units = [it for it in given["units"] if it["class"] != "word"]
    spaces = [it for it in given["spaces"] if it[1] != "words"]
    for it in words:
        name = f"{it.text} {it.first} {it.last}"
        slots = {"text": it.text, "category": it.category, "span": [it.first, it.last], "rating": it.rating}
        units.append({"name": name, "class": "word", "slots": slots})
        spaces.append([name, "words"])
    return {"units": units, "spaces": spaces}


def cut_short(given):
    """The document without the words that end with the utterance."""
    read = lattice_of(given)
    return with_words(given, [it for it in read.words if it.last < read.last])


def with_fragments(given):
    """The document with more words that are well heard: ANY can't begin a sentence, AND can't end one, LIST is late."""
    more = [Word("ANY", "quantity", 0, 9, 90), Word("AND", "joint", 33, 42, 90), Word("LIST", "list", 2, 4, 90)]
    return with_words(given, [*more, *lattice_of(given).words])


def from_the_left(given):
    """The document with the focus on islands inactive."""
    focus = {"name": "islands", "class": "focus", "slots": {"source": "seed", "weight": 10000, "active": False}}
    return given | {"units": [focus if it["name"] == "islands" else it for it in given["units"]]}


def input_of(given):
    """The input for a document: `hearsay.bb` with other initial units."""
    head, _, sources = parts()
    return f"{head}%units\n{json.dumps(given)}\n%sources\n{sources}"


def main():
    words = sys.argv[1:]
    _, given, _ = parts()
    if not words:
        for sentence in sorted(lattice_of(given).sentences(), key=total, reverse=True):
            print(total(sentence), text_of(sentence))
        return
    if not words[0].isdigit() or words[1:] not in ([], ["left"]):
        sys.exit(__doc__)
    if int(words[0]):
        given = varied(given, int(words[0]))
    print(input_of(from_the_left(given) if words[1:] else given), end="")


if __name__ == "__main__":
    main()
