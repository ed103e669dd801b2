"""Tests of the words of the language: they are those of the language, and what is told of them is on its page."""

import re

from client import ROOT, of, position_at
from words import AS_EVENT, EVENTS, IN_HEAD, IN_PART, RESERVED

PAGE = (ROOT / "docs/users/LANGUAGE.md").read_text()
LISTED = (ROOT / "crates/bb_lang_tree/src/words.rt").read_text()


def plain(text):
    return re.sub(r"[`*]", "", text)


class Words:
    def words_of_the_language(self):
        listed = re.search(r'const RESERVED: &str =\s*"([^"]*)"', LISTED)[1].split()
        assert sorted(RESERVED) == sorted(listed)
        assert sorted(IN_PART.keys() | IN_HEAD.keys() | AS_EVENT.keys()) == sorted(listed)
        assert sorted(AS_EVENT) == sorted(EVENTS)

    def sentences_are_on_the_page(self):
        page = plain(PAGE)
        for senses in (AS_EVENT, IN_HEAD, IN_PART):
            for word, (form, sentence) in senses.items():
                assert sentence.removeprefix("asked ") in page, f"{word}: {sentence}"
                assert re.search(rf"\b{word}\b", form), f"{word} is not in {form}"

    def each_word_is_told(self):
        """Each word has a hover in a text that has each where it may stand."""
        text = (
            "%schema\n{}\n%sources\nsource s on focus { when create focus; when delete focus; when update focus.area;"
            " when link a.b; when unlink a.b; when enter a b; when leave a b; when quiescence; rate 1; require { decline; }"
            " obviate on focus when quiescence; { answer ev = it; } retrigger on focus when quiescence; { rate 1; }"
            " revalidate { answer true or false and not(true); } do { let n = min(1, max(low(a), high(b)));"
            " if true { } else { with x = it as focus { for y in find focus in w where all { new z: focus; set z.area ="
            ' "a"; link x.l y; unlink x.l y; enter x w; leave x w; delete x; say size(find focus in w where or(d within e,'
            " d covers e, d overlaps e, d less e, d more e, d is l:m)); } } } } } source t on focus { native; }\n"
        )
        with of(text) as client:
            for word in RESERVED:
                for found in re.finditer(rf"(?<!\.)\b{word}\b", text[text.index("source s") :]):
                    at = found.start() + text.index("source s")
                    told = client.at("hover", position_at(text, at))
                    assert told and word in told["contents"]["value"], (word, told)
                    assert told["range"] == {"start": position_at(text, at), "end": position_at(text, at + len(word))}
