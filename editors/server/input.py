"""An input as the server knows it: its sections, what they declare, and the place of each name."""

from functools import cached_property

from bundle import bundle_of
from documents import Node, document_of
from names import Symbol, Uses
from schema import Schema, schema_of
from sections import Section, sections_of
from sources import Reader, Source, Variable
from text import Text
from tokens import Token, tokens_of
from units import units_of

# Names of a text beyond this many characters are not looked up: that would take more than a second.
READ_LIMIT = 1_000_000


class Input:
    """One version of an input."""

    def __init__(self, text: Text):
        self.text = text
        self.is_long = len(text.whole) > READ_LIMIT
        self.sections: dict[str, Section] = {} if self.is_long else sections_of(text)
        self.uses = Uses()
        self.documents: dict[str, Node | None] = {}
        for header in ("%schema", "%units"):
            section = self.sections.get(header)
            self.documents[header] = document_of(text.whole, section.start, section.end) if section else None
        self.schema: Schema = schema_of(self.documents["%schema"], text.whole, self.uses)
        self.units = units_of(self.documents["%units"], self.schema, self.uses)
        self.sources: list[Source] = []
        self.variables: list[Variable] = []
        # What foci name by values that are not plain: sources, or classes.
        self.unknown: set[str] = set()
        self.read_sources()
        self.bundled: list[Source] = []
        if "%bundle" in self.sections:
            self.bundled = bundle_of(text, self.sections["%bundle"], self.schema, self.uses)
            self.unknown |= {"source", "class"} if self.bundled else set()
        self.uses.finish()

    def read_sources(self) -> None:
        section = self.sections.get("%sources")
        if section:
            reader = Reader(self.tokens, self.schema, self.uses, section.end).read()
            reader.end_source(section.end)
            self.sources, self.variables, self.unknown = reader.sources, reader.variables, reader.unknown

    @cached_property
    def tokens(self) -> list[Token]:
        """The tokens of `%sources`."""
        section = self.sections.get("%sources")
        return tokens_of(self.text.whole, section.start, section.end) if section else []

    def section_at(self, offset: int) -> Section | None:
        """The section in whose text an offset is."""
        return next((it for it in self.sections.values() if it.start <= offset <= it.end and it.start > it.head), None)

    def source_at(self, offset: int) -> Source | None:
        return next((it for it in [*self.sources, *self.bundled] if it.start <= offset <= it.end), None)

    def source_of(self, name: str) -> Source | None:
        """A source by its name. Those that are text come first."""
        return next((it for it in [*self.sources, *self.bundled] if it.name == name), None)

    def variable_of(self, symbol: Symbol) -> Variable | None:
        return next((it for it in self.variables if it.symbol == symbol), None)
