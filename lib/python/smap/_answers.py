"""What the library answers. The extension makes these tuples itself."""

from typing import List, NamedTuple, Optional


class Answer(NamedTuple):
    """The mapping that answers a look-up. One without an original has None for all but its column."""

    generated_column: int
    source: Optional[int]
    line: Optional[int]
    column: Optional[int]
    name: Optional[int]


class Generated(NamedTuple):
    """A place of the generated file, and the column of its original."""

    line: int
    column: int
    original_column: int


class Mapping(NamedTuple):
    """A mapping, where it stands in the generated file and what it answers. One without an original has None for that."""

    generated_line: int
    generated_column: int
    source: Optional[int]
    line: Optional[int]
    column: Optional[int]
    name: Optional[int]


class Source(NamedTuple):
    """A source of a map: its name and its content, where the map has them, and whether a debugger passes over it."""

    name: Optional[str]
    content: Optional[str]
    ignored: bool


class Place(NamedTuple):
    """Where a place of a generated file comes from: the name of the source, where the map has it, line and column in it, the name of
    the mapping, whether a debugger passes over the source, and its number."""

    source: Optional[str]
    line: int
    column: int
    name: Optional[str]
    ignored: bool
    index: int  # type: ignore[assignment]


class Context(NamedTuple):
    """A line of a source, and those before and after it."""

    before: List[str]
    line: str
    after: List[str]


class Counts(NamedTuple):
    """How much a map holds. `lines` are the generated lines that hold a mapping."""

    sections: int
    sources: int
    names: int
    segments: int
    lines: int
    checkpoints: int


class Fit(NamedTuple):
    """How a map fits a generated file, and whether it can be its map: then no mapping stands past the text or inside a word of
    it. Of the mappings whose source has content, `outside` are past it, and `same` show the same in both texts."""

    fits: bool
    mappings: int
    past: int
    inside: int
    compared: int
    outside: int
    same: int


class Refusal(NamedTuple):
    """Why a map is not read, in the library's numbers. What the refusal has not is 0."""

    code: int
    cause: int
    line: int
    has_section: int
    section: int
    byte: int


class TextRefusal(NamedTuple):
    """Why a text is not rewritten, in the library's number, and how many whole lines of what would come out fit."""

    code: int
    lines: int


class Reason(NamedTuple):
    """What is known of why a map is refused: the value that is wrong, what it may be, the segment's column, and what the program
    prints, with sentences below it."""

    value: Optional[int]
    least: Optional[int]
    most: Optional[int]
    column: Optional[int]
    lines: str
