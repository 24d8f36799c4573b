"""Why something is refused, in words."""

from typing import NamedTuple, Optional

from . import _smap
from ._answers import Refusal
from ._given import Held


class Refused(ValueError):
    """What was given is refused: its text says why, in the program's words. Of a map that is refused its first line names the
    refusal, and the lines after it, if there are any, are the `explanation`.

    `code` is the program's, as "M14", which `smap explain` takes: for a map M1 to M18, and for its base "usage" where that is no
    URL and "U1" where it is too long. Of X5 `lines` says how many whole lines of what would come out fit. Where the refusal of a
    map has them, there are the `section`, the `cause`, as "F10" for the fault of the mappings, with its `line` and the `byte`
    where its segment begins, or as "B2" for why no index is built. `url` is the base of the map, the URL under which a `Rewriter`
    was to have it, or the name of the source that it was to be of.

    Where a segment of the mappings is refused for a value, `value` is that, as the map has it, and `limit` the least that it
    may be where it is below that, and else the most: a most of -1 is that of an index into an empty list. `column` is the
    segment's generated column, from 0, as `line` counts. `explanation` is what is known of why the map is refused, as
    sentences in indented lines, in which lines and columns count from 1; it is empty where nothing more is known. All else
    has None.
    """

    code: str
    cause: Optional[str]
    section: Optional[int]
    line: Optional[int]
    byte: Optional[int]
    url: Optional[str]
    lines: Optional[int]
    value: Optional[int]
    limit: Optional[int]
    column: Optional[int]
    explanation: str

    def __init__(self, text: str, code: str, cause: Optional[str] = None, section: Optional[int] = None,
                 line: Optional[int] = None, byte: Optional[int] = None, url: Optional[str] = None,
                 why: Optional["Why"] = None, lines: Optional[int] = None) -> None:
        explanation = why.sentences if why else ""
        super().__init__(f"{text}\n{explanation[:-1]}" if explanation else text)
        self.code, self.cause, self.section = code, cause, section
        self.line, self.byte, self.url, self.lines = line, byte, url, lines
        self.value, self.limit, self.column = (why.value, why.limit, why.column) if why else (None, None, None)
        self.explanation = explanation


class Why(NamedTuple):
    """What is known of why a map is refused: the value that is wrong, its limit, the segment's column, and sentences."""

    value: Optional[int]
    limit: Optional[int]
    column: Optional[int]
    sentences: str


def refused_map(held: Held, refusal: Refusal, name: Optional[str], base: str, url: Optional[str] = None,
                hint: str = "") -> Refused:
    """Why the map of these bytes and of this name, if it has one, is refused at this base. The hint is for what is no JSON."""
    reason = _smap.explained(refusal, held)
    if reason is None:
        return refused_base(refusal.code, base, url) if refusal.code in (_smap.USAGE, _smap.U1) else refused_as(refusal.code)
    line, _, sentences = reason.lines.partition("\n")
    below = reason.value is not None and reason.least is not None and reason.value < reason.least
    why = Why(reason.value, reason.least if below else reason.most, reason.column,
              sentences + hint if refusal.code == _smap.M2 else sentences)
    is_fault = refusal.code == _smap.M14
    return Refused(f"refused: {name}: {line}" if name else f"refused: {line}", _label(refusal.code),
                   _label(refusal.cause) if refusal.cause else None, refusal.section if refusal.has_section else None,
                   refusal.line if is_fault else None, refusal.byte if is_fault else None, url, why)


def refused_base(code: int, base: str, url: Optional[str] = None) -> Refused:
    """Why there is no such base."""
    why = "too long" if code == _smap.U1 else "no URL"
    return Refused(f"the base is {why}: {_shown(base)}", _label(code), url=url)


def refused_as(code: int, behind: str = "", name: Optional[str] = None) -> Refused:
    """What was given, of this name if it has one, is refused with this code, with what stands behind it."""
    text = f"{_text(code)}{behind}"
    return Refused(f"refused: {name}: {text}" if name else f"refused: {text}", _label(code))


def refused_encoding(code: int, mapping: int) -> Refused:
    """Why mappings have no text, the first of which that is refused has this number."""
    return refused_as(code, "" if code == _smap.E3 else f" {mapping}")


def refused_url(code: int, url: str) -> Refused:
    """Why a table takes no map under this URL."""
    return Refused(f"usage: {_text(code)}: {_shown(url)}", _label(code), url=url)


def refused_text(code: int, lines: int) -> Refused:
    """Why a text is not rewritten, of which so many lines would fit."""
    if code != _smap.X5:
        return refused_as(code)
    return Refused(f"refused: {_text(code)}: {lines} whole lines fit", _label(code), lines=lines)


def _shown(url: str) -> str:
    return repr(url) if len(url) <= 200 else f"{url[:200]!r} and {len(url) - 200} characters more"


def _text(code: int) -> str:
    return _smap.code_text(code) or str(code)


def _label(code: int) -> str:
    return _text(code).split(" ")[0]
