"""References to arguments in a text (`{{args.name}}`), and the text with their values."""
import re
from collections.abc import Iterator, Mapping
from typing import NamedTuple

OPENING, CLOSING = re.compile(r"\{\{ *args\."), "}}"


class Reference(NamedTuple):
    """A reference to an argument: its name, and where in the text it begins and ends."""

    name: str
    start: int
    end: int


def references_in(text: str) -> Iterator[Reference]:
    """Each reference of a text. Without an end there is none: what comes after it is looked at once."""
    at = 0
    while (begun := OPENING.search(text, at)) is not None:
        closing = text.find(CLOSING, begun.end())
        if closing < 0:
            return
        at = closing + len(CLOSING)
        yield Reference(text[begun.end() : closing].rstrip(" "), begun.start(), at)


def bound(text: str, args: Mapping[str, str]) -> str:
    """A text with its arguments' values; one without a value is left out."""
    pieces, at = [], 0
    for found in references_in(text):
        pieces += [text[at : found.start], args.get(found.name, "")]
        at = found.end
    return "".join([*pieces, text[at:]])


def argument_of(text: str) -> str | None:
    """The name of the argument that a whole text is a reference to, if it is one."""
    for found in references_in(text):
        return found.name if (found.start, found.end) == (0, len(text)) else None
    return None
