"""Values of a suite's file with the places where they are, and objects that have known fields alone."""
from __future__ import annotations

import difflib
from collections.abc import Sequence
from typing import NamedTuple

from argo_judge.errors import Refused
from argo_judge.jsontext import NumberText
from argo_judge.manifests import Found
from argo_judge.objects import Json, listed, shown
from argo_judge.pointers import pointer_to


class Node(NamedTuple):
    """A value, the document that it is in, and its JSON pointer there."""

    value: Json
    found: Found
    pointer: str

    @property
    def line(self) -> int | None:
        """Its line, if it is known."""
        return self.found.line_of(self.pointer)

    @property
    def where(self) -> str:
        """How a refusal says where it is."""
        line = self.line
        return f"{self.found.file}, " + (f"line {line}" if line else f"at {self.pointer or 'its beginning'}")

    def refused(self, expected: str) -> Refused:
        """The refusal of its value."""
        return Refused(f"{self.where}: expected {expected}, found {shown(self.value)}")

    def has(self, name: str) -> bool:
        """Whether there is a member of a name."""
        return name in self.value

    def member(self, name: str) -> Node:
        """What is under a name; where nothing is, or null, its value is None."""
        return Node(self.value.get(name), self.found, self.pointer + pointer_to(name))

    def items(self, expected: str) -> list[Node]:
        """The items of a list."""
        if not isinstance(self.value, list):
            raise self.refused(expected)
        return [Node(item, self.found, self.pointer + pointer_to(place)) for place, item in enumerate(self.value)]

    def members(self, expected: str) -> dict[str, Node]:
        """The members of an object, by their names."""
        if not isinstance(self.value, dict):
            raise self.refused(expected)
        return {name: self.member(name) for name in self.value}


def guess(name: str, names: Sequence[str]) -> str:
    """What is said of a name that isn't known: which one is meant, or which ones there are."""
    near = difflib.get_close_matches(name[:64], names, 1)
    return f"did you mean {shown(near[0])}?" if near else f"expected one of {', '.join(map(shown, names))}"


def check_fields(node: Node, names: Sequence[str], what: str) -> None:
    """Refuses what is no object, and a field that isn't known."""
    if not isinstance(node.value, dict):
        raise node.refused(f"{what}, an object")
    for name in node.value:
        if name not in names:
            raise Refused(f"{node.member(name).where}: {what} has no field {shown(name)}; {guess(name, names)}")


def text_of(node: Node, expected: str) -> str:
    """A text; a fraction is none."""
    if not isinstance(node.value, str) or isinstance(node.value, NumberText):
        raise node.refused(expected)
    return str(node.value)


def word_of(node: Node, names: Sequence[str], expected: str) -> str:
    """A text that is one of these names; `expected`: what it is, after its article."""
    word = text_of(node, expected)
    if word not in names:
        kind = expected.split(" ", 1)[1]
        raise Refused(f"{node.where}: {shown(word)} is no {kind}; {guess(word, names)}")
    return word


def whole_of(node: Node, least: int, most: int) -> int:
    """A whole number in a range."""
    value = node.value
    if isinstance(value, bool) or not isinstance(value, int) or not least <= value <= most:
        raise node.refused(f"a whole number from {least} to {most}")
    return value


def known_name(node: Node, name: str, names: Sequence[str], what: str) -> None:
    """Refuses a name that is none of those that there are."""
    if name not in names:
        near = difflib.get_close_matches(name[:64], names, 1)
        meant = f"did you mean {shown(near[0])}?" if near else f"there are {listed(names)}"
        raise Refused(f"{node.where}: no {what} has the name {shown(name)}; {meant}")
