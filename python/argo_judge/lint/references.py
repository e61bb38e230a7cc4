"""References to arguments, as `{{args.name}}`, in texts of a template."""
from collections.abc import Iterator, Mapping
from typing import TypeAlias

from argo_judge.lint.subjects import Subject
from argo_judge.objects import Json, member

BEFORE_NAME = "args."
# What leads to a value: names and indexes.
Names: TypeAlias = tuple[str | int, ...]
# The value of an argument that has none: it is a number, and in quotes a text.
STAND_IN = "1"


def pieces(text: str) -> list[str] | None:
    """What is outside and inside of braces, by turns; the last piece is outside. None where braces stay open."""
    found, at = [], 0
    while (begin := text.find("{{", at)) >= 0:
        end = text.find("}}", begin + 2)
        if end < 0:
            return None
        found += [text[at:begin], text[begin + 2 : end].strip(" ")]
        at = end + 2
    return [*found, text[at:]]


def referred_in(text: str) -> list[str]:
    """The names of arguments that a text refers to."""
    return [inside[len(BEFORE_NAME) :] for inside in (pieces(text) or [])[1::2] if inside.startswith(BEFORE_NAME)]


def others_in(text: str) -> list[str]:
    """What else is in braces, which is no reference to an argument."""
    return [inside for inside in (pieces(text) or [])[1::2] if not inside.startswith(BEFORE_NAME)]


def bound(text: str, values: Mapping[str, str]) -> str | None:
    """A text with its arguments' values; None where one has no value, or where braces hold something else."""
    parts = pieces(text)
    if parts is None:
        return None
    for place in range(1, len(parts), 2):
        name = parts[place][len(BEFORE_NAME) :]
        if not parts[place].startswith(BEFORE_NAME) or name not in values:
            return None
        parts[place] = values[name]
    return "".join(parts)


def texts_in(value: Json, names: Names = ()) -> Iterator[tuple[str, Names]]:
    """Each text in a value, with the names and indexes that lead to it."""
    waiting = [(value, names)]
    while waiting:
        value, names = waiting.pop()
        if isinstance(value, str):
            yield value, names
        elif isinstance(value, dict):
            waiting += [(item, (*names, name)) for name, item in reversed(list(value.items()))]
        elif isinstance(value, list):
            waiting += [(item, (*names, place)) for place, item in reversed(list(enumerate(value)))]


def referring_texts(subject: Subject) -> list[tuple[str, Names]]:
    """Each text of a template that has braces, with what leads to it; arguments themselves have none."""
    spec = member(subject.object, "spec", default={})
    parts = {name: part for name, part in spec.items() if name != "args"} if isinstance(spec, dict) else {}
    return [(text, names) for text, names in texts_in(parts, ("spec",)) if "{{" in text]
