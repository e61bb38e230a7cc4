"""JSON without rounding.

A fraction is read as a text, since the engine takes decimals as texts; a whole number keeps its digits.
"""
import json
import re
from typing import TypeGuard

from argo_judge.errors import Refused
from argo_judge.objects import Json, Object, shown

# What a whole number may have for the engine to read the document.
MOST_DIGITS = 309


class LongNumber(ValueError):
    """A whole number that the engine can't read."""


def whole(digits: str) -> int:
    """A whole number by its digits."""
    if len(digits) > MOST_DIGITS:
        raise LongNumber(f"a whole number of {len(digits)} digits; expected at most {MOST_DIGITS}")
    return int(digits)


class NumberText(str):
    """A fraction as it is written, which JSON would round."""


def is_text(value: Json) -> TypeGuard[str]:
    """Whether a value is a text; a fraction is none."""
    return isinstance(value, str) and not isinstance(value, NumberText)


def is_whole(value: Json) -> TypeGuard[int]:
    """Whether a value is a whole number."""
    return isinstance(value, int) and not isinstance(value, bool)


class DoubleName(ValueError):
    """A name that an object has twice: which of the values is meant nobody can say."""


def object_of(pairs: list[tuple[str, Json]]) -> Object:
    """An object, of whose names none is there twice."""
    found = dict(pairs)
    if len(found) != len(pairs):
        seen: set[str] = set()
        for name, _ in pairs:
            if name in seen:
                raise DoubleName(f"{shown(name)} twice in an object")
            seen.add(name)
    return found


DECODER = json.JSONDecoder(parse_float=NumberText, parse_constant=str, parse_int=whole, object_pairs_hook=object_of)
BLANKS = re.compile(r"[ \t\n\r]*")


def decoded(text: str, at: int, where: str, expected: str) -> tuple[Json, int]:
    """The JSON value that begins at an offset of a text, and the offset after it."""
    try:
        return DECODER.raw_decode(text, at)
    except json.JSONDecodeError as fault:
        place = f"line {fault.lineno}, column {fault.colno}" if "\n" in text.rstrip() else f"column {fault.colno}"
        raise Refused(f"{where}: expected {expected}; the fault is at {place}")
    except (LongNumber, DoubleName) as fault:
        raise Refused(f"{where}: found {fault}")
    except RecursionError:
        raise Refused(f"{where}: values in values are too deep; expected at most 127 levels, as the engine reads")


def skipped(text: str, at: int) -> int:
    """The offset after blanks."""
    blanks = BLANKS.match(text, at)
    return at if blanks is None else blanks.end()


def parsed(text: str, where: str) -> Json:
    """The JSON value of a text."""
    if not text.strip():
        raise Refused(f"{where}: expected one JSON value, found nothing")
    value, at = decoded(text, skipped(text, 0), where, "one JSON value")
    if skipped(text, at) != len(text):
        line = text.count("\n", 0, at) + 1
        raise Refused(f"{where}: expected one JSON value; on line {line} more comes after it")
    return value


def parsed_all(text: str, where: str) -> list[Json]:
    """The JSON values of a text that has one or several, one after another."""
    values, at = [], skipped(text, 0)
    while at < len(text):
        value, at = decoded(text, at, where, "JSON values")
        values.append(value)
        at = skipped(text, at)
    return values


def parsed_lines(text: str, where: str) -> list[Json]:
    """The JSON values of a text that has one a line; blank lines are none."""
    lines = enumerate(text.split("\n"), 1)
    return [parsed(line, f"{where}, line {number}") for number, line in lines if line.strip()]


# A text that isn't closed ends with the answer, so that each character is looked at once.
NOT_FINITE = re.compile(r'"(?:[^"\\]|\\.)*+"?|[+-]?\bInf\b|\bNaN\b')


def measured(text: str) -> Json:
    """The value that a controller's text of an answer represents: JSON, in which numbers may be infinite as Go
    writes them, and else the text itself."""
    quoted = NOT_FINITE.sub(lambda found: found[0] if found[0].startswith('"') else f'"{found[0]}"', text)
    try:
        return json.loads(quoted, parse_float=str, parse_constant=str, parse_int=whole)
    except (ValueError, RecursionError):
        return text
