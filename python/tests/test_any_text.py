"""Whatever a text has: it is read or refused, in time, and a line stays one. Needs hypothesis."""
import json
from collections.abc import Callable
from typing import Any

import pytest

from argo_judge.cuts import difference
from argo_judge.errors import Refused
from argo_judge.jsontext import LongNumber, measured, parsed_all
from argo_judge.lint.limits import is_duration
from argo_judge.lint.references import bound, referred_in
from argo_judge.lint.tokens import conversions_in, guards_of_parts, without_conversions
from argo_judge.lint.values import values_of
from argo_judge.literals import literals_of
from argo_judge.notes import one_line
from argo_judge.objects import shown
from argo_judge.pointers import pointer_to
from argo_judge.providers import PROVIDERS
from argo_judge.suite.numbers import moved_text, number_in
from argo_judge.yamltext import plain_scalar

hypothesis = pytest.importorskip("hypothesis")
some = hypothesis.strategies

# What conditions, numbers and JSON are made of, next to any other character.
PIECES = [
    "result",
    "len(",
    "default(",
    "asFloat(",
    "isNaN(",
    ")",
    "[",
    "]",
    "{{",
    "}}",
    "args.a",
    '"',
    "'",
    "\\",
    "//",
    "/*",
]
PIECES += [
    "<",
    ">=",
    "-",
    ".",
    "0",
    "1",
    "9",
    "e",
    "_",
    "0x",
    "0b",
    "~",
    "NaN",
    "Inf",
    "<nil>",
    " ",
    "\n",
    ",",
    "{",
    "}",
    ":",
]
TEXTS = some.lists(some.sampled_from(PIECES) | some.text(max_size=3), max_size=40).map("".join)


def of_any(text: Any) -> Callable[[Callable[[Any], None]], Callable[[], None]]:
    """Tries a function on many values."""
    tried: Callable[[Callable[[Any], None]], Callable[[], None]] = hypothesis.given(text)
    return tried


@of_any(TEXTS)
def test_json_is_read_or_refused(text: str) -> None:
    try:
        values = parsed_all(text, "input")
    except Refused as fault:
        assert len(one_line(str(fault)).splitlines()) == 1
    else:
        assert all(json.loads(json.dumps(value)) == value for value in values)


@of_any(TEXTS)
def test_an_answer_is_a_value(text: str) -> None:
    json.dumps(measured(text))
    for provider in PROVIDERS:
        assert len(provider.read(text)) <= 1


@of_any(TEXTS)
def test_a_scalar_is_a_value_or_refused(text: str) -> None:
    try:
        value = plain_scalar(text, "here")
    except (Refused, LongNumber):
        return
    assert value is None or isinstance(value, (bool, int, str))


@of_any(TEXTS)
def test_conditions_are_read_tolerantly(text: str) -> None:
    for literal in literals_of(text):
        assert text[literal.start : literal.end] == literal.written.lstrip("-")
    without = without_conversions(text)
    assert len(without) <= len(text) or conversions_in(text)
    list(guards_of_parts(text))
    difference(["0.0000001"], list(literals_of(text)))
    values_of({"list": "decimal", "max": 3}, [text])


@of_any(TEXTS)
def test_references_are_bound_or_not(text: str) -> None:
    names = referred_in(text)
    assert bound(text, dict.fromkeys(names, "")) is None or "{{" not in str(bound(text, dict.fromkeys(names, "x")))
    is_duration(text)


@of_any(TEXTS)
def test_numbers_stay_numbers_when_moved(text: str) -> None:
    number = number_in(text)
    if number is not None:
        assert number_in(moved_text(number, number)) == 2 * number


@of_any(TEXTS)
def test_lines_stay_one(text: str) -> None:
    assert one_line(text).isprintable() and shown(text).isprintable()
    assert pointer_to(text).count("/") == 1
