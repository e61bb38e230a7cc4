"""The numbers of a condition, and what they are compared with."""
from fractions import Fraction

import pytest

from argo_judge.binding import argument_of, bound, references_in
from argo_judge.literals import compares_otherwise, literals_of, numbers_of


def found_in(condition: str) -> list[tuple[str, str, bool]]:
    """Each number as it is written, its comparison, and whether it is a size."""
    return [(one.written, one.comparison, one.is_size) for one in numbers_of(condition)]


@pytest.mark.parametrize(
    ("condition", "found"),
    [
        ("result > 0.95", [("0.95", ">", False)]),
        ("0.95 < result", [("0.95", ">", False)]),
        ("result == -1", [("-1", "==", False)]),
        ("result - 1 > 2", [("1", "", False), ("2", ">", False)]),
        ("result[0] >= .5", [(".5", ">=", False)]),
        ("len(result) > 0 && result[0] != 0x10", [("0", ">", True), ("0x10", "!=", False)]),
        ("2 <= count(result, # > 3)", [("2", ">=", True), ("3", ">", False)]),
        ("default(result, 0) > 1", [("1", ">", False)]),
        ("result in [1, 2]", [("1", "", False), ("2", "", False)]),
        ('result == "1 > 2"', []),
        ("result > 1 // 2 > 3", [("1", ">", False)]),
        ("result > /* 4 */ 5", [("5", ">", False)]),
        ("", []),
        (")]} 1", [("1", "", False)]),
        ("((((", []),
    ],
)
def test_numbers(condition: str, found: list[tuple[str, str, bool]]) -> None:
    assert found_in(condition) == found


def test_sizes_are_not_compared_with_what_was_measured() -> None:
    assert [one.number for one in literals_of("len(result) > 5 && result[0] > 0.5")] == [Fraction(1, 2)]


def test_arguments_are_bound_once() -> None:
    values = {"a": "{{args.b}}", "b": "1"}
    assert bound("result > {{ args.a }} + {{args.b}}{{args.c}}", values) == "result > {{args.b}} + 1"


def test_references() -> None:
    text = "{{args.a}} {{{ args.b  }}} {{ x {{args. c}} {{args.{{args.d}} {{args.e"
    assert [one.name for one in references_in(text)] == ["a", "b", " c", "{{args.d"]
    assert [argument_of(text) for text in ("{{args.a}}", " {{args.a}}", "{{args.a}}{{args.b}}", "a")] == ["a"] + [
        None
    ] * 3


@pytest.mark.parametrize("piece", ["{{args.", "{{ ", '\\"', "\\'", "/*", '"', "(", "1.", "}}{{args."])
def test_long_texts_take_no_longer(piece: str) -> None:
    text = piece * 40_000
    assert len(bound(text, {})) <= len(text) and len(list(numbers_of(text))) <= 40_000


def test_compares_otherwise() -> None:
    (one,) = literals_of("result > 0")
    assert compares_otherwise(one, Fraction(42, 10**8), Fraction(0))
    assert not compares_otherwise(one, Fraction(1), Fraction(2))
