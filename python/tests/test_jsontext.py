"""JSON without rounding: what is kept, where lines are, and what is refused."""
import pytest

from argo_judge.errors import Refused
from argo_judge.jsontext import NumberText, is_text, is_whole, measured, parsed, parsed_all, parsed_lines


def test_fractions_keep_their_digits() -> None:
    value = parsed('{"a": 0.10, "b": 1e-7, "c": 12345678901234567890123}', "input")
    assert value == {"a": "0.10", "b": "1e-7", "c": 12345678901234567890123}
    assert isinstance(value["a"], NumberText) and not isinstance(value["c"], str)


def test_a_fraction_is_no_text_and_a_boolean_no_whole() -> None:
    assert is_text("0.5") and not is_text(NumberText("0.5")) and not is_text(5)
    assert is_whole(5) and not is_whole(True) and not is_whole("5")


@pytest.mark.parametrize("text", ["NaN", "Infinity", "-Infinity"])
def test_what_is_not_finite_is_a_text(text: str) -> None:
    assert parsed(text, "input") == text


@pytest.mark.parametrize(
    ("text", "line"),
    [
        ("", "input: expected one JSON value, found nothing"),
        (" \n\t", "input: expected one JSON value, found nothing"),
        ("{", "input: expected one JSON value; the fault is at column 2"),
        ("{\n  x}", "input: expected one JSON value; the fault is at line 2, column 3"),
        ("1\n\n2", "input: expected one JSON value; on line 1 more comes after it"),
        ("[1] ]", "input: expected one JSON value; on line 1 more comes after it"),
        ("\ufeff{}", "input: expected one JSON value; the fault is at column 1"),
        ("1" * 310, "input: found a whole number of 310 digits; expected at most 309"),
    ],
)
def test_refused(text: str, line: str) -> None:
    with pytest.raises(Refused) as refused:
        parsed(text, "input")
    assert str(refused.value) == line


def test_depth_is_refused_in_one_line() -> None:
    with pytest.raises(Refused, match="^input: values in values are too deep"):
        parsed("[" * 100_000, "input")


def test_values_one_after_another() -> None:
    assert parsed_all(' {"a": 1}[2]\n3 ', "input") == [{"a": 1}, [2], 3]
    assert parsed_all(" \n", "input") == []


def test_lines_are_numbered_with_the_blank_ones() -> None:
    assert parsed_lines("1\n\n 2 \r\n", "answers") == [1, 2]
    with pytest.raises(Refused, match="^answers, line 4: "):
        parsed_lines("1\n\n2\n{\n", "answers")


@pytest.mark.parametrize(
    ("text", "value"),
    [
        ("0.95", "0.95"),
        ("[NaN,+Inf,-Inf]", ["NaN", "+Inf", "-Inf"]),
        ('{"a": "NaN", "b": NaN}', {"a": "NaN", "b": "NaN"}),
        ("Infinity", "Infinity"),
        ("NaNny", "NaNny"),
        ("not JSON", "not JSON"),
        ("", ""),
        ("9" * 400, "9" * 400),
        ("[" * 100_000, "[" * 100_000),
    ],
)
def test_measured(text: str, value: object) -> None:
    assert measured(text) == value


def test_a_text_that_is_not_closed_is_looked_at_once() -> None:
    assert measured('\\"' * 100_000) == '\\"' * 100_000
    assert measured('["NaN \\" Inf", NaN, "Inf') == '["NaN \\" Inf", NaN, "Inf'


def test_a_name_that_is_there_twice_is_refused() -> None:
    with pytest.raises(Refused, match='^here: found "b" twice in an object'):
        parsed('{"a": [{"b": 1, "c": 2, "b": 3}]}', "here")
