"""Members that may be missing, and how lines show values."""
import pytest

from argo_judge.notes import kept_notes, note, one_line
from argo_judge.objects import listed, member, objects, shown
from argo_judge.pointers import pointer_to


def test_member() -> None:
    value = {"a": {"b": 0, "c": None}, "d": []}
    assert member(value, "a", "b") == 0
    assert member(value, "a", "c", default=1) == 1
    assert member(value, "d", "b", default=2) == 2
    assert member(None, "a") is None


def test_objects() -> None:
    assert objects([{}, 1, None, {"a": 1}]) == [{}, {"a": 1}]
    assert objects({"a": 1}) == []


@pytest.mark.parametrize("text", ["a\nb", "a\rb", "\x1b[31m", "\u2028", "\u202e", "\ud800", "\x00"])
def test_one_line(text: str) -> None:
    line = one_line(text)
    assert line.isprintable() and len(line.splitlines()) == 1


def test_shown_is_short_and_one_line() -> None:
    assert shown("a" * 100) == '"' + "a" * 63 + ".."
    assert shown("x\ny") == '"x\\ny"'
    assert shown({"a": [None, True]}) == '{"a": [null, true]}'


def test_listed() -> None:
    assert listed([]) == "none"
    assert listed(["a", 1]) == '"a", 1'
    assert listed([*"abcdefghij"]).endswith('"h" and 2 more')


def test_pointer() -> None:
    assert pointer_to("spec", "metrics", 0, "a/b~c") == "/spec/metrics/0/a~1b~0c"
    assert pointer_to() == ""


def test_kept_notes_lie_in_one_another() -> None:
    with kept_notes() as outer:
        note("first")
        with kept_notes() as inner:
            note("second")
        note("third")
    assert (outer, inner) == (["first", "third"], ["second"])
