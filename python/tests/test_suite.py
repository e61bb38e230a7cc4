"""Suites of tests: numbers that are moved, moves of templates, and what a suite's file may say."""
import json
import pathlib
from fractions import Fraction

import pytest

from argo_judge.engine.limits import Limits
from argo_judge.errors import Refused
from argo_judge.objects import Json, Object
from argo_judge.suite.files import suites_in
from argo_judge.suite.moves import moves_of
from argo_judge.suite.numbers import moved, number_in, signed
from argo_judge.xmltext import xml_text

LIMITS = Limits(
    condition_bytes=4096, document_bytes=1 << 24, list_items=10_000, measurements=100_000, metrics=64, runs=64
)
TEMPLATE: Object = {
    "kind": "AnalysisTemplate",
    "metadata": {"name": "t"},
    "spec": {
        "args": [{"name": "low", "value": "0.95"}],
        "metrics": [
            {"name": "m", "count": 3, "failureLimit": 0, "successCondition": "result >= {{args.low}} && result < 2"}
        ],
    },
}
SUITE: Object = {
    "template": TEMPLATE,
    "shapes": {"m": "decimal"},
    "tests": [{"name": "one", "answers": {"m": [1]}, "expect": {"run": "Failed"}}],
}


def suite_with(folder: pathlib.Path, **members: Json) -> str:
    """The path of a suite, with other members."""
    path = folder / "suite.json"
    path.write_text(json.dumps({**SUITE, **members}), encoding="utf-8")
    return str(path)


@pytest.mark.parametrize(
    ("text", "by", "after"),
    [
        ("0.95", Fraction(1, 10**6), "0.950001"),
        ("0.950001", Fraction(-1, 10**6), "0.95"),
        ("1", Fraction(1), "2"),
        ("0", Fraction(-1), "-1"),
        ("0x10", Fraction(1), "17"),
        ("0.999999", Fraction(1, 10**6), "1.0"),
        ("-0.000001", Fraction(1, 10**6), "0.0"),
        (" 1 ", Fraction(1), "2"),
    ],
)
def test_moved(text: str, by: Fraction, after: str) -> None:
    assert moved(text, by) == after


@pytest.mark.parametrize("text", ["", "a", "1e3", "0.1234567", "--1", "1_0", "1" * 65, "+1", "1\n"])
def test_no_number(text: str) -> None:
    assert number_in(text) is None and moved(text, Fraction(1)) is None


def test_written_numbers_are_read_again() -> None:
    hypothesis = pytest.importorskip("hypothesis")

    def reads(millionths: int) -> None:
        number = Fraction(millionths, 10**6)
        assert number_in(signed(number)) == number

    hypothesis.given(hypothesis.strategies.integers(-(2**63), 2**63))(reads)()


def test_moves(tmp_path: pathlib.Path) -> None:
    (suite,) = suites_in([suite_with(tmp_path)], LIMITS)
    lines = [move.line for move in moves_of(suite.template, suite.shapes, suite.cases)]
    assert lines == [
        "metric m, successCondition: 2 -> 2.000001",
        "metric m, successCondition: 2 -> 1.999999",
        "metric m, count: 3 -> 4",
        "metric m, count: 3 -> 2",
        "metric m, failureLimit: 0 -> 1",
        "metric m, failureLimit: 0",
        "argument low: 0.95 -> 0.950001",
        "argument low: 0.95 -> 0.949999",
    ]


@pytest.mark.parametrize(
    ("members", "said"),
    [
        ({"tests": []}, "expected one test or more"),
        (
            {"tests": [{"name": "", "expect": {"run": "Failed"}}]},
            "expected a text that isn't empty as the test's `name`",
        ),
        ({"tests": [{"name": "a"}]}, "checks nothing"),
        ({"tests": SUITE["tests"] * 2}, "has the name"),
        ({"tests": [{"name": "a", "answers": {"n": []}}]}, 'no metric has the name "n"'),
        ({"tests": [{"name": "a", "answers": {"m": [{"value": 1, "error": "x"}]}}]}, "found 2"),
        ({"tests": [{"name": "a", "answers": {"m": [{"valeu": 1}]}}]}, 'did you mean "value"?'),
        ({"tests": [{"name": "a", "answers": {"m": [{"value": 1, "repeat": 100_001}]}}]}, "from 1 to 100000"),
        ({"tests": [{"name": "a", "answers": {"m": [{"value": 1, "verdict": "Error nothing"}]}}]}, "is no verdict"),
        ({"tests": [{"name": "a", "answers": {"m": [{"stop": True, "fault": "Overflow"}]}}]}, "a stop has neither"),
        (
            {"tests": [{"name": "a", "args": {"low": None}, "expect": {"run": "Failed"}}]},
            "expected a text, as arguments are",
        ),
        ({"tests": [{"name": "a", "expect": {"run": "Failed", "refused": "NoValue"}}]}, "expected `refused` alone"),
        ({"template": "none.yaml"}, "none.yaml can't be read"),
        ({"shapes": 7}, "expected the path of a file of shapes"),
        ({"shapes": None}, "expected `shapes`, or the annotation argo-judge/shapes of the template"),
        ({"more\n": 1}, 'a suite has no field "more\\n"'),
        ({"equivalentMoves": "x"}, "expected a list of moves"),
    ],
)
def test_a_suite_is_refused(tmp_path: pathlib.Path, members: Object, said: str) -> None:
    path = suite_with(tmp_path, **members)
    with pytest.raises(Refused) as refused:
        suites_in([path], LIMITS)
    assert said in str(refused.value)


def test_rounds_take_metrics_by_turns(tmp_path: pathlib.Path) -> None:
    template = {**TEMPLATE, "spec": {"metrics": [{"name": "a"}, {"name": "b"}]}}
    answers = {"b": [{"value": 1, "repeat": 2}], "a": [2, 3, 4]}
    tests = [{"name": "one", "answers": answers, "expect": {"run": "Failed"}}]
    shapes = {"a": "decimal", "b": "decimal"}
    (suite,) = suites_in([suite_with(tmp_path, template=template, shapes=shapes, tests=tests)], LIMITS)
    (case,) = suite.cases
    assert [(one.metric, one.members["value"]) for one in case.in_order()] == [
        ("a", 2),
        ("b", 1),
        ("a", 3),
        ("b", 1),
        ("a", 4),
    ]
    assert case.count == 5


def test_xml_has_no_other_characters() -> None:
    assert xml_text("a\x00\ud800\ufffe\tb") == "a\\x00\\ud800\\ufffe\tb"
