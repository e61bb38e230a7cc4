"""Answers as measurements: times, Prometheus' answers, parts, and proposed shapes."""
import pytest

from argo_judge.convert.answers import merged, seconds
from argo_judge.convert.join import check_whole
from argo_judge.convert.samples import answers_of
from argo_judge.convert.split import parts_of
from argo_judge.engine.limits import Limits
from argo_judge.errors import Refused
from argo_judge.notes import kept_notes
from argo_judge.objects import Json, Object
from argo_judge.proposals import proposed


@pytest.mark.parametrize(
    ("time", "value"),
    [(1, 1.0), ("1.5", 1.5), ("-1", -1.0), ("1e3", 1000.0), (True, None), ("1e999", None), ("x", None), ([], None)],
)
def test_seconds(time: Json, value: float | None) -> None:
    assert seconds(time) == value


def entry(name: str, time: Json = None) -> Object:
    """An entry with a time, or without."""
    return {"metric": name} if time is None else {"metric": name, "time": time}


def test_entries_are_merged_by_their_times() -> None:
    old = [entry("a", 1), entry("b"), entry("c", 3)]
    assert [one["metric"] for one in merged(old, [entry("x", 2), entry("y", "3")])] == ["a", "b", "x", "c", "y"]
    assert [one["metric"] for one in merged(old, [entry("x")])] == ["a", "b", "c", "x"]
    assert merged([], [entry("x", 1)]) == [entry("x", 1)]


# ---- Prometheus


def answered(data: Json, is_flat: bool = False) -> tuple[list[Object], list[str]]:
    """What an answer measured, and what is noted."""
    notes: list[str] = []
    return answers_of({"status": "success", "data": data}, 1, is_flat, notes), notes


def test_a_vector_is_one_measurement() -> None:
    data = {"resultType": "vector", "result": [{"value": [1, "0.5"]}, {"value": ["2.5", "NaN"]}]}
    assert answered(data) == ([{"value": ["0.5", "NaN"], "time": "2.5"}], [])
    assert answered({"resultType": "vector", "result": []}) == ([{"value": []}], [])


def test_a_range_is_one_for_each_time() -> None:
    data = {"resultType": "matrix", "result": [{"values": [[2, "b"], [1, "a"]]}, {"values": [["1.0", "c"]]}]}
    assert [one["value"] for one in answered(data)[0]] == [["a", "c"], ["b"]]
    assert [one["value"] for one in answered(data, True)[0]] == [["b", "a", "c"]]


def test_a_range_without_series_measures_nothing() -> None:
    assert answered({"resultType": "matrix", "result": []}) == (
        [],
        ["answer 1: a range without series, so nothing was measured"],
    )


@pytest.mark.parametrize(
    "data",
    [
        None,
        {"resultType": "vector"},
        {"resultType": "vector", "result": [{}]},
        {"resultType": "scalar", "result": [1]},
        {"resultType": "scalar", "result": ["x", "1"]},
        {"resultType": "string", "result": [1, 2]},
        {"resultType": "matrix", "result": [{"values": 1}]},
        {"resultType": "streams", "result": []},
    ],
)
def test_odd_data_is_refused(data: Json) -> None:
    with pytest.raises(Refused, match="^input, answer 1: expected "):
        answered(data)


def test_an_error_is_one_of_the_provider() -> None:
    notes: list[str] = []
    answer = {"status": "error", "errorType": "timeout", "error": "too\nslow", "warnings": ["w", 7]}
    assert answers_of(answer, 2, False, notes) == [{"error": "too\nslow"}]
    assert notes == ["answer 2: warning: w", "answer 2: warning: 7", "answer 2: timeout: too\nslow"]


# ---- parts


DOCUMENT: Object = {
    "runs": [{"name": "a"}, {"name": "b"}, {"name": "c"}],
    "measurements": [{"run": "c"}, {"run": "a"}, {"run": "b"}, {"run": "a"}],
}


def test_parts_keep_numbers() -> None:
    parts = list(parts_of(DOCUMENT, 2))
    assert [[entry["number"] for entry in part["measurements"]] for part in parts] == [[1, 2, 3], [0]]
    assert [part["part"] for part in parts] == [{"number": 0, "of": 2}, {"number": 1, "of": 2}]


@pytest.mark.parametrize(
    ("runs", "entries"),
    [([], []), ([{"name": "a"}] * 2, []), ([{"name": 7}], []), ([{"name": "a"}], [{"run": "b"}]), ({}, [])],
)
def test_what_parts_would_hide_is_refused(runs: Json, entries: Json) -> None:
    with pytest.raises(Refused):
        list(parts_of({"runs": runs, "measurements": entries}, 1))


@pytest.mark.parametrize("numbers", [[0, 0], [1], [True], [None], ["0"]])
def test_numbers_of_a_whole(numbers: list[Json]) -> None:
    with pytest.raises(Refused, match="^parts: "):
        check_whole(["a"], numbers)


# ---- shapes


@pytest.mark.parametrize(
    ("answers", "shape"),
    [
        ([1, "0.5", "NaN"], "decimal"),
        ([9223372036855], "whole"),
        (["a", "1"], "text"),
        ([None, True], {"optional": "bool"}),
        ([[1], [None, 2]], {"list": {"optional": "decimal"}, "max": 10}),
        ([[0] * 8], {"list": "decimal", "max": 16}),
        ([[0] * 20_000], {"list": "decimal", "max": 40_000}),
        ([{"a": 1}, {"b": "x"}], {"record": {"a": {"optional": "decimal"}, "b": {"optional": "text"}}}),
    ],
)
def test_proposed(answers: list[Json], shape: Json) -> None:
    assert proposed("m", answers, None, "no engine") == shape


def test_no_longer_list_is_proposed_than_the_engine_takes(monkeypatch: pytest.MonkeyPatch) -> None:
    limits = Limits(4096, 1 << 24, 10_000, 100_000, 64, 64)
    monkeypatch.setattr("argo_judge.proposals.limits_of", lambda engine: limits)
    assert proposed("m", [[0] * 20_000], None, "engine") == {"list": "decimal", "max": 10_000}


@pytest.mark.parametrize("answers", [[], [None], [[]], [9223372036855, "0.5"]])
def test_nothing_is_proposed_with_a_note(answers: list[Json]) -> None:
    with kept_notes() as noted:
        assert proposed("m", answers, None, "no engine") is None
    assert len(noted) == 1


def test_several_kinds_are_refused() -> None:
    with pytest.raises(Refused, match=r"^m\.a\[\]: the answers are of several kinds: bool, list"):
        proposed("m", [{"a": [True, []]}], None, "no engine")
