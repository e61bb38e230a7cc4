"""AnalysisRuns: what their counts say, and the order of what was measured."""
import pytest

from argo_judge.analysisruns import Flags, document_of, measurements_of
from argo_judge.differences import note_guards
from argo_judge.engine.limits import Limits
from argo_judge.errors import Refused
from argo_judge.notes import kept_notes
from argo_judge.objects import Json, Object
from argo_judge.placeholders import Gone, in_order
from argo_judge.retention import difference

SHAPES: Object = {"metadata": {"annotations": {"argo-judge/shapes": '{"a": "decimal", "b": "decimal"}'}}}


def result(name: str, phase: str, *measurements: tuple[str, str], **counts: Json) -> Object:
    """A metric's result; of a measurement the phase and the second in which it began and ended."""
    made = [{"phase": one, "value": "1", "startedAt": at, "finishedAt": at} for one, at in measurements]
    return {"name": name, "phase": phase, "measurements": made, **counts}


def run_of(*results: Object) -> Object:
    """An AnalysisRun with results."""
    metrics = [{"name": one["name"], "successCondition": "result > 0"} for one in results]
    metadata = {"name": "r", **SHAPES["metadata"]}
    return {
        "kind": "AnalysisRun",
        "metadata": metadata,
        "spec": {"metrics": metrics},
        "status": {"metricResults": list(results)},
    }


def order_of(run: Json) -> list[tuple[str, str]]:
    """The measurements of a run, each by its metric and its time."""
    return [(one.metric, one.measurement["finishedAt"]) for one in measurements_of(run)]


def test_what_ended_a_metric_badly_follows_what_began_with_it() -> None:
    bad = result("a", "Failed", ("Successful", "1"), ("Failed", "2"))
    good = result("b", "Running", ("Successful", "2"), ("Successful", "1"))
    assert order_of(run_of(bad, good)) == [("a", "1"), ("b", "1"), ("b", "2"), ("a", "2")]


def test_of_several_the_worst_is_the_first() -> None:
    first = result("a", "Inconclusive", ("Inconclusive", "1"))
    second = result("b", "Failed", ("Failed", "1"))
    assert [name for name, _ in order_of(run_of(first, second))] == ["b", "a"]


def test_a_dry_metric_closes_nothing() -> None:
    dry = result("a", "Failed", ("Failed", "1"), dryRun=True)
    later = result("b", "Successful", ("Successful", "1"), ("Successful", "2"))
    assert order_of(run_of(dry, later)) == [("a", "1"), ("b", "1"), ("b", "2")]


def test_a_time_that_is_none_is_refused() -> None:
    broken = result("a", "Successful", ("Successful", "1"))
    broken["measurements"] = [{"phase": "Successful", "value": "1", "finishedAt": 7}]
    with pytest.raises(Refused, match="expected a measurement's `finishedAt` as a time, found 7"):
        order_of(run_of(broken))


@pytest.mark.parametrize(
    ("counts", "said"),
    [
        ({"successful": 1}, ""),
        ({"successful": 3}, "lacks measurements (2 successful)"),
        ({}, "has measurements too many (1 successful)"),
        ({"successful": 1, "count": 1}, ""),
        ({"successful": 1, "count": 3}, "lacks measurements (2)"),
        ({"failed": 2}, "lacks measurements (2 failed) and has measurements too many (1 successful)"),
    ],
)
def test_counts(counts: Object, said: str) -> None:
    assert difference({"count": 1, **result("a", "Successful", ("Successful", "1"), **counts)}) == said


@pytest.mark.parametrize("count", [-1, True, "1", 2**31, 1.5])
def test_odd_counts_are_refused(count: Json) -> None:
    with pytest.raises(Refused, match='^input, metric "a": expected a whole number as `successful`'):
        difference(result("a", "Successful", successful=count))


def test_a_partial_run_is_taken_with_a_note() -> None:
    run = run_of(result("a", "Successful", ("Successful", "1"), failed=1, count=1))
    with pytest.raises(Refused, match="--partial takes the run as it is"):
        document_of(run, Flags(None))
    with kept_notes() as noted:
        made, found = document_of(run, Flags(None, partial=True))
    assert len(made["measurements"]) == len(found) == len(noted) == 1


def test_placeholders_are_put_for_what_was_dropped(monkeypatch: pytest.MonkeyPatch) -> None:
    limits = Limits(4096, 1 << 24, 10_000, 100_000, 64, 64)
    monkeypatch.setattr("argo_judge.placeholders.limits_of", lambda engine: limits)
    run = run_of(result("a", "Successful", ("Successful", "1"), successful=3, count=3, error=2))
    with kept_notes() as noted:
        made, found = document_of(run, Flags(None))
    assert [one.measurement["phase"] for one in found] == ["Error", "Error", "Successful", "Successful", "Successful"]
    assert [one.get("placeholder", False) for one in made["measurements"]] == [True] * 4 + [False]
    assert noted[-1].endswith("4 measurements that the controller dropped have placeholders (2 Successful, 2 Error)")


@pytest.mark.parametrize(
    ("times", "at_end", "kept_errors", "most", "order"),
    [
        ({"Successful": 1, "Error": 3}, None, 0, 2, ["Error", "Error", "Successful", "Error"]),
        ({"Error": 2}, 2, 1, 4, ["Error", "Error"]),
        ({"Failed": 1, "Error": 2}, 1, 1, 4, ["Error", "Failed", "Error"]),
        ({"Inconclusive": 1, "Failed": 1, "Successful": 1}, 0, 1, 4, ["Successful", "Inconclusive", "Failed"]),
        ({"Successful": 1, "Error": 5}, None, 0, 2, None),
        ({"Successful": 1, "Error": 3}, None, 2, 2, None),
        ({"Error": 2}, 0, 1, 4, None),
        ({"Error": 2}, -1, 1, 4, None),
    ],
)
def test_order_of_placeholders(
    times: dict[str, int], at_end: int | None, kept_errors: int, most: int, order: list[str] | None
) -> None:
    gone = Gone("m", times, at_end, kept_errors)
    if order is not None:
        assert in_order(gone, most) == order
    else:
        with pytest.raises(Refused, match="no order of them has that many errors"):
            in_order(gone, most)


def test_guards_of_parts_are_noted() -> None:
    conditions = {
        "successCondition": "default(result.rate, 0) > 1 || isNil(result)",
        "failureCondition": "isNil(result[0])",
    }
    document = {"manifest": {"spec": {"metrics": [{"name": "m", **conditions}]}}}
    with kept_notes() as noted:
        note_guards(document)
    assert noted == [
        'metric "m": default of result.rate looks at the whole result in the controller, which may judge otherwise',
        'metric "m": isNil of result[0] looks at the whole result in the controller, which may judge otherwise',
    ]
