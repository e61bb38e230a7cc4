"""Backtests: values of a sweep, which runs share a document, and what is kept of them."""
from collections import Counter

import pytest

from argo_judge.analysisruns import Flags
from argo_judge.backtest.batches import batches_of, joined
from argo_judge.backtest.outcomes import LeftOut, Outcome, Result, outcome_of
from argo_judge.backtest.runs import OtherTemplate, Trial, check_metrics, name_of, with_measured_alone
from argo_judge.backtest.streaming import Backtest, Noted
from argo_judge.backtest.sweeps import sums_of, sweep_of
from argo_judge.backtest.tables import table
from argo_judge.engine.limits import Limits
from argo_judge.engine.reports import MetricReport, RunReport
from argo_judge.errors import Refused
from argo_judge.notes import kept_notes
from argo_judge.objects import Object


@pytest.mark.parametrize(
    ("word", "values"),
    [
        ("a=0.90:0.99:0.03", ["0.90", "0.93", "0.96", "0.99"]),
        ("a=1:2:0.4", ["1.0", "1.4", "1.8"]),
        ("a=-1:1:1", ["-1", "0", "1"]),
        ("a=5:5:1", ["5"]),
    ],
)
def test_sweep(word: str, values: list[str]) -> None:
    assert sweep_of(word).values == values


@pytest.mark.parametrize(
    "word",
    [
        "",
        "a",
        "a=1:2",
        "a=1:2:0",
        "a=2:1:1",
        "a=1:2:-1",
        "a=0:1:0.000001",
        "a=1e3:2:1",
        "a=x:2:1",
        "a=1:2:3:4",
        "=1:2:1",
    ],
)
def test_no_sweep(word: str) -> None:
    with pytest.raises(Refused, match="^--sweep: "):
        sweep_of(word)


def test_sums() -> None:
    sums = sums_of(Counter(["Failed", "Error", "Inconclusive", "Successful", "Running", "Pending"]))
    assert sums == (2, 1, 1, 2)


LIMITS = Limits(condition_bytes=100, document_bytes=2000, list_items=10, measurements=3, metrics=2, runs=4)


def document(name: str, size: int = 1, shape: str = "decimal") -> Object:
    """A document of one run, whose measurement has a text of some size."""
    manifest = {"metadata": {"name": name}, "spec": {"metrics": [{"name": "m"}]}}
    entries = [{"run": "r", "metric": "m", "value": "1" * size}]
    return {"manifest": manifest, "shapes": {"m": shape}, "runs": [{"name": "r"}], "measurements": entries}


def test_runs_of_one_template_are_together() -> None:
    documents = [document("a"), document("b", shape="text"), document("c")]
    assert batches_of(documents, LIMITS) == [[0, 2], [1]]
    made = joined(documents, [0, 2])
    assert [run["name"] for run in made["runs"]] == [entry["run"] for entry in made["measurements"]] == ["0", "2"]


def test_a_batch_has_a_size() -> None:
    half, whole = LIMITS.document_bytes // 4, LIMITS.document_bytes
    documents = [document("a", half), document("a", half), document("a", whole), document("a")]
    assert batches_of(documents, LIMITS) == [[0], [1], [2], [3]]


def test_a_batch_has_few_runs_and_measurements() -> None:
    documents = [document("a") for _ in range(5)]
    assert batches_of(documents, LIMITS._replace(measurements=9)) == [[0, 1, 2, 3], [4]]
    assert batches_of(documents, LIMITS) == [[0, 1, 2], [3, 4]]


def test_measurements_of_other_metrics_are_left_out() -> None:
    made = document("a")
    made["measurements"] = [{"run": "r", "metric": "other"}, {"run": "r", "stop": True}, {"run": "r", "metric": "m"}]
    with kept_notes() as noted:
        kept = with_measured_alone(made)["measurements"]
    assert kept == [{"run": "r", "stop": True}, {"run": "r", "metric": "m"}]
    assert noted == ['the template has no metric "other", so its measurements are left out']


def test_names_and_tables() -> None:
    assert name_of({"metadata": {"namespace": "n", "name": "r"}}) == "n/r"
    assert name_of({"metadata": {"namespace": 7}}) == ""
    assert table([["a", "bb", "c"], ["aaa", "b", ""]]) == ["a   bb c", "aaa b"]


# ---- what is kept of many runs


def report(phase: str) -> RunReport:
    """A run's report, with one metric and no event."""
    counts = dict.fromkeys(("successful", "failed", "inconclusive", "error", "consecutiveError"), 0)
    limits: dict[str, int | None] = {"failureLimit": 0, "inconclusiveLimit": 0, "consecutiveErrorLimit": 4, "count": 1}
    metric: MetricReport = {"name": "m", "phase": phase, "dryRun": False, "counts": counts, "limits": limits}
    return {"name": "0", "phase": phase, "metrics": [metric], "events": []}


def outcome(controller: str, *phases: str) -> Outcome:
    """What came of a run."""
    return outcome_of("run", controller, [report(phase) for phase in phases], has_each=False)


def test_only_runs_that_are_shown_are_kept() -> None:
    result = Result(sweep_of("a=1:2:1"), has_each=False)
    result.add(outcome("Successful", "Successful", "Successful", "Successful", "Failed"))
    result.add(outcome("Successful", "Successful", "Failed", "Failed", "Error"))
    result.add(outcome("Failed", "Successful", "Successful", "Running", "Failed"))
    result.add(LeftOut("other", "why"))
    assert (result.judged, result.undecided, len(result.outcomes), len(result.left_out)) == (3, 0, 2, 1)
    assert result.flips == {("Successful", "Failed"): 1}
    assert result.sums == [("1", (1, 0, 1, 1)), ("2", (3, 0, 0, 0))]


def test_each_run_is_kept_where_it_is_asked_for() -> None:
    result = Result(None, has_each=True)
    result.add(outcome("Successful", "Successful", "Running"))
    result.add(outcome("Successful", "Successful", "Successful"))
    assert (len(result.outcomes), result.undecided, result.sums) == (2, 1, [])


def test_lines_are_noted_once() -> None:
    noted = Noted()
    noted.add(["one", "one", "two"], "a")
    noted.add(["one"], "b")
    noted.add(["one"], "c")
    with kept_notes() as lines:
        noted.write()
    assert lines == ["one (a and 2 more)", "two (a)"]


def test_runs_are_asked_in_parts(monkeypatch: pytest.MonkeyPatch) -> None:
    """A run that can't be judged is left out, and so is the second one of a name."""
    monkeypatch.setattr("argo_judge.backtest.streaming.DOCUMENTS", 2)
    trial = Trial({"metadata": {}, "spec": {"metrics": [{"name": "m"}]}}, [], None, Flags(None))
    runs: list[Object] = [
        {"metadata": {"name": "a"}, "status": {"phase": "Running"}},
        {"metadata": {"name": "a"}, "status": {"phase": "Failed"}},
        {"metadata": {"name": "b"}, "status": {"phase": "Failed"}},
    ]
    parts = list(Backtest(trial, "engine", False).parts(runs))
    assert [len(part) for part in parts] == [2, 1]
    assert [one.why for part in parts for one in part if isinstance(one, LeftOut)] == [
        'it hasn\'t ended: its phase is "Running"',
        "a run of this name is there before",
        "expected an AnalysisRun, as `kubectl get analysisrun NAME -o json` prints it",
    ]


def test_runs_of_other_templates_are_left_out() -> None:
    metrics = [{"name": "a", "provider": {"web": {"url": "x"}}}, {"name": "b"}]
    run: Object = {"spec": {"metrics": metrics}}
    with kept_notes() as noted:
        check_metrics(run, {"spec": {"metrics": [{"name": "b"}, {"name": "c", "provider": {"web": {"url": "x"}}}]}})
    assert noted == ['metric "a" is measured as "c" of the template, which may be its new name']
    with pytest.raises(OtherTemplate, match='^the template has none of its metrics: "a", "b"'):
        check_metrics(run, {"spec": {"metrics": [{"name": "c"}]}})
    check_metrics({"spec": {"metrics": []}}, {"spec": {"metrics": [{"name": "c"}]}})
