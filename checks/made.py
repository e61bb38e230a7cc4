"""Documents that checks make, and the objects of reports that are worked out by hand."""

from collections.abc import Iterable
from typing import Any


def template_of(spec: dict[str, Any], name: str = "t") -> dict[str, Any]:
    """An AnalysisTemplate with this spec."""
    head = {"apiVersion": "argoproj.io/v1alpha1", "kind": "AnalysisTemplate", "metadata": {"name": name}}
    return {**head, "spec": spec}


def document_of(
    template: dict[str, Any], shapes: dict[str, Any], runs: Iterable[str], entries: list[Any] | None = None
) -> dict[str, Any]:
    """A document with runs of these names, and with measurements if there are any."""
    document = {"manifest": template, "shapes": shapes, "runs": [{"name": name} for name in runs]}
    return document if entries is None else {**document, "measurements": entries}


def measured(run: str, metric: str, value: Any) -> dict[str, Any]:
    """An entry of a document."""
    return {"run": run, "metric": metric, "value": value}


def metric_object(name: str, phase: str, count: int | None, dry: bool = False, **counts: int) -> dict[str, Any]:
    """A metric of a report, whose limits are those by default, and whose other counts are 0."""
    none = dict.fromkeys(("successful", "failed", "inconclusive", "error", "consecutiveError"), 0)
    limits = {"failureLimit": 0, "inconclusiveLimit": 0, "consecutiveErrorLimit": 4, "count": count}
    return {"name": name, "phase": phase, "dryRun": dry, "counts": {**none, **counts}, "limits": limits}


def event_object(number: int, metric: str | None, verdict: str | None, **members: str) -> dict[str, Any]:
    """An event of a report, a stop where it has no metric; it was applied and closed nothing, unless members say
    more."""
    event = {"number": number, "metric": metric, "stop": metric is None, "verdict": verdict}
    return {**event, "cause": None, "fault": None, "effect": "applied", "phase": None, **members}
