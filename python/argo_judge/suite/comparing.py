"""What differs between what a case expects and what the engine says of it."""
from collections.abc import Iterator
from typing import NamedTuple

from argo_judge.engine.reports import EventReport, MetricReport, RunReport, effect_text, verdict_text
from argo_judge.suite.cases import Answer, Case
from argo_judge.suite.expected import OfMetric
from argo_judge.suite.judging import Outcome


class Difference(NamedTuple):
    """What was expected of something and what was found; `events`: the places of the events that led to it."""

    what: str
    expected: str
    got: str
    events: tuple[int, ...] = ()


def begins(text: str, words: tuple[str, ...]) -> bool:
    """Whether a text begins with these words."""
    return tuple(text.split()[: len(words)]) == words


def is_closing(event: EventReport) -> bool:
    """Whether an event closed its run."""
    return event["effect"] == "closed"


def counting(run: RunReport, metric: str) -> tuple[int, ...]:
    """The places of a metric's events that count."""
    return tuple(
        place for place, event in enumerate(run["events"]) if event["metric"] == metric and event["effect"] != "late"
    )


def closing(run: RunReport) -> tuple[int, ...]:
    """The place of the event that closed the run, if one did."""
    return tuple(place for place, event in enumerate(run["events"]) if is_closing(event))


def of_event(answer: Answer, event: EventReport, place: int) -> Iterator[Difference]:
    """What differs of one event."""
    expected, line = answer.expected, answer.node.line
    at = f"line {line}" if line else answer.node.pointer
    what = f"{at}, event {place}" + ("" if answer.metric is None else f" of {answer.metric}")
    if expected.verdict and not begins(verdict_text(event), expected.verdict):
        yield Difference(f"{what}, verdict", " ".join(expected.verdict), verdict_text(event), (place,))
    if expected.fault is not None and event["fault"] != expected.fault:
        yield Difference(f"{what}, fault", expected.fault, event["fault"] or f"none, {verdict_text(event)}", (place,))
    if expected.effect and not begins(effect_text(event), expected.effect):
        yield Difference(f"{what}, effect", " ".join(expected.effect), effect_text(event), (place,))


def of_metric(run: RunReport, metric: MetricReport, expected: OfMetric) -> Iterator[Difference]:
    """What differs of one metric."""
    for name, wanted in expected.items():
        got = metric["phase"] if name == "phase" else metric["counts"][name]
        if got != wanted:
            places = counting(run, metric["name"])
            places = (*places[-1:], *closing(run)) if name == "phase" else places
            what = f"metric {metric['name']}" + ("" if name == "phase" else f", {name}")
            yield Difference(what, str(wanted), str(got), places)


def of_run(case: Case, run: RunReport) -> Iterator[Difference]:
    """What differs of a run that was judged."""
    expected = case.expected
    if expected.run is not None and run["phase"] != expected.run:
        last = tuple(place for metric in run["metrics"] for place in counting(run, metric["name"])[-1:])
        yield Difference("run", expected.run, run["phase"], closing(run) or last)
    for metric in run["metrics"]:
        yield from of_metric(run, metric, expected.metrics.get(metric["name"], {}))
    for place, (answer, event) in enumerate(zip(case.in_order(), run["events"])):
        yield from of_event(answer, event, place)


def differences(case: Case, outcome: Outcome) -> Iterator[Difference]:
    """What differs of a case, of which there may be much."""
    wanted = case.expected.refused
    if outcome.run is not None and wanted is None:
        yield from of_run(case, outcome.run)
    elif outcome.run is not None:
        yield Difference("refused", str(wanted), f"no refusal, run {outcome.run['phase']}")
    elif outcome.refusal is not None and outcome.refusal.name != wanted:
        yield Difference("refused", wanted or "no refusal", outcome.refusal.text)
