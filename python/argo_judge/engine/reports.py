"""Reports of argo_judge as JSON (`run --output json`), held to the document that they are of, and printed as text.

What has to be there is known by the document, but for phases, counts, limits, verdicts and effects, of which each is
one that there is.
"""
from collections.abc import Iterable, Sequence
from typing import TypeAlias, TypedDict, TypeVar

from argo_judge.errors import Refused
from argo_judge.jsontext import parsed
from argo_judge.objects import Json, Object, member, shown

VERSION = 1


class MetricReport(TypedDict):
    """A metric of a report."""

    name: str
    phase: str
    dryRun: bool
    counts: dict[str, int]
    limits: dict[str, int | None]


class EventReport(TypedDict):
    """An event of a report: a measurement, or a stop."""

    number: int
    metric: str | None
    stop: bool
    verdict: str | None
    cause: str | None
    fault: str | None
    effect: str
    phase: str | None


class RunReport(TypedDict):
    """A run of a report. It stays an object, which is written again as the engine wrote it."""

    name: str
    phase: str
    metrics: list[MetricReport]
    events: list[EventReport]


PHASES = ("Pending", "Running", "Successful", "Failed", "Error", "Inconclusive")
BAD = {"Failed", "Error", "Inconclusive"}
COUNTS = ("successful", "failed", "inconclusive", "error", "consecutiveError")
LIMITS = ("failureLimit", "inconclusiveLimit", "consecutiveErrorLimit")
EFFECTS = ("applied", "closed", "late")
VERDICTS = ("Successful", "Failed", "Inconclusive", "Error")
MISFITS = ("WrongKind", "FloatNumber", "NotFinite", "BadDecimal", "OutOfRange", "ListTooLong", "MissingField")
FAULTS = ("IndexOutOfRange", "NilOperand", "Overflow", "DivisionByZero")
# The causes of the verdict Error, each with the faults that it may have.
CAUSES = {"provider": (None,), "shape": MISFITS, "success": FAULTS, "failure": FAULTS}


T = TypeVar("T")
# An event by its place in `measurements`, with its metric's name; a stop has none.
Expected: TypeAlias = tuple[int, str | None]


def texts(values: Json, name: str) -> list[str] | None:
    """The texts of this name of the objects of a list, or None where they aren't all there."""
    found = [member(value, name) for value in values] if isinstance(values, list) else [None]
    return found if all(isinstance(text, str) for text in found) else None


def events_of(document: Json, where: str) -> dict[str, list[Expected]]:
    """What a report has to have of each run, by its name: the place of each of its entries in `measurements`, with the
    metric's name, or None of a stop."""
    names = texts(member(document, "runs"), "name")
    entries = member(document, "measurements", default=[])
    if not names or len(set(names)) != len(names) or texts(entries, "run") is None:
        raise Refused(f"{where}: expected a document with `runs` and `measurements`")
    events: dict[str, list[Expected]] = {name: [] for name in names}
    for place, entry in enumerate(entries):
        metric = None if member(entry, "stop") is True else member(entry, "metric")
        if entry["run"] not in events or not isinstance(metric, str) and member(entry, "stop") is not True:
            raise Refused(f"{where}, measurements[{place}]: expected a stop or a metric of a run of `runs`")
        events[entry["run"]].append((place, metric))
    return events


# ---- a report and its document


def expect(is_so: bool, where: str, expected: str, found: Json) -> None:
    """Refuses what isn't as it is expected."""
    if not is_so:
        raise Refused(f"{where}: expected {expected}, found {shown(found)}")


def is_count(value: Json) -> bool:
    """Whether a value is a whole number from 0."""
    return isinstance(value, int) and not isinstance(value, bool) and value >= 0


def items_of(value: Json, name: str, expected: Sequence[T], where: str) -> list[tuple[Json, T, str]]:
    """The items of a list with a name, as many as are expected, each with what is expected of it and where it is."""
    items = member(value, name)
    expect(isinstance(items, list), f"{where}{name}", "a list", items)
    if len(items) != len(expected):
        raise Refused(f"{where}{name}: expected {len(expected)} items, found {len(items)}")
    return [(item, own, f"{where}{name}[{index}]") for index, (item, own) in enumerate(zip(items, expected))]


def check_metric(metric: Json, name: str, where: str) -> None:
    """Refuses a metric that isn't the one of this name, or has no phase, counts or limits."""
    expect(member(metric, "name") == name, where, f"the metric {shown(name)}", member(metric, "name"))
    expect(member(metric, "phase") in PHASES, f"{where}.phase", "a phase", member(metric, "phase"))
    expect(isinstance(member(metric, "dryRun"), bool), f"{where}.dryRun", "true or false", member(metric, "dryRun"))
    for count in COUNTS:
        expect(
            is_count(member(metric, "counts", count)),
            f"{where}.counts.{count}",
            "a count",
            member(metric, "counts", count),
        )
    for limit in LIMITS:
        expect(
            is_count(member(metric, "limits", limit)),
            f"{where}.limits.{limit}",
            "a limit",
            member(metric, "limits", limit),
        )


def event_name(number: Json, metric: Json, is_stop: Json) -> str:
    """How a line names an event."""
    return f"event {shown(number)}, a stop" if is_stop is True else f"event {shown(number)} of metric {shown(metric)}"


def check_verdict(event: Json, is_stop: bool, where: str) -> None:
    """Refuses a verdict that isn't one, or whose cause and fault don't belong to it."""
    verdict, cause, fault = (member(event, name) for name in ("verdict", "cause", "fault"))
    expect(
        verdict in ((None,) if is_stop else VERDICTS), f"{where}.verdict", "null" if is_stop else "a verdict", verdict
    )
    causes = tuple(CAUSES) if verdict == "Error" else (None,)
    expect(cause in causes, f"{where}.cause", "a cause" if verdict == "Error" else "null", cause)
    faults = CAUSES.get(cause, (None,))
    expect(fault in faults, f"{where}.fault", "null" if None in faults else "a fault of its cause", fault)


def check_event(event: Json, expected: Expected, where: str) -> None:
    """Refuses an event that isn't the one of the document's entry."""
    number, metric = expected
    own = (number, metric, metric is None)
    found = (member(event, "number"), member(event, "metric"), member(event, "stop"))
    expect(is_count(found[0]), f"{where}.number", "an index", found[0])
    expect(isinstance(found[2], bool), f"{where}.stop", "true or false", found[2])
    if found != own:
        raise Refused(f"{where}: expected {event_name(*own)}, found {event_name(*found)}")
    effect, phase = member(event, "effect"), member(event, "phase")
    expect(effect in EFFECTS, f"{where}.effect", "an effect", effect)
    is_closed = effect == "closed"
    expect(phase in (PHASES if is_closed else (None,)), f"{where}.phase", "a phase" if is_closed else "null", phase)
    check_verdict(event, metric is None, where)


def check_run(run: Json, expected: tuple[str, list[Expected]], metrics: Sequence[str], where: str) -> None:
    """Refuses a run that isn't the one of this name, with its metrics and events."""
    name, events = expected
    expect(member(run, "name") == name, where, f"the run {shown(name)}", member(run, "name"))
    expect(member(run, "phase") in PHASES, f"{where}.phase", "a phase", member(run, "phase"))
    for metric, own_name, place in items_of(run, "metrics", metrics, f"{where}."):
        check_metric(metric, own_name, place)
    for event, own, place in items_of(run, "events", events, f"{where}."):
        check_event(event, own, place)


def of_version(text: str, where: str, version: int, what: str) -> Object:
    """The object of a version that a text is; `what`: what it is expected to be."""
    made: Object = parsed(text, where)
    if member(made, "version") != version:
        found = f"version {shown(member(made, 'version'))}" if isinstance(made, dict) else shown(made)
        raise Refused(f"{where}: expected {what}, found {found}")
    return made


def report_in(text: str, where: str) -> Object:
    """The report that a text is."""
    return of_version(text, where, VERSION, f"a report of version {VERSION} as `run --output json` writes it")


def checked(document: Json, text: str, document_name: str, report_name: str) -> list[RunReport]:
    """The runs of a report that has every run, every metric and every event of its document once, in its order."""
    metrics = texts(member(document, "manifest", "spec", "metrics"), "name")
    if not metrics:
        raise Refused(f"{document_name}: expected a document with a template's metrics as `manifest`")
    expected = list(events_of(document, document_name).items())
    report = report_in(text, report_name)
    for run, own, where in items_of(report, "runs", expected, f"{report_name}, "):
        check_run(run, own, metrics, where)
    runs: list[RunReport] = report["runs"]
    return runs


# ---- the text of a report, as `run` prints it


def verdict_text(event: EventReport) -> str:
    """A verdict with its cause and fault."""
    words = (event["verdict"], member(event, "cause"), member(event, "fault"))
    return " ".join(word for word in words if word is not None)


def effect_text(event: EventReport) -> str:
    """An effect, with the phase of the run that it closed."""
    return f"closed {event['phase']}" if event["effect"] == "closed" else event["effect"]


def event_line(event: EventReport) -> str:
    """The line of an event."""
    found = "stop" if event["stop"] else f"{event['metric']} {verdict_text(event)}"
    return f"event {event['number']} {found} {effect_text(event)}\n"


def metric_line(metric: MetricReport) -> str:
    """The line of a metric."""
    counts = " ".join(f"{count}={metric['counts'][count]}" for count in COUNTS)
    return f"metric {metric['name']} {metric['phase']} {counts}{' dryRun' if metric['dryRun'] else ''}\n"


def text_of(runs: Iterable[RunReport]) -> str:
    """All lines of a report."""
    lines = []
    for run in runs:
        lines.append(f"run {run['name']} {run['phase']}\n")
        lines.extend(map(metric_line, run["metrics"]))
        lines.extend(map(event_line, run["events"]))
    return "".join(lines)
