"""Placeholders for the measurements that a controller dropped: it keeps a metric's last ones alone, and counts all.

A placeholder has a value of the verdict that was counted: that of a measurement that is kept or, where none has this
verdict, one of those on which the engine is asked. They come before all that is kept, in an order that closes nothing:
errors are apart where too many would come in succession, and at the end are as many as the counts imply.
"""
from collections.abc import Mapping, Sequence
from typing import NamedTuple

from argo_judge.binding import bound
from argo_judge.engine.limits import limits_of
from argo_judge.engine.program import judged
from argo_judge.engine.reports import checked
from argo_judge.errors import JUDGED, Refused
from argo_judge.lint.limits import limit_of
from argo_judge.lint.questions import MOST_LIMIT
from argo_judge.lint.values import values_of
from argo_judge.notes import note
from argo_judge.objects import Json, Object, member, objects, shown
from argo_judge.retention import COUNTS, count_of, lacking
from argo_judge.templates import CONDITIONS, metrics_of
from argo_judge.templates import values_of as values_of_args

ERROR = "Error"
DROPPED: Object = {"error": "a measurement that the controller dropped"}
# The field of each limit, and what holds without it.
LIMITS = {"Failed": ("failureLimit", 0), "Inconclusive": ("inconclusiveLimit", 0), ERROR: ("consecutiveErrorLimit", 4)}
HOW = "--partial takes the run as it is"


class Gone(NamedTuple):
    """The measurements of a metric that aren't there: how many by their phases, and how many of the errors came just
    before the first that is there, if the counts say so."""

    metric: str
    times: dict[str, int]
    at_end: int | None
    kept_errors: int

    @property
    def total(self) -> int:
        """How many there are."""
        return sum(self.times.values())


def gone_of(result: Object) -> Gone | None:
    """What is gone of a metric's measurements, of which some are kept; None where nothing is, or where the counts don't
    say what it was."""
    lacks = lacking(result)
    phases = [member(one, "phase") for one in objects(member(result, "measurements"))]
    if not lacks or "" in lacks or min(lacks.values()) < 0 or not phases or not isinstance(member(result, "name"), str):
        return None
    first = next((place for place, phase in enumerate(phases) if phase != ERROR), len(phases))
    at_end = count_of(result, "consecutiveError") - len(phases) if first == len(phases) else None
    return Gone(result["name"], {COUNTS[name]: number for name, number in lacks.items()}, at_end, first)


def all_gone(run: Object) -> list[Gone]:
    """What is gone of each metric of a run; nothing where of one that lacks measurements nothing can be said."""
    lacking_ones = [result for result in objects(member(run, "status", "metricResults")) if lacking(result)]
    found = [gone for result in lacking_ones if (gone := gone_of(result)) is not None]
    return found if len(found) == len(lacking_ones) else []


# ---- their order


def refused(gone: Gone, why: str) -> Refused:
    """The refusal of a run for whose measurements there are no placeholders."""
    lacks = f"metric {shown(gone.metric)} lacks measurements, by the controller's counts"
    return Refused(f"input: {lacks}, and {why}; {HOW}")


def in_order(gone: Gone, most: int) -> list[str]:
    """The verdicts of the placeholders: no more errors in succession than may be, and at the end those implied."""
    errors, order = gone.times.get(ERROR, 0), []
    at_end = gone.at_end or 0
    left = errors - at_end
    for phase in ("Successful", "Inconclusive", "Failed"):
        for _ in range(gone.times.get(phase, 0)):
            before = min(max(left, 0), most)
            left -= before
            order += [ERROR] * before + [phase]
    rest = left if gone.at_end is None else 0
    if left != rest or rest > max(0, most - gone.kept_errors):
        raise refused(gone, "no order of them has that many errors")
    return order + [ERROR] * (rest + at_end)


# ---- their values


def verdicts_asked(engine: str, made: Object, name: str) -> dict[str, Object]:
    """A value for each verdict that a metric's conditions give on some values of its shape."""
    template, run = made["manifest"], made["runs"][0]
    metric: Object = next((one for one in metrics_of(template) if one.get("name") == name), {})
    args = {**values_of_args(member(template, "spec", "args")), **run.get("args", {})}
    conditions = [bound(metric[one], args) for one in CONDITIONS if isinstance(member(metric, one), str)]
    values, _ = values_of(made["shapes"].get(name), conditions)
    limits = dict.fromkeys(("failureLimit", "inconclusiveLimit", "consecutiveErrorLimit"), MOST_LIMIT)
    own = {one: metric[one] for one in CONDITIONS if one in metric}
    endless: Object = {**own, "name": name, "interval": "1m", **limits}
    asked = {
        **made,
        "manifest": {**template, "spec": {**template["spec"], "metrics": [endless], "dryRun": []}},
        "measurements": [{"run": run["name"], "metric": name, "value": value} for value in values],
    }
    ended = judged(engine, ["run", "--plain", "--output", "json"], asked)
    if ended.returncode not in JUDGED:
        return {}
    events = checked(asked, ended.stdout, "document", "report")[0]["events"]
    found = {event["verdict"]: {"value": values[event["number"]]} for event in reversed(events)}
    return {verdict: answer for verdict, answer in found.items() if verdict is not None and verdict != ERROR}


def answers_of(engine: str, made: Object, gone: Gone, kept: Mapping[str, Object]) -> dict[str, Object]:
    """An answer of each verdict that is gone, of kept measurements or of the engine."""
    wanted = set(gone.times) - {ERROR}
    known = {ERROR: DROPPED, **kept}
    if not wanted <= set(known):
        known = {**verdicts_asked(engine, made, gone.metric), **known}
    for phase in sorted(wanted - set(known)):
        raise refused(gone, f"no value is known that is {phase}")
    return known


# ---- all of them


class Placeholder(NamedTuple):
    """A placeholder: its metric's name, its verdict, and its answer."""

    metric: str
    verdict: str
    answer: Object


def limits_in(made: Object, name: str) -> dict[str, int]:
    """How many measurements of a phase a metric may have, of errors in succession; where nothing says so Argo Rollouts'
    own limits hold."""
    metric: Object = next((one for one in metrics_of(made["manifest"]) if one.get("name") == name), {})
    args = {**values_of_args(member(made, "manifest", "spec", "args")), **made["runs"][0].get("args", {})}
    found = {phase: limit_of(metric, field, args) for phase, (field, _) in LIMITS.items()}
    return {phase: LIMITS[phase][1] if limit is None else limit for phase, limit in found.items()}


def placeholders(
    engine: str, made: Object, all_of: Sequence[Gone], kept: Mapping[str, Mapping[str, Object]]
) -> list[Placeholder]:
    """The placeholders of all metrics; `kept`: of each metric an answer by its phase."""
    most = limits_of(engine).measurements - len(made["measurements"])
    found: list[Placeholder] = []
    for gone in all_of:
        if len(found) + gone.total > most:
            raise refused(gone, "they are more than a document may have")
        limits = limits_in(made, gone.metric)
        for phase in ("Failed", "Inconclusive"):
            if gone.times.get(phase, 0) > limits[phase]:
                raise refused(gone, f"more of them are {phase} than may be before it ends")
        order = in_order(gone, limits[ERROR])
        answers = answers_of(engine, made, gone, kept.get(gone.metric, {}))
        found += [Placeholder(gone.metric, verdict, answers[verdict]) for verdict in order]
        counts = ", ".join(f"{number} {phase}" for phase, number in gone.times.items())
        what = f"{gone.total} measurements that the controller dropped have placeholders ({counts})"
        note(f"metric {shown(gone.metric)}: {what}")
    return found


def entries_of(found: Sequence[Placeholder], run: Json) -> list[Object]:
    """The entries of placeholders in a document."""
    return [{"run": run, "metric": one.metric, **one.answer, "placeholder": True} for one in found]
