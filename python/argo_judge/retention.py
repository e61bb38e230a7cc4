"""Whether the measurements of an AnalysisRun are all of those that its controller counted.

A controller keeps the last measurements of a metric alone (10, or as `measurementRetention` says), and counts next to
them in `status.metricResults`. A count that it leaves out is 0.
"""
from collections.abc import Mapping

from argo_judge.engine.reports import BAD
from argo_judge.errors import Refused
from argo_judge.notes import note
from argo_judge.objects import Json, Object, member, objects, shown

# The counts of a result, by the phase that a measurement has.
COUNTS = {"successful": "Successful", "failed": "Failed", "inconclusive": "Inconclusive", "error": "Error"}
MOST = 2**31 - 1


def count_of(result: Object, name: str) -> int:
    """A count of a result, which is 0 where it is left out."""
    count = member(result, name, default=0)
    if isinstance(count, bool) or not isinstance(count, int) or not 0 <= count <= MOST:
        metric = shown(member(result, "name"))
        raise Refused(f"input, metric {metric}: expected a whole number as `{name}`, found {shown(count)}")
    return count


def lacking(result: Object) -> dict[str, int]:
    """How many measurements were counted and aren't there, by the name of the count. Below 0 are those that are there
    and weren't counted."""
    phases = [member(one, "phase") for one in objects(member(result, "measurements"))]
    there = {name: phases.count(phase) for name, phase in COUNTS.items()}
    lacks = {name: count_of(result, name) - there[name] for name in COUNTS}
    if not any(lacks.values()):  # `count` says how many there are besides errors
        lacks = {"": count_of(result, "count") - sum(there.values()) + there["error"]}
    return {name: number for name, number in lacks.items() if number}


def in_words(what: str, numbers: Mapping[str, int]) -> list[str]:
    """What is said of counts that differ; nothing where there are none."""
    counts = ", ".join(f"{number} {name}".strip() for name, number in numbers.items())
    return [f"{what} ({counts})"] if counts else []


def difference(result: Object) -> str:
    """What a metric's measurements and its counts say differently, if they do."""
    lacks = lacking(result)
    gone = {name: number for name, number in lacks.items() if number > 0}
    more = {name: -number for name, number in lacks.items() if number < 0}
    return " and ".join(in_words("lacks measurements", gone) + in_words("has measurements too many", more))


def unmeasured(run: Json) -> str:
    """What is said of a run that its controller ended badly before anything was measured: no condition said why."""
    phase, message = member(run, "status", "phase"), member(run, "status", "message")
    results = objects(member(run, "status", "metricResults"))
    if (
        not isinstance(phase, str)
        or phase not in BAD
        or any(objects(member(result, "measurements")) for result in results)
    ):
        return ""
    why = message if isinstance(message, str) else "it doesn't say why"
    return f"the controller ended the run as {phase} before anything was measured: {why}"


def check_history(run: Json, is_partial: bool) -> None:
    """Refuses a run whose measurements aren't all there, or that ended badly without any; of one that may be partial a
    line says so."""
    found = [(member(result, "name"), difference(result)) for result in objects(member(run, "status", "metricResults"))]
    lines = [f"metric {shown(name)} {what}, by the controller's counts" for name, what in found if what]
    for line in lines or ([unmeasured(run)] if unmeasured(run) else []):
        if not is_partial:
            raise Refused(f"input: {line}; --partial takes the run as it is")
        note(line)
