"""The order of an AnalysisRun's measurements.

They are in the order in which they ended, but for those that ended metrics badly. A controller measures all metrics
that are due together, counts each of these measurements, and gives the run the worst phase of its metrics; it begins no
measurement after that. argo_judge closes a run at the first metric that ends badly. So what ended a metric badly comes
after all that was begun together with it, and of several the worst comes first.
"""
from argo_judge.dryruns import marks_of
from argo_judge.errors import Refused
from argo_judge.objects import Json, Object, member, objects, shown

DONE = ("Successful", "Failed", "Inconclusive", "Error")
WORST = ("Failed", "Error", "Inconclusive")


def ended(result: Object) -> list[Object]:
    """A result's measurements that ended."""
    return [one for one in objects(member(result, "measurements")) if one.get("phase") in DONE]


def time_of(measurement: Object) -> str:
    """The time at which a measurement ended."""
    time = member(measurement, "finishedAt", default="") or member(measurement, "startedAt", default="")
    if not isinstance(time, str):
        raise Refused(f"input: expected a measurement's `finishedAt` as a time, found {shown(time)}")
    return time


def closing_of(run: Json) -> dict[int, int]:
    """The last measurement of each metric that ended badly and isn't dry, by its identity, with how bad that is."""
    dry, closing = marks_of(run), {}
    for result in objects(member(run, "status", "metricResults")):
        phase, measurements = member(result, "phase"), ended(result)
        if phase in WORST and measurements and not (isinstance(result.get("name"), str) and dry[result["name"]]):
            closing[id(measurements[-1])] = WORST.index(phase)
    return closing


def ordered(run: Json) -> list[tuple[str, Object]]:
    """The measurements that ended, each with its metric's name, in the order in which argo_judge gets them."""
    results, closing = objects(member(run, "status", "metricResults")), closing_of(run)
    found = [(member(result, "name"), one) for result in results for one in ended(result)]
    begun = [one["startedAt"] for _, one in found if id(one) in closing and member(one, "startedAt") is not None]
    last = max((time_of(one) for _, one in found if id(one) in closing or one.get("startedAt") in begun), default="")

    def place(entry: tuple[str, Object]) -> tuple[str, int]:
        """Where an entry is in the order."""
        one = entry[1]
        return (last, 1 + closing[id(one)]) if id(one) in closing else (time_of(one), 0)

    return sorted(found, key=place)
