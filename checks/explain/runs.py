"""Runs that are explained, worked out again of counts and of the events in their order."""

from checks.explain.lines import measured
from checks.oracle import phases

OPEN = ("Pending", "Running")


def progress(limits, counts):
    return {"count": limits["count"], "measured": measured(counts)}


# The counts with their limits, and the phase of a metric that exceeds one.
LIMITED = (
    ("failed", "failureLimit", "Failed"),
    ("inconclusive", "inconclusiveLimit", "Inconclusive"),
    ("consecutiveError", "consecutiveErrorLimit", "Error"),
)


def decided(limits, counts):
    """The phase with which a metric of these counts is complete, or None."""
    own = [limits[limit] for _, limit, _ in LIMITED]
    found = [*(counts[name] for name, _, _ in LIMITED), measured(counts)]
    return phases.decided([*own, limits["count"]], *found)


def metric_faults(metric, closer):
    """What is wrong with what a metric waits for and what settled it; `closer`: the event that closed the run, or
    None."""
    limits, counts, phase = (metric["metric"][name] for name in ("limits", "counts", "phase"))
    own = progress(limits, counts)
    if metric["waitsFor"] != (own if phase in OPEN else None):
        yield f"metric {metric['metric']['name']} waits for something else"
    settled = closer is not None and decided(limits, counts) is None
    if metric["settled"] != ({**own, "event": closer} if settled else None):
        yield f"metric {metric['metric']['name']} was settled otherwise"


def because(kind, **numbers):
    """A reason of this kind, with the numbers that it has."""
    return {"count": None, "event": None, "kind": kind, "limit": None, "phase": None, "value": None, **numbers}


def late_reason(late, earlier):
    """What had made an event late, by the events of its run before it."""
    closers = [one["event"]["number"] for one in earlier if one["event"]["effect"] == "closed"]
    if closers:
        return because("runClosed", event=closers[0])
    ends = [
        (decided(one["counts"]["limits"], one["counts"]["after"]), one["event"]["number"])
        for one in earlier
        if one["counts"] is not None and one["event"]["metric"] == late["event"]["metric"]
    ]
    return next(because("metricComplete", phase=phase, event=number) for phase, number in ends if phase)


def closing_reason(one):
    """Why an event closed its run, by the counts after it."""
    if one["counts"] is None:
        return because("stop")
    counts, limits, phase = one["counts"]["after"], one["counts"]["limits"], one["event"]["phase"]
    exceeded = [
        because("limit", phase=own, limit=limit, value=limits[limit], count=counts[name])
        for name, limit, own in LIMITED
        if own == phase and counts[name] > limits[limit]
    ]
    return (exceeded + [because("complete")])[0]


def reason_of(one, earlier):
    """The reason that an event has, or None."""
    if one["event"]["effect"] == "late":
        return late_reason(one, earlier)
    if one["event"]["effect"] == "closed":
        return closing_reason(one)
    phase = one["counts"] and decided(one["counts"]["limits"], one["counts"]["after"])
    is_dry = one["dry"] and phase in ("Failed", "Inconclusive", "Error")
    return because("dry", phase=phase) if is_dry else None


def run_faults(run):
    """What is wrong with what a run waits for, with its metrics, with the reasons of its events, and with values
    without a condition."""
    events, metrics = run["events"], [one["metric"] for one in run["metrics"]]
    dry = {one["name"] for one in metrics if one["dryRun"]}
    closer = next((one["event"]["number"] for one in events if one["event"]["effect"] == "closed"), None)
    waits = [
        {**progress(one["limits"], one["counts"]), "metric": one["name"]} for one in metrics if one["phase"] in OPEN
    ]
    if run["waitsFor"] != (waits if closer is None else None):
        yield f"run {run['name']} waits for something else"
    for one in run["metrics"]:
        yield from metric_faults(one, closer)
    for place, one in enumerate(events):
        if one["reason"] != reason_of({**one, "dry": one["event"]["metric"] in dry}, events[:place]):
            yield f"event {one['event']['number']} has another reason"
        if one["noCondition"] != (one["shown"] is not None and not one["conditions"]):
            yield f"event {one['event']['number']} has a condition, or none"
