"""The rules of docs/use/phases.md, read a second time: what events do to a run, and its state then.

A limit is a list: failures, inconclusive marks, errors in succession, the count or None, and 'dry' after them where the
metric is. An event is 'stop', or a metric's number and a mark.
"""

from typing import Any

COUNTED = ("Successful", "Failed", "Inconclusive")


def succession(marks):
    """How many errors there are at the end, without another mark between."""
    count = 0
    for mark in reversed(marks):
        if mark != "Error":
            break
        count += 1
    return count


def decided(limits, failed, inconclusive, errors, measured):
    """The phase with which a metric of these counts is complete, or None; errors are those in succession."""
    for count, limit, phase in zip((failed, inconclusive, errors), limits, ("Failed", "Inconclusive", "Error")):
        if count > limit:
            return phase
    return "Successful" if limits[3] is not None and measured >= limits[3] else None


def metric_phase(limit, marks):
    """The phase of a metric after marks that weren't late, if no run closes it."""
    if not marks:
        return "Pending"
    measured = sum(marks.count(mark) for mark in COUNTED)
    phase = decided(limit[:4], marks.count("Failed"), marks.count("Inconclusive"), succession(marks), measured)
    return phase or "Running"


def is_complete(phase):
    return phase not in ("Pending", "Running")


def is_dry(limit):
    return limit[4:] == ["dry"]


def closing(limits, phases, event):
    """The phase in which an event closes the run, or None."""
    if event == "stop":
        return "Successful"
    phase = phases[event[0]]
    if phase in ("Failed", "Error", "Inconclusive") and not is_dry(limits[event[0]]):
        return phase
    return "Successful" if all(is_complete(other) for other in phases) else None


def outcome(limits, events):
    """The effect of each event, the phase of the run, and the phase and the timely marks of each metric."""
    marks: list[list[Any]] = [[] for _ in limits]
    phases = ["Pending"] * len(limits)
    run = "Pending"
    effects = []
    for event in events:
        if is_complete(run) or event != "stop" and is_complete(phases[event[0]]):
            effects.append("late")
            continue
        if event != "stop":
            marks[event[0]].append(event[1])
            phases[event[0]] = metric_phase(limits[event[0]], marks[event[0]])
        closed = closing(limits, phases, event)
        run = closed or "Running"
        effects.append(f"closed {closed}" if closed else "applied")
        if closed:
            phases = [phase if is_complete(phase) else "Successful" for phase in phases]
    return effects, run, phases, marks


def answer(limits, events):
    """What the call `phases` answers."""
    effects, run, phases, marks = outcome(limits, events)
    lines = [f"[{', '.join(effects)}]", f"run {run} handed={len(events)}"]
    for phase, own in zip(phases, marks):
        counts = " ".join(f"{mark.lower()}={own.count(mark)}" for mark in (*COUNTED, "Error"))
        lines.append(f"metric {phase} {counts} consecutiveError={succession(own)}")
    return " / ".join(lines)
