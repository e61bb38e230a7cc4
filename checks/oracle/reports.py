"""What the commands write of a bundle, by docs/use/formats.md and docs/use/phases.md, read apart from the program."""

from typing import Any

from checks.oracle.images import image_of, listing
from checks.oracle.meaning import meaning
from checks.oracle.phases import COUNTED, outcome, succession

BAD = ("Failed", "Error", "Inconclusive")


def verdict(judges, sample):
    """The verdict on one measurement, in the words of a report."""
    if sample[0] == "provider":
        return "Error provider"
    if sample[0] == "misfit":
        return f"Error shape {sample[1]}"
    says = []
    for judge, side in zip(judges, ("success", "failure")):
        said = meaning(judge[0], sample[1]) if judge else None
        if isinstance(said, str):
            return f"Error {side} {said}"
        says.append(said)
    return decided(*says)


def decided(success, failure):
    """The verdict by what the two conditions say, None where one isn't there."""
    if failure:
        return "Failed"
    if success or failure is None and success is None:
        return "Successful"
    if failure is None:
        return "Failed"
    return "Successful" if success is None else "Inconclusive"


def findings(bundle):
    """For each entry the number of its run, and 'stop' or its metric's number and the verdict."""
    for run, what, sample in bundle["entries"]:
        yield run, "stop" if what == "stop" else (what, verdict(bundle["runs"][run]["judges"][what], sample))


def limits_of(run):
    return [metric["limits"] + [metric["count"]] + ["dry"] * metric["dry"] for metric in run["metrics"]]


def outcomes(bundle):
    """For each run its history, by numbers and findings, and what the rules of phases say of it."""
    histories: list[list[Any]] = [[] for _ in bundle["runs"]]
    for number, (run, what) in enumerate(findings(bundle)):
        histories[run].append((number, what))
    for run, history in zip(bundle["runs"], histories):
        events = [what if what == "stop" else (what[0], what[1].split(" ")[0]) for _, what in history]
        yield run, history, outcome(limits_of(run), events)


def metric_line(metric, phase, marks):
    counts = " ".join(f"{mark.lower()}={marks.count(mark)}" for mark in (*COUNTED, "Error"))
    dry = " dryRun" if metric["dry"] else ""
    return f'metric {metric["name"]} {phase} {counts} consecutiveError={succession(marks)}{dry}'


def event_line(number, what, effect, run):
    if what == "stop":
        return f"event {number} stop {effect}"
    return f'event {number} {run["metrics"][what[0]]["name"]} {what[1]} {effect}'


def report(bundle):
    """The lines of the report of `run --plain`."""
    lines = []
    for run, history, (effects, phase, phases, marks) in outcomes(bundle):
        lines.append(f'run {run["name"]} {phase}')
        lines += [metric_line(metric, own, done) for metric, own, done in zip(run["metrics"], phases, marks)]
        lines += [event_line(number, what, effect, run) for (number, what), effect in zip(history, effects)]
    return lines


def metric_object(metric, phase, marks):
    failure, inconclusive, errors = metric["limits"]
    counts = {mark.lower(): marks.count(mark) for mark in (*COUNTED, "Error")}
    return {
        "counts": counts | {"consecutiveError": succession(marks)},
        "dryRun": metric["dry"],
        "name": metric["name"],
        "limits": {
            "consecutiveErrorLimit": errors,
            "count": metric["count"],
            "failureLimit": failure,
            "inconclusiveLimit": inconclusive,
        },
        "phase": phase,
    }


def event_object(number, what, effect, run):
    is_stop = what == "stop"
    words = [None] if is_stop else what[1].split(" ")
    effects = effect.split(" ")
    return {
        "cause": words[1] if words[1:] else None,
        "effect": effects[0],
        "fault": words[2] if words[2:] else None,
        "metric": None if is_stop else run["metrics"][what[0]]["name"],
        "number": number,
        "phase": effects[1] if effects[1:] else None,
        "stop": is_stop,
        "verdict": words[0],
    }


def report_object(bundle):
    """The object of `run --plain --output json`."""
    return {
        "runs": [
            {
                "events": [event_object(number, what, effect, run) for (number, what), effect in zip(history, effects)],
                "metrics": [
                    metric_object(metric, own, done) for metric, own, done in zip(run["metrics"], phases, marks)
                ],
                "name": run["name"],
                "phase": phase,
            }
            for run, history, (effects, phase, phases, marks) in outcomes(bundle)
        ],
        "version": 1,
    }


def run_phases(bundle):
    return [phase for _, _, (_, phase, _, _) in outcomes(bundle)]


def conditions(bundle):
    """For each condition its run, its metric and which of the two it is, its code and its bounds."""
    for run in bundle["runs"]:
        for metric, judges in zip(run["metrics"], run["judges"]):
            for judge, side in zip(judges, ("success", "failure")):
                if judge:
                    yield (run["name"], metric["name"], side), judge[1], judge[2]


def condition_line(names):
    return "run {} metric {} {}".format(*names)


def bounds_lines(bundle):
    """What `check` writes."""
    return [
        f"{condition_line(names)} operations={len(ops)} depth={bounds[0]} budget={bounds[1]}"
        for names, ops, bounds in conditions(bundle)
    ]


# How much is taken at most (docs/use/formats.md and language.md).
LIMITS = {
    "conditionBytes": 4096,
    "documentBytes": 16_777_216,
    "listItems": 10_000,
    "measurements": 100_000,
    "metrics": 64,
    "runs": 64,
}


def bounds_object(bundle):
    """The object of `check --output json`."""
    return {
        "conditions": [
            {
                "run": names[0],
                "metric": names[1],
                "condition": names[2],
                "operations": len(ops),
                "depth": bounds[0],
                "budget": bounds[1],
            }
            for names, ops, bounds in conditions(bundle)
        ],
        "limits": LIMITS,
        "version": 2,
    }


def list_lines(bundle):
    """What `list` writes."""
    lines = []
    for names, ops, _ in conditions(bundle):
        lines += [condition_line(names)] + listing(image_of(ops))
    return lines
