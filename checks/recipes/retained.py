"""AnalysisRuns of a simulated controller that keeps the last 1, 3 or 10 measurements of a metric: with placeholders for
what it dropped the engine has to give each phase that the controller gave.

Prints how many runs were compared, how many of them lack measurements, and each that differs.
"""

import json
import sys
from collections.abc import Sequence
from random import Random
from typing import Any

from argo_judge.analysisruns import Flags, document_of
from argo_judge.compare import compared_in, report_of
from argo_judge.errors import Refused
from argo_judge.notes import kept_notes
from checks.harness import ENGINE, side_by_side

RUNS = 300
COUNTS = {"Successful": "successful", "Failed": "failed", "Inconclusive": "inconclusive", "Error": "error"}
WORST = ("Failed", "Error", "Inconclusive")
CONDITIONS = {"successCondition": "result >= 0.95", "failureCondition": "result < 0.9"}


class Metric:
    """A metric of the controller, with all that it counts and the measurements that it keeps."""

    def __init__(self, source: Random, name: str) -> None:
        self.name, self.keeps = name, source.choice((1, 3, 10))
        self.limits = {
            "failureLimit": source.choice((0, 1, 3, 8)),
            "inconclusiveLimit": source.choice((0, 2, 6)),
            "consecutiveErrorLimit": source.choice((0, 1, 4)),
        }
        greatest = max(self.limits["failureLimit"], self.limits["inconclusiveLimit"]) + 1
        self.count = source.choice((None, greatest + 4, greatest + 30))
        self.counts = dict.fromkeys(COUNTS.values(), 0)
        self.in_succession, self.phase = 0, "Pending"
        self.kept: list[dict[str, Any]] = []
        self.odds = source.choice(((94, 2, 2, 2), (60, 15, 10, 15), (80, 5, 5, 10)))

    def measure(self, source: Random, time: int) -> None:
        """Takes a measurement, and drops the oldest where there are too many."""
        phase = source.choices(list(COUNTS), self.odds)[0]
        at = f"2026-03-05T{time // 60:02}:{time % 60:02}:00Z"
        one = {"phase": phase, "startedAt": at, "finishedAt": at}
        hundredths = {"Successful": (95, 99), "Inconclusive": (90, 94), "Failed": (50, 89)}
        if phase == "Error":
            one["message"] = "no answer"
        else:
            one["value"] = f"0.{source.randint(*hundredths[phase])}"
        self.counts[COUNTS[phase]] += 1
        self.in_succession = self.in_succession + 1 if phase == "Error" else 0
        self.kept = [*self.kept, one][-self.keeps :]
        self.phase = self.assessed(False)

    def assessed(self, is_terminating: bool) -> str:
        """The phase that its counts give."""
        if self.phase in (*WORST, "Successful"):
            return self.phase
        if self.counts["failed"] > self.limits["failureLimit"]:
            return "Failed"
        if self.counts["inconclusive"] > self.limits["inconclusiveLimit"]:
            return "Inconclusive"
        if self.in_succession > self.limits["consecutiveErrorLimit"]:
            return "Error"
        measured = sum(self.counts.values()) - self.counts["error"]
        is_done = is_terminating or self.count is not None and measured >= self.count
        return "Successful" if is_done else "Running" if sum(self.counts.values()) else "Pending"

    def spec(self) -> dict[str, Any]:
        """What the run's spec has of it."""
        count = {} if self.count is None else {"count": self.count}
        return {
            "name": self.name,
            "interval": "1m",
            **CONDITIONS,
            **self.limits,
            **count,
            "provider": {"web": {"url": "x"}},
        }

    def result(self) -> dict[str, Any]:
        """What the run's status has of it; counts of 0 are left out."""
        counts = {**self.counts, "count": sum(self.counts.values()) - self.counts["error"]}
        counts["consecutiveError"] = self.in_succession
        found = {name: number for name, number in counts.items() if number}
        return {"name": self.name, "phase": self.phase, **found, "measurements": self.kept}


def run_of(number: int) -> dict[str, Any]:
    """An AnalysisRun that ended, by itself or since it was terminated."""
    source = Random(f"retained {number}")
    metrics = [Metric(source, f"m{index}") for index in range(source.choice((1, 1, 2, 3)))]
    steps = source.choice((5, 20, 60, 200))
    for time in range(steps):
        open_ones = [one for one in metrics if one.phase in ("Pending", "Running")]
        if not open_ones or any(one.phase in WORST for one in metrics):
            break
        source.choice(open_ones).measure(source, time)
    bad = [one.phase for one in metrics if one.phase in WORST]
    is_terminated = not bad and any(one.phase in ("Pending", "Running") for one in metrics)
    for one in metrics:
        one.phase = one.assessed(True)
    return {
        "apiVersion": "argoproj.io/v1alpha1",
        "kind": "AnalysisRun",
        "metadata": {
            "name": f"run-{number}",
            "annotations": {"argo-judge/shapes": json.dumps({one.name: "decimal" for one in metrics})},
        },
        "spec": {
            "metrics": [one.spec() for one in metrics],
            "measurementRetention": [{"metricName": one.name, "limit": one.keeps} for one in metrics],
            **({"terminate": True} if is_terminated else {}),
        },
        "status": {
            "phase": min(bad, key=WORST.index) if bad else "Successful",
            "metricResults": [one.result() for one in metrics if one.kept],
        },
    }


def differences(number: int) -> tuple[bool, list[str]]:
    """Whether a run lacks measurements, and where the engine gives other phases than the controller."""
    run = run_of(number)
    try:
        made, found = document_of(run, Flags(None, False, str(ENGINE)))
        compared = list(compared_in(run, found, report_of(str(ENGINE), made)))
    except Refused as refusal:
        return True, [f"{refusal}"]
    lacks = any(one.is_placeholder for one in found)
    differing = [one for one in compared if one.differs]
    return lacks, [f"{one.what}: the controller {one.controller}, argo_judge {one.said}" for one in differing]


def main(words: Sequence[str]) -> None:
    """Compares runs, 300 or as many as are asked for."""
    with kept_notes():
        found = side_by_side(differences, range(int(words[0]) if words else RUNS))
    for number, (_, lines) in enumerate(found):
        for line in lines:
            print(f"run {number}: {line}")
    lacking, differing = sum(lacks for lacks, _ in found), sum(bool(lines) for _, lines in found)
    print(f"{len(found)} runs, {lacking} lack measurements, {differing} differ")


if __name__ == "__main__":
    main(sys.argv[1:])
