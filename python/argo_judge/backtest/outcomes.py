"""What became of each run by its own template and by the other, and the sums."""
from collections import Counter
from collections.abc import Sequence
from dataclasses import dataclass, field
from typing import NamedTuple

from argo_judge.backtest.sweeps import UNDECIDED, Sums, Sweep, sums_of
from argo_judge.engine.reports import COUNTS, MetricReport, RunReport

LIMITS = ("count", "failureLimit", "inconclusiveLimit", "consecutiveErrorLimit")


class LeftOut(NamedTuple):
    """A run that isn't judged, why, and whether it was made of another template."""

    name: str
    why: str
    is_of_other: bool = False


class Outcome(NamedTuple):
    """A run's phase by its controller, by its own template and by the other, and what differs; the phase by each value
    of the sweep; and the metrics by both templates, where each run is asked for."""

    name: str
    controller: str
    own: str
    other: str
    why: list[str]
    swept: list[str]
    metrics: tuple[list[MetricReport], list[MetricReport]] | None

    @property
    def flips(self) -> bool:
        """Whether the run ends otherwise by the other template."""
        return self.own != self.other

    @property
    def differs(self) -> bool:
        """Whether the engine and the controller differ by the same template."""
        return self.own != self.controller


def changes_of(metric: MetricReport, own: MetricReport | None) -> list[str]:
    """What is otherwise in a metric: counts, limits and phase."""
    if own is None:
        return ["isn't in the run's own template, so it wasn't measured"]
    pairs: list[tuple[str, int | None, int | None]]
    pairs = [(name, own["counts"][name], metric["counts"][name]) for name in COUNTS]
    pairs += [(name, own["limits"][name], metric["limits"][name]) for name in LIMITS]
    found = [f"{name} {was} -> {now}" for name, was, now in pairs if was != now]
    phase = [f"{own['phase']} -> {metric['phase']}"] if own["phase"] != metric["phase"] else []
    return phase + found


def differences(before: RunReport, after: RunReport) -> list[str]:
    """What differs in each metric between the reports of a run by two templates."""
    own = {metric["name"]: metric for metric in before["metrics"]}
    found = [(metric["name"], changes_of(metric, own.get(metric["name"]))) for metric in after["metrics"]]
    lines = [f"{name}: {', '.join(changes)}" for name, changes in found if changes]
    gone = [name for name in own if name not in dict(found)]
    return lines + [f"{name}: isn't in the template" for name in gone]


def outcome_of(name: str, controller: str, reports: Sequence[RunReport], has_each: bool) -> Outcome:
    """The outcome of a run, by the reports of its documents."""
    own, other, *swept = reports
    return Outcome(
        name,
        controller,
        own["phase"],
        other["phase"],
        differences(own, other) if has_each or own["phase"] != other["phase"] else [],
        [report["phase"] for report in swept],
        (own["metrics"], other["metrics"]) if has_each else None,
    )


@dataclass
class Result:
    """What came of all runs so far. Of runs that neither flip nor differ only the sums are kept, unless each run is
    asked for."""

    sweep: Sweep | None
    has_each: bool
    outcomes: list[Outcome] = field(default_factory=list)
    left_out: list[LeftOut] = field(default_factory=list)
    judged: int = 0
    undecided: int = 0
    # How many runs flip, by the phases before and after; and of each value of the sweep how many have which phase.
    flips: Counter[tuple[str, str]] = field(default_factory=Counter)
    swept: list[Counter[str]] = field(default_factory=list)

    def __post_init__(self) -> None:
        """Begins with no run of any value."""
        self.swept = [Counter() for _ in self.sweep.values] if self.sweep else []

    def add(self, one: Outcome | LeftOut) -> None:
        """Takes what came of a run."""
        if isinstance(one, LeftOut):
            self.left_out.append(one)
            return
        self.judged += 1
        self.undecided += one.other in UNDECIDED
        for counter, phase in zip(self.swept, one.swept):
            counter[phase] += 1
        if one.flips:
            self.flips[one.own, one.other] += 1
        if one.flips or one.differs or self.has_each:
            self.outcomes.append(one)

    @property
    def sums(self) -> list[tuple[str, Sums]]:
        """Each value of the sweep with its sums."""
        values = self.sweep.values if self.sweep else []
        return [(value, sums_of(phases)) for value, phases in zip(values, self.swept)]
