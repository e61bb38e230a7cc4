"""Which metrics are dry.

The controller takes each name of `spec.dryRun` as a regular expression that matches anywhere in a metric's name, and
marks the metrics that are dry in `status.metricResults`. argo_judge takes a metric's whole name, or `.*` for all.
"""
import contextlib
import re
import signal
import warnings
from collections.abc import Collection, Iterator, Sequence
from types import FrameType
from typing import NoReturn

from argo_judge.errors import Refused
from argo_judge.notes import note
from argo_judge.objects import Json, Object, listed, member, objects, shown
from argo_judge.templates import metric_names

ALL = ".*"
# The most characters of an expression.
LONGEST = 1000
SLOW = "takes too long to match"
# What Python's regular expressions have, and the controller's don't.
ONLY_PYTHON = re.compile(r"\(\?[=!<>(]|\\[1-9Z]|[*+?}]\+")


def compiled(pattern: str, where: str) -> re.Pattern[str]:
    """A regular expression, where the controller has that form, too."""
    try:
        with warnings.catch_warnings():
            warnings.simplefilter("ignore")
            found = None if ONLY_PYTHON.search(pattern) else re.compile(pattern, re.ASCII)
    except (re.error, ValueError, OverflowError, RecursionError):
        found = None
    if found is None:
        raise Refused(f"{where}: expected a regular expression that the controller has, too, found {shown(pattern)}")
    return found


def out_of_time(_signal: int, _frame: FrameType | None) -> NoReturn:
    """Ends a match that takes too long."""
    raise TimeoutError


class Budget:
    """The seconds of processor that are left for all expressions of an input, of which one may take the first."""

    def __init__(self, seconds: float, of_one: float) -> None:
        self.left, self.of_one = seconds, of_one

    @contextlib.contextmanager
    def limited(self) -> Iterator[None]:
        """Ends what takes longer."""
        seconds = min(self.left, self.of_one)
        if seconds <= 0:
            raise TimeoutError
        before = signal.signal(signal.SIGVTALRM, out_of_time)
        signal.setitimer(signal.ITIMER_VIRTUAL, seconds)
        try:
            yield
        finally:
            rest, _ = signal.setitimer(signal.ITIMER_VIRTUAL, 0)
            signal.signal(signal.SIGVTALRM, before)
            self.left -= seconds - rest


BUDGET = Budget(5.0, 1.0)


def matched_names(pattern: str, names: Sequence[str], where: str) -> list[str]:
    """The names that a regular expression matches. One that takes too long is refused, and so is each one after all
    took too long together: Python tries an expression's ways one by one, and the controller doesn't."""
    if len(pattern) > LONGEST:
        raise Refused(f"{where}: found a regular expression of {len(pattern)} characters; expected at most {LONGEST}")
    try:
        with BUDGET.limited():
            expression = compiled(pattern, where)
            return [name for name in names if expression.search(name)]
    except TimeoutError:
        raise Refused(f"{where}: {shown(pattern)} {SLOW}; expected no repeats in repeats")


def matched(pattern: str, names: Sequence[str], place: int) -> list[str]:
    """The names that a name of `spec.dryRun` matches."""
    where = f"spec.dryRun[{place}].metricName"
    found = matched_names(pattern, names, where)
    if not found:
        raise Refused(f"{where}: {shown(pattern)} matches no metric's name; metrics are {listed(names)}")
    return found


def patterns_of(template: Json) -> list[str] | None:
    """The names of a template's `spec.dryRun`; None where argo_judge refuses them."""
    rules = member(template, "spec", "dryRun", default=[])
    patterns = [member(rule, "metricName") for rule in rules] if isinstance(rules, list) else [None]
    return patterns if all(isinstance(pattern, str) and pattern for pattern in patterns) else None


def by_patterns(patterns: Sequence[str], names: Sequence[str], is_noted: bool = True) -> set[str]:
    """The names that regular expressions make dry. Each that doesn't match just the metric of its name is
    reported, where notes are wanted."""
    dry = set()
    for place, pattern in enumerate(patterns):
        found = matched(pattern, names, place)
        if is_noted and found != [pattern] and pattern != ALL:
            note(f"spec.dryRun: {shown(pattern)} is a regular expression, by which these are dry: {listed(found)}")
        dry.update(found)
    return dry


def with_dry(template: Object, dry: Collection[str]) -> Object:
    """A template whose dry metrics are those of these names."""
    rules = [{"metricName": name} for name in metric_names(template) if name in dry]
    spec = {name: value for name, value in template["spec"].items() if name != "dryRun"}
    return {**template, "spec": {**spec, "dryRun": rules} if rules else spec}


def with_dry_names(template: Object, is_noted: bool = True) -> Object:
    """A template whose `spec.dryRun` has whole names, or is as it was where argo_judge reads it alike or refuses it."""
    patterns, names = patterns_of(template), metric_names(template)
    if not patterns or not names or set(patterns) == {ALL}:
        return template
    return with_dry(template, by_patterns(patterns, names, is_noted))


# ---- the marks of a run


def marks_of(run: Json) -> dict[str, bool]:
    """Whether a metric is dry, of each that has a result."""
    results = objects(member(run, "status", "metricResults"))
    named = [result for result in results if isinstance(member(result, "name"), str)]
    return {result["name"]: member(result, "dryRun") is True for result in named}


def with_marked(template: Object, run: Object) -> Object:
    """A run's own template, whose dry metrics are those that the controller marked, and of those without a result the
    ones that `spec.dryRun` matches."""
    marks, names = marks_of(run), metric_names(template)
    patterns = [] if all(name in marks for name in names) else patterns_of(template)
    if patterns is None or not names:
        return template
    dry = by_patterns(patterns, names)
    return with_dry(template, [name for name in names if marks.get(name, name in dry)])


def with_other_dry_names(template: Object, run: Object) -> Object:
    """A template that takes the place of a run's own, with whole names; what is dry by it alone, or by the run alone,
    is reported."""
    template, marks = with_dry_names(template), marks_of(run)
    dry = patterns_of(template) or []
    for name in metric_names(template):
        is_dry = name in dry or ALL in dry
        if marks.get(name, is_dry) != is_dry:
            was, now = ("not dry", "dry") if is_dry else ("dry", "not")
            note(f"metric {shown(name)} was {was} in the run, and is {now} by --template")
    return template
