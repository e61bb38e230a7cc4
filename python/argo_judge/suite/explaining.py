"""Why a case differs: what the engine explains of the events that led to it."""
from collections.abc import Sequence
from dataclasses import replace
from itertools import islice
from typing import NamedTuple

from argo_judge.engine.explanations import lines_of, parts_of
from argo_judge.engine.program import judged
from argo_judge.errors import GOOD, Refused
from argo_judge.objects import Object
from argo_judge.suite.cases import Case
from argo_judge.suite.comparing import Difference, differences
from argo_judge.suite.files import Suite
from argo_judge.suite.judging import Outcome, Subject, document_of

# Of a case, how many differences are shown, and how many events are explained.
MOST_DIFFERENCES, MOST_EVENTS = 8, 4
# The name of a run that is explained; that of a test may have characters that no command line takes.
NAME = "test"


class Result(NamedTuple):
    """A case, what differs of it (the first, and how many more there are), and the lines that say why."""

    suite: Suite
    case: Case
    differences: list[Difference]
    more: int
    reasons: list[str]

    @property
    def passed(self) -> bool:
        """Whether nothing differs."""
        return not self.differences


def explained(engine: str, document: Object, place: int | None) -> list[list[str]]:
    """What the engine explains of an event, and the metrics of its run; without an event, of a run that has none."""
    words = ["--event", str(place)] if place is not None else ["--run", NAME]
    ended = judged(engine, ["explain", *words], document)
    if ended.returncode != GOOD:
        raise Refused(f"the engine judges a document and doesn't explain it: {ended.stderr.strip()}")
    return parts_of(ended.stdout)


def reasons(engine: str, subject: Subject, case: Case, found: Sequence[Difference]) -> list[str]:
    """The lines that say why a run is as it is: the events that led to it, and its metrics."""
    places: list[int | None] = [*sorted({place for one in found for place in one.events})]
    document = document_of(subject, [replace(case, name=NAME)])
    runs = [explained(engine, document, place) for place in places[:MOST_EVENTS] or [None]]
    lines = [line for parts in runs for line in lines_of(parts, "event")]
    lines += ["other events are left out"] if places[MOST_EVENTS:] else []
    return lines + lines_of(runs[-1], "metric")


def result_of(engine: str, subject: Subject, suite: Suite, case: Case, outcome: Outcome) -> Result:
    """The result of a case. Where it differs the engine is asked why."""
    rest = differences(case, outcome)
    found = list(islice(rest, MOST_DIFFERENCES))
    more = sum(1 for _ in rest)
    is_judged = case.expected.refused is None and outcome.run is not None
    lines = reasons(engine, subject, case, found) if found and is_judged else []
    return Result(suite, case, found, more, lines)
