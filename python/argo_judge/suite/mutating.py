"""Which moves of a template no test notices: the tests are judged anew by each moved template."""
import os
from collections.abc import Sequence
from concurrent.futures import ThreadPoolExecutor
from dataclasses import dataclass, field
from typing import NamedTuple

from argo_judge.errors import Refused
from argo_judge.notes import kept_notes
from argo_judge.objects import shown
from argo_judge.suite.cases import Case
from argo_judge.suite.comparing import differences
from argo_judge.suite.files import Suite
from argo_judge.suite.judging import Subject, outcomes_of
from argo_judge.suite.moves import Move, moves_of


class PassedOver(NamedTuple):
    """A move that isn't tried, or says nothing, and why."""

    move: Move
    why: str


@dataclass
class Trial:
    """What came of the moves of a suite's template; one that is passed over has a reason."""

    suite: Suite
    cases: list[Case]
    noticed: list[Move] = field(default_factory=list)
    unnoticed: list[Move] = field(default_factory=list)
    passed_over: list[PassedOver] = field(default_factory=list)


def judged_cases(suite: Suite) -> list[Case]:
    """The tests that may notice a move: those whose document is judged."""
    return [case for case in suite.cases if case.expected.refused is None]


def tried(engine: str, trial: Trial, move: Move) -> bool | str:
    """Whether a test notices a move, or the name of the refusal where each document is refused by it."""
    subject = Subject(move.template_of(trial.suite.template), trial.suite.shapes, move.args_of)
    refusals = []
    for case, outcome in outcomes_of(engine, subject, trial.cases):
        if outcome.refusal is not None:
            refusals.append(outcome.refusal.name)
        elif next(differences(case, outcome), None) is not None:
            return True
    return refusals[0] if refusals and len(refusals) == len(trial.cases) else False


def moves_of_suite(suite: Suite, cases: Sequence[Case]) -> list[Move]:
    """The moves of a suite's template. One that no test can notice has to be there."""
    moves = list(moves_of(suite.template, suite.shapes, cases)) if cases else []
    lines = [move.line for move in moves if move.after is not None]
    for line in suite.equivalent if cases else ():
        if line not in lines:
            raise Refused(
                f"{suite.file}: equivalentMoves: expected a move of the template as --mutate prints it, "
                f"found {shown(line)}"
            )
    return moves


def trials_of(engine: str, suites: Sequence[Suite]) -> list[Trial]:
    """A trial for each suite; moves are judged side by side. What is noted of their templates was noted before."""
    trials = [Trial(suite, judged_cases(suite)) for suite in suites]
    found = [(trial, move) for trial in trials for move in moves_of_suite(trial.suite, trial.cases)]
    with kept_notes(), ThreadPoolExecutor(os.cpu_count()) as side_by_side:
        answers = side_by_side.map(lambda one: one[1].after and tried(engine, *one), found)
        for (trial, move), answer in zip(found, answers):
            add(trial, move, answer)
    return trials


def add(trial: Trial, move: Move, answer: bool | str | None) -> None:
    """Adds what came of a move to a trial."""
    is_equivalent = move.line in trial.suite.equivalent
    if move.after is None:
        trial.passed_over.append(PassedOver(move, move.need))
    elif isinstance(answer, str):
        trial.passed_over.append(PassedOver(move, f"refused, {answer}"))
    elif is_equivalent and answer:
        said = f"a test notices {shown(move.line)}; expected none that does"
        raise Refused(f"{trial.suite.file}: equivalentMoves: {said}")
    elif is_equivalent:
        trial.passed_over.append(PassedOver(move, "one of the suite's equivalentMoves"))
    else:
        (trial.noticed if answer else trial.unnoticed).append(move)
