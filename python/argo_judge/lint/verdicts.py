"""Findings of what the engine answers on values: faults, and conditions that are always or never what they may be."""
from collections.abc import Iterator, Sequence
from typing import TypeVar

from argo_judge.engine.limits import limits_of
from argo_judge.lint.conditions import Asked, asked_of, refused
from argo_judge.lint.findings import Finding, info, warning
from argo_judge.lint.questions import answered
from argo_judge.lint.shaping import shapes_of_metrics
from argo_judge.lint.subjects import Subject, metric_pointer, metric_title
from argo_judge.lint.values import value_text
from argo_judge.objects import Json

T = TypeVar("T")
MENDS_OF_FAULTS = {
    "IndexOutOfRange": "test the length first: `len(result) > 0 && ..`, or `len(result) == 0 || ..` where no data is a "
    "success",
    "NilOperand": "test for nil first, as `result != nil && ..`, or use `default(result, 0)`",
    "DivisionByZero": "test the divisor first, as `result.total > 0 && ..`",
}


def first_with(values: Sequence[Json], answers: Sequence[T], wanted: T) -> str | None:
    """The first of the values with an answer, as a line shows it."""
    return next((value_text(value) for value, answer in zip(values, answers) if answer == wanted), None)


def faults(asked: Asked, answers: Sequence[bool | str]) -> Iterator[Finding]:
    """The first value on which each fault is met."""
    for fault, mend in MENDS_OF_FAULTS.items():
        value = first_with(asked.question.values, answers, fault)
        if value is not None:
            yield warning(
                "fault",
                asked.pointer,
                f"{asked.title} meets the fault {fault} on {value}{asked.noted}, "
                "which is an error of the measurement",
                mend,
            )


def constants(asked: Asked, answers: Sequence[bool | str]) -> Iterator[Finding]:
    """A condition that is the same for every value."""
    booleans = [answer for answer in answers if isinstance(answer, bool)]
    if len(booleans) < 2 or len(set(booleans)) != 1:
        return
    kind, answer = warning if asked.is_complete else info, "true" if booleans[0] else "false"
    yield kind(
        "constant-condition",
        asked.pointer,
        f"{asked.title} is {answer} for each of {len(booleans)} values that were tried",
        "look at the threshold and its unit, 0.95 or 95, and at the shape",
    )


def of_both(first: Asked, answers: Sequence[bool | str], others: Sequence[bool | str]) -> Iterator[Finding]:
    """What two conditions of a metric say of one value."""
    pointer, title = metric_pointer(first.place), metric_title(first.place, first.metric)
    pairs = list(zip(answers, others))
    value = first_with(first.question.values, pairs, (True, True))
    if value is not None:
        yield warning(
            "both-conditions",
            pointer,
            f"{title}: both conditions are true for {value}, which is a failure",
            "let them exclude one another, as `>= 0.95` and `< 0.95`",
        )
    value = first_with(first.question.values, pairs, (False, False))
    if value is not None:
        yield info(
            "neither-condition",
            pointer,
            f"{title}: both conditions are false for {value}, which is inconclusive",
            "nothing, where a person should decide there; else cover it by one of them",
        )


def findings_of_answers(engine: str, subject: Subject) -> Iterator[Finding]:
    """What the engine's answers show of each condition, and of both of a metric."""
    asked = asked_of(subject, limits_of(engine).metrics)
    answers = answered(engine, [one.question for one in asked])
    shapes = shapes_of_metrics(subject)
    seen_shapes = set()
    for one, answer in zip(asked, answers):
        if answer.refusal is None:
            yield from faults(one, answer.answers)
            yield from [] if one.has_stand_in else constants(one, answer.answers)
            continue
        finding = refused(one, answer.refusal, shapes[one.place].declared if one.has_shape else "")
        if finding is not None and (finding.rule != "shape" or one.place not in seen_shapes):
            yield finding
        seen_shapes.add(one.place)
    given = list(zip(asked, answers))
    for (first, answer), (second, other) in zip(given, given[1:]):
        is_guess = first.has_stand_in or second.has_stand_in
        if first.place == second.place and not is_guess and answer.refusal is None and other.refusal is None:
            yield from of_both(first, answer.answers, other.answers)
