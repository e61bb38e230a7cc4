"""Findings of a metric's conditions: what their text says, and what the engine answers on values of the shape."""
from collections.abc import Iterator
from typing import NamedTuple

from argo_judge.engine.refusals import Refusal
from argo_judge.lint.findings import Finding, error, info, warning
from argo_judge.lint.questions import Question
from argo_judge.lint.references import STAND_IN, bound, pieces, referred_in
from argo_judge.lint.shaping import shapes_of_metrics
from argo_judge.lint.subjects import Subject, metric_pointer, metric_title
from argo_judge.lint.tokens import conversions_in, guards_of_parts, without_conversions
from argo_judge.lint.values import values_of
from argo_judge.objects import Json, Object, listed
from argo_judge.templates import CONDITIONS, JOB, is_job, thresholds_of

DIFFERENCES = {
    "asFloat": "decimals are exact to millionths here",
    "asInt": "the controller's asInt also cuts or refuses a fraction, which is kept here",
    "isNaN": "NaN is an error of the measurement here, and true for the controller's isNaN",
    "isInf": "an infinity is an error of the measurement here, and true for the controller's isInf",
}
DOCS = "docs/use/language.md has what conditions may have"
MENDS = {
    "NoSuchField": "compare the field's name with the shape, and the shape with a real result",
    "WrongOperand": "compare the shape with a real result, and mend the one that is wrong",
    "NotTruth": "compare the result with something: a condition is true or false",
    "BudgetTooLarge": "lower a list's `max` to what the provider really returns, or nest fewer predicates",
    "StackTooDeep": "make two metrics of it",
    "TooManyOps": "make two metrics of it",
    "TooLong": "make two metrics of it",
}
RULES_OF_FAULTS = {"LiteralTooFine": "fine-literal"}
MENDS_OF_RULES = {
    "fine-literal": "write at most six digits after the point, or have the provider answer in a smaller unit",
    "text-and-number": 'write a number without quotes; a shape of "decimal" reads texts such as "0.95", too',
}
# What depends on the shape: faults of kinds, and of code.
BY_SHAPE = (
    "NotAList",
    "NoSuchField",
    "NotScalar",
    "NoCommonKind",
    "PredicatesTooDeep",
    "WrongOperand",
    "NotTruth",
    "TooManyOps",
    "StackTooDeep",
    "BudgetTooLarge",
)
ANY_SHAPE = "bool"


class Asked(NamedTuple):
    """A condition of a metric as the engine is asked; whether it has arguments without a value, whether each
    combination of values is there, and whether there is a shape: without one its form alone is looked at."""

    place: int
    metric: Object
    name: str
    question: Question
    has_stand_in: bool
    is_complete: bool
    has_shape: bool

    @property
    def pointer(self) -> str:
        """Where the condition is."""
        return metric_pointer(self.place, self.name)

    @property
    def title(self) -> str:
        """How a message names it."""
        return f"{metric_title(self.place, self.metric)}: {self.name}"

    @property
    def noted(self) -> str:
        """What a message adds where arguments have no value."""
        return f" (with {STAND_IN} for arguments without a value)" if self.has_stand_in else ""


def with_stand_ins(subject: Subject, condition: str) -> tuple[dict[str, str], bool]:
    """A condition's arguments, with something for those that have no value."""
    names = {name for _, name in subject.args}
    missing = {name: STAND_IN for name in referred_in(condition) if name in names and name not in subject.values}
    return {**subject.values, **missing}, bool(missing)


def written_conditions(metric: Object) -> dict[str, str]:
    """The conditions that are read of a metric: a Job has none."""
    if is_job(metric):
        return {}
    return {name: metric[name] for name in CONDITIONS if isinstance(metric.get(name), str) and metric[name]}


def asked_of_metric(subject: Subject, place: int, metric: Object, shape: Json) -> list[Asked]:
    """What the engine is asked of a metric's conditions, both on the same values."""
    texts = {}
    for name, written in written_conditions(metric).items():
        values, has_stand_in = with_stand_ins(subject, written)
        text = bound(written, values)
        if text:
            texts[name] = without_conversions(text), has_stand_in
    has_shape = shape is not None
    made, is_complete = values_of(shape, [text for text, _ in texts.values()]) if texts and has_shape else ([], True)
    shape = shape if has_shape else ANY_SHAPE
    return [
        Asked(place, metric, name, Question(text, shape, made), has_stand_in, is_complete, has_shape)
        for name, (text, has_stand_in) in texts.items()
    ]


def asked_of(subject: Subject, most: int) -> list[Asked]:
    """What the engine is asked of the conditions of the first metrics, as many as it takes."""
    shapes = shapes_of_metrics(subject)
    return [
        asked
        for place, metric in subject.metrics[:most]
        for asked in asked_of_metric(subject, place, metric, shapes[place].shape if place in shapes else None)
    ]


# ---- what a text says


def findings_of_text(subject: Subject, place: int, metric: Object, name: str, written: str) -> Iterator[Finding]:
    """What the text of a condition says by itself."""
    title, pointer = f"{metric_title(place, metric)}: {name}", metric_pointer(place, name)
    parts = pieces(written)
    if parts is None:
        yield error("refused-condition", pointer, f"{title} has {{{{ without }}}} after it", "close the braces")
        return
    for inside in parts[1::2]:
        if not inside.startswith("args."):
            yield error(
                "unknown-argument",
                pointer,
                f"{title} has {{{{{inside}}}}}, which is no argument",
                "write {{args.NAME}}",
            )
    values, _ = with_stand_ins(subject, written)
    text = bound(written, values) or ""
    called = list(dict.fromkeys(conversions_in(text)))
    if called:
        differences = "; ".join(DIFFERENCES[one] for one in called)
        yield warning(
            "conversion",
            pointer,
            f"{title} has {listed(called)}, which argo_judge refuses; the rest was looked at without",
            f"by the shape texts are numbers already, so write: {without_conversions(text)} ({differences})",
        )
    for guard, part in guards_of_parts(text):
        yield warning(
            "guard-of-part",
            pointer,
            f"{title} has {guard} of {part}; the controller looks at the whole result instead",
            f"compare the part with nil, as `{part} != nil && ..`, or apply {guard} to `result` alone",
        )


def findings_of_texts(subject: Subject) -> Iterator[Finding]:
    """The same of all conditions."""
    for place, metric in subject.metrics:
        for name, written in written_conditions(metric).items():
            yield from findings_of_text(subject, place, metric, name, written)


def conditions_missing(subject: Subject) -> Iterator[Finding]:
    """Metrics without a condition, and conditions that nobody reads."""
    for place, metric in subject.metrics:
        title = metric_title(place, metric)
        given = {name: metric[name] for name in CONDITIONS if metric.get(name)}
        if is_job(metric) and given not in ({}, JOB):
            yield warning(
                "ignored-condition",
                metric_pointer(place, next(iter(given))),
                f"{title}: a Job's own end decides, so its conditions are not read",
                "remove them",
            )
        elif not is_job(metric) and not given and thresholds_of(metric) is None:
            yield warning(
                "no-conditions",
                metric_pointer(place),
                f"{title} has no condition, so each measured value is a success",
                "add a `successCondition` or a `failureCondition`",
            )


# ---- what the engine refuses


def text_and_number(refusal: Refusal) -> bool:
    """Whether a text and a number are the operands that don't fit."""
    found = refusal.found or ""
    return refusal.name == "WrongOperand" and '"text"' in found and ('"decimal"' in found or '"whole"' in found)


def refused(asked: Asked, refusal: Refusal, declared: str) -> Finding | None:
    """The finding of a condition or a shape that the engine refuses; none of what depends on a missing shape."""
    if not asked.has_shape and refusal.name in BY_SHAPE:
        return None
    if refusal.part == "shapes":
        title = metric_title(asked.place, asked.metric)
        return error(
            "shape",
            declared or metric_pointer(asked.place),
            f"{title}: the shape is refused: {refusal.text}",
            "docs/use/formats.md has what shapes may be",
        )
    rule = "text-and-number" if text_and_number(refusal) else RULES_OF_FAULTS.get(refusal.name, "refused-condition")
    mend = MENDS_OF_RULES.get(rule, MENDS.get(refusal.name, DOCS))
    kind = info if asked.has_stand_in else error  # the argument may be an operator, or all of the condition
    return kind(rule, asked.pointer, f"{asked.title} is refused{asked.noted}: {refusal.text}", mend)
