"""What answers may be that conditions don't expect: texts in the place of numbers, ratios in the place of percentages,
and the NaN of a division by zero."""
import re
from collections.abc import Iterator
from fractions import Fraction

from argo_judge.lint.findings import Finding, info
from argo_judge.lint.references import bound
from argo_judge.lint.shaping import shapes_of_metrics
from argo_judge.lint.subjects import Subject, metric_pointer, metric_title
from argo_judge.literals import literals_of
from argo_judge.objects import Json, Object, member
from argo_judge.templates import CONDITIONS

# Of a query what is no arithmetic: texts, and the labels in braces.
NO_ARITHMETIC = re.compile(r'"(?:[^"\\]|\\.)*+"?|' r"'(?:[^'\\]|\\.)*+'?|\{[^{}]*+\}?", re.DOTALL)
PERCENT = re.compile(r"\* *100(?![\d.])|(?<![\d.])100 *\*")


def conditions_of(subject: Subject, metric: Object) -> dict[str, str]:
    """A metric's conditions with the values of arguments, where they are known."""
    written = {name: metric[name] for name in CONDITIONS if isinstance(metric.get(name), str)}
    texts = {name: bound(text, subject.values) for name, text in written.items()}
    return {name: text for name, text in texts.items() if text}


def query_of(metric: Object) -> str | None:
    """The arithmetic of a metric's query in PromQL, if it has one."""
    query = member(metric, "provider", "prometheus", "query")
    return NO_ARITHMETIC.sub("", query) if isinstance(query, str) else None


def has_decimals(shape: Json) -> bool:
    """Whether a shape has numbers."""
    inner = [member(shape, "list"), member(shape, "optional"), *member(shape, "record", default={}).values()]
    return shape in ("decimal", "whole") or isinstance(shape, dict) and any(map(has_decimals, inner))


def texts_for_numbers(subject: Subject) -> Iterator[Finding]:
    """Metrics of web answers whose conditions compare numbers."""
    shapes = shapes_of_metrics(subject)
    for place, metric in subject.metrics:
        shape = shapes[place].shape if place in shapes else None
        if member(metric, "provider", "web") is None or not has_decimals(shape):
            continue
        title = metric_title(place, metric)
        for name, text in conditions_of(subject, metric).items():
            if literals_of(text):
                yield info(
                    "text-answer",
                    metric_pointer(place, name),
                    f"{title}: {name} compares numbers, with which the controller compares no text",
                    "nothing where the answer has a number; a text needs asFloat there, and none here",
                )


def thresholds_of(text: str) -> list[Fraction]:
    """The numbers that a condition compares with, but for 0."""
    return [abs(literal.number) for literal in literals_of(text) if literal.number != 0]


def scales(subject: Subject) -> Iterator[Finding]:
    """Percentages that are compared as ratios, and ratios as percentages."""
    for place, metric in subject.metrics:
        query = query_of(metric)
        for name, text in conditions_of(subject, metric).items() if query is not None and "/" in query else ():
            numbers, is_percentage = thresholds_of(text), PERCENT.search(query or "") is not None
            if not numbers or not (max(numbers) <= 1 if is_percentage else min(numbers) > Fraction(3, 2)):
                continue
            gives, means = ("a percentage", "a ratio") if is_percentage else ("a ratio", "a percentage")
            yield info(
                "percentage",
                metric_pointer(place, name),
                f"{metric_title(place, metric)}: the query seems to give {gives}, and {name} to compare it as {means}",
                "look at an answer; multiply by 100 in one of both",
            )


def divisions(subject: Subject) -> Iterator[Finding]:
    """Divisions under a failure condition alone, by which NaN is no failure in the controller."""
    for place, metric in subject.metrics:
        query, conditions = query_of(metric), conditions_of(subject, metric)
        if query is not None and "/" in query and list(conditions) == ["failureCondition"]:
            yield info(
                "division",
                metric_pointer(place, "failureCondition"),
                f"{metric_title(place, metric)}: without traffic 0 / 0 is NaN, which is Successful in the controller "
                "and an error here",
                "guard it in the query, as `.. / (x > 0)`, or state a success condition, too",
            )
