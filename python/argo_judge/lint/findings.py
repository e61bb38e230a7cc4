"""What rules there are, and what a finding of one is."""
from collections.abc import Sequence
from enum import Enum
from typing import NamedTuple

from argo_judge.errors import Refused
from argo_judge.objects import listed

PAGE = "docs/use/lint.md"


class Severity(str, Enum):
    """How bad a finding is: an error makes the status 1, a warning does by --strict."""

    ERROR = "error"
    WARNING = "warning"
    INFO = "info"


# What each rule finds, in the order of the page's sections.
RULES = {
    "unknown-field": "A field that Argo Rollouts doesn't have.",
    "refused-by-controller": "What the controller or the API server refuses.",
    "refused-by-engine": "What argo_judge refuses of a template, though the controller may take it.",
    "no-conditions": "A metric without conditions, of which each measured value is a success.",
    "ignored-condition": "A condition of a Job, which nobody reads.",
    "shape": "A shape that is missing, refused, or unlikely for the provider.",
    "refused-condition": "A condition that argo_judge refuses.",
    "text-and-number": "A text that is compared with a number.",
    "text-answer": "A number that is compared with an answer that may be a text.",
    "percentage": "A percentage that is compared as a ratio, or a ratio as a percentage.",
    "division": "A division whose NaN the controller takes for a success.",
    "fine-literal": "A number in a condition with more than six digits after its point.",
    "conversion": "asFloat, asInt, isNaN or isInf, which argo_judge doesn't have.",
    "guard-of-part": "default or isNil on a part of the result: the controller looks at the whole.",
    "fault": "A value of the shape on which a condition meets a fault.",
    "constant-condition": "A condition that is the same for every value that was tried.",
    "both-conditions": "A value for which both conditions are true, so it is a failure.",
    "neither-condition": "A value for which both conditions are false, so it is inconclusive.",
    "unreachable-limit": "A limit that the metric's count can't reach.",
    "unknown-argument": "A reference to an argument that isn't declared.",
    "unused-argument": "An argument that nothing refers to.",
    "argument-without-value": "An argument whose value a run has to give.",
    "metric-pattern": "A regular expression for metrics' names that matches none, or more than it seems to.",
}


class Finding(NamedTuple):
    """What a rule found at a JSON pointer of an object, in a sentence, and how to mend it."""

    rule: str
    severity: Severity
    pointer: str
    message: str
    mend: str


def error(rule: str, pointer: str, message: str, mend: str) -> Finding:
    """A finding that makes the status 1."""
    return Finding(rule, Severity.ERROR, pointer, message, mend)


def warning(rule: str, pointer: str, message: str, mend: str) -> Finding:
    """A finding that makes the status 1 by --strict."""
    return Finding(rule, Severity.WARNING, pointer, message, mend)


def info(rule: str, pointer: str, message: str, mend: str) -> Finding:
    """A finding that never does."""
    return Finding(rule, Severity.INFO, pointer, message, mend)


def chosen_rules(only: Sequence[str], without: Sequence[str]) -> list[str]:
    """The names of the rules that are applied."""
    for name in [*only, *without]:
        if name not in RULES:
            raise Refused(f"command line: there is no rule {name!r}; rules are {', '.join(RULES)}")
    chosen = [name for name in RULES if (not only or name in only) and name not in without]
    if not chosen:
        raise Refused(f"command line: expected a rule that is left; without are {listed(without)}")
    return chosen
