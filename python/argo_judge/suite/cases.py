"""The cases of a suite: the answers of each metric, in their order, and what is expected of them."""
import json
from collections.abc import Iterator, Mapping, Sequence
from dataclasses import dataclass
from itertools import zip_longest
from typing import NamedTuple

from argo_judge.engine.limits import Limits
from argo_judge.errors import Refused
from argo_judge.objects import Object, shown
from argo_judge.suite.expected import NOTHING, OfCase, OfEvent, of_case, of_event
from argo_judge.suite.known import Known
from argo_judge.suite.nodes import Node, check_fields, guess, known_name, text_of, whole_of

FIELDS = ("name", "args", "answers", "measurements", "expect")
ANSWER_FIELDS = ("value", "error", "stop", "repeat", "verdict", "effect", "fault")


class Answer(NamedTuple):
    """An answer as often as it is repeated: the members of its entries, and what is expected of each event."""

    metric: str | None
    members: Object
    repeat: int
    expected: OfEvent
    node: Node

    @property
    def size(self) -> int:
        """How many bytes of a document it is, about."""
        return self.repeat * (len(json.dumps(self.members)) + len(json.dumps(self.metric)) + 32)


@dataclass
class Case:
    """A test: its answers by metric, which are taken in rounds, or as they are listed."""

    name: str
    node: Node
    args: dict[str, str]
    columns: list[list[Answer]]
    expected: OfCase

    @property
    def answers(self) -> list[Answer]:
        """All answers, by metric."""
        return [answer for column in self.columns for answer in column]

    def in_order(self) -> Iterator[Answer]:
        """Each answer, once for each time that it is given, in the order of the events."""
        repeated = [(answer for answer in column for _ in range(answer.repeat)) for column in self.columns]
        for one_round in zip_longest(*repeated):
            yield from (answer for answer in one_round if answer is not None)

    @property
    def count(self) -> int:
        """How many measurements there are."""
        return sum(answer.repeat for answer in self.answers)

    @property
    def size(self) -> int:
        """How many bytes of a document they are, about."""
        return sum(answer.size + answer.repeat * len(json.dumps(self.name)) for answer in self.answers)


# ---- answers


def members_of(node: Node) -> Object:
    """What an answer's object says of its entry: a value, an error or a stop."""
    given = [name for name in ("value", "error", "stop") if node.has(name)]
    if len(given) != 1:
        raise Refused(f"{node.where}: expected one of `value`, `error` and `stop` of an answer, found {len(given)}")
    name, member = given[0], node.member(given[0])
    if name == "error":
        text_of(member, "the text of an error")
    if name == "stop" and member.value is not True:
        raise member.refused("`stop: true`")
    return {name: member.value}


def answer_of(node: Node, metric: str | None, most: int, more_fields: tuple[str, ...] = ()) -> Answer:
    """An answer: a value that is no object by itself, or an object; `most`: how often it may be repeated."""
    if not isinstance(node.value, dict):
        return Answer(metric, {"value": node.value}, 1, NOTHING, node)
    fields = ANSWER_FIELDS + more_fields
    for name in node.value:
        if name not in fields:
            raise Refused(
                f"{node.member(name).where}: an answer has no field {shown(name)}; {guess(name, fields)}; "
                "a record is written as `value: {..}`"
            )
    members, repeat = members_of(node), node.member("repeat")
    times = 1 if repeat.value is None else whole_of(repeat, 1, most)
    is_stop = "stop" in members
    return Answer(None if is_stop else metric, members, times, of_event(node, is_stop), node)


def measurement_of(node: Node, known: Known) -> Answer:
    """An answer of a list across metrics, which names its metric."""
    check_fields(node, (*ANSWER_FIELDS, "metric"), "a measurement")
    named = node.member("metric")
    if node.has("stop"):
        if named.value is not None:
            raise Refused(f"{named.where}: a stop is one of the run; expected no `metric`")
        return answer_of(node, None, known.limits.measurements, ("metric",))
    known_name(named, text_of(named, "the name of a metric"), known.metrics, "metric")
    return answer_of(node, named.value, known.limits.measurements, ("metric",))


def columns_of(node: Node, known: Known) -> list[list[Answer]]:
    """The answers of a test: a list for each metric, in the template's order, or one list across metrics."""
    answers, measurements = node.member("answers"), node.member("measurements")
    if answers.value is not None and measurements.value is not None:
        raise Refused(f"{measurements.where}: expected `answers` or `measurements`, found both")
    if measurements.value is not None:
        return [[measurement_of(item, known) for item in measurements.items("a list of measurements")]]
    given = {} if answers.value is None else answers.members("an object that has a list of answers for a metric's name")
    for name, member in given.items():
        known_name(member, name, known.metrics, "metric")
    most = known.limits.measurements
    return [
        [answer_of(item, name, most) for item in given[name].items("a list of answers")]
        for name in known.metrics
        if name in given
    ]


# ---- a test


def argument_text(node: Node) -> str:
    """The value of an argument, which is a text; a number is one by its digits."""
    if isinstance(node.value, bool) or not isinstance(node.value, (str, int)):
        raise node.refused("a text, as arguments are")
    return str(node.value)


def args_of(node: Node, names: Sequence[str]) -> dict[str, str]:
    """The arguments that a suite or a test gives, by the names that the template has."""
    given = {} if node.value is None else node.members("an object of arguments by their names")
    for name, member in given.items():
        known_name(member, name, names, "argument of the template")
    return {name: argument_text(member) for name, member in given.items()}


def check_sizes(case: Case, limits: Limits) -> None:
    """Refuses a test that is too large for the engine."""
    if case.count > limits.measurements:
        raise Refused(f"{case.node.where}: found {case.count} measurements; expected at most {limits.measurements}")
    if case.size > limits.document_bytes:
        found = f"its measurements have about {case.size} bytes"
        raise Refused(f"{case.node.where}: {found}; expected at most {limits.document_bytes}")


def check_expects(case: Case) -> None:
    """Refuses a test that would pass whatever the engine says."""
    of_events = any(answer.expected != NOTHING for answer in case.answers)
    if case.expected.refused is not None and of_events:
        raise Refused(f"{case.node.where}: a document that is refused has no events; expected `refused` alone")
    if not of_events and case.expected == OfCase(None, {}, None):
        raise Refused(
            f"{case.node.where}: test {shown(case.name)} checks nothing; expected `expect`, or `verdict`, "
            "`effect` or `fault` of an answer"
        )


def case_of(node: Node, args: Mapping[str, str], known: Known) -> Case:
    """A test; `args`: the suite's arguments."""
    check_fields(node, FIELDS, "a test")
    name = text_of(node.member("name"), "a text as the test's `name`")
    if not name:
        raise node.member("name").refused("a text that isn't empty as the test's `name`")
    own = args_of(node.member("args"), known.arguments)
    case = Case(name, node, {**args, **own}, columns_of(node, known), of_case(node.member("expect"), known))
    check_sizes(case, known.limits)
    check_expects(case)
    return case
