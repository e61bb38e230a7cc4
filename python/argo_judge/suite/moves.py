"""The moves of a template: each threshold a little up and down, and each limit by one."""
from collections.abc import Callable, Iterator, Mapping, Sequence
from dataclasses import dataclass
from fractions import Fraction
from typing import NamedTuple, TypeAlias

from argo_judge.binding import argument_of, bound, references_in
from argo_judge.literals import COMPARISONS, Literal, numbers_of
from argo_judge.objects import Json, Object, member, objects
from argo_judge.suite.cases import Case
from argo_judge.suite.numbers import MILLIONTH, moved, moved_text, number_in, signed
from argo_judge.templates import CONDITIONS, values_of

# A path of names and indexes in a template.
Path: TypeAlias = tuple[str | int, ...]
# What would notice a move, by the numbers before and after it.
Need: TypeAlias = Callable[[Fraction, Fraction], str]


class Limit(NamedTuple):
    """A limit, the least that it may be, which of two limits is the number of measurements that they differ by, and
    what came of those measurements."""

    name: str
    least: int
    choice: Callable[[Fraction, Fraction], Fraction]
    counted: str


LIMITS = (
    Limit("count", 1, min, "ended without Error"),
    Limit("failureLimit", 0, max, "failed"),
    Limit("inconclusiveLimit", 0, max, "ended Inconclusive"),
    Limit("consecutiveErrorLimit", 0, max, "ended in Error, one after another"),
)


@dataclass
class Move:
    """A value of a template, or of the tests' arguments, in the place of another; without one it can't be moved."""

    what: str
    before: str
    after: str | None
    need: str
    path: Path = ()
    value: Json = None
    argument: str | None = None
    by: Fraction = Fraction(0)

    @property
    def line(self) -> str:
        """The move as it is printed, and as a suite names it."""
        return f"{self.what}: {self.before}" + ("" if self.after is None else f" -> {self.after}")

    def template_of(self, template: Object) -> Object:
        """The template after the move."""
        moved_one: Object = changed(template, self.path, self.value) if self.path else template
        return moved_one

    def args_of(self, case: Case) -> dict[str, str]:
        """The arguments of a case after the move."""
        if self.argument is None or self.argument not in case.args:
            return case.args
        after = moved(case.args[self.argument], self.by)
        return case.args if after is None else {**case.args, self.argument: after}


class Use(NamedTuple):
    """How an argument's value is used: by how much it moves, the least that it may be, and what would notice that."""

    by: Fraction
    least: int | None
    need: Need


class Piece(NamedTuple):
    """A part of a bound text: where it begins and ends there, where it begins in the text, and which argument it is."""

    start: int
    end: int
    at: int
    argument: str | None


def changed(value: Json, path: Path, new: Json) -> Json:
    """A value with another one at a path of names and indexes."""
    if not path:
        return new
    first, rest = path[0], path[1:]
    if isinstance(value, list):
        return [changed(item, rest, new) if place == first else item for place, item in enumerate(value)]
    return {**value, first: changed(value.get(first), rest, new)}


# ---- what would notice a move


def need_of_limit(choice: Callable[[Fraction, Fraction], Fraction], counted: str) -> Need:
    """What would notice that a limit is moved."""
    return lambda before, after: f"a test in which just {choice(before, after)} {counted}, and the metric's phase"


def need_of_literal(literal: Literal) -> Need:
    """What would notice that a literal is moved."""
    if not literal.comparison:
        return lambda before, after: "a test with values whose verdict changes"
    test: Callable[[Fraction, Fraction], bool] = COMPARISONS[literal.comparison]
    is_signed = literal.written.startswith("-")
    what = "a length or count" if literal.is_size else "a value"

    def need(before: Fraction, after: Fraction) -> str:
        """A test whose value is compared otherwise."""
        before, after = (-before, -after) if is_signed else (before, after)
        seen = before if test(before, before) != test(before, after) else after
        return f"a test with {what} of {signed(seen)}, and its verdict"

    return need


# ---- literals of conditions


def pieces_of(text: str, values: Mapping[str, str]) -> Iterator[Piece]:
    """The pieces of a text that is bound with the values of arguments."""
    start, at = 0, 0
    for found in references_in(text):
        own, value = found.start - at, len(values.get(found.name, ""))
        yield Piece(start, start + own, at, None)
        yield Piece(start + own, start + own + value, found.start, found.name)
        start, at = start + own + value, found.end
    yield Piece(start, start + len(text) - at, at, None)


def has_wholes(shape: Json) -> bool:
    """Whether a shape has whole numbers."""
    if isinstance(shape, dict):
        inner = [member(shape, "list"), member(shape, "optional"), *member(shape, "record", default={}).values()]
        return any(map(has_wholes, inner))
    return bool(shape == "whole")


def step_of(literal: Literal, shape: Json) -> Fraction:
    """By how much a literal is moved: one millionth, or 1 where a whole number may be compared with it."""
    is_whole = literal.written.lstrip("-").isalnum()
    is_of_decimals = literal.comparison != "" and not literal.is_size and not has_wholes(shape)
    return MILLIONTH if not is_whole or is_of_decimals else Fraction(1)


def moves_of_literal(
    literal: Literal, piece: Piece, text: str, what: str, path: Path, step: Fraction
) -> Iterator[Move]:
    """The two moves of a literal that is in the text itself."""
    start, end = (piece.at + offset - piece.start for offset in (literal.start, literal.end))
    before, sign = text[start:end], literal.written[: -len(text[start:end])]
    number = number_in(before)
    if number is None:
        return  # the engine refuses it
    for by in (step, -step):
        after = moved_text(number, by)
        need = need_of_literal(literal)(number, number + by)
        yield Move(what, literal.written, signed_text(sign, after), need, path, text[:start] + after + text[end:])


def signed_text(sign: str, number: str) -> str:
    """A number after its sign, as a person reads it."""
    return number[1:] if sign and number.startswith("-") else sign + number


def of_condition(
    text: str, what: str, path: Path, shape: Json, values: Mapping[str, str], uses: dict[str, Use]
) -> Iterator[Move]:
    """The moves of a condition's own literals. Arguments whose value is one are added to `uses`."""
    pieces = list(pieces_of(text, values))
    condition = bound(text, values)
    for literal in numbers_of(condition):
        step = step_of(literal, shape)
        around = [piece for piece in pieces if piece.start < literal.end and literal.start < piece.end]
        argument = around[0].argument
        if len(around) == 1 and argument is None:
            yield from moves_of_literal(literal, around[0], text, what, path, step)
        elif len(around) == 1 and argument is not None and number_in(values[argument]) is not None:
            uses.setdefault(argument, Use(step, None, need_of_literal(literal)))
        else:
            yield Move(what, literal.written, None, "it is a part of an argument's value, or of several")


# ---- limits


def of_limit(value: Json, what: str, path: Path, limit: Limit, uses: dict[str, Use]) -> Iterator[Move]:
    """The moves of a limit. An argument that is one is added to `uses`."""
    use = Use(Fraction(1), limit.least, need_of_limit(limit.choice, limit.counted))
    if isinstance(value, str) and (argument := argument_of(value)) is not None:
        uses.setdefault(argument, use)
        return
    text = str(value)
    if isinstance(value, bool) or not isinstance(value, (int, str)) or not text.isdecimal():
        yield Move(what, text, None, "it is no limit by itself")
        return
    for by in (1, -1):
        after = int(text) + by
        need = use.need(Fraction(text), Fraction(after))
        new = str(after) if isinstance(value, str) else after
        if after < limit.least:
            yield Move(what, text, None, f"{after} is no limit")
        else:
            yield Move(what, text, str(after), need, path, new)


# ---- arguments


def of_argument(name: str, use: Use, template: Object, cases: Sequence[Case]) -> Iterator[Move]:
    """The moves of an argument's value: of the template's, else of those that the tests give."""
    args = objects(member(template, "spec", "args"))
    place = next(place for place, arg in enumerate(args) if member(arg, "name") == name)
    own = member(args[place], "value")
    given = [case.args[name] for case in cases if name in case.args]
    is_own = isinstance(own, str)
    what = f"argument {name}" + ("" if is_own else ", as the tests give it")
    before = own if is_own else next((value for value in given if number_in(value) is not None), None)
    number = None if before is None else number_in(before)
    if before is None or number is None:
        return
    for by in (use.by, -use.by):
        after, need = moved_text(number, by), use.need(number, number + by)
        need += " (without an argument of its own)" if is_own and given else ""
        if use.least is not None and number + by < use.least:
            yield Move(what, before, None, f"{after} is no limit")
        elif is_own:
            yield Move(what, before, after, need, ("spec", "args", place, "value"), after)
        else:
            yield Move(what, before, after, need, (), None, name, by)


# ---- all of them


def of_metric(
    metric: Object, place: int, shape: Json, values: Mapping[str, str], uses: dict[str, Use]
) -> Iterator[Move]:
    """The moves of a metric's conditions and limits."""
    for field in CONDITIONS:
        if isinstance(text := member(metric, field), str):
            what = f"metric {metric['name']}, {field}"
            yield from of_condition(text, what, ("spec", "metrics", place, field), shape, values, uses)
    for limit in LIMITS:
        if (value := member(metric, limit.name)) is not None:
            what = f"metric {metric['name']}, {limit.name}"
            yield from of_limit(value, what, ("spec", "metrics", place, limit.name), limit, uses)


def moves_of(template: Object, shapes: Object, cases: Sequence[Case]) -> Iterator[Move]:
    """The moves of a template, of whose arguments cases give values."""
    given = [case.args for case in cases]
    values = {name: value for args in reversed(given) for name, value in args.items()}
    values.update(values_of(member(template, "spec", "args")))
    uses: dict[str, Use] = {}
    for place, metric in enumerate(template["spec"]["metrics"]):
        yield from of_metric(metric, place, member(shapes, metric["name"]), values, uses)
    for name, use in uses.items():
        yield from of_argument(name, use, template, cases)
