"""Shapes that are proposed of what was measured (docs/use/recipes.md)."""
from collections.abc import Iterable

from argo_judge.decimals import fits, is_decimal, millionths, number_of
from argo_judge.engine.limits import limits_of
from argo_judge.errors import Refused
from argo_judge.notes import note
from argo_judge.objects import Json, Object, shown
from argo_judge.providers import LEAST_MAX

NOT_FINITE = ("NaN", "Inf", "+Inf", "-Inf")
NOTHING_SAID = "no answer says of what kind it is"
USUAL_TAKEN = "the shape is what its provider usually answers"


def max_of(longest: int, engine: str) -> int:
    """The greatest length that is proposed of lists: twice the longest, and no more than the engine takes, if it can be
    asked."""
    wanted = max(2 * longest, LEAST_MAX)
    try:
        return wanted if wanted == LEAST_MAX else min(wanted, limits_of(engine).list_items)
    except Refused:
        return wanted


class Seen:
    """What was seen of the values at one place."""

    def __init__(self, engine: str) -> None:
        self.engine = engine
        self.kinds: set[str] = set()
        self.has_nil, self.times, self.longest = False, 0, 0
        self.items: Seen | None = None
        self.fields: dict[str, Seen] = {}
        self.large: int | str | None = None
        self.are_wholes, self.why = True, NOTHING_SAID

    def add(self, value: Json) -> None:
        """Minds a value."""
        if value is None:
            self.has_nil = True
            return
        self.times += 1
        if isinstance(value, bool):
            self.kinds.add("bool")
        elif isinstance(value, int) or isinstance(value, str) and (value in NOT_FINITE or is_decimal(value)):
            self.kinds.add("decimal")
            self.add_number(value)
        elif isinstance(value, str):
            self.kinds.add("text")
        elif isinstance(value, list):
            self.kinds.add("list")
            self.longest = max(self.longest, len(value))
            self.items = self.items or Seen(self.engine)
            for item in value:
                self.items.add(item)
        else:
            self.kinds.add("record")
            for name, field in value.items():
                self.fields.setdefault(name, Seen(self.engine)).add(field)

    def add_number(self, value: Json) -> None:
        """Minds a number that is too large for a decimal, and whether all are wholes."""
        if value not in NOT_FINITE:
            self.are_wholes = self.are_wholes and isinstance(value, int) and fits(value)
            self.large = value if self.large is None and not fits(millionths(number_of(value))) else self.large

    def number_shape(self) -> str | None:
        """The shape of numbers; None where none takes all of them."""
        if self.large is not None and not self.are_wholes:
            self.why = f'{shown(self.large)} is too large for "decimal", and not each number is a "whole"'
            return None
        return "decimal" if self.large is None else "whole"

    def shape(self, where: str) -> Json:
        """The shape of what was seen; None where nothing says of what kind it is."""
        kinds = self.kinds - {"decimal"} if self.kinds == {"decimal", "text"} else self.kinds
        if len(kinds) > 1:
            raise Refused(f"{where}: the answers are of several kinds: {', '.join(sorted(kinds))}")
        kind = next(iter(kinds), None)
        if self.items is not None:
            items = self.items.shape(f"{where}[]")
            shape = items and {"list": items, "max": max_of(self.longest, self.engine)}
            self.why = self.items.why
        elif kind == "record":
            shape = {"record": self.fields_of_record(where)}
        else:
            shape = self.number_shape() if kind == "decimal" else kind
        return {"optional": shape} if shape and self.has_nil else shape

    def fields_of_record(self, where: str) -> Object:
        """The shapes of a record's fields, of which some are left out."""
        shapes = {}
        for name, field in sorted(self.fields.items()):
            field.has_nil = field.has_nil or field.times < self.times
            shape = field.shape(f"{where}.{name}")
            if shape is None:
                note(f"{where}.{name}: {field.why}, so it is left out")
            else:
                shapes[name] = shape
        return shapes


def proposed(metric: str, answers: Iterable[Json], usual: Json, engine: str) -> Json:
    """The shape that is proposed of a metric's answers; None where nothing says of what kind they are."""
    seen = Seen(engine)
    for answer in answers:
        seen.add(answer)
    shape = seen.shape(metric)
    if shape is not None:
        return shape
    usual = usual if seen.why == NOTHING_SAID else None
    note(f"{metric}: {seen.why}, so {'it is left out' if usual is None else USUAL_TAKEN}")
    return usual
