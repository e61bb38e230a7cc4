"""Measured decimals of more than six places, which argo_judge cuts: those that compare otherwise with a number of their
metric's conditions than what was measured does."""
import re
from collections.abc import Iterable, Iterator, Sequence
from fractions import Fraction

from argo_judge.binding import bound
from argo_judge.decimals import fits, is_decimal, millionths, number_of
from argo_judge.literals import Literal, compares_otherwise, literals_of
from argo_judge.notes import note
from argo_judge.objects import Json, Object, member, objects, shown
from argo_judge.templates import metrics_of, values_of

# A decimal may have more than six places where it looks so.
FINE = re.compile(r"\.\d{7}|[eE]-")
MOST_LINES = 8


def decimals_of(value: Json, shape: Json) -> Iterator[str]:
    """The texts in a value that its shape has as decimals, and that are some."""
    if shape == "decimal":
        if isinstance(value, str) and is_decimal(value):
            yield value
    elif member(shape, "optional") is not None:
        yield from decimals_of(value, shape["optional"])
    elif isinstance(value, list):
        for item in value:
            yield from decimals_of(item, member(shape, "list"))
    elif isinstance(value, dict) and isinstance(member(shape, "record"), dict):
        for name, field in shape["record"].items():
            yield from decimals_of(value.get(name), field)


def difference(texts: Iterable[str], literals: Sequence[Literal]) -> str | None:
    """The first of decimal texts that compares otherwise once it is cut, as a line says it."""
    for text in texts:
        if not FINE.search(text):
            continue
        number = number_of(text)
        cut = millionths(number)
        for literal in literals if fits(cut) else ():
            if compares_otherwise(literal, number, Fraction(cut, 1_000_000)):
                places = f"{'-' if cut < 0 else ''}{abs(cut) // 1_000_000}.{abs(cut) % 1_000_000:06}"
                measured = text if len(text) <= 40 else f"{text[:40]}.."
                return f"{measured} is cut to {places}, which compares otherwise with {literal.written}"
    return None


def texts_in(args: Json) -> dict[str, str]:
    """The arguments that are texts."""
    return {name: value for name, value in args.items() if isinstance(value, str)} if isinstance(args, dict) else {}


def literals_by_metric(document: Object) -> dict[tuple[str, str], list[Literal]]:
    """The literals of each metric's conditions for each run, by the names of both."""
    template: Json = document["manifest"]
    found: dict[tuple[str, str], list[Literal]] = {}
    for run in objects(document["runs"]):
        args = {**values_of(member(template, "spec", "args")), **texts_in(member(run, "args", default={}))}
        for metric in metrics_of(template):
            conditions = [member(metric, "successCondition"), member(metric, "failureCondition")]
            texts = [bound(condition, args) for condition in conditions if isinstance(condition, str)]
            name, own = run.get("name"), metric.get("name")
            if isinstance(name, str) and isinstance(own, str):
                found[name, own] = [literal for text in texts for literal in literals_of(text)]
    return found


def lines_of(document: Object) -> Iterator[str]:
    """The line of each measurement that compares otherwise once it is cut."""
    literals = literals_by_metric(document)
    for place, entry in enumerate(document["measurements"]):
        run, metric = member(entry, "run"), member(entry, "metric")
        if not isinstance(run, str) or not isinstance(metric, str):
            continue
        if compared := literals.get((run, metric)):
            texts = decimals_of(member(entry, "value"), member(document["shapes"], metric))
            if line := difference(texts, compared):
                yield f"measurement {place} of metric {shown(metric)}: {line}"


def note_cuts(document: Object) -> None:
    """Reports the measurements that compare otherwise once they are cut, of which the first few are enough."""
    lines = list(lines_of(document))
    for line in lines[:MOST_LINES]:
        note(line)
    if lines[MOST_LINES:]:
        note(f"{len(lines) - MOST_LINES} more measurements compare otherwise once they are cut")
