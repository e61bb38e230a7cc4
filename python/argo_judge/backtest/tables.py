"""Results of a backtest as a table in text, or as one JSON object."""
from collections.abc import Iterator, Sequence

from argo_judge.backtest.outcomes import Outcome, Result
from argo_judge.notes import one_line
from argo_judge.objects import Object

VERSION = 1
HEADS = ("run", "controller", "own template", "this template", "what differs")


def table(rows: Sequence[Sequence[str]]) -> list[str]:
    """Rows of texts in columns, of which the last isn't filled up."""
    widths = [max(map(len, column)) for column in zip(*rows)]
    widths[-1] = 0
    return [" ".join(cell.ljust(width) for cell, width in zip(row, widths)).rstrip() for row in rows]


def rows_of_flips(outcomes: Sequence[Outcome]) -> Iterator[tuple[str, ...]]:
    """A row for each run that flips."""
    for one in outcomes:
        if one.flips:
            yield one_line(one.name), one.controller, one.own, one.other, one_line("; ".join(one.why))


def lines_of_flips(result: Result) -> list[str]:
    """The table of runs that flip; nothing where none does."""
    rows = list(rows_of_flips(result.outcomes))
    return table([HEADS, *rows]) if rows else []


def lines_of_differences(result: Result) -> list[str]:
    """The runs that the engine judges otherwise than the controller did by the same template."""
    return [
        f"{one_line(one.name)}: the controller {one.controller}, argo_judge {one.own} by its own template"
        for one in result.outcomes
        if one.differs
    ]


def sum_line(result: Result) -> str:
    """The line of the sums."""
    times = ", ".join(f"{number} from {was} to {now}" for (was, now), number in sorted(result.flips.items()))
    flipped = sum(result.flips.values())
    found = f"{flipped} of {result.judged} runs {'flips' if flipped == 1 else 'flip'}" + (f": {times}" if times else "")
    more = [f"{result.undecided} would have needed more measurements"] if result.undecided else []
    others = sum(one.is_of_other for one in result.left_out)
    more += [f"{len(result.left_out) - others} left out"] if len(result.left_out) > others else []
    more += [f"{others} of other templates"] if others else []
    return "; ".join([found, *more])


def lines_of_sweep(result: Result) -> list[str]:
    """The table of a sweep, if there is one."""
    if result.sweep is None:
        return []
    heads = (one_line(result.sweep.argument), "stopped", "inconclusive", "successful", "undecided")
    return ["", *table([heads, *[(value, *map(str, sums)) for value, sums in result.sums]])]


def text_of(result: Result) -> str:
    """All lines of a result."""
    left_out = [
        f"left out: {one_line(one.name)}: {one_line(one.why)}" for one in result.left_out if not one.is_of_other
    ]
    lines = lines_of_flips(result) + lines_of_differences(result) + left_out + [sum_line(result)]
    return "".join(f"{line}\n" for line in lines + lines_of_sweep(result))


# ---- JSON


def run_object(one: Outcome) -> Object:
    """What JSON has of a run."""
    own, other = one.metrics or ([], [])
    return {
        "name": one.name,
        "controller": one.controller,
        "flips": one.flips,
        "differs": one.differs,
        "own": {"phase": one.own, "metrics": own},
        "template": {"phase": one.other, "metrics": other},
        "why": one.why,
    }


def object_of(result: Result) -> Object:
    """The form is in docs/use/backtest.md."""
    found = {
        "version": VERSION,
        "runs": [run_object(one) for one in result.outcomes],
        "leftOut": [{"name": one.name, "why": one.why} for one in result.left_out],
        "flips": [{"from": was, "to": now, "runs": number} for (was, now), number in sorted(result.flips.items())],
    }
    if result.sweep is not None:
        values = [{"value": value, **sums._asdict()} for value, sums in result.sums]
        found["sweep"] = {"argument": result.sweep.argument, "values": values}
    return found
