"""The values of an argument from one number to another, and what each makes of the runs."""
import re
from collections import Counter
from decimal import Decimal
from typing import NamedTuple

from argo_judge.errors import Refused
from argo_judge.objects import shown

SWEEP = re.compile(r"([^=]+)=([^:]+):([^:]+):([^:]+)", re.DOTALL)
NUMBER = re.compile(r"-?\d{1,12}(\.\d{1,6})?", re.ASCII)
MOST_VALUES = 200
EXPECTED = "expected NAME=FROM:TO:STEP, as threshold=0.90:0.99:0.01"

STOPPED = ("Failed", "Error")
UNDECIDED = ("Pending", "Running")


class Sweep(NamedTuple):
    """An argument, and the values that it gets."""

    argument: str
    values: list[str]


class Sums(NamedTuple):
    """How many runs ended so."""

    stopped: int
    inconclusive: int
    successful: int
    undecided: int


def number_in(text: str) -> Decimal:
    """The number that a part of the word is."""
    if not NUMBER.fullmatch(text):
        raise Refused(f"--sweep: {EXPECTED}; found {shown(text)} as a number")
    return Decimal(text)


def sweep_of(word: str) -> Sweep:
    """The sweep that a word of the command line is."""
    found = SWEEP.fullmatch(word)
    if not found:
        raise Refused(f"--sweep: {EXPECTED}, found {shown(word)}")
    first, last, step = map(number_in, found.groups()[1:])
    if step <= 0 or first > last:
        raise Refused(f"--sweep: expected a step above 0 and FROM up to TO, found {shown(word)}")
    times = int((last - first) / step) + 1
    if times > MOST_VALUES:
        raise Refused(f"--sweep: expected at most {MOST_VALUES} values, found {times}")
    return Sweep(found[1], [format(first + step * place, "f") for place in range(times)])


def sums_of(phases: Counter[str]) -> Sums:
    """How many runs ended in which way, by how many have which phase."""

    def times(*wanted: str) -> int:
        """How many have one of these phases."""
        return sum(phases[phase] for phase in wanted)

    return Sums(times(*STOPPED), times("Inconclusive"), times("Successful"), times(*UNDECIDED))
