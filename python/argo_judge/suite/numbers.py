"""Numbers as conditions and limits write them, and such numbers moved."""
import re
from fractions import Fraction

from argo_judge.literals import number_of_literal

MILLIONTH = Fraction(1, 1_000_000)
# Not longer than the engine reads.
NUMBER = re.compile(r"(-?)(0x[0-9a-fA-F]{1,16}|0o[0-7]{1,21}|0b[01]{1,63}|\d{0,64}\.\d{1,6}|\d{1,64})", re.ASCII)


def number_in(text: str) -> Fraction | None:
    """The number that a text writes, if it is one."""
    found = NUMBER.fullmatch(text.strip(" "))
    if found is None:
        return None
    number = number_of_literal(found[2])
    return -number if found[1] else number


def signed(number: Fraction) -> str:
    """A number of millionths as it is written, with a point only where it is no whole."""
    millionths = int(abs(number) * 1_000_000)
    whole, rest = divmod(millionths, 1_000_000)
    return f"{'-' if number < 0 else ''}{whole}" + (f".{rest:06}".rstrip("0") if rest else "")


def moved_text(number: Fraction, by: Fraction) -> str:
    """A number, moved, as it is written; a decimal stays one."""
    after = signed(number + by)
    return after if "." in after or by.denominator == 1 else f"{after}.0"


def moved(text: str, by: Fraction) -> str | None:
    """A number that a text writes, moved; None where the text writes none."""
    number = number_in(text)
    return None if number is None else moved_text(number, by)
