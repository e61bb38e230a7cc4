"""Decimals as argo_judge reads them: cut at the sixth digit after the point, and with millionths of 64 bits."""
import re
from fractions import Fraction

DECIMAL = re.compile(r"[+-]?(\d+(?:\.\d*)?|\.\d+)([eE][+-]?\d{1,3})?", re.ASCII)
MOST_DIGITS = 64
LEAST, GREATEST = -(2**63), 2**63 - 1


def is_decimal(text: str) -> bool:
    """Whether a text is that of a decimal, which is finite."""
    found = DECIMAL.fullmatch(text)
    return found is not None and len(found[1].replace(".", "")) <= MOST_DIGITS


def number_of(value: str | int) -> Fraction:
    """The number that a decimal text or a whole number is."""
    return Fraction(value)


def millionths(number: Fraction) -> int:
    """A number's millionths, cut toward zero."""
    return int(number * 1_000_000)


def fits(whole: int) -> bool:
    """Whether 64 bits are enough for a whole number."""
    return LEAST <= whole <= GREATEST
