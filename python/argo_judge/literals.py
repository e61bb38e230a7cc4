"""The numbers in a condition, with which measured numbers are compared."""
import functools
import re
from collections.abc import Iterable, Iterator, Sequence
from dataclasses import dataclass
from fractions import Fraction
from operator import eq, ge, gt, le, lt, ne

from argo_judge.decimals import MOST_DIGITS

# What isn't closed ends with the condition, so that each character is looked at once.
TOKEN = re.compile(
    r"""
    (?P<blank> \s+ | //[^\n]* | /\*(?:.*?\*/|.*) )
  | (?P<text> "(?:[^"\\]|\\.)*+"? | '(?:[^'\\]|\\.)*+'? )
  | (?P<number> 0x[0-9a-fA-F]+ | 0o[0-7]+ | 0b[01]+ | \d+\.\d+ | \d+ | \.\d+ )
  | (?P<word> [A-Za-z_]\w* )
  | (?P<sign> [=!<>]= | && | \|\| | . )
""",
    re.VERBOSE | re.DOTALL | re.ASCII,
)
OPERATORS = ("in", "not", "and", "or", "contains", "startsWith", "endsWith")
COMPARISONS = {"<": lt, "<=": le, ">": gt, ">=": ge, "==": eq, "!=": ne}
MIRRORED = {"<": ">", "<=": ">=", ">": "<", ">=": "<=", "==": "==", "!=": "!="}
ARITHMETIC = ("+", "-", "*", "/", "%")
# What may be left of a sign, besides a comparison.
NOTHING_LEFT = ("", "(", "[", "{", ",", "?", ":", "!", "&&", "||", *ARITHMETIC, *OPERATORS)
SIZES = ("len", "count")


@dataclass(frozen=True)
class Literal:
    """A number, the comparison whose right operand it is (any where there is none), the text that writes it, where its
    digits begin and end, and whether it is compared with a list's length or a count of its items."""

    number: Fraction
    comparison: str
    written: str
    start: int
    end: int
    is_size: bool


def compares_otherwise(literal: Literal, measured: Fraction, cut: Fraction) -> bool:
    """Whether one number compares with a literal otherwise than another does."""
    tests = [COMPARISONS[literal.comparison]] if literal.comparison else [lt, gt]
    return any(test(measured, literal.number) != test(cut, literal.number) for test in tests)


def number_of_literal(text: str) -> Fraction:
    """The number that a literal writes."""
    return Fraction(int(text, 0) if text[:2] in ("0x", "0o", "0b") else text)


def openers(tokens: Iterable[tuple[str, str]]) -> Iterator[str]:
    """For each token what the innermost bracket around it belongs to: the word before it, `index`, or nothing; of one
    that closes, that of its own bracket."""
    opened, is_operand, before = [], False, ""
    for kind, text in tokens:
        if text in ("(", "[", "{"):
            opened.append("index" if text == "[" and is_operand else before)
        yield opened[-1] if opened else ""
        if text in (")", "]", "}") and opened:
            opened.pop()
        is_operand = kind in ("text", "number") or kind == "word" and text not in OPERATORS or text in (")", "]", "#")
        before = text


def sides(texts: Sequence[str], place: int) -> tuple[int, str, str]:
    """What is left and right of a number, and its sign; a minus between two operands is no sign."""
    left, right = texts[place - 1], texts[place + 1]
    if left == "-" and (texts[place - 2] in COMPARISONS or texts[place - 2] in NOTHING_LEFT):
        return place - 2, "-", right
    return place - 1, "", right


def is_of_size(texts: Sequence[str], inside: Sequence[str], place: int, at: int) -> bool:
    """Whether a number is compared with a list's length or a count of items, left of it (at `at`) or right of it."""
    is_left = texts[at] in COMPARISONS and texts[at - 1] == ")" and inside[at - 1] in SIZES
    return is_left or texts[place + 1] in COMPARISONS and texts[place + 2] in SIZES


def numbers_of(condition: str) -> Iterator[Literal]:
    """The numbers of a bound condition: no index, no default, and none of more digits than decimals have."""
    found = [one for one in TOKEN.finditer(condition) if one.lastgroup != "blank"]
    # Left and right of a number there may be nothing.
    tokens = [("", ""), ("", ""), *((one.lastgroup or "", one[0]) for one in found), ("", ""), ("", "")]
    texts, inside = [text for _, text in tokens], list(openers(tokens))
    for place, (kind, text) in enumerate(tokens):
        if kind != "number" or inside[place] == "index" or len(text) > MOST_DIGITS:
            continue
        at, minus, right = sides(texts, place)
        left = texts[at]
        if (left, inside[place]) == (",", "default"):
            continue
        comparison = left if left in COMPARISONS else "" if left in ARITHMETIC else MIRRORED.get(right, "")
        number, token = number_of_literal(text), found[place - 2]
        yield Literal(
            -number if minus else number,
            comparison,
            minus + text,
            token.start(),
            token.end(),
            is_of_size(texts, inside, place, at),
        )


@functools.lru_cache(256)
def literals_of(condition: str) -> tuple[Literal, ...]:
    """The numbers of a bound condition that a measured number may be compared with: no index, no default, and none that
    is compared with a list's length."""
    return tuple(literal for literal in numbers_of(condition) if not literal.is_size)
