"""A condition's tokens, read tolerantly, and what they alone say: conversions, and guards of a part of the result."""
from collections.abc import Iterator, Sequence
from typing import NamedTuple

from argo_judge.literals import TOKEN

# Of a longer condition nothing is said: calls in calls take the square of their number.
LONGEST = 4096
TO_NUMBER, TESTS = ("asFloat", "asInt"), ("isNaN", "isInf")
GUARDS = ("default", "isNil")
OPENING, CLOSING = ("(", "[", "{"), (")", "]", "}")


class Token(NamedTuple):
    """A token, where it begins and ends, and whether it is a text, a number, a word or a sign."""

    kind: str
    text: str
    start: int
    end: int


def tokens_of(condition: str) -> list[Token]:
    """The tokens of a condition; none of one that is too long."""
    if len(condition) > LONGEST:
        return []
    return [
        Token(found.lastgroup or "", found[0], found.start(), found.end())
        for found in TOKEN.finditer(condition)
        if found.lastgroup != "blank"
    ]


def is_call(tokens: Sequence[Token], place: int, names: Sequence[str]) -> bool:
    """Whether one of some functions is called at a token; after a point the word is a field's name."""
    after = tokens[place + 1].text if place + 1 < len(tokens) else ""
    before = tokens[place - 1].text if place else ""
    return tokens[place].kind == "word" and tokens[place].text in names and after == "(" and before != "."


def end_of_call(tokens: Sequence[Token], place: int) -> int:
    """The place of the bracket that closes the one at a place; the last token where none does."""
    depth = 0
    for at in range(place, len(tokens)):
        if tokens[at].kind == "sign":
            depth += (tokens[at].text in OPENING) - (tokens[at].text in CLOSING)
        if depth == 0:
            return at
    return len(tokens) - 1


def first_argument(tokens: Sequence[Token], place: int) -> list[str]:
    """The texts of a call's first argument, where the call's bracket is at a place."""
    depth, found = 0, []
    for token in tokens[place + 1 :]:
        if token.kind == "sign" and depth == 0 and token.text in (",", *CLOSING):
            break
        if token.kind == "sign":
            depth += (token.text in OPENING) - (token.text in CLOSING)
        found.append(token.text)
    return found


def guards_of_parts(condition: str) -> Iterator[tuple[str, str]]:
    """The guards whose argument isn't the whole result, each as it is written there."""
    tokens = tokens_of(condition)
    for place in range(len(tokens)):
        if is_call(tokens, place, GUARDS):
            guarded = first_argument(tokens, place + 1)
            if [text for text in guarded if text not in ("(", ")")] != ["result"]:
                yield tokens[place].text, "".join(guarded)


def conversions_in(condition: str) -> list[str]:
    """The conversions that a condition calls, in their order."""
    tokens = tokens_of(condition)
    return [tokens[place].text for place in range(len(tokens)) if is_call(tokens, place, TO_NUMBER + TESTS)]


def without_conversions(condition: str) -> str:
    """A condition whose values are numbers already: no conversion, and no test of what no number is."""
    tokens, parts, at, place = tokens_of(condition), [], 0, 0
    while place < len(tokens):
        is_test = is_call(tokens, place, TESTS)
        if is_test or is_call(tokens, place, TO_NUMBER):
            parts += [condition[at : tokens[place].start], "false" if is_test else ""]
            place = end_of_call(tokens, place + 1) if is_test else place
            at = tokens[place].end
        place += 1
    return "".join([*parts, condition[at:]])
