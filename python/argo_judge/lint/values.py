"""Values of a shape on which a condition is tried: round its numbers, of each length that matters, with and without
what is optional. There are a few hundred at most, whatever the shape is."""
import functools
import itertools
import json
import math
import re
from collections.abc import Callable, Iterable, Sequence
from fractions import Fraction
from typing import NamedTuple

from argo_judge.jsontext import NumberText
from argo_judge.lint.tokens import Token, tokens_of
from argo_judge.literals import literals_of, number_of_literal
from argo_judge.objects import Json, Object, member

MOST_VALUES, MOST_NODES, MOST_NODES_OF_ALL = 400, 2000, 10_000
# The engine takes no deeper shape.
MOST_LEVELS = 16
MOST_LITERALS, MOST_TEXTS, LONGEST_LENGTH = 12, 8, 64
# Numbers that are tried besides those that conditions mention.
USUAL_NUMBERS = (0, 1, 3, 100, 1_000_000_000, -1_000_000_000)
LEAST_STEP = Fraction(1, 1_000_000)
GREATEST = Fraction(2**63 - 1, 1_000_000)
ESCAPE = re.compile(r"\\(.)", re.DOTALL)
ESCAPES = {"n": "\n", "r": "\r", "t": "\t"}
# One of these is in none of a condition's texts.
OTHERS = ("other", "something", "~", "?!")
# A prime that spreads what is chosen from more combinations than are tried.
STRIDE = 7919


class Material(NamedTuple):
    """What conditions mention: numbers, texts, lengths, and names of fields."""

    numbers: list[Fraction]
    texts: list[str]
    lengths: list[int]
    names: set[str]


def text_of(token: str) -> str:
    """The text that a token in quotes writes."""
    return ESCAPE.sub(lambda found: ESCAPES.get(found[1], found[1]), token[1:-1])


def lengths_in(tokens: Iterable[Token]) -> list[int]:
    """The lengths next to whole numbers."""
    wholes = [number_of_literal(token.text) for token in tokens if token.kind == "number" and len(token.text) <= 4]
    near = {int(whole) + step for whole in wholes if whole.denominator == 1 for step in (-1, 0, 1)}
    return sorted(length for length in near if 0 <= length <= LONGEST_LENGTH)[:MOST_LITERALS]


def material_of(conditions: Sequence[str]) -> Material:
    """What some conditions mention."""
    tokens = [token for condition in conditions for token in tokens_of(condition)]
    numbers = [literal.number for condition in conditions if tokens_of(condition) for literal in literals_of(condition)]
    texts = list(dict.fromkeys(text_of(token.text) for token in tokens if token.kind == "text"))
    names = {token.text for token in tokens if token.kind == "word"} | set(texts)
    return Material(list(dict.fromkeys(numbers))[:MOST_LITERALS], texts[:MOST_TEXTS], lengths_in(tokens), names)


# ---- scalars


def decimal_text(number: Fraction) -> str:
    """A decimal of at most six digits after its point."""
    millionths = int(number * 1_000_000)
    whole, rest = divmod(abs(millionths), 1_000_000)
    fraction = f"{rest:06}".rstrip("0")
    return f"{'-' if millionths < 0 else ''}{whole}{'.' if fraction else ''}{fraction}"


def decimals(material: Material) -> list[NumberText]:
    """Decimals round the numbers, and usual ones."""
    near = [number + step for number in material.numbers for step in (Fraction(0), -LEAST_STEP, LEAST_STEP)]
    numbers = [*near, *map(Fraction, USUAL_NUMBERS)]
    return [NumberText(decimal_text(number)) for number in numbers if abs(number) <= GREATEST]


def wholes(material: Material) -> list[int]:
    """Whole numbers round the numbers, and usual ones."""
    near = [
        near
        for number in material.numbers
        for near in (math.floor(number), math.ceil(number) - 1, math.floor(number) + 1)
    ]
    return [number for number in [*near, *USUAL_NUMBERS] if abs(number) < 2**63]


def texts(material: Material) -> list[str]:
    """The texts that are mentioned, one that has none of them, and one that has all."""
    parts = [part for part in material.texts if part]
    other = next((text for text in OTHERS if not any(part in text or text in part for part in parts)), "@")
    return [*material.texts, other, " ".join(material.texts)]


SCALARS: dict[str, Callable[[Material], Sequence[Json]]] = {
    "bool": lambda material: [True, False],
    "decimal": decimals,
    "whole": wholes,
    "text": texts,
}


# ---- values of any shape


def size_of(value: Json) -> int:
    """How many values are in a value, itself among them."""
    items = value if isinstance(value, list) else value.values() if isinstance(value, dict) else ()
    return 1 + sum(map(size_of, items))


def distinct(values: Iterable[Json]) -> list[Json]:
    """Values of which none is there twice, the smallest first."""
    found = {json.dumps(value): value for value in values}
    return [found[text] for text in sorted(found, key=lambda text: (len(text), text.startswith("-"), text))]


class Maker:
    """Makes the values; `is_complete` while each combination was taken."""

    def __init__(self, material: Material) -> None:
        self.material = material
        self.is_complete = True

    def values(self, shape: Json, level: int = 1) -> list[Json]:
        """Values of a shape at a level; none where it is no shape, which the engine refuses."""
        if level > MOST_LEVELS:
            return []
        if isinstance(shape, str):
            made = SCALARS[shape](self.material) if shape in SCALARS else []
        elif isinstance(shape, dict) and "optional" in shape:
            made = [*self.values(shape["optional"], level + 1), None]
        elif isinstance(member(shape, "record"), dict):
            made = self.records(shape["record"], level + 1)
        elif member(shape, "list") is not None and isinstance(member(shape, "max"), int):
            made = self.lists(shape["list"], shape["max"], level + 1)
        else:
            made = []
        return self.smallest(made)

    def smallest(self, made: Iterable[Json]) -> list[Json]:
        """As many of the smallest values as are tried, of a size that is."""
        chosen: list[Json] = []
        nodes = 0
        for value in distinct([value for value in made if size_of(value) <= MOST_NODES]):
            nodes += size_of(value)
            if nodes > MOST_NODES_OF_ALL or len(chosen) == MOST_VALUES:
                self.is_complete = False
                break
            chosen.append(value)
        return chosen

    def records(self, fields: Object, level: int) -> list[Object]:
        """Records; a field that no condition mentions has one value alone."""
        choices = []
        for name, shape in fields.items():
            values = self.values(shape, level)
            choices.append(values if name in self.material.names else values[:1])
        return [dict(zip(fields, chosen)) for chosen in self.combined(choices)]

    def lists(self, shape: Json, longest: int, level: int) -> list[list[Json]]:
        """Lists of no item, of one, of two, and of equal items."""
        items = [(item, size_of(item)) for item in self.values(shape, level)]
        pairs = self.combined([[item for item, _ in items]] * 2) if longest >= 2 else []
        lengths = {1, longest, *self.material.lengths} - {0, 2}
        equal = [
            [item] * length
            for length in sorted(lengths)
            if length <= longest
            for item, size in items
            if size * length < MOST_NODES
        ]
        return [[], *equal, *map(list, pairs)]

    def combined(self, choices: Sequence[Sequence[Json]]) -> Iterable[tuple[Json, ...]]:
        """A choice of each: all of them or, where they are too many, as many as are tried, spread over all."""
        total = math.prod(map(len, choices))
        if total <= MOST_VALUES:
            return itertools.product(*choices)
        self.is_complete = False
        return [self.combination(choices, number * STRIDE % total) for number in range(MOST_VALUES)]

    @staticmethod
    def combination(choices: Sequence[Sequence[Json]], number: int) -> tuple[Json, ...]:
        """The combination of a number, of which the last choice changes fastest."""
        chosen = []
        for choice in reversed(choices):
            number, place = divmod(number, len(choice))
            chosen.append(choice[place])
        return tuple(reversed(chosen))


@functools.lru_cache(128)
def values_by_text(shape: str, conditions: tuple[str, ...]) -> tuple[list[Json], bool]:
    """The same by the shape's text. Metrics of a template are often alike."""
    maker = Maker(material_of(conditions))
    return maker.values(json.loads(shape)), maker.is_complete


def values_of(shape: Json, conditions: Sequence[str]) -> tuple[list[Json], bool]:
    """Values of a shape on which conditions are tried, the smallest first, and whether each combination is there."""
    try:
        return values_by_text(json.dumps(shape), tuple(conditions))
    except RecursionError:  # the engine refuses it
        return [], True


def value_text(value: Json) -> str:
    """A value as a line shows it; decimals are numbers there."""
    if isinstance(value, NumberText):
        return str(value)
    if isinstance(value, list):
        shown = [value_text(item) for item in value[:4]]
        return f"[{', '.join(shown)}{f', .. {len(value)} items' if len(value) > 4 else ''}]"
    if isinstance(value, dict):
        return "{" + ", ".join(f"{json.dumps(name)}: {value_text(item)}" for name, item in value.items()) + "}"
    return json.dumps(value, ensure_ascii=False)
