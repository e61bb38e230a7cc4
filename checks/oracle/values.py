"""Values and their arithmetic, by docs/use/language.md and docs/design/machine.md, read apart from the program.

A value is ('nil',), ('bool', b), ('whole', i), ('decimal', millionths), ('text', s), ('list', [value, ..]) or
('record', {name: value}).
"""

from checks.oracle.kinds import is_list, is_optional, is_record
from checks.oracle.operations import FAMILY


class Fault(Exception):
    """A run's fault."""


def in_range(number):
    if not -(2**63) <= number < 2**63:
        raise Fault("Overflow")
    return number


def cut(dividend, divisor):
    if divisor == 0:
        raise Fault("DivisionByZero")
    whole = abs(dividend) // abs(divisor)
    return whole if (dividend < 0) == (divisor < 0) else -whole


def arithmetic(name, numbers):
    sign, last = name[:-1], numbers[-1]
    if sign == "Neg":
        return in_range(-last)
    if sign == "Add":
        return in_range(numbers[0] + last)
    if sign == "Sub":
        return in_range(numbers[0] - last)
    if sign == "Mul":
        product = numbers[0] * last
        return in_range(cut(product, 1_000_000) if name == "MulD" else product)
    if sign == "Div":
        return in_range(cut(numbers[0] * 1_000_000, last))
    quotient = cut(numbers[0], last)
    return numbers[0] - quotient * last


def exact(value):
    """A number in millionths."""
    return value[1] * 1_000_000 if value[0] == "whole" else value[1]


def ordered(name, one, other):
    return {"Lt": one < other, "Le": one <= other, "Gt": one > other, "Ge": one >= other}[name[:2]]


def value_family(value):
    return FAMILY.get(value[0])


def equal(one, other):
    if one[0] == "nil" or other[0] == "nil":
        return one[0] == other[0]
    if value_family(one) == "number":
        return exact(one) == exact(other)
    return one[1] == other[1]


def text_holds(name, one, other):
    """Whether a text test holds of the bytes of two texts."""
    one, other = one.encode(), other.encode()
    if name == "Contains":
        return any(one[start : start + len(other)] == other for start in range(len(one) + 1))
    return one[: len(other)] == other if name == "StartsWith" else one[max(0, len(one) - len(other)) :] == other


def one_family(values):
    """Nil or scalars of one family."""
    families = {value_family(value) for value in values if value[0] != "nil"}
    return None not in families and len(families) <= 1


def fits(value, kind):
    if is_optional(kind):
        return value[0] == "nil" or fits(value, kind[1])
    if is_list(kind):
        return value[0] == "list" and len(value[1]) <= kind[2] and all(fits(item, kind[1]) for item in value[1])
    if is_record(kind):
        names = [name for name, _ in kind[1]]
        return (
            value[0] == "record"
            and sorted(value[1]) == names
            and all(fits(value[1][name], inner) for name, inner in kind[1])
        )
    return value[0] == kind
