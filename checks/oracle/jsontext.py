"""JSON as docs/use/formats.md has it, read apart from the program: Python's reader, and what it takes too much of.

A number that isn't a whole of 64 bits, with a sign or without one, is a float; so is one with a fraction or an
exponent, and `-0`.
"""

import json
import math
import re
from typing import Any

from checks.oracle.refused import Refused

LARGEST_INPUT = 16_777_216
LEVELS = 127
SURROGATE = re.compile("[\ud800-\udfff]")
STRING = re.compile(r'"(?:[^"\\]|\\.)*"', re.DOTALL)


class Bad(ValueError):
    """What Python's reader takes and the program refuses."""


def float_of(spelt):
    number = float(spelt)
    if math.isinf(number):
        raise Bad("a number too large for a float")
    return number


def whole_of(spelt):
    if spelt == "-0" or len(spelt) > 20:
        return float_of(spelt)
    number = int(spelt)
    return number if -(2**63) <= number < 2**64 else float_of(spelt)


def constant(spelt):
    raise Bad(spelt)


def look_at(value):
    """Looks for lone surrogates, which only escapes make; members of objects were looked at as they were read."""
    if isinstance(value, str):
        if SURROGATE.search(value):
            raise Bad("a lone surrogate")
    elif isinstance(value, list):
        for item in value:
            look_at(item)


def members(pairs):
    for name, value in pairs:
        look_at(name)
        look_at(value)
    return dict(pairs)


NUMBERS: dict[str, Any] = {"parse_float": float_of, "parse_int": whole_of, "parse_constant": constant}
DECODER = json.JSONDecoder(**NUMBERS)
CAREFUL = json.JSONDecoder(object_pairs_hook=members, **NUMBERS)


def levels_of(text):
    """How deep arrays and objects nest in a text, if it is JSON."""
    level = deepest = 0
    for sign in re.sub(r"[^\[\]{}]", "", STRING.sub("", text)):
        level += 1 if sign in "[{" else -1
        deepest = max(deepest, level)
    return deepest


def value_of(text):
    if text.startswith("\ufeff"):
        raise Bad("a byte order mark")
    if text.count("[") + text.count("{") > LEVELS and levels_of(text) > LEVELS:
        raise Bad("more levels than the program takes")
    if "\\u" not in text:
        return DECODER.decode(text)
    value = CAREFUL.decode(text)
    look_at(value)
    return value


def read_json(code):
    """The value of a JSON text in UTF-8, or its refusal."""
    if len(code) > LARGEST_INPUT:
        raise Refused("TooLarge")
    try:
        return value_of(code.decode())
    except ValueError:
        raise Refused("Utf8OrJson") from None


def is_whole(value):
    return isinstance(value, int) and not isinstance(value, bool)


def is_number(value):
    return is_whole(value) or isinstance(value, float)


def member(value, name):
    """A member of an object; None where it is null or missing, or the value is no object."""
    return value.get(name) if isinstance(value, dict) else None
