"""Shapes, and values under them, by docs/use/formats.md, read apart from the program.

Shapes are the kinds of kinds.py, values those of values.py.
"""

import re

from checks.oracle.jsontext import is_whole
from checks.oracle.kinds import is_list, is_optional, is_record
from checks.oracle.operations import SCALARS
from checks.oracle.refused import Refused

LEVELS = 16
LONGEST_LIST = 10_000
DIGITS = 64
NOT_FINITE = ("NaN", "Inf", "+Inf", "-Inf")
DECIMAL = re.compile(r"([-+]?)([0-9]*)(?:(\.)([0-9]*))?(?:[eE]([-+]?[0-9]{1,3}))?")


def read_shape(json, level=1):
    """The shape that JSON declares, or its first refusal."""
    if level > LEVELS:
        raise Refused("TooDeep")
    if isinstance(json, str) and json in SCALARS:
        return json
    names = sorted(json) if isinstance(json, dict) else None
    if names in (["list"], ["list", "max"]):
        most = json.get("max")
        if not is_whole(most) or most < 0:
            raise Refused("MaxMissing")
        if most > LONGEST_LIST:
            raise Refused("MaxTooLarge")
        return ("list", read_shape(json["list"], level + 1), most)
    if names == ["optional"]:
        if isinstance(json["optional"], dict) and list(json["optional"]) == ["optional"]:
            raise Refused("NestedOptional")
        return ("optional", read_shape(json["optional"], level + 1))
    if names == ["record"] and isinstance(json["record"], dict):
        fields = sorted(json["record"].items(), key=lambda field: field[0].encode())
        return ("record", tuple((name, read_shape(inner, level + 1)) for name, inner in fields))
    raise Refused("UnknownShape")


def in_range(number):
    if not -(2**63) <= number < 2**63:
        raise Refused("OutOfRange")
    return number


def decimal_of(text):
    """The millionths of a decimal text."""
    if text in NOT_FINITE:
        raise Refused("NotFinite")
    found = DECIMAL.fullmatch(text)
    sign, before, _, after, exponent = found.groups() if found else [None] * 5
    digits = (before or "") + (after or "")
    if not found or not 1 <= len(digits) <= DIGITS:
        raise Refused("BadDecimal")
    power = int(exponent or 0) + 6 - len(after or "")
    millionths = int(digits) * 10**power if power >= 0 else int(digits) // 10**-power
    return in_range(-millionths if sign == "-" else millionths)


def number_of(json):
    if isinstance(json, float):
        raise Refused("FloatNumber")
    if not is_whole(json):
        raise Refused("WrongKind")
    return in_range(json)


def read_scalar(json, shape):
    if shape == "whole":
        return ("whole", number_of(json))
    if shape == "decimal":
        return ("decimal", decimal_of(json) if isinstance(json, str) else in_range(number_of(json) * 1_000_000))
    if not isinstance(json, bool if shape == "bool" else str):
        raise Refused("WrongKind")
    return (shape, json)


def read_value(json, shape):
    """The value of a shape that JSON has, or its first misfit."""
    if is_optional(shape):
        return ("nil",) if json is None else read_value(json, shape[1])
    if is_list(shape):
        if not isinstance(json, list):
            raise Refused("WrongKind")
        if len(json) > shape[2]:
            raise Refused("ListTooLong")
        return ("list", [read_value(item, shape[1]) for item in json])
    if is_record(shape):
        if not isinstance(json, dict):
            raise Refused("WrongKind")
        return ("record", {name: read_field(json, name, inner) for name, inner in shape[1]})
    return read_scalar(json, shape)


def read_field(json, name, shape):
    if name in json:
        return read_value(json[name], shape)
    if is_optional(shape):
        return ("nil",)
    raise Refused("MissingField")


def shape_json(kind):
    """The JSON that declares a shape."""
    if is_list(kind):
        return {"list": shape_json(kind[1]), "max": kind[2]}
    if is_record(kind):
        return {"record": {name: shape_json(inner) for name, inner in kind[1]}}
    return {"optional": shape_json(kind[1])} if is_optional(kind) else kind
