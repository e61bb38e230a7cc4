"""Kinds, by docs/use/language.md and docs/design/verifier.md.

A kind is 'bool', 'whole', 'decimal', 'text', 'nil', ('list', kind, max), ('record', ((name, kind), ..)) with rising
names, or ('optional', kind).
"""

from checks.oracle.operations import FAMILY, SCALARS


def is_list(kind):
    return isinstance(kind, tuple) and kind[0] == "list"


def is_record(kind):
    return isinstance(kind, tuple) and kind[0] == "record"


def is_optional(kind):
    return isinstance(kind, tuple) and kind[0] == "optional"


def plain(kind):
    return kind[1] if is_optional(kind) else kind


def widest(one, other):
    """Of two kinds that differ in greatest lengths only the one with the greater; else None."""
    if is_list(one) and is_list(other):
        item = widest(one[1], other[1])
        return item and ("list", item, max(one[2], other[2]))
    if is_record(one) and is_record(other):
        if [name for name, _ in one[1]] != [name for name, _ in other[1]]:
            return None
        fields = [(name, widest(kind, dict(other[1])[name])) for name, kind in one[1]]
        return ("record", tuple(fields)) if all(kind for _, kind in fields) else None
    if is_optional(one) and is_optional(other):
        inner = widest(one[1], other[1])
        return inner and ("optional", inner)
    return one if one == other else None


def merge(one, other):
    if one == other:
        return one
    if one == "nil":
        return other if is_optional(other) else ("optional", other)
    if other == "nil":
        return one if is_optional(one) else ("optional", one)
    inner = widest(plain(one), plain(other))
    if inner and (is_optional(one) or is_optional(other)):
        return ("optional", inner)
    return inner


def family(kind):
    """The family of a scalar or an optional scalar; None of any other kind, Nil too."""
    return FAMILY.get(plain(kind)) if plain(kind) in SCALARS else None
