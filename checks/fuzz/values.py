"""JSON as random documents have it: places of it that are changed, and texts that only a document can have."""

import json
from typing import Any

from checks.fuzz.changes import changed_condition, changed_text

FIELDS = (
    "manifest shapes runs measurements apiVersion kind metadata name spec args value metrics successCondition "
    "failureCondition interval count failureLimit inconclusiveLimit consecutiveErrorLimit consecutiveSuccessLimit "
    "dryRun metricName run metric error stop list max record optional condition shape succesCondition failurelimit "
    "dryrun"
).split()
# A text that means itself without its quotes in the document, and a name that another member has already.
RAW, AGAIN = "@raw@", "@again@"
NUMBERS = (
    "-0",
    "0",
    "1",
    "-1",
    "1.0",
    "1e3",
    "-0.0",
    "1e400",
    "-1e999",
    "1E-999",
    "9223372036854775807",
    "01",
    "+1",
    ".5",
    "1.",
    "0x1",
    "9223372036854775808",
    "-9223372036854775808",
    "-9223372036854775809",
    "18446744073709551615",
    "18446744073709551616",
    "1000000000",
    "1000000001",
    "10000",
    "10001",
    "9" * 400,
    "0e9999",
    "NaN",
    "Infinity",
)
# Numbers that a document may have, at and outside the ranges of wholes.
FLOATS = (
    "-0",
    "-0",
    "-0",
    "0",
    "-1",
    "1.0",
    "1e3",
    "-0.0",
    "1E-999",
    "9223372036854775807",
    "9223372036854775808",
    "-9223372036854775808",
    "-9223372036854775809",
    "18446744073709551615",
    "18446744073709551616",
    "1000000001",
)
DECIMALS = (
    "NaN",
    "Inf",
    "+Inf",
    "-Inf",
    "",
    ".",
    "+.5",
    "1e",
    "1e1000",
    "1e-999",
    "0e999",
    "9.3e12",
    "0,95",
    "-0.0000019",
    "1e6",
    "5.",
    " 1",
    "-9223372036854.7758089",
    "9223372036854.775808",
    "0" * 63 + "1",
    "0" * 64 + "1",
    "1_0",
    "١",
)
MOST: tuple = (10_001, -1, 1.5, "3", True, None, 2**63, 2**64 - 1, 2**64, [])
SCALARS: tuple = (
    None,
    True,
    False,
    0,
    1,
    -1,
    2,
    7,
    "",
    "x",
    "1",
    "0.95",
    "result > 0",
    "{{args.x}}",
    "{{",
    [],
    {},
    [1],
    ["a"],
    {"name": "m"},
    "bool",
    "whole",
    "decimal",
    {"list": "whole", "max": 3},
    ".*",
    "argoproj.io/v1alpha1",
)


def mixed(source, members, share):
    """An object, with a share of the cases its members in another order."""
    names = list(members)
    if source.random() < share:
        source.shuffle(names)
    return {name: members[name] for name in names}


def doubled(source, value, share):
    """A JSON value, a share of whose objects have a member twice, with another value, and their members in any
    order."""
    if isinstance(value, list):
        return [doubled(source, item, share) for item in value]
    if not isinstance(value, dict):
        return value
    members = {name: doubled(source, item, share) for name, item in value.items()}
    names = [name for name in members if not name.startswith(AGAIN)]
    if names and source.random() < share:
        others: tuple[Any, ...] = (None, 7, True, "r0", [], {}, source.choice(list(members.values())))
        members[AGAIN + source.choice(names)] = source.choice(others)
        return mixed(source, members, 1)
    return members


def places(value):
    """Each array or object of a JSON value with each of its keys."""
    keys = list(range(len(value))) if isinstance(value, list) else list(value) if isinstance(value, dict) else []
    for key in keys:
        yield value, key
        yield from places(value[key])


def copied(value):
    if isinstance(value, list):
        return [copied(item) for item in value]
    return {name: copied(inner) for name, inner in value.items()} if isinstance(value, dict) else value


def nested_shape(source, shape):
    """A shape inside others, as deep as a limit or more, with greatest lengths in and out of their range."""
    for _ in range(source.choice((1, 2, 13, 14, 15, 16))):
        most = source.choice((3, 3, 3, 3, 0, 10_000)) if source.random() < 0.97 else source.choice(MOST)
        shape = source.choice(
            ({"list": shape, "max": most}, {"list": shape, "max": most}, {"record": {"a": shape}}, {"optional": shape})
        )
    return shape


def nested(source, value):
    count = source.choice((1, 2, 14, 15, 16, 17, 90, 110, 120, 125, 126, 127, 128))
    for _ in range(count):
        value = source.choice(([value], {"list": value, "max": 3})) if count < 20 else [value]
    return value


def retyped(source, value):
    """Another JSON value in the place of one."""
    if isinstance(value, str) and source.random() < 0.6:
        return source.choice((changed_text, changed_text, changed_condition_of))(source, value)
    if isinstance(value, (int, str)) and source.random() < 0.5:
        return source.choice((RAW + source.choice(NUMBERS), source.choice(DECIMALS), str(value), [value]))
    return source.choice((copied(source.choice(SCALARS)), copied(source.choice(SCALARS)), nested(source, value)))


def changed_condition_of(source, text):
    return changed_condition(source, text, text)


def change_at(source, whole, holder, key):
    way = source.randrange(10)
    if way == 0:
        del holder[key]
    elif way == 1:
        holder[key] = None
    elif way == 2:
        other, there = source.choice(list(places(whole)))
        holder[key] = copied(other[there])
    elif way == 3 and isinstance(holder, list):
        holder.insert(key, copied(holder[key]))
    elif way == 3:
        holder[AGAIN + key] = retyped(source, holder[key])
    elif way == 4 and isinstance(holder, dict):
        holder[source.choice(FIELDS + ["", "é", key + "x", key.upper()])] = holder.pop(key)
    elif way == 5 and isinstance(holder, dict):
        holder[source.choice(FIELDS)] = copied(source.choice(SCALARS))
    else:
        holder[key] = retyped(source, holder[key])


def changed_json(source, value, count):
    """A JSON value with n changes; RAW and AGAIN may be in it."""
    root = [copied(value)]
    for _ in range(count):
        found = list(places(root))
        if not found:
            break
        holder, key = source.choice(found)
        if holder is root and source.random() < 0.9:
            holder, key = source.choice(found)
        change_at(source, root, holder, key)
    return root[0] if root else None


def written(source, value):
    """The text of a JSON value, in which RAW texts and names that come AGAIN are what they mean."""
    indent = source.choice((None, None, None, 1))
    text = json.dumps(
        value, ensure_ascii=source.random() < 0.3, indent=indent, separators=None if indent else (",", ":")
    )
    for spelt in NUMBERS + FLOATS:
        text = text.replace(f'"{RAW}{spelt}"', spelt)
    return text.replace(AGAIN, "")


def is_plain(value):
    """Whether neither RAW nor AGAIN is in a JSON value, so that it may be in a case as it is."""
    text = json.dumps(value)
    return RAW not in text and AGAIN not in text
