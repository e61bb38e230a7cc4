"""Measured values that are explained: where one doesn't fit, and what each is as JSON has it."""

from checks.oracle.printing import shown_decimal
from checks.oracle.shapes import read_value


def at_pointer(document, pointer):
    """What a JSON Pointer leads to, or None where the last member is missing."""
    found = document
    for token in pointer.split("/")[1:]:
        name = token.replace("~1", "/").replace("~0", "~")
        found = found[int(name)] if isinstance(found, list) else found.get(name) if isinstance(found, dict) else None
    return found


def misfit_faults(document, whole):
    """What is wrong with where values don't fit: the pointer has the path's steps, and leads to what was found."""
    for one in (one for run in whole["runs"] for one in run["events"] if one["misfit"] is not None):
        misfit, number = one["misfit"], one["event"]["number"]
        steps = [str(step).replace("~", "~0").replace("/", "~1") for step in misfit["path"]]
        if (
            misfit["pointer"] != "/".join([f"/measurements/{number}/value", *steps])
            or misfit["fault"] != one["event"]["fault"]
        ):
            yield f"event {number} doesn't fit elsewhere, or otherwise"
        found = at_pointer(document, misfit["pointer"])
        if (
            (found is None and misfit["found"] not in ("nothing", "null"))
            or isinstance(found, str)
            and not misfit["found"].startswith('"')
        ):
            yield f"event {number} has no such value"


def form(shape, value):
    """A measured value as JSON has it exactly, with the room that it takes, and how many levels it has."""
    if isinstance(shape, dict) and "optional" in shape:
        return (None, 1, 0) if value is None else form(shape["optional"], value)
    if isinstance(shape, dict) and "list" in shape:
        items = [form(shape["list"], item) for item in value]
        return (
            [item[0] for item in items],
            sum(1 + item[1] for item in items),
            1 + max((item[2] for item in items), default=0),
        )
    if isinstance(shape, dict):
        fields = {name: form(inner, value.get(name)) for name, inner in shape["record"].items()}
        return (
            {name: field[0] for name, field in fields.items()},
            sum(1 + len(name.encode()) + field[1] for name, field in fields.items()),
            1 + max((field[2] for field in fields.values()), default=0),
        )
    if shape == "decimal":
        return shown_decimal(read_value(value, shape)[1]), 1, 0
    if shape == "whole":
        return value if abs(value) <= 2**53 else str(value), 1, 0
    return value, len(value.encode()) if shape == "text" else 1, 0


def value_faults(document, whole):
    """What is wrong with measured values as JSON has them."""
    for one in (one for run in whole["runs"] for one in run["events"] if one["shown"] is not None):
        number, metric = one["event"]["number"], one["event"]["metric"]
        found, room, levels = form(document["shapes"][metric], document["measurements"][number]["value"])
        if one["value"] != (found if room <= 256 and levels <= 8 else None):
            yield f"event {number} has another value"
