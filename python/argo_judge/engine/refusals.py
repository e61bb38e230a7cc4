"""Refusals and warnings of argo_judge as JSON (`--output json`): one object on standard error, where without it there
are lines."""
from collections.abc import Mapping
from typing import Any, NamedTuple

from argo_judge.engine.reports import VERSION
from argo_judge.errors import REFUSED, Refused
from argo_judge.jsontext import parsed
from argo_judge.notes import one_line, say
from argo_judge.objects import Json, member, objects, shown

# What is read of a refusal: the names that lead to it, and of which type it is.
NONE = type(None)
MEMBERS: dict[tuple[str, ...], Any] = {
    ("name",): str,
    ("text",): str,
    ("found",): (str, NONE),
    ("place", "part"): str,
    ("place", "metric", "number"): (int, NONE),
    ("place", "field"): (str, NONE),
}
# What is read of a warning.
OF_WARNING: dict[tuple[str, ...], Any] = {
    ("text",): str,
    ("found",): str,
    ("expected",): (str, NONE),
    ("place", "entry"): (int, NONE),
}


class Refusal(NamedTuple):
    """Why the engine refuses its input: the refusal's name, all that the engine says of it, and in that what was found;
    and where it is: the part of the input, the number of a metric, and a field."""

    name: str
    text: str
    found: str | None
    part: str
    metric: int | None
    field: str | None

    @property
    def line(self) -> str:
        """The line that the engine writes without `--output json`."""
        return f"argo_judge: {one_line(self.text)}"


class Warned(NamedTuple):
    """What the engine warns of: all that it says of it, and in that what was found and what is expected; and the number
    of the measurement, if it is of one."""

    text: str
    found: str
    expected: str | None
    entry: int | None

    @property
    def line(self) -> str:
        """The line that the engine writes without `--output json`."""
        return f"argo_judge: warning: {one_line(self.text)}"


def object_in(errors: str) -> Json:
    """The JSON value that the engine wrote to standard error, if it is of this version."""
    try:
        made = parsed(errors, "standard error")
    except Refused:
        return None
    return made if member(made, "version") == VERSION else None


def members_of(made: Json, types: Mapping[tuple[str, ...], Any]) -> list[Json] | None:
    """The members of an object that these names lead to, if they are there and of these types."""
    found = [member(made, *names) for names in types]
    return found if all(isinstance(value, types) for value, types in zip(found, types.values())) else None


def refusal_in(errors: str) -> Refusal:
    """The refusal that the engine wrote to standard error."""
    found = members_of(member(object_in(errors), "refusal"), MEMBERS)
    if found is None:
        raise Refused(
            f"the engine ended with status {REFUSED}; expected a refusal of version {VERSION} as "
            f"`--output json` writes it, found {shown(errors.strip())}"
        )
    return Refusal(*found)


def warnings_in(errors: str) -> list[Warned]:
    """The warnings that the engine wrote to standard error, which may be none."""
    if not errors.strip():
        return []
    warnings = objects(member(object_in(errors), "warnings"))
    found = [members for one in warnings if (members := members_of(one, OF_WARNING)) is not None]
    if not warnings or len(found) < len(warnings):
        raise Refused(
            f"the engine wrote to standard error; expected warnings of version {VERSION} as "
            f"`--output json` writes them, found {shown(errors.strip())}"
        )
    return [Warned(*members) for members in found]


def said_in(status: int, errors: str) -> str:
    """What the engine wrote to standard error; a refusal and warnings are the lines that it writes without
    `--output json`."""
    if status == REFUSED:
        return refusal_in(errors).line
    if object_in(errors) is None:
        return errors.strip()
    return "\n".join(warning.line for warning in warnings_in(errors))


def hand_on(status: int, errors: str) -> None:
    """Writes to standard error what the engine wrote there, a refusal and warnings as lines."""
    for line in said_in(status, errors).split("\n"):
        if line:
            say(line)
