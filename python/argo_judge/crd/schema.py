"""What values may be, as crd/schema.json says in the form of a CRD's openAPIV3Schema."""
import json
from collections.abc import Mapping
from dataclasses import dataclass
from enum import Enum
from functools import cache
from importlib.resources import files

from argo_judge.objects import Json, Object

BEFORE_NAME = "#/$defs/"
INT_OR_STRING, IS_OPEN = "x-kubernetes-int-or-string", "x-kubernetes-preserve-unknown-fields"


class Type(str, Enum):
    """The type of a value; INT_OR_STRING is either."""

    OBJECT = "object"
    ARRAY = "array"
    STRING = "string"
    INTEGER = "integer"
    BOOLEAN = "boolean"
    INT_OR_STRING = "int-or-string"


@dataclass(frozen=True)
class Schema:
    """What a value may be: its type (None of anything), and of an object the fields that it has, those that it needs,
    what the others have to be (None where there are no others), and whether it is open to fields that aren't written
    here; of a list what its items are, and of a text what it is one of, if it isn't any."""

    type: Type | None
    fields: Mapping[str, "Schema"]
    required: tuple[str, ...]
    others: "Schema | None"
    is_open: bool
    items: "Schema | None"
    choices: tuple[str, ...]


def schema_of(written: Object, definitions: Mapping[str, Object]) -> Schema:
    """A schema that is written as JSON, whose $ref are of some definitions."""
    if "$ref" in written:
        return schema_of(definitions[written["$ref"].removeprefix(BEFORE_NAME)], definitions)

    def part(keyword: str) -> Schema | None:
        """The schema that a keyword has, if it is there."""
        return schema_of(written[keyword], definitions) if keyword in written else None

    named = Type(written["type"]) if "type" in written else None
    return Schema(
        type=Type.INT_OR_STRING if written.get(INT_OR_STRING) else named,
        fields={name: schema_of(field, definitions) for name, field in written.get("properties", {}).items()},
        required=tuple(written.get("required", ())),
        others=part("additionalProperties"),
        is_open=written.get(IS_OPEN, False),
        items=part("items"),
        choices=tuple(written.get("enum", ())),
    )


def written_schema() -> Json:
    """What crd/schema.json has."""
    return json.loads(files("argo_judge.crd").joinpath("schema.json").read_text(encoding="utf-8"))


@cache
def schema_of_kind(kind: str) -> Schema:
    """The schema of the objects of a kind."""
    definitions = written_schema()["$defs"]
    return schema_of(definitions[kind], definitions)
