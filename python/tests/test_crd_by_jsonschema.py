"""The reader of the Custom Resources' schema, held to the verdicts of jsonschema. Needs that, and hypothesis."""
import contextlib
import json
import pathlib
from collections.abc import Callable, Iterator
from typing import Any

import pytest

from argo_judge.crd.reader import faults_of
from argo_judge.crd.schema import (
    BEFORE_NAME,
    INT_OR_STRING,
    IS_OPEN,
    Schema,
    Type,
    schema_of,
    schema_of_kind,
    written_schema,
)
from argo_judge.errors import Refused
from argo_judge.jsontext import NumberText, is_text, is_whole
from argo_judge.lint.subjects import KINDS
from argo_judge.manifests import each_found_in, is_of
from argo_judge.objects import Json, Object
from argo_judge.yamltext import is_read

jsonschema = pytest.importorskip("jsonschema")
hypothesis = pytest.importorskip("hypothesis")
some = hypothesis.strategies

CHECKOUT = pathlib.Path(__file__).resolve().parents[2]
# Values that take the place of others, and the names that some fields have.
OTHERS: list[Json] = [None, True, 7, NumberText("0.5"), "v1", "", "{{args.x}}", [], [None], {}, {"name": "x"}]
FIELDS = ["name", "provider", "query", "url", "headers", "key", "value", "spec", "apiVersion", "insecure", "querry"]
SCALARS: dict[Type | None, Json] = {
    None: {},
    Type.STRING: "text",
    Type.INTEGER: 1,
    Type.BOOLEAN: True,
    Type.INT_OR_STRING: "1",
}
DEFINITIONS: Object = written_schema()["$defs"]
PROVIDER = schema_of(DEFINITIONS["provider"], DEFINITIONS)


def whole_of(schema: Schema) -> Json:
    """A value that has all that a schema names."""
    if schema.type is Type.OBJECT:
        return {name: whole_of(field) for name, field in schema.fields.items()}
    if schema.type is Type.ARRAY and schema.items is not None:
        return [whole_of(schema.items)]
    return schema.choices[0] if schema.choices else SCALARS[schema.type]


def stored() -> Iterator[Object]:
    """The templates and runs of the examples and of stored tests, and some that have every field or provider."""
    for path in sorted([*CHECKOUT.glob("examples/templates/*"), *CHECKOUT.glob("recipes/tests/**/*.json")]):
        if path.suffix == ".json" and path.read_bytes()[:1] == b"{" or is_read() and path.suffix == ".yaml":
            with contextlib.suppress(Refused):  # some are stored since they can't be read
                yield from (found.value for found in each_found_in([str(path)]) if is_of(found, KINDS))
    for kind in KINDS:
        yield {**whole_of(schema_of_kind(kind)), "kind": kind}
    for name, provider in whole_of(PROVIDER).items():
        yield {"kind": "AnalysisTemplate", "spec": {"metrics": [{"name": "m", "provider": {name: provider}}]}}


STORED = list(stored())


# ---- the schema, as jsonschema takes it


def or_null(written: Object) -> Object:
    """The schema of a value that may also be null."""
    return {"anyOf": [{"type": "null"}, written]}


def without_extensions(written: Object) -> Object:
    """A schema with jsonschema's own keywords, by which fields are absent that are null."""
    if "$ref" in written:
        return written
    made = {name: value for name, value in written.items() if name in ("type", "required", "enum")}
    made |= {"type": ["integer", "string"]} if written.get(INT_OR_STRING) else {}
    fields = {name: without_extensions(field) for name, field in written.get("properties", {}).items()}
    made["properties"] = {
        name: field if name in written.get("required", ()) else or_null(field) for name, field in fields.items()
    }
    if "items" in written:
        made["items"] = without_extensions(written["items"])
    if "additionalProperties" in written:
        made["additionalProperties"] = or_null(without_extensions(written["additionalProperties"]))
    elif not written.get(IS_OPEN):
        made["additionalProperties"] = False
    return made


def validator_of(kind: str) -> Any:
    """What looks at objects of a kind, to which a fraction is no text, and neither it nor a boolean an integer."""
    latest = jsonschema.Draft202012Validator
    types = latest.TYPE_CHECKER.redefine("string", lambda _, value: is_text(value))
    types = types.redefine("integer", lambda _, value: is_whole(value))
    defined = {name: without_extensions(one) for name, one in DEFINITIONS.items()}
    return jsonschema.validators.extend(latest, type_checker=types)({"$ref": BEFORE_NAME + kind, "$defs": defined})


VALIDATORS = {kind: validator_of(kind) for kind in KINDS}


def agrees(one: Object) -> bool:
    """Whether both have the same verdict on a template."""
    has_faults = any(True for _ in faults_of(one, schema_of_kind(one["kind"])))
    return bool(VALIDATORS[one["kind"]].is_valid(one)) is not has_faults


# ---- templates


def changed_object(value: Object, draw: Any) -> Object:
    """An object of which a field is changed, missing, or has another name, or that has one more."""
    name, other = draw(some.sampled_from(sorted(value))), draw(some.sampled_from(FIELDS))
    kept = {key: item for key, item in value.items() if key != name}
    how = draw(some.sampled_from(["changed", "changed", "changed", "missing", "renamed", "added"]))
    if how == "changed":
        return {**value, name: changed(value[name], draw)}
    if how == "added":
        return {**value, other: draw(some.sampled_from(OTHERS))}
    return {**kept, other: value[name]} if how == "renamed" else kept


def changed(value: Json, draw: Any) -> Json:
    """A value of which a part is another one."""
    if not isinstance(value, (dict, list)) or not value or draw(some.integers(0, 9)) == 0:
        return draw(some.sampled_from(OTHERS))
    if isinstance(value, dict):
        return changed_object(value, draw)
    at = draw(some.integers(0, len(value) - 1))
    return [changed(item, draw) if index == at else item for index, item in enumerate(value)]


def tried(function: Callable[[Any], None]) -> Callable[[], None]:
    """Tries a function that draws what it is tried on."""
    made: Callable[[], None] = hypothesis.settings(max_examples=400)(hypothesis.given(some.data())(function))
    return made


def test_a_template_with_every_field_is_valid() -> None:
    for kind in KINDS:
        assert list(faults_of(whole_of(schema_of_kind(kind)), schema_of_kind(kind))) == []


def test_stored_templates() -> None:
    assert len(STORED) > 50
    assert [one for one in STORED if not agrees(one)] == []


@tried
def test_changed_templates(data: Any) -> None:
    one = data.draw(some.sampled_from(STORED))
    for _ in range(data.draw(some.integers(1, 4))):
        one = {**changed_object(one, data.draw), "kind": one["kind"]}
    assert agrees(one), json.dumps(one)
