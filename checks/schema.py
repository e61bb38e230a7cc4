"""docs/report.schema.json, by which objects of the program are looked at where Python has jsonschema."""

import json
from collections.abc import Iterator
from typing import Any

from checks import ROOT

SCHEMA = ROOT / "docs/report.schema.json"


def validator(check: str) -> Any:
    """What finds faults of an object by the schema; None without jsonschema, and then a line says so."""
    try:
        import jsonschema
    except ImportError:
        print(f"{check}: no jsonschema for Python here, so docs/report.schema.json is not looked at")
        return None
    schema = json.loads(SCHEMA.read_text(encoding="utf-8"))
    jsonschema.Draft202012Validator.check_schema(schema)
    return jsonschema.Draft202012Validator(schema)


def faults_by(schema: Any, written: Any) -> Iterator[str]:
    """What is wrong with an object by the schema, if there is one."""
    if schema is not None:
        for fault in schema.iter_errors(written):
            yield fault.message
