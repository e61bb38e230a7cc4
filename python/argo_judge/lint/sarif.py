"""Findings in SARIF 2.1.0, as code scanning reads them."""
import json
import urllib.parse
from collections.abc import Sequence

from argo_judge.lint.findings import PAGE, RULES, Severity
from argo_judge.lint.outputs import STANDARD_INPUT, Located
from argo_judge.lint.subjects import Subject
from argo_judge.objects import Object

SCHEMA = "https://json.schemastore.org/sarif-2.1.0.json"
LEVELS = {Severity.ERROR: "error", Severity.WARNING: "warning", Severity.INFO: "note"}


def rule_of(name: str) -> Object:
    """What SARIF has of a rule."""
    return {"id": name, "shortDescription": {"text": RULES[name]}, "help": {"text": f"{PAGE}#{name} of argo_judge"}}


def location_of(one: Located) -> Object:
    """Where a finding is."""
    where: Object = {"logicalLocations": [{"fullyQualifiedName": one.pointer or "/"}]}
    if one.file is not None:
        physical: Object = {"artifactLocation": {"uri": urllib.parse.quote(one.file)}}
        if one.line is not None:
            physical["region"] = {"startLine": one.line}
        where["physicalLocation"] = physical
    return where


def result_of(one: Located) -> Object:
    """What SARIF has of a finding."""
    finding = one.finding
    place = "" if one.file is not None else f"{STANDARD_INPUT}: "
    return {
        "ruleId": finding.rule,
        "ruleIndex": list(RULES).index(finding.rule),
        "level": LEVELS[finding.severity],
        "message": {"text": f"{place}{finding.message}\nmend: {finding.mend}"},
        "locations": [location_of(one)],
    }


def as_sarif(located: Sequence[Located], _subjects: Sequence[Subject]) -> str:
    """The log of one run."""
    driver = {"name": "argo_judge lint", "rules": [rule_of(name) for name in RULES]}
    run = {
        "tool": {"driver": driver},
        "results": [result_of(one) for one in located],
        "columnKind": "unicodeCodePoints",
    }
    return json.dumps({"$schema": SCHEMA, "version": "2.1.0", "runs": [run]}, ensure_ascii=False) + "\n"
