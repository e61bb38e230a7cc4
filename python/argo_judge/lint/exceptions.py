"""Findings that are left out: those of rules that a template's annotation names, and those that a baseline has."""
import json
from collections.abc import Collection, Sequence
from typing import NamedTuple

from argo_judge.errors import Refused
from argo_judge.files import read_json
from argo_judge.lint.findings import RULES
from argo_judge.lint.outputs import Located
from argo_judge.lint.subjects import Subject
from argo_judge.notes import note
from argo_judge.objects import Json, member, objects, shown

ANNOTATION = "argo-judge/lint-ignore"
VERSION = 1


class Known(NamedTuple):
    """What a baseline has of a finding: its file, the template's name, its rule and its pointer. Its line may move."""

    file: str | None
    name: str
    rule: str
    pointer: str


def known_of(one: Located) -> Known:
    """What a baseline has of a finding."""
    return Known(one.file, one.subject.name, one.finding.rule, one.finding.pointer)


def baseline_text(located: Sequence[Located]) -> str:
    """The baseline of findings, each once, in their order."""
    findings = [known._asdict() for known in dict.fromkeys(map(known_of, located))]
    return json.dumps({"findings": findings, "version": VERSION}, indent=1) + "\n"


def baseline_in(path: str) -> set[Known]:
    """The findings that a baseline has."""
    found = read_json(path, "--baseline")
    if member(found, "version") != VERSION:
        raise Refused(f"--baseline: {path}: expected a file that --write-baseline wrote, of version {VERSION}")
    return {
        Known(one.get("file"), str(one.get("name")), str(one.get("rule")), str(one.get("pointer")))
        for one in objects(member(found, "findings"))
    }


def ignored_rules(subject: Subject) -> Collection[str]:
    """The rules that a template's annotation names; a name that no rule has is noted."""
    noted: Json = member(subject.object, "metadata", "annotations", ANNOTATION)
    names = [name.strip() for name in noted.split(",")] if isinstance(noted, str) else []
    for name in names:
        if name not in RULES:
            note(f"{subject.found.file}: the annotation {ANNOTATION} names {shown(name)}, which is no rule")
    return names


def without_exceptions(located: Sequence[Located], baseline: Collection[Known]) -> list[Located]:
    """The findings that aren't left out; how many are is noted."""
    subjects = {id(one.subject): one.subject for one in located}
    rules = {key: ignored_rules(subject) for key, subject in subjects.items()}
    kept = [one for one in located if one.finding.rule not in rules[id(one.subject)] and known_of(one) not in baseline]
    if len(kept) < len(located):
        note(f"findings that are left out, by annotations and the baseline: {len(located) - len(kept)}")
    return kept
