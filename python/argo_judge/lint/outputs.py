"""Findings as lines, as JSON, and as commands of GitHub's workflows."""
import json
from collections.abc import Sequence
from typing import NamedTuple

from argo_judge.lint.findings import PAGE, Finding, Severity
from argo_judge.lint.subjects import Subject
from argo_judge.notes import one_line
from argo_judge.objects import Object

VERSION = 1
STANDARD_INPUT = "standard input"
# GitHub has no commands of other names.
COMMANDS = {Severity.ERROR: "error", Severity.WARNING: "warning", Severity.INFO: "notice"}


class Located(NamedTuple):
    """A finding and the template that it is of."""

    subject: Subject
    finding: Finding

    @property
    def file(self) -> str | None:
        """Its file; None of standard input."""
        return None if self.subject.found.file == "-" else self.subject.found.file

    @property
    def line(self) -> int | None:
        """Its line, if it is known."""
        return self.subject.found.line_of(self.finding.pointer)

    @property
    def pointer(self) -> str:
        """Its JSON pointer in the file."""
        return self.subject.found.pointer + self.finding.pointer

    @property
    def page(self) -> str:
        """Where the pages say more of the rule."""
        return f"{PAGE}#{self.finding.rule}"


def sums_of(located: Sequence[Located]) -> dict[str, int]:
    """How many findings there are of each severity."""
    return {severity.value: sum(one.finding.severity == severity for one in located) for severity in Severity}


def counted(number: int, name: str) -> str:
    """A number of things."""
    return f"{number} {name}" if number == 1 else f"{number} {name}s"


def sums_line(located: Sequence[Located], subjects: Sequence[Subject]) -> str:
    """The last line: how many templates were looked at, and what was found."""
    sums = [counted(number, name) for name, number in sums_of(located).items() if number]
    return f"{counted(len(subjects), 'template')}: {', '.join(sums) or 'nothing found'}"


def as_text(located: Sequence[Located], subjects: Sequence[Subject]) -> str:
    """Lines as compilers write them."""
    lines = []
    for one in located:
        finding, place = one.finding, one.file or STANDARD_INPUT
        at = place if one.line is None else f"{place}:{one.line}"
        lines.append(f"{at}: {finding.severity.value}: {finding.message} [{finding.rule}]")
        lines += [f"    at: {one.pointer or '/'}"] if one.line is None else []
        lines.append(f"    mend: {finding.mend}")
    return "".join(f"{one_line(line)}\n" for line in [*lines, sums_line(located, subjects)])


def member_of(one: Located) -> Object:
    """What JSON has of a finding."""
    finding = one.finding
    return {
        "file": one.file,
        "kind": one.subject.kind,
        "line": one.line,
        "mend": finding.mend,
        "message": finding.message,
        "name": one.subject.name,
        "page": one.page,
        "pointer": one.pointer,
        "rule": finding.rule,
        "severity": finding.severity.value,
    }


def as_json(located: Sequence[Located], subjects: Sequence[Subject]) -> str:
    """One JSON object."""
    made = {
        "findings": [member_of(one) for one in located],
        "sums": sums_of(located),
        "templates": len(subjects),
        "version": VERSION,
    }
    return json.dumps(made, ensure_ascii=False, indent=2) + "\n"


def escaped(text: str) -> str:
    """A text in a command of GitHub's."""
    return text.replace("%", "%25").replace("\r", "%0D").replace("\n", "%0A")


def escaped_property(text: str) -> str:
    """A property's text there."""
    return escaped(text).replace(":", "%3A").replace(",", "%2C")


def command_of(one: Located) -> str:
    """The command that shows a finding."""
    finding = one.finding
    given = {"file": one.file, "line": one.line, "title": finding.rule}
    words = ",".join(f"{name}={escaped_property(str(value))}" for name, value in given.items() if value is not None)
    at = f" ({one.pointer})" if one.line is None else ""
    lines = one_line(finding.message + at), one_line(f"mend: {finding.mend}")
    return f"::{COMMANDS[finding.severity]} {words}::" + "%0A".join(map(escaped, lines)) + "\n"


def as_github(located: Sequence[Located], subjects: Sequence[Subject]) -> str:
    """Commands of GitHub's workflows."""
    return "".join(map(command_of, located)) + sums_line(located, subjects) + "\n"
