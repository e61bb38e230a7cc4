"""Results of suites as text, JSON and JUnit's XML."""
import json
from collections.abc import Iterator, Sequence
from typing import NamedTuple
from xml.etree import ElementTree

from argo_judge.notes import one_line
from argo_judge.objects import Object, shown
from argo_judge.suite.explaining import Result
from argo_judge.suite.moves import Move
from argo_judge.suite.mutating import Trial
from argo_judge.suite.nodes import Node
from argo_judge.xmltext import xml_text

VERSION = 1


def place_of(file: str, node: Node) -> str:
    """Where a test is, as compilers say it, so that editors find it."""
    return f"{file}:{node.line}" if node.line else f"{file} {node.pointer}"


def lines_of(result: Result) -> list[str]:
    """What differs of a case, and why."""
    lines = [f"{one.what}: expected {one.expected}, got {one.got}" for one in result.differences]
    lines += [f"and {result.more} more differences"] if result.more else []
    return lines + [f"  {line}" for line in result.reasons]


def counted(number: int, what: str) -> str:
    """A number of things."""
    return f"{number} {what}" if number == 1 else f"{number} {what}s"


# ---- text


def lines_of_moves(trial: Trial) -> Iterator[str]:
    """What is said of the moves of a suite's template."""
    for move in trial.unnoticed:
        yield f"UNNOTICED {trial.suite.file}: {move.line}"
        yield f"  needs {move.need}"
    for move, why in trial.passed_over:
        yield f"passed over {trial.suite.file}: {move.line}: {why}"
    tried = len(trial.noticed) + len(trial.unnoticed)
    said = f"{len(trial.noticed)} of {counted(tried, 'move')} noticed" if tried else "nothing to move"
    if not trial.cases:
        said = "nothing is moved, since each test expects a refusal"
    yield f"{trial.suite.file}: {said}"


def text_of(results: Sequence[Result], trials: Sequence[Trial] | None) -> str:
    """All lines, by file."""
    lines: list[str] = []
    by_file: dict[str, list[Result]] = {}
    for result in results:
        by_file.setdefault(result.suite.file, []).append(result)
    for file, own in by_file.items():
        for result in own:
            if not result.passed:
                lines.append(f"FAILED {place_of(file, result.case.node)}: {shown(result.case.name)}")
                lines += [f"  {line}" for line in lines_of(result)]
        lines.append(f"{file}: {sum(one.passed for one in own)} passed, {sum(not one.passed for one in own)} failed")
    for trial in trials or ():
        lines += lines_of_moves(trial)
    return "".join(f"{one_line(line)}\n" for line in [*lines, last_line(results, trials)])


def last_line(results: Sequence[Result], trials: Sequence[Trial] | None) -> str:
    """The sums."""
    failed = sum(not one.passed for one in results)
    unnoticed = sum(len(trial.unnoticed) for trial in trials or ())
    moves = "" if trials is None else f"; {counted(unnoticed, 'move')} unnoticed"
    return f"test: {len(results) - failed} passed, {failed} failed{moves}"


# ---- JSON


def object_of(result: Result) -> Object:
    """What JSON has of a result."""
    node = result.case.node
    found = [{"what": one.what, "expected": one.expected, "got": one.got} for one in result.differences]
    return {
        "file": result.suite.file,
        "line": node.line,
        "pointer": node.pointer,
        "name": result.case.name,
        "passed": result.passed,
        "differences": found,
        "moreDifferences": result.more,
        "reasons": result.reasons,
    }


def object_of_move(file: str, move: Move, noticed: bool | None, why: str | None = None) -> Object:
    """What JSON has of a move."""
    return {
        "file": file,
        "what": move.what,
        "before": move.before,
        "after": move.after,
        "noticed": noticed,
        "needs": None if noticed or why else move.need,
        "passedOver": why,
    }


def objects_of_moves(trial: Trial) -> list[Object]:
    """What JSON has of a trial's moves."""
    file = trial.suite.file
    return [
        *(object_of_move(file, move, True) for move in trial.noticed),
        *(object_of_move(file, move, False) for move in trial.unnoticed),
        *(object_of_move(file, move, None, why) for move, why in trial.passed_over),
    ]


def json_of(results: Sequence[Result], trials: Sequence[Trial] | None) -> str:
    """One JSON object."""
    moves = None if trials is None else [one for trial in trials for one in objects_of_moves(trial)]
    failed = sum(not one.passed for one in results)
    made = {
        "version": VERSION,
        "passed": len(results) - failed,
        "failed": failed,
        "cases": [object_of(result) for result in results],
        "moves": moves,
    }
    return json.dumps(made, ensure_ascii=False) + "\n"


# ---- JUnit


class JunitCase(NamedTuple):
    """A test of JUnit; it failed where there is a message."""

    name: str
    file: str
    message: str | None
    text: str


def junit_cases(results: Sequence[Result], trials: Sequence[Trial] | None) -> Iterator[JunitCase]:
    """Each test of JUnit; an unnoticed move is one that failed."""
    for result in results:
        lines = lines_of(result)
        yield JunitCase(result.case.name, result.suite.file, lines[0] if lines else None, "\n".join(lines))
    for trial in trials or ():
        for move in trial.noticed:
            yield JunitCase(f"move of {move.line}", trial.suite.file, None, "")
        for move in trial.unnoticed:
            yield JunitCase(f"move of {move.line}", trial.suite.file, "no test notices it", f"needs {move.need}")


def add_case(parent: ElementTree.Element, one: JunitCase) -> None:
    """Adds a test to those of its file."""
    case = ElementTree.SubElement(parent, "testcase", name=xml_text(one.name), classname=xml_text(one.file))
    if one.message is not None:
        ElementTree.SubElement(case, "failure", message=xml_text(one.message)).text = xml_text(one.text)


def junit_of(results: Sequence[Result], trials: Sequence[Trial] | None) -> str:
    """JUnit's XML."""
    by_file: dict[str, list[JunitCase]] = {}
    for one in junit_cases(results, trials):
        by_file.setdefault(one.file, []).append(one)
    root = ElementTree.Element("testsuites")
    for file, own in by_file.items():
        failures = sum(one.message is not None for one in own)
        counts = {"tests": str(len(own)), "failures": str(failures)}
        suite = ElementTree.SubElement(root, "testsuite", {"name": xml_text(file), **counts})
        for one in own:
            add_case(suite, one)
    return '<?xml version="1.0" encoding="utf-8"?>\n' + ElementTree.tostring(root, encoding="unicode") + "\n"
