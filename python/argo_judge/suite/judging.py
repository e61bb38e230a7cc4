"""What the engine says of cases: many of them are runs of one document."""
import json
from collections.abc import Callable, Iterator, Sequence
from subprocess import CompletedProcess
from typing import NamedTuple, NoReturn

from argo_judge.engine.limits import Limits, limits_of
from argo_judge.engine.program import judged, shell_status
from argo_judge.engine.refusals import Refusal, Warned, hand_on, refusal_in, warnings_in
from argo_judge.engine.reports import RunReport, checked
from argo_judge.errors import JUDGED, REFUSED, Status
from argo_judge.notes import note
from argo_judge.objects import Object
from argo_judge.suite.cases import Answer, Case


class Subject(NamedTuple):
    """What cases are judged by: a template, the shapes of its metrics, and the arguments of a case's run."""

    template: Object
    shapes: Object
    args_of: Callable[[Case], dict[str, str]] = lambda case: case.args


class Outcome(NamedTuple):
    """What the engine says of a case: its run of a report, or a refusal."""

    run: RunReport | None
    refusal: Refusal | None


# ---- documents


def document_of(subject: Subject, cases: Sequence[Case]) -> Object:
    """The document whose runs are these cases."""
    runs = [{"name": case.name, "args": subject.args_of(case)} for case in cases]
    entries = [
        {"run": case.name, **({} if answer.metric is None else {"metric": answer.metric}), **answer.members}
        for case in cases
        for answer in case.in_order()
    ]
    return {"manifest": subject.template, "shapes": subject.shapes, "runs": runs, "measurements": entries}


def parts_of(cases: Sequence[Case], first_size: int, limits: Limits) -> Iterator[list[Case]]:
    """Cases in parts that fit one document each. One that expects a refusal is alone: it would be one of all."""
    part: list[Case] = []
    count, size = 0, first_size
    for case in cases:
        is_alone = case.expected.refused is not None
        is_larger = count + case.count > limits.measurements or size + case.size > limits.document_bytes
        is_full = len(part) == limits.runs or is_larger
        if part and (is_full or is_alone):
            yield part
            part, count, size = [], 0, first_size
        if is_alone:
            yield [case]
        else:
            part, count, size = [*part, case], count + case.count, size + case.size
    if part:
        yield part


# ---- the engine


def ended_otherwise(ended: CompletedProcess[str]) -> NoReturn:
    """Ends as the engine did where it neither judged nor refused a document, with its own line."""
    hand_on(ended.returncode, ended.stderr)
    raise Status(shell_status(ended.returncode))


def answered(engine: str, words: Sequence[str], document: Object) -> CompletedProcess[str] | Refusal:
    """What the engine writes of a document, or its refusal."""
    ended = judged(engine, words, document)
    if ended.returncode == REFUSED:
        return refusal_in(ended.stderr)
    if ended.returncode not in JUDGED:
        ended_otherwise(ended)
    return ended


def expects_error(answer: Answer) -> bool:
    """Whether a test expects an error of an answer."""
    return answer.expected.verdict[:1] == ("Error",) or answer.expected.fault is not None


def note_warnings(cases: Sequence[Case], warnings: Sequence[Warned]) -> None:
    """Notes what the engine warns of in a document of these cases: of the template under the suite's name, and of a
    measurement where its answer is, unless that expects an error."""
    answers = [answer for case in cases for answer in case.in_order()] if warnings else []
    for warning in warnings:
        if warning.entry is None:
            note(f"{cases[0].node.found.file}: {warning.text}")
        elif not expects_error(answers[warning.entry]):
            note(f"{answers[warning.entry].node.where}: {warning.found}; expected {warning.expected}")


def outcomes_of_part(engine: str, subject: Subject, cases: Sequence[Case]) -> list[Outcome]:
    """The outcome of each case of a part; where their document is refused each has one of its own."""
    document = document_of(subject, cases)
    found = answered(engine, ["run", "--plain", "--output", "json"], document)
    if not isinstance(found, Refusal):
        note_warnings(cases, warnings_in(found.stderr))
        return [Outcome(run, None) for run in checked(document, found.stdout, "document", "report")]
    if len(cases) == 1:
        return [Outcome(None, found)]
    return [outcome for case in cases for outcome in outcomes_of_part(engine, subject, [case])]


def outcomes_of(engine: str, subject: Subject, cases: Sequence[Case]) -> Iterator[tuple[Case, Outcome]]:
    """Each case with its outcome."""
    first_size = len(json.dumps([subject.template, subject.shapes])) + 1024
    for part in parts_of(cases, first_size, limits_of(engine)):
        yield from zip(part, outcomes_of_part(engine, subject, part))
