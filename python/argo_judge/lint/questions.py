"""What the engine answers: on conditions and values in one start, and on a whole template."""
from collections.abc import Mapping, Sequence
from subprocess import CompletedProcess
from typing import NamedTuple, TypeAlias

from argo_judge.engine.limits import limits_of
from argo_judge.engine.program import judged, shell_status
from argo_judge.engine.refusals import Refusal, refusal_in
from argo_judge.engine.reports import EventReport, report_in
from argo_judge.errors import JUDGED, REFUSED, Refused, Status
from argo_judge.notes import note
from argo_judge.objects import Json, Object
from argo_judge.templates import API_VERSION, CONDITIONS

MOST_LIMIT = 1_000_000_000
# How the text of a refusal begins, by what it is of in the documents that are made here.
OF_RUN, OF_SHAPES, OF_MANIFEST = 'run 0 "lint", ', "shapes: ", "manifest: "


class Question(NamedTuple):
    """A bound condition, the shape of its values, and the values that it is asked on."""

    condition: str
    shape: Json
    values: list[Json]


class Answer(NamedTuple):
    """What the engine says of a condition: why it is refused, or else of each value true, false, or a fault's name."""

    refusal: Refusal | None
    answers: list[bool | str]


# A question with its number.
Numbered: TypeAlias = tuple[int, Question]


def metric_of(name: str) -> Object:
    """A metric that never ends, whose condition is put in as an argument, so that it is bound just once."""
    return {
        "name": name,
        "interval": "1m",
        "failureLimit": MOST_LIMIT,
        "consecutiveErrorLimit": MOST_LIMIT,
        "successCondition": f"{{{{args.{name}}}}}",
    }


def document_of(questions: Sequence[Numbered], has_values: bool) -> Object:
    """A document that asks some questions, by their numbers, on their values or on none."""
    names = {str(number): question for number, question in questions}
    spec = {"args": [{"name": name} for name in names], "metrics": [metric_of(name) for name in names]}
    manifest = {"apiVersion": API_VERSION, "kind": "AnalysisTemplate", "metadata": {"name": "lint"}, "spec": spec}
    entries = [
        {"run": "lint", "metric": name, "value": value}
        for name, question in names.items()
        if has_values
        for value in question.values
    ]
    return {
        "manifest": manifest,
        "shapes": {name: question.shape for name, question in names.items()},
        "runs": [{"name": "lint", "args": {name: question.condition for name, question in names.items()}}],
        "measurements": entries,
    }


def ended(engine: str, words: Sequence[str], made: Object) -> CompletedProcess[str]:
    """A start of the engine that ended with a verdict or a refusal."""
    start = judged(engine, words, made)
    if start.returncode not in (*JUDGED, REFUSED):
        for line in start.stderr.splitlines()[:1]:
            note(line)
        raise Status(shell_status(start.returncode))
    return start


def answer_of(event: EventReport) -> bool | str:
    """What the engine answered on a value: true, false, or a fault's name."""
    fault = event.get("fault")
    return event.get("verdict") == "Successful" if fault is None else fault


def without(refusal: Refusal, *fronts: str) -> Refusal:
    """A refusal whose text has no place in the document that is made here: these fronts are left out, one after
    another, where they are there."""
    text = refusal.text
    for front in fronts:
        text = text.removeprefix(front)
    return refusal._replace(text=text)


def refused_one(start: CompletedProcess[str], questions: Sequence[Numbered]) -> tuple[int, Refusal]:
    """The number of the question that the engine refuses, and the refusal."""
    refusal = refusal_in(start.stderr)
    if refusal.metric is None:
        raise Refused(f"the engine refuses the questions: {refusal.line}")
    number, _ = questions[refusal.metric]
    metric = f'metric {refusal.metric} "{number}"'
    return number, without(refusal, OF_RUN, OF_SHAPES, metric, f", {refusal.field}", ", ", ": ")


def some_answered(engine: str, questions: Sequence[Numbered]) -> dict[int, Answer]:
    """The answers to questions that have numbers, as many as one document takes. What is refused is found without
    values."""
    refused = {}
    start = ended(engine, ["run", "--plain", "--output", "json"], document_of(questions, True))
    while start.returncode == REFUSED:
        number, refusal = refused_one(start, questions)
        refused[number] = Answer(refusal, [])
        questions = [one for one in questions if one[0] != number]
        if not questions:
            return refused
        start = ended(engine, ["check", "--output", "json"], document_of(questions, False))
    if refused:
        start = ended(engine, ["run", "--plain", "--output", "json"], document_of(questions, True))
    events: list[EventReport] = report_in(start.stdout, "report")["runs"][0]["events"]
    answers = iter([answer_of(event) for event in sorted(events, key=lambda event: event["number"])])
    found = {number: Answer(None, [next(answers) for _ in question.values]) for number, question in questions}
    return {**refused, **found}


def answered(engine: str, questions: Sequence[Question]) -> list[Answer]:
    """The engine's answer to each question."""
    numbered, found = list(enumerate(questions)), {}
    most = limits_of(engine).metrics if questions else 1
    for begin in range(0, len(numbered), most):
        found.update(some_answered(engine, numbered[begin : begin + most]))
    return [found[number] for number in range(len(questions))]


# ---- the whole template


def refusal_of_template(engine: str, template: Object, names: Sequence[str], args: Mapping[str, str]) -> Refusal | None:
    """Why the engine refuses a template whose metrics have these names, whatever their conditions are; None where it
    takes it."""
    made = {
        "manifest": template,
        "shapes": {name: "bool" for name in names},
        "runs": [{"name": "lint", "args": args}],
        "measurements": [],
    }
    start = ended(engine, ["check", "--output", "json"], made)
    if start.returncode != REFUSED:
        return None
    refusal = refusal_in(start.stderr)
    # A field that is no text is refused before what it says is looked at.
    is_of_condition = refusal.field in CONDITIONS and refusal.name != "BadField"
    return None if is_of_condition else without(refusal, OF_RUN, OF_MANIFEST)
