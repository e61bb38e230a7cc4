"""Holds what `explain` writes to worked examples, to the plain run's report, and to its JSON form.

    tests/explain/check [PROGRAM]    with that program in the place of the one last built

- Each document of examples/explain is explained as its NAME.stdout has it, worked out by hand, with the warnings of
  NAME.warnings, where it is there.
- Each line of examples/conditions that has an answer is a measurement of a document: the answer that is explained is
  the line's. Each boolean part that needs no item, evaluated by itself as it is shown, has the value that it is said to
  have.
- For each document of examples/bundles, examples/providers and examples/explain: the object fits
  docs/report.schema.json, if Python has jsonschema; its runs, metrics and events are those of `run --plain`, and so are
  the warnings; its facts, printed as lines by checks.explain.lines, are byte for byte what is written without
  --output, but for how a condition is written; what runs and metrics wait for, which metrics a close settled, why
  events closed runs or came late, where values don't fit, which have no condition, and measured values as JSON has them
  are worked out again; each event, run and metric is explained by itself as it is among all.
- A text of 100 kB is cut, and odd names are those that Python's json writes, in lines as well.

The last line counts what came so.
"""

import json
import sys
from functools import partial

from checks.data import EXAMPLES, canonical, files_of_conditions, numbered_lines
from checks.explain.lines import lines_of_run
from checks.explain.runs import run_faults
from checks.explain.values import misfit_faults, value_faults
from checks.harness import Counts, built, named, side_by_side, started
from checks.made import document_of, template_of
from checks.schema import faults_by, validator

EXPLAINED = sorted((EXAMPLES / "explain").glob("*.json"))
DOCUMENTS = [
    *EXPLAINED,
    *sorted((EXAMPLES / "bundles").glob("*.json")),
    *sorted((EXAMPLES / "providers").glob("*.json")),
]
SHOWN_OF_EACH = 3
ODD_NAME = 'quote " and \\ backslash, line\nfeed, \x1b[31mred\x1b[0m, \U0001f600'


def ended(program, words, document):
    text = document if isinstance(document, bytes) else json.dumps(document).encode()
    return started([program, *words], text)


def single(condition, shape, value, name="made"):
    """A document with one run, one metric and one measurement."""
    template = template_of({"metrics": [{"name": name, "successCondition": condition}]}, "made")
    return document_of(template, {name: shape}, [name], [{"run": name, "metric": name, "value": value}])


def parts_of(program, document, whole):
    """What is wrong with the events that are explained by themselves."""
    for run in whole["runs"]:
        for one in run["events"]:
            alone = json.loads(
                ended(program, ["explain", "--output", "json", "--event", str(one["event"]["number"])], document)[1]
            )
            if alone["runs"] != [{**run, "events": [one]}]:
                yield f"event {one['event']['number']} by itself is explained otherwise"
        alone = json.loads(ended(program, ["explain", f"--run={run['name']}", "--output=json"], document)[1])
        if alone["runs"] != [run]:
            yield f"run {run['name']} by itself is explained otherwise"
    for name in {metric["metric"]["name"] for run in whole["runs"] for metric in run["metrics"]}:
        alone = json.loads(ended(program, ["explain", "--metric", name, "--output", "json"], document)[1])
        own = [
            {**run, "events": [one for one in run["events"] if one["event"]["metric"] in (name, None)]}
            for run in whole["runs"]
            if name in [one["event"]["metric"] for one in run["events"]]
        ]
        if alone["runs"] != own:
            yield f"metric {name} by itself is explained otherwise"


def faults(program, document, schema):
    """What is wrong with what is explained of a document."""
    status, lines, fault = ended(program, ["explain"], document)
    report = ended(program, ["run", "--plain"], document)
    if report[0] not in (0, 1):
        if (status, lines, fault) != report:
            yield f"expected the refusal of run, got {status} {fault}"
        return
    object_status, written, object_fault = ended(program, ["explain", "--output", "json"], document)
    object_report = ended(program, ["run", "--plain", "--output", "json"], document)
    if (status, fault, object_status, object_fault) != (0, report[2], 0, object_report[2]):
        yield f"status {status} and {object_status}, warnings other than those of run: {fault}{object_fault}"
        return
    whole = json.loads(written)
    if written != canonical(whole):
        yield "expected members in the order of their names, and no blanks"
    yield from faults_by(schema, whole)
    runs = json.loads(object_report[1])["runs"]
    facts = [
        {
            "name": run["name"],
            "phase": run["phase"],
            "metrics": [one["metric"] for one in run["metrics"]],
            "events": [one["event"] for one in run["events"]],
        }
        for run in whole["runs"]
    ]
    if facts != runs:
        yield "the runs are others than those of run --plain"
    for run in whole["runs"]:
        yield from run_faults(run)
    known = [line for run in whole["runs"] for line in lines_of_run(run)]
    given = lines.splitlines()
    if len(known) != len(given) or any(line not in (own, None) for line, own in zip(known, given)):
        yield "the lines are others than those of the object"
    yield from misfit_faults(json.loads(document), whole)
    yield from value_faults(json.loads(document), whole)
    yield from parts_of(program, document, whole)


def answer_word(answer):
    """An answer as the worked conditions have it."""
    return str(answer).lower() if isinstance(answer, bool) else f"fault {answer}"


def part_faults(program, case, conditions):
    """What is wrong with boolean parts that need no item: each is a condition by itself, and has the answer that its
    line says."""
    for part in (part for condition in conditions for part in condition["parts"]):
        is_cut = '"..' in part["part"] or "\\u" in part["part"]
        if part["items"] or is_cut or not isinstance(part["value"], bool):
            continue
        written = ended(program, ["eval", "--output", "json"], {**case, "condition": part["part"]})[1]
        if json.loads(written or '{"answer": null}')["answer"] != part["value"]:
            yield f"{part['part']} isn't {part['value']} by itself"


def worked_cases():
    """The worked conditions that have an answer, each with how it is called."""
    for path in files_of_conditions():
        for number, line in numbered_lines(path):
            case = json.loads(line)
            if "answer" in case:
                yield f"{named(path)}, line {number}", case


def worked_faults(program, case):
    """What is wrong with the explanation of a worked condition."""
    document = single(case["condition"], case["shape"], case["value"])
    status, written, fault = ended(program, ["explain", "--output", "json"], document)
    conditions = [
        condition
        for run in json.loads(written or '{"runs":[]}')["runs"]
        for one in run["events"]
        for condition in one["conditions"]
    ]
    answers = [answer_word(condition["answer"]) for condition in conditions]
    if (status, answers, fault) != (0, [case["answer"]], ""):
        yield f"status {status}, {answers}: {fault}"
    yield from part_faults(program, {name: case[name] for name in ("shape", "value")}, conditions)


def long_text(program):
    """A text of 100 kB: its first 64 characters, and how many are left out."""
    expected = f'  value: "{"x" * 64}".. and 99936 more characters'
    lines = ended(program, ["explain"], single('result != ""', "text", "x" * 100_000))[1].splitlines()
    return [] if expected in lines and max(map(len, lines)) < 300 else [f"expected {expected}"]


def long_condition(program):
    """A condition of 4,096 bytes, which is as long as one may be: its JSON has the whole text."""
    begin = 'result != "'
    condition = begin + "x" * (4096 - len(begin) - 1) + '"'
    status, written, fault = ended(program, ["explain", "--output", "json"], single(condition, "text", "y"))
    if status != 0 or len(condition) != 4096:
        return [f"status {status} of {len(condition)} bytes: {fault}"]
    explained = [one for run in json.loads(written)["runs"] for event in run["events"] for one in event["conditions"]]
    return [] if [(one["text"], one["answer"]) for one in explained] == [(condition, True)] else [f"got {explained}"]


def odd_name(program):
    lines = ended(program, ["explain"], single("result > 0", "whole", 1, ODD_NAME))[1].splitlines()
    shown = json.dumps(ODD_NAME, ensure_ascii=False)
    if not lines[0].startswith(f"run {shown} ") or "\x1b" in "".join(lines):
        return [f"expected the line of run {shown}"]
    written = ended(program, ["explain", "--output", "json"], single("result > 0", "whole", 1, ODD_NAME))[1]
    return (
        []
        if json.dumps(ODD_NAME, ensure_ascii=False) in written and written.count("\n") == 1
        else ["expected the name in one line"]
    )


def worked_document(program, path):
    warnings = path.with_suffix(".warnings")
    expected = (
        0,
        path.with_suffix(".stdout").read_text(encoding="utf-8"),
        warnings.read_text(encoding="utf-8") if warnings.is_file() else "",
    )
    got = ended(program, ["explain"], path.read_bytes())
    return [] if got == expected else [f"expected {expected}\ngot {got}"]


def main(words: list[str]) -> int:
    program, schema, counts = built(words), validator("explain"), Counts("explain")
    tried: list[tuple[str, partial]] = [(named(path), partial(worked_document, program, path)) for path in EXPLAINED]
    tried += [(named(path), partial(faults, program, path.read_bytes(), schema)) for path in DOCUMENTS]
    tried += [(name, partial(worked_faults, program, case)) for name, case in worked_cases()]
    for name, look in (("a long text", long_text), ("a long condition", long_condition), ("an odd name", odd_name)):
        tried.append((name, partial(look, program)))
    for (name, _), found in zip(tried, side_by_side(lambda case: list(case[1]()), tried)):
        counts.case(name, found, SHOWN_OF_EACH)
    return counts.end()


if __name__ == "__main__":
    sys.exit(main(sys.argv[1:]))
