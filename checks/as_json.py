"""Holds what the program writes with --output json to its form and to what it writes in words.

    tests/json/check [PROGRAM]    with that program in the place of the one last built

For each document of examples/bundles, examples/providers and examples/eval: the object is in one line and fits
docs/report.schema.json, if Python has jsonschema; its facts, printed as words by argo_judge.engine.reports and here,
are byte for byte what the program writes without --output; and both end with one status. What is said on standard
error, a refusal or warnings, is one such object, too, whose texts are the lines without --output. Of documents whose
names have quotes, line feeds, escape characters and characters beyond 16 bits the bytes, also of warnings, are those
that Python's json writes. The last line counts what came so.
"""

import json
import sys

from argo_judge.engine.reports import text_of
from checks.data import EXAMPLES, canonical
from checks.harness import Counts, built, named, side_by_side, started
from checks.made import document_of, event_object, measured, metric_object, template_of
from checks.schema import faults_by, validator

DOCUMENTS = [*sorted((EXAMPLES / "bundles").glob("*.json")), *sorted((EXAMPLES / "providers").glob("*.json"))]
EVALUATED = sorted((EXAMPLES / "eval").glob("*.json"))
COMMANDS = [["run", "--plain"], ["run", "--ordered", "--workers", "3"], ["check"]]
BOUNDS = ("operations", "depth", "budget")
SHOWN_OF_EACH = 3


def words_of(command, written):
    """What the program writes in words, by the object that it writes."""
    if command == "eval":
        return f"fault {written['fault']}\n" if written["answer"] is None else f"{json.dumps(written['answer'])}\n"
    if command == "check":
        return "".join(
            f"run {one['run']} metric {one['metric']} {one['condition']} "
            + " ".join(f"{name}={one[name]}" for name in BOUNDS)
            + "\n"
            for one in written["conditions"]
        )
    return text_of(written["runs"])


def said_lines(said):
    """What the program says on standard error without --output, by the object that it writes."""
    if "refusal" in said:
        return f"argo_judge: {said['refusal']['text']}\n"
    return "".join(f"argo_judge: warning: {warning['text']}\n" for warning in said["warnings"])


def faults_of_said(line, written, schema):
    """What is wrong with a refusal or warnings, as an object, where this is said without --output."""
    if not line or not written:
        return [] if line == written else [f"{written!r} is said, without --output {line!r}"]
    said = json.loads(written)
    found = [] if written == canonical(said) else ["expected members in the order of their names, and no blanks"]
    if said_lines(said) != line:
        found.append(f"{written!r} is said, without --output {line!r}")
    return found + [*faults_by(schema, said)]


def faults(program, words, text, schema):
    """What is wrong with the objects that a command writes of a document."""
    in_words, as_object = started([program, *words], text), started([program, *words, "--output", "json"], text)
    if in_words[0] != as_object[0]:
        return [f"status {as_object[0]}, without --output {in_words[0]}"]
    found = faults_of_said(in_words[2], as_object[2], schema)
    if found or in_words[0] not in (0, 1):
        return found if as_object[1] == "" or found else [f"a refused document has the output {as_object[1]!r}"]
    if as_object[1].count("\n") != 1 or not as_object[1].endswith("\n"):
        return ["expected one line"]
    written = json.loads(as_object[1])
    found = [] if words_of(words[0], written) == in_words[1] else ["the facts are others than those in words"]
    if as_object[1] != canonical(written):
        found.append("expected members in the order of their names, and no blanks")
    return found + [*faults_by(schema, written)]


ODD = [
    'quote " and \\ backslash',
    "line\nfeed, tab\t, return\r",
    "\x1b[31mred\x1b[0m \x00 \x1f \x7f",
    "\U0001f600 \u2028 \u202e é",
    "",
]


def odd_document():
    """A run and a metric of each odd name, and an event of each."""
    metrics = [{"name": name, "interval": "1m", "count": 2, "successCondition": "result > 0"} for name in ODD]
    template = template_of({"metrics": metrics, "dryRun": [{"metricName": ODD[0]}]}, "odd")
    events = [measured(name, name, 1) for name in ODD] + [{"run": ODD[0], "stop": True}]
    return document_of(template, dict.fromkeys(ODD, "whole"), ODD, events)


def odd_report():
    """Its report, worked out by hand: each run has one measurement, Successful, and the first is stopped at the end."""
    runs = []
    for index, name in enumerate(ODD):
        own = {other: "Running" if other == name else "Pending" for other in ODD}
        phases = own if index else dict.fromkeys(ODD, "Successful")
        metrics = [
            metric_object(other, phases[other], 2, dry=other == ODD[0], successful=int(other == name)) for other in ODD
        ]
        events = [event_object(index, name, "Successful")]
        if not index:
            events.append(event_object(len(ODD), None, None, effect="closed", phase="Successful"))
        runs.append({"name": name, "phase": phases[name], "metrics": metrics, "events": events})
    return {"runs": runs, "version": 1}


def odd_faults(program):
    expected = (0, canonical(odd_report()), "")
    got = started([program, "run", "--plain", "--output=json"], json.dumps(odd_document()).encode())
    return [] if got == expected else [f"odd names: expected {expected}, got {got}"]


# The odd names as lines have them.
SHOWN = [
    '"quote \\" and \\\\ backslash"',
    '"line\\nfeed, tab\\t, return\\r"',
    '"\\u001b[31mred\\u001b[0m \\u0000 \\u001f \\u007f"',
    '"\U0001f600 \\u2028 \\u202e é"',
    '""',
]
WANTED = {
    "FloatNumber": 'a whole JSON number, or a decimal as a text, as "0.95"',
    "WrongKind": "a value of the declared shape",
}


def warning_of(text, name, pointer, found, expected=None, hint=None, **place):
    """A warning, in whose place there is null where nothing is given."""
    members = dict.fromkeys(("argument", "entry", "excerpt", "field", "metric", "offset", "run"))
    return {
        "name": name,
        "place": {**members, **place},
        "pointer": pointer,
        "found": found,
        "expected": expected,
        "hint": hint,
        "position": None,
        "text": text,
    }


def odd_warnings():
    """The warnings of the odd document without conditions, of whose metrics each is measured twice: first as it has to
    be and then by a fraction, or, each second one, by a text."""
    found = []
    for number, (name, shown) in enumerate(zip(ODD, SHOWN)):
        why = "no condition, so each measured value is Successful"
        found.append(
            warning_of(
                f"metric {number} {shown}: {why}",
                "NoCondition",
                f"/manifest/spec/metrics/{number}",
                why,
                part="manifest",
                metric={"number": number, "name": name},
            )
        )
    for number, shown in enumerate(SHOWN):
        fault, entry = "WrongKind" if number % 2 else "FloatNumber", len(ODD) + number
        why, hint = f"{fault}, the first such error of metric {shown}", f"`explain --event {entry}` shows where"
        text = f"measurements[{entry}].value: {why}; expected {WANTED[fault]}; {hint}"
        found.append(
            warning_of(
                text,
                fault,
                f"/measurements/{entry}/value",
                why,
                WANTED[fault],
                hint,
                part="measurements",
                entry=entry,
                field="value",
            )
        )
    return {"version": 1, "warnings": found}


def warned_faults(program):
    """What is wrong with the warnings of odd names."""
    document = odd_document()
    for metric in document["manifest"]["spec"]["metrics"]:
        del metric["successCondition"]
    events = [measured(name, name, "x" if number % 2 else 0.5) for number, name in enumerate(ODD)]
    document["measurements"][len(ODD) :] = events
    text, expected = json.dumps(document).encode(), canonical(odd_warnings())
    commands = [["run", "--plain"], ["run", "--ordered"], ["run", "--workers", "1"], ["check"], ["explain"]]
    got = [(words, started([program, *words, "--output=json"], text)) for words in commands]
    return [
        f"{' '.join(words)}: expected {expected}, got {status} {said}"
        for words, (status, _, said) in got
        if (status, said) != (0, expected)
    ]


LONG = 1_000


def long_faults(program):
    """A report of over 64 KiB: one metric that is measured often, and each time Successful."""
    template = template_of({"metrics": [{"name": "m", "interval": "1m", "successCondition": "result > 0"}]}, "long")
    document = document_of(template, {"m": "whole"}, ["r"], [measured("r", "m", 1)] * LONG)
    metric = metric_object("m", "Running", None, successful=LONG)
    events = [event_object(number, "m", "Successful") for number in range(LONG)]
    runs = [{"name": "r", "phase": "Running", "metrics": [metric], "events": events}]
    report = canonical({"runs": runs, "version": 1})
    if len(report) <= 2**16:
        return [f"a report of {len(report)} bytes is no long one"]
    status, written, fault = started([program, "run", "--plain", "--output", "json"], json.dumps(document).encode())
    return [] if (status, written, fault) == (0, report, "") else [f"status {status}, {len(written)} bytes: {fault}"]


def main(words: list[str]) -> int:
    program, schema, counts = built(words), validator("json"), Counts("json")
    cases = [(document, command) for document in DOCUMENTS for command in COMMANDS]
    cases += [(document, ["eval"]) for document in EVALUATED]
    found = side_by_side(lambda case: faults(program, case[1], case[0].read_bytes(), schema), cases)
    for (document, command), own in zip(cases, found):
        counts.case(f"{named(document)}, {' '.join(command)}", own, SHOWN_OF_EACH)
    counts.case("names", odd_faults(program), SHOWN_OF_EACH)
    counts.case("warnings of odd names", warned_faults(program), SHOWN_OF_EACH)
    counts.case("a long report", long_faults(program), SHOWN_OF_EACH)
    return counts.end()


if __name__ == "__main__":
    sys.exit(main(sys.argv[1:]))
