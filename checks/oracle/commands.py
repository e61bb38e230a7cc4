"""What the commands of the program have to write of a document, by docs/use/formats.md, read apart from the program."""

import json
import re

from checks.data import canonical
from checks.oracle.answers import eval_answer
from checks.oracle.bundles import read_bundle
from checks.oracle.cautions import cautions
from checks.oracle.jsontext import read_json
from checks.oracle.refused import Refused
from checks.oracle.reports import BAD, bounds_lines, bounds_object, list_lines, report, report_object, run_phases

PLAIN = ("run", "--plain")
ORDERED = ("run", "--ordered", "--workers", "2")
# One worker posts in the order of the document.
POSTED = ("run", "--workers", "1")
EXPLAIN = ("explain",)
AS_JSON = ("--output", "json")
COMMANDS = (
    PLAIN,
    ORDERED,
    PLAIN + AS_JSON,
    ORDERED + AS_JSON,
    POSTED,
    POSTED + AS_JSON,
    ("check",),
    ("check",) + AS_JSON,
    ("list",),
    EXPLAIN,
    EXPLAIN + AS_JSON,
)
EVALS = (("eval",), ("eval",) + AS_JSON)
MEMBERS = {"UnknownRun": r"\[{}\]\.run", "UnknownMetric": r"\[{}\]\.metric", "BadEntry": r"(?:\[{}\])?"}
NAME = r'"(?:[^"\\]|\\.)*"(?:\.\.)?'


def of_condition(refused):
    """Where in its text a refused condition is at fault, and its name."""
    if refused.name == "Verifier":
        return "", refused.details[1]
    inner = refused.details[0]
    if refused.name == "Compiler":
        return "", inner.name
    return f", byte {(inner.details or (4_096,))[0]}", inner.name


def where_of(refused):
    """How the line of a refused bundle begins, as a regular expression, and the name in it."""
    name, details = refused.name, refused.details
    if name in ("TooLarge", "Utf8OrJson"):
        return "document", name
    if name == "Manifest":
        return "manifest(?:, .*|: .*)?", details[0].name
    if name in ("ShapeMissing", "Shapes"):
        return f"shapes: metric {details[0]} {NAME}", details[1].name if name == "Shapes" else name
    if name == "Runs":
        return "runs", name
    if name == "DoubleRun":
        return rf"runs\[{details[0]}\]", name
    if name == "Bind":
        return f"run {details[0]} {NAME}, metric {details[1].details[0]} {NAME}", details[1].name
    if name == "Build":
        side = details[2].name.lower() + "Condition"
        at, inner = of_condition(details[2].details[0])
        return f"run {details[0]} {NAME}, metric {details[1]} {NAME}, {side}{at}", inner
    return "measurements" + MEMBERS.get(name, "").format(*details), name


def refusal(where, name):
    return 2, b"", rf"argo_judge: {where}: {name}(?:: .*)?\n"


def text_of(lines):
    return "".join(f"{line}\n" for line in lines).encode()


def answer_line(words, line):
    """What a condition says, in the line that `eval` writes."""
    if words[1:] != AS_JSON:
        return f"{line}\n".encode()
    fault = line.removeprefix("fault ") if line.startswith("fault ") else None
    return canonical({"answer": None if fault else line == "true", "fault": fault, "version": 1}).encode()


def answer_of_bundle(words, bundle):
    """The status of a command and its output, None where any may come: what `explain` writes isn't read apart here."""
    is_json = words[-2:] == AS_JSON
    if words[0] == "run":
        status = 1 if any(phase in BAD for phase in run_phases(bundle)) else 0
        return status, canonical(report_object(bundle)).encode() if is_json else text_of(report(bundle))
    if words[0] == "check":
        return 0, canonical(bounds_object(bundle)).encode() if is_json else text_of(bounds_lines(bundle))
    return 0, None if words[0] == "explain" else text_of(list_lines(bundle))


def expected_of_bundle(words, document):
    """The status of a command, its output, and the regular expression of its lines on standard error."""
    try:
        bundle = read_bundle(document)
    except Refused as refused:
        return refusal(*where_of(refused))
    warned = [] if words[0] == "list" else cautions(read_json(document), bundle)
    return *answer_of_bundle(words, bundle), re.escape(text_of(warned).decode())


def expected_of_eval(words, document):
    try:
        read = read_json(document)
    except Refused as refused:
        return refusal("document", refused.name)
    if not isinstance(read, dict) or not isinstance(read.get("condition"), str) or not {"shape", "value"} <= set(read):
        return refusal("document", "BadDocument")
    line, is_refused = eval_answer(read["condition"], read["shape"], read["value"])
    if is_refused:
        return refusal(*(re.escape(part) for part in line.rsplit(": ", 1)))
    return 0, answer_line(words, line), ""


def expected_of(words, document):
    return expected_of_eval(words, document) if words[0] == "eval" else expected_of_bundle(words, document)


def said_lines(words, said):
    """What the program says on standard error, in lines: with --output json a refusal, or warnings, is one object."""
    if words[-2:] != AS_JSON or not said.startswith("{"):
        return said
    written = json.loads(said)
    if canonical(written) != said:
        return said
    if "refusal" in written:
        return f"argo_judge: {written['refusal']['text']}\n"
    return "".join(f"argo_judge: warning: {warning['text']}\n" for warning in written["warnings"])


def is_right(words, expected, got):
    is_answer = got[0] == expected[0] and expected[1] in (None, got[1])
    return is_answer and re.fullmatch(expected[2], said_lines(words, got[2])) is not None
