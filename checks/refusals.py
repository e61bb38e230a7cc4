"""Looks whether each refusal has a case.

    tests/refusals/check

Refusals are the variants of the public error types of crates/: of what a Result has as its error, of what derives
`Error`, and of what these hold. A case is a line of conformance/, or a document or a line of examples/, whose expected
answer names the variant; of the suite only the calls count that answer by the type; warnings don't count. What no data
brings about is in the table OTHERS, with a test of it. Each variant without a case is printed, and so is each refusal
and each warning of examples/commands.jsonl that is too long. The last line has the counts, and the status is 0 where
none failed.
"""

import collections
import json
import re
import sys

from checks import ROOT
from checks.data import EXAMPLES, cases_of, files_of_conditions, files_of_suite, numbered_lines
from checks.harness import Counts

COMMAND_LINES = EXAMPLES / "commands.jsonl"
# The calls of the suite that answer by a type, or the commands in examples/.
COMMANDS = {"eval", "run"}
CALLS = {
    "BuildCause": ("judge",),
    "BuildError": ("judge",),
    "BundleError": ("read_bundle",),
    "CompileError": ("compile",),
    "Cause": ("verify",),
    "EvalError": ("eval",),
    "Failure": ("run_tested",),
    "Fault": ("add", "subtract", "divide", "run_tested", "condition"),
    "ImageError": ("decode",),
    "JsonError": ("read_json",),
    "ManifestError": ("bind",),
    "NumberFault": ("decimal",),
    "Reason": ("verify",),
    "Refusal": ("eval", "run"),
    "ShapeError": ("read_shape",),
    "ShapeFault": ("read_value",),
    "SyntaxError": ("parse",),
    "TypeError": ("check",),
    "UsageError": ("command_of",),
}

# How an expected answer names a variant, where not by its own name; `{TYPE}` is any variant of a type.
WRITTEN = {
    ("Cause", "Fault"): r"^{Reason} at \d",
    ("EvalError", "Shape"): r"^shape: {ShapeError}",
    ("Failure", "Fault"): r"^fault {Fault}",
    ("Failure", "IllKinded"): r"^stuck \d",
    ("EvalError", "Grammar"): r"^condition, byte \d+: {SyntaxError}",
    ("EvalError", "Kinds"): r"^condition, byte \d+: {TypeError}",
    ("EvalError", "Compiler"): r"^condition: {CompileError}",
    ("EvalError", "Verifier"): r"^condition: {Reason}",
    ("EvalError", "Misfit"): r"^value: {ShapeFault}",
    ("Refusal", "Eval"): r"^{EvalError}|^condition, byte",
    ("Refusal", "Bundle"): r"{BundleError}",
}

# What no data brings about, with a test of it, and words that are in its file.
REFUSED = "checks/faults/memory.py"
DEVICES = "checks/faults/devices.py"
SUITE = "checks/faults/conformance.py"
BOARDS = "crates/tests_of_runs/src/boards.rt"
MEMORY = "OutOfMemory"
# How many characters a refusal has at most, without quoted names and without the condition that it quotes; and a
# warning, which says, too, what shows more.
LONGEST, LONGEST_WARNING = 160, 190
WARNING = "argo_judge: warning: "
OTHERS = {
    ("CaseFault", "Member"): (SUITE, "Member"),
    ("CaseFault", MEMORY): (SUITE, "REFUSE_CALL"),
    ("DeviceFault", "DeviceFault"): (DEVICES, "EISDIR"),
    ("Double", "Double"): (BOARDS, "Err(Double)"),
    ("InputError", "Read"): (DEVICES, "EISDIR"),
    ("InputError", MEMORY): (REFUSED, "REFUSE_CALL"),
    ("LineFault", "Case"): (SUITE, "Member"),
    ("LineFault", "Device"): (SUITE, "Device"),
    ("LineFault", "NoJson"): (SUITE, "NoJson"),
    ("LineFault", "UnknownCall"): (SUITE, "UnknownCall"),
    ("LookFault", MEMORY): ("checks/faults/boards.py", "Err(OutOfMemory)"),
    ("LookFault", "Stale"): (BOARDS, "Err(Stale(1))"),
    ("Lost", "Lost"): (BOARDS, "lost 1: "),
    ("ServeError", "Read"): (DEVICES, "EISDIR"),
    ("ServeError", MEMORY): (REFUSED, "REFUSE_CALL"),
    ("ServeError", "Refused"): ("checks/examples/check.py", ".refused"),
    ("ServeError", "Work"): (REFUSED, "is_without_thread"),
    ("ServeError", "Write"): (DEVICES, "ENOSPC"),
    ("StreamError", "NotJson"): ("examples/commands.jsonl", "Utf8OrJson"),
    ("StreamError", MEMORY): (REFUSED, "REFUSE_CALL"),
    ("TreeError", "OutOfRange"): ("examples/commands.jsonl", "1e999"),
    ("TreeError", MEMORY): (REFUSED, "REFUSE_CALL"),
    ("Unfinished", "NoThread"): (REFUSED, "is_without_thread"),
    ("Unfinished", MEMORY): (REFUSED, "REFUSE_CALL"),
    ("WorkError", "NoThread"): (REFUSED, "is_without_thread"),
    ("WorkError", MEMORY): (REFUSED, "REFUSE_CALL"),
    ("WorkError", "Lost"): (BOARDS, "lost 1: "),
}

DECLARED = re.compile(r"^pub (enum|struct) (\w+)(?: \{\n(.*?)^\}|;)", re.MULTILINE | re.DOTALL)


# The error types


def declarations():
    """The public enums and structs of all crates: the kind and the body by crate and name."""
    found = {}
    for path in sorted((ROOT / "crates").glob("*/src/**/*.rt")):
        text = path.read_text(encoding="utf-8")
        crate = path.relative_to(ROOT / "crates").parts[0]
        for kind, name, body in DECLARED.findall(text):
            found[crate, name] = (kind, body, text)
    return found


def error_of(text, begin):
    """The name of the second type between the angle brackets that were opened before a place."""
    depth, comma = 0, 0
    for place in range(begin, len(text)):
        character = text[place]
        if character == ">" and depth == 0:
            return text[comma + 1 : place].strip().rsplit("::")[-1] if comma else None
        if character == "," and depth == 0:
            comma = place
        depth += (character in "<([") - (character in ")]" or (character == ">" and text[place - 1] != "-"))
    return None


def named_errors(text):
    """The names of what Results have as their errors, and of what derives `Error`."""
    names = {error_of(text, opened.end()) for opened in re.finditer(r"\bResult<", text)} - {None}
    return names | set(re.findall(r"derive\([^)]*\bError\)\](?:\n#.*)*\npub (?:enum|struct) (\w+)", text))


def meant(found, crate, name, text):
    """The declaration that a name in a crate's file means."""
    if (crate, name) in found:
        return crate, name
    for other, declared in found:
        if declared == name and re.search(rf"use {other}::[^;]*\b{name}\b", text):
            return other, declared
    return None


def error_types(found):
    types = set()
    for path in sorted((ROOT / "crates").glob("*/src/**/*.rt")):
        text = path.read_text(encoding="utf-8")
        crate = path.relative_to(ROOT / "crates").parts[0]
        types |= {meant(found, crate, name, text) for name in named_errors(text)}
    return closed(found, types - {None})


def closed(found, types):
    """The types with all enums that they hold."""
    unseen = list(types)
    while unseen:
        crate, name = unseen.pop()
        _, body, text = found[crate, name]
        for word in set(re.findall(r"\b[A-Z]\w+", code(body))):
            held = meant(found, crate, word, text)
            if held and held not in types and found[held][0] == "enum":
                types.add(held)
                unseen.append(held)
    return types


def code(body):
    """A body without comments and attributes."""
    return re.sub(r"^ *(//.*|#\[.*)$", "", body, flags=re.MULTILINE)


def variants(found, key):
    """The variants of an enum; a struct is its only one, unless it holds an error."""
    kind, body, _ = found[key]
    if kind == "struct":
        return [] if re.search(r"\bcause\b", body) else [key[1]]
    return re.findall(r"^    ([A-Z]\w*)", code(body), re.MULTILINE)


# The cases


def suite_answers():
    """The answers of the suite by call."""
    answers = collections.defaultdict(list)
    for path in files_of_suite():
        for case in cases_of(path):
            answers[case["call"]].append(case["answer"])
    return answers


def all_answers():
    """The expected answers by call; those of examples are under their commands, without the program's name."""
    answers = suite_answers()
    for path in files_of_conditions():
        answers["eval"] += [case["refused"] for case in cases_of(path) if "refused" in case]
    for case in cases_of(COMMAND_LINES):
        command = "eval" if "eval" in case["words"] else "run"
        if case.get("status") not in (0, 1):
            answers[command] += [case[member] for member in ("refused", "stderr") if member in case]
    for path in sorted((ROOT / "examples/bundles").glob("*.refused")):
        answers["run"].append(path.read_text(encoding="utf-8"))
    return answers


def has_case(answers, by_name, name, variant):
    pattern = WRITTEN.get((name, variant), rf"\b{variant}\b")
    written = re.sub(r"\{([A-Z]\w+)\}", lambda word: rf"\b(?:{'|'.join(by_name[word[1]])})\b", pattern)
    return any(re.search(written, answer) for call in CALLS.get(name, ()) for answer in answers[call])


def other_test(name, variant):
    """The entry of the table; memory is refused to all calls of the suite, and to all commands."""
    if variant == MEMORY and name in CALLS:
        return REFUSED if set(CALLS[name]) <= COMMANDS else SUITE, "REFUSE_CALL"
    return OTHERS.get((name, variant))


def is_tested(name, variant):
    """Whether the table names a test of the variant, whose file has the words."""
    entry = other_test(name, variant)
    if entry is None:
        return False
    path = ROOT / entry[0]
    return path.is_file() and entry[1] in path.read_text(encoding="utf-8")


def without_names(line):
    """A refusal without the condition that it quotes, and without its quoted names."""
    return re.sub(r'"(?:[^"\\]|\\.)*"(?:\.\.)?', "", re.sub(r'; in (?:\.\.)?".*?"(?:\.\.)?(?=$|; )', "", line))


def long_lines():
    """The lines of standard error in examples/commands.jsonl that are longer than a refusal or a warning may be."""
    for number, line in numbered_lines(COMMAND_LINES):
        for said in json.loads(line).get("stderr", "").splitlines():
            most = LONGEST_WARNING if said.startswith(WARNING) else LONGEST
            if len(without_names(said)) > most:
                yield f"examples/commands.jsonl:{number}: a line of over {most} characters without names"


def main(words: list[str]) -> int:
    found, counts = declarations(), Counts("refusals")
    types = sorted(error_types(found))
    by_name = {key[1]: variants(found, key) for key in types}
    answers = all_answers()
    for crate, name in types:
        for variant in variants(found, (crate, name)):
            good = is_tested(name, variant) or has_case(answers, by_name, name, variant)
            counts.expect(good, f"{crate}::{name}::{variant}: no case")
    for fault in long_lines():
        counts.expect(False, fault)
    return counts.end()


if __name__ == "__main__":
    sys.exit(main(sys.argv[1:]))
