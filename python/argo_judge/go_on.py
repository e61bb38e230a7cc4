"""Says whether to go on: whether a document's runs are judged, and each of them is Successful.

    recipes/go-on document.json

Starts argo_judge `run --ordered --output json` on the document, refuses a document with warnings (unless
--allow-warnings is given), holds the report to the document (every run, metric and event once, in its order), and
prints its text. Status 0 where there are runs and each of them is Successful; 1 where a run is anything else, Running
among it; that of argo_judge where it has another than 0 and 1 (2: the document is refused); 2 where there are
warnings, or report and document don't fit. As the last command of its line it stops a script under `set -e`.

A report that was made elsewhere, by `run --ordered --output json` or with `--plain`, is read from a pipe together with
its document, whose warnings aren't looked at:

    bin/argo_judge run --ordered --output json <document.json | recipes/go-on --document document.json
"""
from argparse import ArgumentParser, Namespace

from argo_judge.engine.program import judged_bytes, shell_status
from argo_judge.engine.refusals import hand_on, warnings_in
from argo_judge.engine.reports import BAD, checked, text_of
from argo_judge.errors import GOOD, JUDGED, VERDICT, Refused, Status
from argo_judge.files import read_bytes, read_text, write_text
from argo_judge.jsontext import parsed
from argo_judge.notes import say
from argo_judge.options import add_engine_flag


def show_warnings(errors: str, are_allowed: bool) -> None:
    """Shows the warnings of a document, and refuses it where it has some that aren't allowed."""
    warnings = warnings_in(errors)
    for warning in warnings:
        say(warning.line)
    if warnings and not are_allowed:
        raise Refused("the document has warnings; expected none, or --allow-warnings")


def made_report(engine: str, document: bytes, are_allowed: bool) -> tuple[str, bool]:
    """The report that the engine makes of a document, and whether it found each run good."""
    ended = judged_bytes(engine, ["run", "--ordered", "--output", "json"], document)
    errors = ended.stderr.decode("utf-8", "replace")
    if ended.returncode not in JUDGED:
        hand_on(ended.returncode, errors)
        raise Status(shell_status(ended.returncode))
    show_warnings(errors, are_allowed)
    return ended.stdout.decode("utf-8", "replace"), ended.returncode == GOOD


def add_arguments(parser: ArgumentParser) -> None:
    """What the command takes."""
    parser.add_argument("--document", dest="of_report", metavar="DOCUMENT", help="that of the report on standard input")
    add_engine_flag(parser)
    parser.add_argument("--allow-warnings", action="store_true", help="judge a document with warnings, too")
    parser.add_argument("document", nargs="?", metavar="DOCUMENT", help="the document to judge; - is standard input")


def main(words: Namespace) -> int:
    """Prints the report of a document, and ends with 0 where each of its runs is Successful."""
    if (words.document is None) == (words.of_report is None):
        raise Refused("command line: expected DOCUMENT, or --document DOCUMENT and its report on standard input")
    if words.of_report == "-":
        raise Refused("command line, --document: standard input has the report; expected the name of a file")
    document = read_bytes(words.document or words.of_report, "document")
    if words.of_report:
        text, good = read_text("-", "report"), None
    else:
        text, good = made_report(words.engine, document, words.allow_warnings)
    runs = checked(parsed(document.decode("utf-8", "replace"), "document"), text, "document", "report")
    if good is not None and good != all(run["phase"] not in BAD for run in runs):
        raise Refused("report: its phases and the status of argo_judge contradict one another")
    write_text(text_of(runs))
    return GOOD if all(run["phase"] == "Successful" for run in runs) else VERDICT
