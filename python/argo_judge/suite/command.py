"""Runs tests of analysis templates: what runs and metrics become of given answers, as argo_judge judges them.

    recipes/test tests.yaml                     a file of tests (a suite), or several, or folders of them
    recipes/test --filter "no traffic" tests/   the tests alone whose name has this text
    recipes/test --output junit tests/          as JUnit's XML; --output json as one JSON object
    recipes/test --mutate tests/                which limits and thresholds of the templates no test pins

A suite names a template and has tests; each gives the answers of metrics and what is expected of them:

    template: ../success-rate.yaml
    shapes: {success-rate: {list: decimal, max: 10}}
    tests:
    - name: two bad answers stop the release
      answers:
        success-rate: [[0.99], [0.91], {value: [0.90], verdict: Failed, effect: closed}]
      expect: {run: Failed, metrics: {success-rate: {failed: 2}}}

docs/use/test.md has each field. Of a test that fails there is what was expected and found, and why (`explain`).
--mutate moves each threshold by one millionth or, of whole numbers, by 1, and each limit by 1, up and down, judges the
tests anew, and lists the moves that none of them notices.

Status 0 where each test passes and, with --mutate, each move is noticed; 1 where one isn't; 2 where a file, or the
command line, is refused.
"""
from argparse import ArgumentParser, Namespace

from argo_judge.engine.limits import limits_of
from argo_judge.errors import GOOD, VERDICT, Refused
from argo_judge.files import write_text
from argo_judge.notes import kept_notes, note
from argo_judge.objects import shown
from argo_judge.options import add_engine_flag
from argo_judge.suite.explaining import Result, result_of
from argo_judge.suite.files import Suite, suites_in
from argo_judge.suite.judging import Subject, outcomes_of
from argo_judge.suite.mutating import trials_of
from argo_judge.suite.outputs import json_of, junit_of, text_of

WRITERS = {"text": text_of, "json": json_of, "junit": junit_of}


def chosen(suites: list[Suite], text: str | None) -> list[Suite]:
    """The suites with the tests alone whose name has a text, where one is given."""
    if text is None:
        return suites
    for suite in suites:
        suite.cases = [case for case in suite.cases if text in case.name]
    found = [suite for suite in suites if suite.cases]
    if not found:
        raise Refused(f"--filter: expected a part of a test's name, found {shown(text)}")
    return found


def results_of(engine: str, suite: Suite) -> list[Result]:
    """The results of a suite. What is noted of it is noted once, though a case may be judged once more by itself."""
    subject = Subject(suite.template, suite.shapes)
    with kept_notes() as lines:
        outcomes = list(outcomes_of(engine, subject, suite.cases))
    for line in dict.fromkeys(lines):
        note(line)
    return [result_of(engine, subject, suite, case, outcome) for case, outcome in outcomes]


def add_arguments(parser: ArgumentParser) -> None:
    """What the command takes, and the plugin's, too."""
    parser.add_argument("--filter", metavar="TEXT", help="run the tests alone whose name has this text")
    parser.add_argument("--mutate", action="store_true", help="list moves of limits and thresholds that none notices")
    parser.add_argument("-o", "--output", choices=WRITERS, default="text", help="what is written; text without it")
    add_engine_flag(parser)
    parser.add_argument("files", nargs="+", metavar="FILE", help="a suite in YAML or JSON, or a folder; - is the input")


def main(words: Namespace) -> int:
    """Runs the tests of suites, and writes what came of them."""
    suites = chosen(suites_in(words.files, limits_of(words.engine)), words.filter)
    results = [result for suite in suites for result in results_of(words.engine, suite)]
    passed = all(result.passed for result in results)
    trials = trials_of(words.engine, suites) if words.mutate and passed else None
    if words.mutate and not passed:
        note("--mutate: nothing is moved, since a test fails")
    write_text(WRITERS[words.output](results, trials))
    return GOOD if passed and not any(trial.unnoticed for trial in trials or ()) else VERDICT
