"""Refuses the program memory, growth by growth, and threads, one by one."""

import itertools
from functools import partial
from typing import NamedTuple

from checks import ROOT
from checks.faults.answers import Answer, is_answer
from checks.faults.documents import AS_JSON, BUNDLES, CONDITIONS, SHAPELESS, repeated
from checks.faults.errors import is_out_of_memory, is_without_thread, is_without_warnings

EXAMPLE = ROOT / "examples/bundles/success-rate"
EXPLAINED = [ROOT / "examples/explain" / name for name in ("dry-and-bound", "fault-in-a-filter", "misfit")]
WITH_WORKERS = ("run --workers 2", "run --ordered --workers 2")
OF_RUNS = WITH_WORKERS + ("run --plain",)
MOST_GROWTHS = 5_000
# A document of a template takes at least this many growths, and a command line this many.
OF_TEMPLATE, OF_WORDS = 100, 20
# Each of this many measurements takes memory as it is judged.
MEASUREMENTS, RUNS = 200, 50


class Case(NamedTuple):
    """A command line with its document and answer, and the least number of growths of memory that it takes."""

    name: str
    words: str
    document: str
    answer: Answer
    least: int


def jobs(program):
    """What is refused, each as a job that can run at the same time as the others; the longest first."""
    made = [partial(refuse_workers, program, words) for words in WITH_WORKERS]
    cases = cases_of_bundles() + cases_of_eval() + cases_of_json() + cases_of_explain(program) + other_cases(program)
    made += [partial(refuse_growths, program, case) for case in cases]
    return made + [partial(refuse_threads, program, words) for words in ("run", "run --ordered")]


def cases_of_bundles():
    return [
        Case(f"{words}, {name}", words, document.text, document.answer(words), OF_TEMPLATE)
        for name, document in BUNDLES.items()
        for words in OF_RUNS + ("check", "list")
    ]


def cases_of_eval():
    return [Case(f"eval, {name}", "eval", text, answer, least) for name, (text, answer, least) in CONDITIONS.items()]


def cases_of_json():
    return [Case(words, words, text, answer, 20) for words, (text, answer) in AS_JSON.items()]


def cases_of_explain(program):
    """As lines, which the examples have, and as JSON, which has to be what is written with ample memory. Warnings as
    JSON are one line."""
    made = []
    for path in EXPLAINED:
        text = path.with_suffix(".json").read_text(encoding="utf-8")
        warnings = path.with_suffix(".warnings")
        warned = warnings.read_text(encoding="utf-8").count("\n") if warnings.is_file() else 0
        lines = Answer(0, path.with_suffix(".stdout").read_text(encoding="utf-8"), warned)
        made.append(Case(f"explain, {path.name}", "explain", text, lines, OF_TEMPLATE))
        words = "explain --output json"
        as_object = Answer(0, program.start(words, data=text.encode()).output, min(warned, 1))
        made.append(Case(f"{words}, {path.name}", words, text, as_object, OF_TEMPLATE))
    return made


def other_cases(program):
    """A template as kubectl prints it, one that is refused, and command lines that are answered or refused."""
    listing = Answer(0, EXAMPLE.with_suffix(".list").read_text(encoding="utf-8"))
    example = EXAMPLE.with_suffix(".json").read_text(encoding="utf-8")
    made = [
        Case("list, an example", "list", example, listing, OF_TEMPLATE),
        Case("list, without shapes", "list", SHAPELESS, Answer(2, "", 1), OF_TEMPLATE),
        Case("too many workers", "run --workers 17", "", Answer(2, "", 1), OF_WORDS),
    ]
    return made + [
        Case(words, words, "", Answer(0, program.start(words).output), OF_WORDS)
        for words in ("--version", "run --help")
    ]


# Memory


def has_ended_as_it_may(ended, words, answer):
    """Whether a run to which something was refused reported that, having written nothing, or left out its warnings
    alone."""
    if is_out_of_memory(ended) or (words.startswith(WITH_WORKERS) and is_without_thread(ended)):
        return True
    return is_without_warnings(ended, answer, words)


def refuse_growths(program, case, counts):
    """Refuses the first growth of memory, then the second, and so on until a run meets no refusal. Where there are
    warnings, some of the refusals leave out these alone."""
    without_warnings = 0
    for growth in range(1, MOST_GROWTHS):
        ended = program.run(case.words, case.document, REFUSE_CALL=growth)
        if not ended.refused:
            good = is_answer(ended, case.answer, case.words)
            counts.expect(good, f"{case.name}, with all {growth - 1} growths of memory: {ended}")
            counts.expect(growth > case.least, f"{case.name}: only {growth - 1} growths of memory were refused")
            good = (without_warnings > 0) == case.answer.warns
            counts.expect(good, f"{case.name}: {without_warnings} refusals left out warnings alone")
            return
        without_warnings += is_without_warnings(ended, case.answer, case.words)
        good = has_ended_as_it_may(ended, case.words, case.answer)
        counts.expect(good, f"{case.name}, growth {growth} refused: {ended}")
    counts.expect(False, f"{case.name}: no run was without refusal")


def refuse_workers(program, words, counts):
    """Refuses each growth that a worker asks for, where a condition takes memory.

    Each measurement takes memory, so at least as many runs are out of memory as there are measurements.
    """
    document, answer = repeated(RUNS, MEASUREMENTS)
    name, lasting = f"{words}, growths of workers", 0
    for growth in range(1, MOST_GROWTHS):
        ended = program.run(words, document, REFUSE_CALL=growth, REFUSE_ON_WORKERS=1)
        if not ended.refused:
            counts.expect(is_answer(ended, answer, words), f"{name}, with all {growth - 1}: {ended}")
            good = lasting >= MEASUREMENTS
            counts.expect(good, f"{name}: of {growth - 1} refusals only {lasting} left a run out of memory")
            return
        lasting += is_out_of_memory(ended)
        counts.expect(has_ended_as_it_may(ended, words, answer), f"{name}, {growth} refused: {ended}")
    counts.expect(False, f"{name}: no run was without refusal")


# Threads


def refuse_threads(program, words, counts):
    """Refuses to start each thread of 2 and of 16 workers; there are no more threads than workers."""
    for (name, document), workers in itertools.product(BUNDLES.items(), (2, 16)):
        line = f"{words} --workers {workers}"
        for thread in range(1, workers + 2):
            ended = program.run(line, document.text, REFUSE_THREAD=thread)
            good = is_without_thread(ended) if thread <= workers else is_answer(ended, document.run, line)
            counts.expect(good and ended.refused == (thread <= workers), f"{line}, {name}, thread {thread}: {ended}")
