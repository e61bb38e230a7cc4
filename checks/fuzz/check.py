"""Holds the built programs to second readings of the rules, on random inputs and on changes of stored ones.

    tests/fuzz/check [--seeds N] [--first S] [--stored] [CONFORMANCE [ARGO_JUDGE]]

The second readings are checks/oracle: they read docs/ and know nothing of the crates. Without flags
they are held to the stored cases of conformance/ and examples/conditions first; then one document is tried with each of
its bytes changed and cut off; then come as many seeds as the gate takes. Each seed makes cases, which the program of
crates/conformance has to answer as the second readings do, and documents, of which the commands of argo_judge have to
write what these say. --seeds and --first run other seeds; --stored looks at the stored cases alone, all of them;
--documents N tries N random documents alone, and says how many it has tried so far.

Each finding is one line of JSON: a case with the answer that it should have and the one that it got, or a document with
its command; without --seeds the first twenty are shown. The last line has the counts, and the status is 0 where none
failed.
"""

import argparse
import json
import random
import sys

from checks.fuzz.cases import cases_of, condition_of, document_bytes
from checks.fuzz.changes import changed_bytes
from checks.fuzz.corpus import Corpus, stored_cases
from checks.fuzz.documents import random_evaluation
from checks.fuzz.every_byte import cases_of_bytes
from checks.fuzz.many import batches
from checks.fuzz.programs import command
from checks.fuzz.values import changed_json, written
from checks.harness import SUITE, Counts, built
from checks.oracle.answers import answer_of, has_answer
from checks.oracle.commands import COMMANDS, EVALS, ORDERED, PLAIN, expected_of, is_right
from checks.suite import answers_to

SEEDS = 30
BUNDLES, EVALUATIONS, CONDITIONS = 12, 6, 20
LONG = 2_000
SHOWN = 20
# Second readings call themselves as deep as their inputs nest.
LEVELS = 20_000


def finding(found):
    return json.dumps(found, ensure_ascii=False)


def as_text(code):
    try:
        return {"document": code.decode()}
    except UnicodeDecodeError:
        return {"bytes": code.hex()}


def check_stored(counts, whole):
    """Holds the second readings to the stored cases that they answer; a long condition takes seconds."""
    for path, case in stored_cases():
        if not has_answer(case) or not whole and len(case.get("condition", "")) > LONG:
            continue
        expected = case["answer"] if "answer" in case else case["refused"]
        got = answer_of(case)
        counts.expect(got == expected, lambda: finding({**case, "file": path.name, "second": got}))


def check_cases(counts, program, cases, title):
    """Holds the program of the suite to cases and answers; None means any answer but a refusal."""
    got = answers_to(program, [case for case, _ in cases])
    for (case, expected), answer in zip(cases, got):
        good = answer == expected or is_begun(case, expected, answer)
        counts.expect(good, lambda: finding({**case, "name": title, "answer": expected, "got": answer}))


def is_begun(case, expected, answer):
    """Whether an answer is one that is compared in part alone."""
    return (
        case["call"] == "read_json" and expected is None and answer != "Utf8OrJson" and not answer.startswith("status")
    )


def check_command(counts, program, words, document, title):
    expected = expected_of(words, document)
    got = command(program, words, document)
    counts.expect(
        is_right(words, expected, got),
        lambda: finding(
            {
                "name": title,
                "command": words,
                **as_text(document),
                "expected": [str(part) for part in expected],
                "got": [str(part) for part in got],
            }
        ),
    )


def evaluation_of(condition, shape, value):
    return {"condition": condition, "shape": shape, "value": value}


def check_commands(counts, program, source, corpus, title):
    for _ in range(BUNDLES):
        document = document_bytes(source, corpus)
        for words in dict.fromkeys((PLAIN, ORDERED, source.choice(COMMANDS))):
            check_command(counts, program, words, document, title)
    evaluations = [random_evaluation(source) for _ in range(EVALUATIONS)]
    evaluations += [evaluation_of(*condition_of(source, corpus)) for _ in range(CONDITIONS)]
    for json_value in evaluations:
        if source.random() < 0.5:
            json_value = changed_json(source, json_value, 1)
        document = written(source, json_value).encode("utf-8", "surrogatepass")
        if source.random() < 0.3:
            document = changed_bytes(source, document)
        check_command(counts, program, source.choice(EVALS), document, title)


def check_seed(counts, programs, corpus, seed):
    source = random.Random(seed)
    title = f"seed {seed}"
    check_cases(counts, programs[0], list(cases_of(source, corpus)), title)
    check_commands(counts, programs[1], source, corpus, title)


def check_documents(counts, program, first, documents):
    for number, (passed, findings) in enumerate(batches(program, first, documents), 1):
        counts.passed += passed
        for found in findings:
            counts.expect(False, finding(found))
        if number % 100 == 0:
            print(f"{counts.passed + counts.failed} documents", file=sys.stderr, flush=True)


def options_of(words):
    options = argparse.ArgumentParser(add_help=True)
    options.add_argument("--seeds", type=int)
    options.add_argument("--first", type=int, default=0)
    options.add_argument("--stored", action="store_true")
    options.add_argument("--documents", type=int)
    options.add_argument("programs", nargs="*")
    return options.parse_args(words)


def check_all(counts, words):
    if words.seeds is None:
        check_stored(counts, words.stored)
    if words.stored:
        return
    programs = [built(words.programs[:1], SUITE), built(words.programs[1:])]
    corpus = Corpus()
    if words.seeds is None:
        for cases in cases_of_bytes():
            check_cases(counts, programs[0], cases, "a byte changed or cut off")
    for seed in range(words.first, words.first + (SEEDS if words.seeds is None else words.seeds)):
        check_seed(counts, programs, corpus, seed)


def main(words: list[str]) -> int:
    sys.setrecursionlimit(LEVELS)
    options = options_of(words)
    counts = Counts("fuzz", SHOWN if options.seeds is None else None)
    if options.documents is None:
        check_all(counts, options)
    else:
        check_documents(counts, built(options.programs[:1], SUITE), options.first, options.documents)
    return counts.end()


if __name__ == "__main__":
    sys.exit(main(sys.argv[1:]))
