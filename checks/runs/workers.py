"""Holds `run` with workers to the rules of docs/use/phases.md, in whatever order its workers came.

    tests/workers/check [PROGRAM]

The program, or else that of crates/argo_judge as last built, runs random documents again and again. Of each report the
event lines are replayed in their order by checks/oracle/phases.py, which knows nothing of the program: each number is
there once, under its run; verdicts, effects, counts and phases are what the rules say of that order. Warnings, which
depend on no order, are those of checks/oracle/cautions.py. The seed is fixed. And documents with as many measurements
as may be are reported as expected, plain and in order. A line says of each of the first reports that aren't so why; the
last line has the counts, and the status is 0 where none failed.
"""

import json
import random
import sys

from checks.harness import Counts, built, started
from checks.oracle.bundles import read_bundle
from checks.oracle.cautions import cautions
from checks.oracle.phases import is_complete, is_dry, outcome
from checks.oracle.reports import event_line, metric_line
from checks.runs.documents import KINDS, document_of, random_entry, random_limits

SEED = 20240704
REPORTS = 300
RUNS, ENTRIES = 16, 1_000
# The most measurements of a document, and the most runs.
MOST, MOST_RUNS = 100_000, 64
# A report that takes longer never comes, as where workers wait for each other.
SECONDS = 60
SHOWN = 10


def report_of(program, document, words):
    """The exit status of a run, and what it wrote."""
    return started([program, "run", *words], document, SECONDS)


def numbers_of(report):
    """The numbers of each run's event lines, in their order."""
    numbers: dict[str, list[int]] = {}
    name = ""
    for line in report.splitlines():
        words = line.split(" ")
        if words[0] == "run":
            name = words[1]
            numbers[name] = []
        elif words[0] == "event":
            numbers[name].append(int(words[1]))
    return numbers


def lines_of(name, numbers, limits, entries, verdicts):
    """What the rules report of a run whose events came in this order."""
    events = [entries[number][1] for number in numbers]
    effects, phase, phases, marks = outcome(limits, events)
    metrics = [{"name": f"m{number}", "dry": is_dry(limit)} for number, limit in enumerate(limits)]
    lines = [f"run {name} {phase}"]
    lines += [metric_line(metric, own, done) for metric, own, done in zip(metrics, phases, marks)]
    for number, event, effect in zip(numbers, events, effects):
        what = event if event == "stop" else (event[0], verdicts[number])
        lines.append(event_line(number, what, effect, {"metrics": metrics}))
    return lines, phase


def fault_of(report, status, runs, limits, entries, verdicts):
    """What is wrong with a report of this number of runs, or None."""
    numbers = numbers_of(report)
    if list(numbers) != [f"r{run}" for run in range(runs)]:
        return "not its runs in their order"
    if sorted(sum(numbers.values(), [])) != list(range(len(entries))):
        return "not each number once"
    expected, phases = [], []
    for run, (name, own) in enumerate(numbers.items()):
        if any(entries[number][0] != run for number in own):
            return f"a number of another run under {name}"
        lines, phase = lines_of(name, own, limits, entries, verdicts)
        expected += lines
        phases.append(phase)
    for line, (want, got) in enumerate(zip(expected, report.splitlines()), 1):
        if want != got:
            return f"line {line}: expected {want}, got {got}"
    if report != "".join(f"{line}\n" for line in expected):
        return "more or fewer lines"
    unsuccessful = any(is_complete(phase) and phase != "Successful" for phase in phases)
    return None if status == int(unsuccessful) else f"status {status}"


def verdict_of(entry, mark):
    """The verdict on an entry whose mark is known, as event lines print it."""
    if mark != "Error":
        return mark
    if "error" in entry:
        return "Error provider"
    return "Error shape WrongKind" if isinstance(entry["value"], str) else "Error failure DivisionByZero"


def random_document(source, runs):
    """A document with a number of runs, which close at different times, and what the rules say of its entries."""
    kinds = [source.choice(KINDS) for _ in range(3)]
    made = [random_limits(source) for _ in kinds]
    limits = [[own[0] * 5 + 2, own[1] * 5 + 2, own[2] + 2, 40, *own[4:]] for _, own in made]
    fields = [
        {
            "failureLimit": own[0],
            "inconclusiveLimit": own[1],
            "consecutiveErrorLimit": own[2],
            "interval": "1m",
            "count": own[3],
        }
        for own in limits
    ]
    entries = [random_entry(source, runs, kinds, stops=0.002) for _ in range(ENTRIES)]
    return document_of(runs, kinds, list(zip(fields, limits)), entries), limits, entries


class Document:
    """A document as text, and what the rules say of it."""

    def __init__(self, source, runs):
        self.runs = runs
        self.document, self.limits, entries = random_document(source, runs)
        self.text = json.dumps(self.document).encode()
        self.verdicts = [verdict_of(entry, None if event[1] == "stop" else event[1][1]) for entry, event in entries]
        self.events = [event for _, event in entries]
        self.warnings = "".join(f"{line}\n" for line in cautions(self.document, read_bundle(self.text)))

    def report(self, program, workers):
        """A report by a number of workers, and what is wrong with it, or None."""
        status, report, errors = report_of(program, self.text, ["--workers", workers])
        if status not in (0, 1) or errors != self.warnings:
            return report, f"status {status}: {errors.strip()}"
        return report, fault_of(report, status, self.runs, self.limits, self.events, self.verdicts)


def single_document(runs):
    """A document in which a number of runs are measured, each once; it has two runs at least."""
    entries = [({"run": f"r{run}", "metric": "m0", "value": run % 2}, None) for run in range(runs)]
    return document_of(max(runs, 2), [KINDS[0]], [({}, [0, 0, 4, 1])], entries)


def same_as_plain(program, document, words):
    """Whether a run writes what one without workers writes."""
    text = json.dumps(document).encode()
    plain = report_of(program, text, ["--plain"])
    return plain[0] in (0, 1) and plain[1] != "" and report_of(program, text, words) == plain


def largest_document(runs, value):
    """A document with as many measurements as may be, all of one value, of a number of runs in turn."""
    entries = [({"run": f"r{number % runs}", "metric": "m0", "value": value}, None) for number in range(MOST)]
    return document_of(runs, [KINDS[0]], [({"interval": "1m"}, [0, 0, 4, None])], entries)


def open_report():
    """What is reported of one run all of whose measurements are successful, and which nothing closes."""
    lines = [
        "run r0 Running",
        f"metric m0 Running successful={MOST} failed=0 inconclusive=0 error=0 consecutiveError=0",
    ]
    lines += [f"event {number} m0 Successful applied" for number in range(MOST)]
    return "".join(f"{line}\n" for line in lines)


def failed_report(runs):
    """What is reported of runs all of whose measurements fail: the first of each closes it, the others are late."""
    lines = []
    for run in range(runs):
        lines += [
            f"run r{run} Failed",
            "metric m0 Failed successful=0 failed=1 inconclusive=0 error=0 consecutiveError=0",
            f"event {run} m0 Failed closed Failed",
        ]
        lines += [f"event {number} m0 Failed late" for number in range(run + runs, MOST, runs)]
    return "".join(f"{line}\n" for line in lines)


def cases_of_one_order(documents):
    """Runs whose report has one order alone. One worker posts in the order of the numbers; what comes once to each run
    has only one order; ordered runs have that of the numbers."""
    cases = [(f"{own.runs} runs of many, --workers 1", own.document, ["--workers", "1"]) for own in documents]
    cases += [
        (f"{own.runs} runs of many, --ordered --workers {workers}", own.document, ["--ordered", "--workers", workers])
        for own in documents
        for workers in ("1", "2", "8")
    ]
    return cases + [
        (f"{runs} runs, --workers {workers}", single_document(runs), ["--workers", workers])
        for runs in (0, 1, 64)
        for workers in ("1", "2", "8", "16")
    ]


def look_at_orders(counts, program, many, few):
    """Holds reports by several workers to the rules. How many orders came of one document."""
    orders = set()
    for document, workers in [(many, "8")] * REPORTS + [(few, workers) for workers in ("1", "2", "8")]:
        report, fault = document.report(program, workers)
        if document is many:
            orders.add(json.dumps(numbers_of(report)))
        counts.expect(not fault, f"workers: {document.runs} runs, --workers {workers}: {fault}")
    counts.expect(len(orders) > 1, "workers: they came in one order alone, so they are no workers")
    return len(orders)


def look_at_largest(counts, program):
    """Holds reports of as many measurements as may be to what is expected."""
    for runs, value, status, report in ((1, 1, 0, open_report()), (MOST_RUNS, 0, 1, failed_report(MOST_RUNS))):
        text = json.dumps(largest_document(runs, value)).encode()
        for words in (["--plain"], ["--ordered"]):
            good = report_of(program, text, words) == (status, report, "")
            counts.expect(good, f"workers: {MOST} measurements of {runs} runs, {words[0]}: not as expected")


def main(words: list[str]) -> int:
    program, source, counts = built(words), random.Random(SEED), Counts("workers", SHOWN)
    many, few = Document(source, RUNS), Document(source, 4)
    orders = look_at_orders(counts, program, many, few)
    for name, document, options in cases_of_one_order((many, few)):
        counts.expect(same_as_plain(program, document, options), f"workers: {name}: not what --plain writes")
    look_at_largest(counts, program)
    return counts.end(f"{orders} orders in {REPORTS} reports: ")


if __name__ == "__main__":
    sys.exit(main(sys.argv[1:]))
