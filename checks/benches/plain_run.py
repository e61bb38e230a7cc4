"""Times the plain run of generated documents, and its parts, and prints a table.

The program of plain_run.txt is proved and built first, in a copy of the repository under benches/out,
which takes minutes and some gigabytes the first time. Each figure is the least of five runs: time of the
processor, and the greatest memory. A row's parts are measured by runs that stop early: reading
the document as a bundle (which builds the judges), judging each number, and the rest of the plain run
(phases and histories). A second table has what one worker's adding of each number to a cell with one run,
and one look at the run with all receipts, take in addition to judging. A third has what the plain run and
1, 2, 4 and 8 workers take in addition to reading, by the clock, for 100,000 measurements in 64 runs, with a
condition that costs 4 and with one that costs over 1,000: workers that post to a board, and those of an
ordered run.
"""

import json
import os
import shutil
import subprocess
import sys
import time

from checks import ROOT

WORK = ROOT / "benches" / "out"
LINE = "plain_run: ar_bundle ar_board ar_workers ar_document ar_command_line\n"
REPEATS = 5


def build():
    """The built program, in a copy of the crates that has it as one more."""
    WORK.mkdir(exist_ok=True)
    for name in ("crates", "crates.txt", "HANDLES"):
        source, target = ROOT / name, WORK / name
        if source.is_dir():
            shutil.copytree(source, target, dirs_exist_ok=True)
        else:
            shutil.copy2(source, target)
    source = WORK / "crates" / "plain_run" / "src" / "main.rt"
    source.parent.mkdir(parents=True, exist_ok=True)
    shutil.copy2(ROOT / "benches" / "plain_run.txt", source)
    for proof in (ROOT / "benches" / "plain_run_proofs").glob("*.txt"):
        target = source.parent.parent / "proofs" / proof.stem / "Invariants.antt"
        target.parent.mkdir(parents=True, exist_ok=True)
        shutil.copy2(proof, target)
    with open(WORK / "crates.txt", "a") as crates:
        crates.write(LINE)
    folder = WORK / "crates" / "plain_run"
    done = subprocess.run(
        ["rt", "run", "--", "run"], cwd=folder, input=document(1, 1, 1), capture_output=True, text=True
    )
    if done.returncode:
        sys.exit(done.stdout + done.stderr)
    return folder / "out" / "plain_run"


def document(events, runs, metrics):
    """A document in which no measurement completes a metric."""
    names = [f"m{number}" for number in range(metrics)]
    return json.dumps(
        {
            "manifest": {
                "apiVersion": "argoproj.io/v1alpha1",
                "kind": "AnalysisTemplate",
                "metadata": {"name": "t"},
                "spec": {
                    "metrics": [
                        {"name": name, "interval": "1m", "successCondition": "result >= 0.95"} for name in names
                    ]
                },
            },
            "shapes": {name: "decimal" for name in names},
            "runs": [{"name": f"r{number}"} for number in range(runs)],
            "measurements": [
                {"run": f"r{number % runs}", "metric": names[number // runs % metrics], "value": "0.99"}
                for number in range(events)
            ],
        }
    )


def seconds(program, part, path):
    """Time of the processor of one run."""
    with open(path, "rb") as source:
        child = os.posix_spawn(
            program, [str(program), part], os.environ, file_actions=[(os.POSIX_SPAWN_DUP2, source.fileno(), 0)]
        )
        _, status, usage = os.wait4(child, 0)
    if status:
        sys.exit(f"{part}: status {status}")
    return usage.ru_utime + usage.ru_stime


def mebibytes(program, part, path):
    """The greatest memory of one run, as GNU time reports it."""
    with open(path, "rb") as source:
        done = subprocess.run(
            ["/usr/bin/time", "-f", "%M", program, part], stdin=source, stderr=subprocess.PIPE, text=True, check=True
        )
    return int(done.stderr) / 1024


def least(measure, program, part, path):
    return min(measure(program, part, path) for _ in range(REPEATS))


def row(program, events, runs, metrics):
    path = WORK / "document.json"
    path.write_text(document(events, runs, metrics), encoding="utf-8")
    read, judged, run = (least(seconds, program, part, path) for part in ("read", "judge", "run"))
    parts = [f"{1000 * part:.1f}" for part in (read, judged - read, run - judged, run)]
    each = f"{1e6 * run / events:.2f}"
    memory = least(mebibytes, program, "run", path)
    return [events, runs, metrics, *parts, each, f"{memory:.1f}"]


def cell_row(program, events):
    path = WORK / "document.json"
    path.write_text(document(events, 1, 1), encoding="utf-8")
    judged, filled = (least(seconds, program, part, path) for part in ("judge", "cell"))
    cell = filled - judged
    memory = least(mebibytes, program, "cell", path)
    return [events, f"{1000 * cell:.1f}", f"{1e9 * cell / events:.0f}", f"{1000 * filled:.1f}", f"{memory:.1f}"]


# A condition that costs 4, and one that has two nested loops over a list literal before it.
ITEMS = "[" + ", ".join(str(number) for number in range(1, 17)) + "]"
CONDITIONS = {"4": "result >= 0.95", "1,351": f"all({ITEMS}, all({ITEMS}, # > 0)) and result >= 0.95"}


def clock(program, words, path):
    """Time that passes while a part is run."""
    with open(path, "rb") as source:
        begun = time.perf_counter()
        subprocess.run([program, *words], stdin=source, check=True)
        return time.perf_counter() - begun


def workers_rows(program, budget):
    path = WORK / "document.json"
    text = document(100_000, 64, 1).replace('"result >= 0.95"', json.dumps(CONDITIONS[budget]))
    path.write_text(text, encoding="utf-8")
    read = min(clock(program, ["read"], path) for _ in range(REPEATS))
    for part in ("workers", "ordered"):
        runs = [["run"], *([part, str(count)] for count in (1, 2, 4, 8))]
        times = [min(clock(program, words, path) for _ in range(REPEATS)) - read for words in runs]
        yield [budget, part, f"{1000 * read:.0f}", *(f"{1000 * it:.0f}" for it in times), f"{times[1] / times[3]:.2f}"]


def print_row(items):
    print("| " + " | ".join(map(str, items)) + " |", flush=True)


def print_head(heads):
    print_row(heads)
    print("|" + "---|" * len(heads))


def main():
    program = build()
    print_head(["events", "runs", "metrics", "reading ms", "judging ms", "phases ms", "all ms", "µs an event", "MiB"])
    for runs, metrics in ((1, 1), (64, 1), (64, 64)):
        for events in (100, 1000, 10_000, 100_000):
            print_row(row(program, events, runs, metrics))
    print()
    print_head(["events of a cell", "adding and one look ms", "ns an event", "all ms", "MiB"])
    for events in (12_500, 25_000, 50_000, 100_000):
        print_row(cell_row(program, events))
    print()
    print_head(["budget", "run", "reading ms", "plain run ms", "1 worker ms", "2", "4", "8", "1 by 4"])
    for budget in CONDITIONS:
        for items in workers_rows(program, budget):
            print_row(items)


if __name__ == "__main__":
    main()
