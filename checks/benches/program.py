"""Times `argo_judge run` as a user runs it.

    benches/program            `run --plain` next to `jq length` on the same bytes
    benches/program workers    `run` and `run --ordered` with 1, 2, 4 and 8 workers next to `run --plain`

The first prints, for 100 to 100,000 measurements of a number, a list and a record, in 1 and in 64
runs, the shortest of several runs in milliseconds, and the peak of the program's memory, and needs
`jq` on the PATH. The second prints, for 100,000 measurements in 64 runs, the same of a condition
that costs 4 and of one that costs over 1,000, and says so where an ordered report isn't the plain one.
The program must have been built (bin/argo_judge --version).
"""
import json
import subprocess
import sys
import time

from checks.harness import ENGINE

WORKERS = (1, 2, 4, 8)
KINDS = {
    "number": ("decimal", "result >= 0.95", "0.9512"),
    "list": ({"list": "decimal", "max": 10}, "all(result, # >= 0.95)", ["0.9512", "0.9534", "0.9787"]),
    "record": (
        {"record": {"ok": "bool", "rate": "decimal"}},
        "result.ok and result.rate >= 0.95",
        {"ok": True, "rate": "0.9512"},
    ),
}


# Two nested loops over a list literal: a condition that costs much on a small value.
ITEMS = "[" + ", ".join(str(number) for number in range(1, 17)) + "]"
KINDS["costly"] = ("decimal", f"all({ITEMS}, all({ITEMS}, # > 0)) and result >= 0.95", "0.9512")


def document(kind, runs, measurements):
    shape, condition, value = KINDS[kind]
    metric = {"name": "m", "interval": "1m", "successCondition": condition}
    manifest = {
        "apiVersion": "argoproj.io/v1alpha1",
        "kind": "AnalysisTemplate",
        "metadata": {"name": "t"},
        "spec": {"metrics": [metric]},
    }
    entries = [{"run": f"r{number % runs}", "metric": "m", "value": value} for number in range(measurements)]
    return json.dumps(
        {
            "manifest": manifest,
            "shapes": {"m": shape},
            "runs": [{"name": f"r{n}"} for n in range(runs)],
            "measurements": entries,
        },
        separators=(",", ":"),
    ).encode()


def timed(command, data, times):
    best = float("inf")
    for _ in range(times):
        begun = time.perf_counter()
        done = subprocess.run(command, input=data, stdout=subprocess.DEVNULL, stderr=subprocess.PIPE, check=False)
        took = time.perf_counter() - begun
        if done.returncode != 0:
            sys.exit(f"{command}: status {done.returncode}: {done.stderr.decode()}")
        best = min(best, took)
    return best * 1000


# Prints the greatest memory of a start: that of all processes that this one has started.
PEAK = """
import resource, subprocess, sys
subprocess.run([sys.argv[1], "run", "--plain"], input=sys.stdin.buffer.read(), stdout=subprocess.DEVNULL)
print(resource.getrusage(resource.RUSAGE_CHILDREN).ru_maxrss)
"""


def peak(data):
    """Megabytes of one start, in a process of its own."""
    done = subprocess.run([sys.executable, "-c", PEAK, ENGINE], input=data, stdout=subprocess.PIPE, check=True)
    return int(done.stdout) / 1024


def report(data, words):
    return subprocess.run([ENGINE, "run", *words], input=data, stdout=subprocess.PIPE, check=True).stdout


def workers():
    print("| Condition | budget | mode | " + " | ".join(f"{n} workers, ms" for n in WORKERS) + " |")
    print("|---|---|---|" + "---|" * len(WORKERS))
    for kind in ("number", "costly"):
        data = document(kind, 64, 100_000)
        check = subprocess.run([ENGINE, "check"], input=document(kind, 1, 0), stdout=subprocess.PIPE, check=True)
        budget = check.stdout.decode().split("budget=")[1].strip()
        plain = timed([ENGINE, "run", "--plain"], data, 5)
        print(f"| {kind} | {budget} | run --plain | {plain:.0f} |" + " |" * (len(WORKERS) - 1))
        expected = report(data, ["--plain"])
        for n in WORKERS:
            if report(data, ["--ordered", "--workers", str(n)]) != expected:
                print(f"{kind}: --ordered --workers {n}: not what --plain writes")
        for mode in (["run"], ["run", "--ordered"]):
            took = [timed([ENGINE, *mode, "--workers", str(n)], data, 5) for n in WORKERS]
            print(f"| {kind} | {budget} | {' '.join(mode)} | " + " | ".join(f"{ms:.0f}" for ms in took) + " |")


def plain():
    print("| Answers | Runs | Measurements | Bytes | run --plain, ms | each, us | jq length, ms | peak, MB |")
    print("|---|---|---|---|---|---|---|---|")
    for kind in ("number", "list", "record"):
        for runs in (1, 64):
            for measurements in (100, 1_000, 10_000, 100_000):
                data = document(kind, runs, measurements)
                times = 5 if measurements == 100_000 else 15
                took = timed([ENGINE, "run", "--plain"], data, times)
                jq = timed(["jq", "length"], data, times)
                each = took * 1000 / measurements
                counts = f"{kind} | {runs} | {measurements:,} | {len(data):,}"
                print(f"| {counts} | {took:.1f} | {each:.2f} | {jq:.1f} | {peak(data):.0f} |")


if __name__ == "__main__":
    workers() if sys.argv[1:] == ["workers"] else plain()
