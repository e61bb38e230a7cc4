"""Times a call of the C library next to a start of the program, for the same command and document.

    benches/embed

Prints, for three documents, the shortest of several rounds in microseconds. Calls go through Python's ctypes, which
takes some two microseconds of each. The program and the library must have been built (bin/prove argo_judge,
bin/prove argo_judge_c).
"""
import ctypes
import json
import pathlib
import subprocess
import tempfile
import time

from checks import ROOT
from checks.harness import ENGINE, started
from releasing import library

ROUNDS, CALLS, STARTS = 5, 1_000, 50
EVAL, RUN = 0, 3
CONDITION = {"condition": "result >= 0.95", "shape": "decimal", "value": "0.9512"}
CASES = [
    ("eval, one condition", EVAL, ["eval"], json.dumps(CONDITION).encode()),
    (
        "run --plain, two measurements",
        RUN,
        ["run", "--plain"],
        (ROOT / "examples/bundles/success-rate.json").read_bytes(),
    ),
    ("run --plain, a stored document", RUN, ["run", "--plain"], (ROOT / "examples/bundles/phases.json").read_bytes()),
]


def shortest(times, act):
    """The microseconds that one act takes in the shortest of several rounds."""
    best = float("inf")
    for _ in range(ROUNDS):
        begun = time.perf_counter()
        for _ in range(times):
            act()
        took = (time.perf_counter() - begun) / times * 1e6
        best = min(best, took)
    return best


def main():
    with tempfile.TemporaryDirectory() as scratch:
        folder = pathlib.Path(scratch)
        library.made(folder)
        call = library.loaded(folder / "lib/libargo_judge.so").argo_judge_run
        output, written = ctypes.create_string_buffer(1 << 16), ctypes.c_size_t()
        print(f"{'':32}{'call':>10}{'start':>10}  microseconds")
        for name, command, words, document in CASES:
            in_call = shortest(CALLS, lambda: call(command, document, len(document), output, len(output), written))
            start = shortest(STARTS, lambda: started([ENGINE, *words], document, stdout=subprocess.DEVNULL))
            print(f"{name:32}{in_call:10.1f}{start:10.1f}")


if __name__ == "__main__":
    main()
