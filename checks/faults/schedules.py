"""Threads that sleep, that share one processor, and that are stopped for a while: the answers are as without."""

import itertools
import os
import random
import signal
import subprocess
import tempfile
import time
from functools import partial

from checks.faults.answers import is_answer, with_events_sorted
from checks.faults.documents import repeated
from checks.faults.program import SECONDS, Ended
from checks.harness import NO_END, decoded

SEEDS = 200
WORKERS = (2, 4, 16)
PARTS = 4
RUNS_ON_ONE = 10
STOPPED_RUNS = 10
STOPPED_COMMANDS = ("run --workers 4", "run --ordered --workers 4", "run --plain")
# How many measurements a run has that is stopped, and how long it is left alone and stopped, in seconds.
MANY, LONGEST_GO, LONGEST_STOP = 20_000, 0.02, 0.005


def jobs(program):
    """What is done to the threads of runs, each as a job that can run at the same time as the others."""
    parts = [range(part, SEEDS, PARTS) for part in range(PARTS)]
    made = [partial(sleep, program, seeds) for seeds in parts]
    made += [partial(stop, program, words, seed) for seed, words in enumerate(STOPPED_COMMANDS)]
    return made + [partial(share_processor, program)]


def sleep(program, seeds, counts):
    """Threads sleep at moments that a seed gives: the report in order is that of `run --plain`, and the other one has
    the same lines, apart from the order of each run's events. Several orders come."""
    document, answer = repeated(4, 40)
    plain = program.run("run --plain", document)
    counts.expect(is_answer(plain, answer, "run --plain"), f"run --plain: {plain}")
    orders = set()
    for seed in seeds:
        ordered = f"run --ordered --workers {WORKERS[seed % len(WORKERS)]}"
        for words in [f"run --workers {workers}" for workers in WORKERS] + [ordered]:
            ended = program.run(words, document, SLEEP_SEED=seed)
            counts.expect(is_same(ended, plain, words), f"{words}, sleeping by seed {seed}: {ended}")
            orders.add(ended.output)
    counts.expect(len(orders) > 1, "workers that sleep always came in one order")


def is_same(ended, plain, words):
    if "--ordered" in words:
        return ended == plain
    return ended._replace(output=with_events_sorted(ended.output)) == plain._replace(
        output=with_events_sorted(plain.output)
    )


def share_processor(program, counts):
    """16 workers on one processor: a run has the processors of the thread that starts it."""
    processors = os.sched_getaffinity(0)
    os.sched_setaffinity(0, {min(processors)})
    try:
        for entries in (40, 1_000):
            document, answer = repeated(4, entries)
            commands = ("run --workers 16", "run --ordered --workers 16")
            for words, turn in itertools.product(commands, range(RUNS_ON_ONE)):
                ended = program.run(words, document)
                counts.expect(is_answer(ended, answer, words), f"{words} on one processor, turn {turn}: {ended}")
    finally:
        os.sched_setaffinity(0, processors)


# Runs that are stopped


def stop(program, words, seed, counts):
    """A run is stopped and continued, again and again, at moments that a seed gives."""
    source = random.Random(seed)
    document, answer = repeated(1, MANY)
    stops = 0
    for turn in range(STOPPED_RUNS):
        with tempfile.TemporaryFile() as given, tempfile.TemporaryFile() as output, tempfile.TemporaryFile() as errors:
            given.write(document.encode())
            given.seek(0)
            with subprocess.Popen([program.path, *words.split()], stdin=given, stdout=output, stderr=errors) as run:
                stops += stop_at_times(run, source)
            wrote, said = (decoded(read_whole(file)) for file in (output, errors))
        ended = Ended(run.returncode if run.returncode != -signal.SIGKILL else NO_END, wrote, said)
        counts.expect(is_answer(ended, answer, words), f"{words}, stopped at times, turn {turn}: {str(ended)[:500]}")
    counts.expect(stops > 0, f"{words}: the signals met it only {stops} times")


def read_whole(file):
    file.seek(0)
    return file.read()


def stop_at_times(run, source):
    """Stops a run until it ends, or ends it where it takes too long. How often it was stopped."""
    stops, last = 0, time.monotonic() + SECONDS
    while time.monotonic() < last:
        try:
            run.wait(source.uniform(0, LONGEST_GO))
            return stops
        except subprocess.TimeoutExpired:
            run.send_signal(signal.SIGSTOP)
            stops += is_stopped(run)
            time.sleep(source.uniform(0, LONGEST_STOP))
            run.send_signal(signal.SIGCONT)
    run.kill()
    return stops


def is_stopped(run):
    """Waits for a run to stop or to end after a signal, and says whether it is stopped."""
    # A run whose end was seen as the signal was sent got none.
    if run.returncode is not None:
        return False
    return os.waitid(os.P_PID, run.pid, os.WSTOPPED | os.WEXITED | os.WNOWAIT).si_code == os.CLD_STOPPED
