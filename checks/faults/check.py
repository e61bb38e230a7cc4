"""Runs the built program where the system refuses, cuts, interrupts or delays what it asks for.

    tests/faults/check [PROGRAM]

The program, or else that of crates/argo_judge, which is built first where that is due, has memory refused, growth by
growth, and threads (memory); its reads and writes are cut, interrupted, and fail (devices); its command lines are right
or wrong (lines); its threads sleep, share one processor, and are stopped for a while (schedules). tests/faults/refuse.c
is the library that does this to it. What the program has to answer was worked out by hand from docs/ (documents). Seeds
are fixed. A line reports each run that ended otherwise; the last line has the counts, and the status is 0 where none
failed.
"""

import sys
import tempfile

from checks.faults import devices, lines, memory, schedules
from checks.faults.program import LeftOut, Program
from checks.harness import Counts, current, side_by_side

PARTS = (memory, devices, schedules, lines)


def counted(job):
    """What a job found; jobs that run side by side share no counts."""
    counts = Counts("faults", prints=False)
    try:
        job(counts=counts)
    except LeftOut:
        counts.expect(False, "runs are left out, since too many never ended")
    return counts


def main(words: list[str]) -> int:
    path, counts = current(words), Counts("faults")
    with tempfile.TemporaryDirectory() as folder:
        program = Program(path, folder)
        for found in side_by_side(counted, [job for part in PARTS for job in part.jobs(program)]):
            counts.add(found)
    return counts.end()


if __name__ == "__main__":
    sys.exit(main(sys.argv[1:]))
