"""Standard input and output that are interrupted, slow, narrow, full, or fail; and inputs as large as may be."""

import errno
import itertools
import os
import threading
import time
from functools import partial

from checks.faults.answers import Answer, is_answer
from checks.faults.documents import AS_JSON, BUNDLES, CONDITIONS, DECIMAL, RATES, STOPPED, WARNED
from checks.faults.errors import TOO_LARGE, has_failed_to_read, has_failed_to_write
from checks.faults.library import FOLDER
from checks.faults.program import Ended

RUNS = ("run --plain", "run --ordered", "run --workers 2")
ALL = RUNS + ("check", "list")
WIDTHS = (1, 2, 7, 100)
# Of a document that fails to be read, this many bytes are read at a time; of one document it is a byte.
PIECE = 50
MOST_READS = 1_000
MOST_BYTES = 16_777_216


def jobs(program):
    """What is done to reads and writes, each as a job that can run at the same time as the others."""
    made = [partial(cut_output, program, *case) for case in outputs(program)]
    made += [partial(job, program) for job in (take_nothing, interrupt, give_little)]
    made += [partial(fail_reads, program, PIECE, *case) for case in cases()]
    made += [partial(fail_reads, program, 1, words, STOPPED.text, STOPPED.answer(words)) for words in ALL]
    made += [
        partial(read_largest, program, *case)
        for case in (("eval", DECIMAL, Answer(0, "true\n")), ("run --plain", RATES.text, RATES.run))
    ]
    made += [partial(job, program) for job in (read_folder, fill_output, close_streams, read_slowly)]
    return made + [partial(leave_output, program, pipe_without_reader())]


def cases():
    """Command lines with their documents and answers, of all commands that read."""
    made = [(words, document.text, document.answer(words)) for words in ALL for document in BUNDLES.values()]
    made += [(words, text, answer) for words, (text, answer) in AS_JSON.items()]
    return made + [("eval", text, answer) for text, answer, _ in CONDITIONS.values()]


def shown(program):
    """Command lines without documents."""
    return [(words, "", Answer(0, program.start(words).output)) for words in ("--help", "--version")]


def outputs(program):
    """The runs whose output is cut at each byte."""
    made = [(words, STOPPED.text, STOPPED.answer(words)) for words in ALL]
    made += [(words, text, answer) for words, (text, answer) in AS_JSON.items()]
    return made + [("eval", DECIMAL, Answer(0, "true\n"))] + shown(program)[1:]


# Answers that stay what they are


def interrupt(program, counts):
    """Every other read and write is interrupted, and each is made again: the answers are as without."""
    for words, document, answer in cases() + shown(program):
        for asked in ({}, {"READ_AT_MOST": PIECE, "WRITE_AT_MOST": PIECE}):
            ended = program.run(words, document, INTERRUPT=1, **asked)
            counts.expect(is_answer(ended, answer, words), f"{words}, interrupted {asked}: {ended} of {document}")


def give_little(program, counts):
    """Reads give a few bytes, and writes take a few: the answers are as without."""
    for (words, document, answer), width in itertools.product(cases() + shown(program), WIDTHS):
        reads, writes = {"READ_AT_MOST": width}, {"WRITE_AT_MOST": width}
        for asked in (reads, writes, {**reads, **writes}):
            ended = program.run(words, document, **asked)
            counts.expect(is_answer(ended, answer, words), f"{words} with {asked}: {ended} of {document}")


def read_slowly(program, counts):
    """A byte at a time, with pauses."""
    given, taken = os.pipe()
    feeding = threading.Thread(target=feed, args=(taken, DECIMAL.encode()))
    feeding.start()
    ended = program.start("eval", stdin=given)
    feeding.join()
    os.close(given)
    counts.expect(ended == Ended(0, "true\n", ""), f"a byte at a time: {ended}")


def feed(pipe, document):
    for byte in document:
        os.write(pipe, bytes([byte]))
        time.sleep(0.002)
    os.close(pipe)


def read_largest(program, words, document, answer, counts):
    """16,777,216 bytes are read, and one more is too many."""
    largest = document.encode() + b" " * (MOST_BYTES - len(document.encode()))
    ended = program.start(words, data=largest)
    counts.expect(is_answer(ended, answer, words), f"{words} of {MOST_BYTES} bytes: {ended}")
    ended = program.start(words, data=largest + b" ")
    counts.expect(ended == Ended(2, "", TOO_LARGE), f"{words} of {MOST_BYTES + 1} bytes: {ended}")


# Outputs that end early


def cut_output(program, words, document, answer, counts):
    """A writer that takes n bytes and then fails has had just these, however few it takes at a time."""
    for taken in range(len(answer.output)):
        for asked in ({}, {"WRITE_AT_MOST": 7, "INTERRUPT": 1}):
            ended = program.run(words, document, TAKE_BYTES=taken, **asked)
            good = has_failed_to_write(ended, answer.output[:taken], errno.ENOSPC)
            counts.expect(good, f"{words}, a writer of {taken} bytes, {asked}: {ended}")
    ended = program.run(words, document, TAKE_BYTES=len(answer.output))
    counts.expect(is_answer(ended, answer, words), f"{words}, a writer of all bytes: {ended}")


def take_nothing(program, counts):
    """A write that takes nothing has failed: just the bytes before it were written."""
    for words in RUNS:
        report = STOPPED.run.output
        for taken in range(len(report)):
            ended = program.run(words, STOPPED.text, TAKE_BYTES=taken, TAKE_NOTHING=1)
            good = has_failed_to_write(ended, report[:taken])
            counts.expect(good, f"{words}, nothing taken after {taken} bytes: {ended}")


def fill_output(program, counts):
    """A full output fails; a refusal writes nothing to it."""
    for words, document, answer in cases():
        with open("/dev/full", "wb") as full:
            ended = program.start(words, data=document.encode(), stdout=full)
        good = is_answer(ended, answer) if answer.status == 2 else has_failed_to_write(ended, "", errno.ENOSPC)
        counts.expect(good, f"{words} into a full output: {ended}")


def pipe_without_reader():
    """The end of a pipe to write to. It is made before runs are side by side, since each of them has for a moment all
    that is open as it starts, so the other end, too."""
    given, taken = os.pipe()
    os.close(given)
    return taken


def leave_output(program, pipe, counts):
    """A pipe that nobody reads any more."""
    for words, document, _ in outputs(program):
        ended = program.start(words, data=document.encode(), stdout=pipe)
        counts.expect(has_failed_to_write(ended, "", errno.EPIPE), f"{words} into a pipe that nobody reads: {ended}")
    os.close(pipe)


def close_streams(program, counts):
    """Standard streams that are closed; and what can't be written to standard error, a line or warnings, changes
    nothing else."""

    def through(redirection, document=STOPPED):
        return {"data": document.text.encode(), "through": ("sh", "-c", f'exec "$0" "$@" {redirection}')}

    for words in ALL:
        ended = program.start(words, **through(">&-"))
        counts.expect(has_failed_to_write(ended, "", errno.EBADF), f"{words} into a closed output: {ended}")
        ended = program.start(words, **through("<&-"))
        counts.expect(has_failed_to_read(ended, errno.EBADF), f"{words} of a closed input: {ended}")
        for errors in ("2>&-", "2>/dev/full"):
            ended = program.start(words, **through(f">/dev/full {errors}"))
            counts.expect(ended == Ended(4, "", ""), f"{words} into a full output, {errors}: {ended}")
            ended = program.start(words, **through(errors, WARNED))
            good = is_answer(ended, WARNED.answer(words)._replace(lines=0), words)
            counts.expect(good, f"{words}, warnings, {errors}: {ended}")


# Inputs that fail


def fail_reads(program, piece, words, document, answer, counts):
    """The first read fails, then the second, and so on until no read fails: nothing is written."""
    for read in range(1, MOST_READS):
        ended = program.run(words, document, FAIL_READ=read, READ_AT_MOST=piece)
        if not ended.refused:
            counts.expect(is_answer(ended, answer, words), f"{words}, read {read} is none: {ended}")
            # The last read meets the end of the document.
            counts.expect(read > len(document) // piece + 1, f"{words}: only {read - 1} reads failed")
            return
        counts.expect(has_failed_to_read(ended, errno.EIO), f"{words}, read {read} fails: {ended} of {document}")
    counts.expect(False, f"{words}: no run was without a failed read")


def read_folder(program, counts):
    """A directory as standard input."""
    for words in ("eval",) + ALL:
        folder = os.open(FOLDER, os.O_RDONLY)
        ended = program.start(words, stdin=folder)
        os.close(folder)
        counts.expect(has_failed_to_read(ended, errno.EISDIR), f"{words} of a directory: {ended}")
