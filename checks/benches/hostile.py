"""Times the program on documents that cost it much for their size.

    benches/hostile [NAME ..]
    benches/hostile --against PROGRAM [NAME ..]

Each document of the first table is given to `argo_judge check`, once with conditions that are expensive to
verify and once with the condition `true` in their place: the seconds and the greatest memory of both are
printed, the least of several starts, and how many bytes of memory there are for each byte of the document.
Code that no condition has is given to the conformance program's `verify`, and so is the code of `true`.

Each document of the second table is given to the program at three sizes, each twice the one before. Its
seconds and its greatest memory are printed for each size, and after them the factors from size to size: 2
where they grow as what there is more of, 4 where they grow as its square. Memory of less than the script's own,
some 13 MB, is shown as that. Some of these documents are refused, as they have to be: another exit status than
the one that is right ends the script.

With `--against` the documents are large ones, each of which is given to another `argo_judge`, as one that was built of
an earlier revision, and then to this one: what both take, started once. Where a program wants more than 8 GB, or more
than 60 seconds, that is what is printed.

NAMEs choose documents and codes. The programs must have been built (bin/argo_judge --version, and .ci/run
for `conformance`).
"""
import json
import os
import resource
import signal
import sys
import tempfile
import time

from checks.benches.hostile_expensive import CODES, DOCUMENTS, case
from checks.benches.hostile_growing import CHECK, GROWING
from checks.benches.hostile_large import LARGE
from checks.benches.hostile_parts import document, named
from checks.harness import ENGINE, SUITE

REPEATS = 3
VERIFY = [SUITE]
MOST_MEMORY = 8_000_000_000
MOST_SECONDS = 60


def made(make):
    """A file with the bytes that are made, by a process of its own: the greatest memory that is measured of a program
    has that of the process that starts it in it."""
    file = tempfile.TemporaryFile()
    process = os.fork()
    if process == 0:
        file.write(make())
        file.flush()
        os._exit(0)
    if os.waitpid(process, 0)[1]:
        sys.exit("a document couldn't be made")
    return file


def as_json(value):
    return json.dumps(value).encode()


def inputs(name):
    """What is expensive, the words of the program, and what it is given: that, and with `true` in its place."""
    if name in CODES:
        expensive, code, shape = CODES[name]
        ends = [("PushBool", True), ("Return",)]
        return expensive, VERIFY, made(lambda: case(code(), shape)), made(lambda: case(ends, shape))
    expensive, condition, make_shapes, runs = DOCUMENTS[name]
    files = [
        made(lambda: as_json(document({"successCondition": text}, make_shapes(), named(runs))))
        for text in (condition, "true")
    ]
    return expensive, CHECK, *files


def begin(words, file):
    """Becomes a program on a file, of which nothing is heard: neither what it writes, nor a refusal, nor warnings."""
    os.lseek(file.fileno(), 0, os.SEEK_SET)
    os.dup2(file.fileno(), 0)
    nothing = os.open(os.devnull, os.O_WRONLY)
    os.dup2(nothing, 1)
    os.dup2(nothing, 2)
    os.execv(words[0], words)


def measured(words, file, status=0):
    """Seconds and greatest memory in bytes of a program on its input, the least of several starts."""
    seconds, memory = [], []
    for _ in range(REPEATS):
        begun = time.perf_counter()
        process = os.fork()
        if process == 0:
            begin(words, file)
        _, ended, usage = os.wait4(process, 0)
        if os.waitstatus_to_exitcode(ended) != status:
            sys.exit(f"status {os.waitstatus_to_exitcode(ended)}")
        seconds.append(time.perf_counter() - begun)
        memory.append(usage.ru_maxrss * 1024)
    return min(seconds), min(memory)


def bytes_of(file):
    return os.fstat(file.fileno()).st_size


def print_expensive(names):
    print("| | What is expensive | document, MB | s | with `true`, s | MB | with `true`, MB | bytes for a byte |")
    print("|---|---|---|---|---|---|---|---|")
    for name in names:
        expensive, words, file, plain = inputs(name)
        (took, held), (least, base) = measured(words, file), measured(words, plain)
        print(
            f"| {name} | {expensive} | {bytes_of(file) / 1e6:.1f} | {took:.2f} | {least:.2f}"
            f" | {held / 1e6:.0f} | {base / 1e6:.0f} | {held / bytes_of(file):.0f} |",
            flush=True,
        )


def row_of(amounts, digits):
    """Amounts at each size, and the factors from size to size."""
    factors = [later / earlier for earlier, later in zip(amounts, amounts[1:])]
    return ", ".join(f"{amount:.{digits}f}" for amount in amounts) + " | " + ", ".join(f"{by:.1f}" for by in factors)


def print_growing(names):
    print("| | What grows | sizes | document, kB | s | growth | MB | growth |")
    print("|---|---|---|---|---|---|---|---|")
    for name in names:
        what, words, make, least, status = GROWING[name]
        sizes = [least, 2 * least, 4 * least]
        files = [made(lambda: as_json(make(size))) for size in sizes]
        found = [measured(words, file, status) for file in files]
        print(
            f"| {name} | {what} | {', '.join(map(str, sizes))}"
            f" | {', '.join(f'{bytes_of(file) / 1e3:.0f}' for file in files)}"
            f" | {row_of([took for took, _ in found], 3)} | {row_of([held / 1e6 for _, held in found], 0)} |",
            flush=True,
        )


def limited():
    """Ends a program that wants too much."""
    resource.setrlimit(resource.RLIMIT_AS, (MOST_MEMORY, MOST_MEMORY))
    resource.setrlimit(resource.RLIMIT_CPU, (MOST_SECONDS, MOST_SECONDS))


def taken(words, file, status):
    """What one start takes: seconds of processor time, and memory in MB."""
    process = os.fork()
    if process == 0:
        limited()
        begin(words, file)
    _, ended, usage = os.wait4(process, 0)
    if os.WIFSIGNALED(ended) and os.WTERMSIG(ended) in (signal.SIGXCPU, signal.SIGKILL):
        return f"over {MOST_SECONDS}", f"{usage.ru_maxrss * 1024 / 1e6:.0f}"
    code = os.waitstatus_to_exitcode(ended)
    if code == 3:
        return f"{usage.ru_utime + usage.ru_stime:.2f}", f"over {MOST_MEMORY / 1e6:.0f}"
    if code != status:
        sys.exit(f"status {code}")
    return f"{usage.ru_utime + usage.ru_stime:.2f}", f"{usage.ru_maxrss * 1024 / 1e6:.0f}"


def print_against(program, names):
    print("| | Document | kB | before, s | now, s | before, MB | now, MB | bytes for a byte |")
    print("|---|---|---|---|---|---|---|---|")
    for name in names:
        what, words, make, status = LARGE[name]
        file = made(lambda: json.dumps(make(), separators=(",", ":")).encode())
        size = bytes_of(file)
        then = taken([program, *words.split()], file, status)
        now = taken([ENGINE, *words.split()], file, status)
        print(
            f"| {name} | {what} | {size / 1e3:.0f} | {then[0]} | {now[0]} | {then[1]} | {now[1]}"
            f" | {float(now[1].split()[-1]) * 1e6 / size:.1f} |",
            flush=True,
        )


def refuse_unknown(names, known):
    for name in names:
        if name not in known:
            sys.exit(f"{name}: expected one of {', '.join(known)}, or --help")


def main(words: list[str]) -> None:
    if words == ["--help"]:
        return print(__doc__.strip())
    if words[:1] == ["--against"]:
        refuse_unknown(words[2:], LARGE)
        return print_against(words[1], words[2:] or LARGE)
    refuse_unknown(words, [*DOCUMENTS, *CODES, *GROWING])
    names = words or [*DOCUMENTS, *CODES, *GROWING]
    growing = [name for name in names if name in GROWING]
    others = [name for name in names if name not in GROWING]
    if others:
        print_expensive(others)
    if growing:
        print_growing(growing)


if __name__ == "__main__":
    main(sys.argv[1:])
