"""Holds the C library to the program: the same bytes and the same status, for the same command and document.

    tests/embed/check [PROGRAM [ARCHIVE]]

PROGRAM and ARCHIVE are those last built in the place of crates/argo_judge/out/argo_judge and of
crates/argo_judge_c/out/libargo_judge_c.a. Each document of examples/ and each stored command line that the library has
a command for is tried with each of the library's commands, through Python's ctypes, with buffers that are too small,
just large enough and larger. Then examples/embed is built and run, in C, in C without shared libraries, in Go and in
Python, on README's first document, which each has to report as the program does; the library is called by several
threads at once; it is refused memory, call after call; and the deepest documents are tried in a thread with the stack
that the header asks for. What isn't tried is said in a line. The last line has the
counts.
"""

import concurrent.futures
import ctypes
import json
import os
import pathlib
import shutil
import subprocess
import sys
import tempfile

from checks import ROOT, stacks
from checks.data import EXAMPLES, cases_of, text_of
from checks.harness import Counts, built, side_by_side, started_in_bytes
from releasing import library

EMBED = EXAMPLES / "embed"
README_DOCUMENT = EXAMPLES / "bundles/success-rate.json"
# The words of each command, by its number.
TEXT = {0: ["eval"], 1: ["check"], 2: ["list"], 3: ["run", "--plain"], 4: ["explain"]}
JSON = {number + 16: [*words, "--output", "json"] for number, words in TEXT.items() if number != 2}
COMMANDS = {**TEXT, **JSON}
REFUSED, OUT_OF_MEMORY, TOO_SMALL = 2, 3, 4
FILL = b"\xa5"
THREADS = 8
SHOWN = 10


# ---- calls


def called(own, command, document, capacity):
    """The status of a call, what it says was written, and the whole buffer."""
    written = ctypes.c_size_t(12345)
    buffer = ctypes.create_string_buffer(FILL * (capacity + 1), capacity + 1)
    status = own.argo_judge_run(command, document, len(document), buffer, capacity, ctypes.byref(written))
    return status, written.value, buffer.raw


def of_program(program, words, document):
    """The status and the text that the library has to give, by the program. Warnings aren't the library's."""
    ended = started_in_bytes([program, *words], document)
    if ended.status == REFUSED and "json" in words:
        return REFUSED, ended.errors
    if ended.status == REFUSED:
        return REFUSED, ended.errors.removeprefix(b"argo_judge: ").removesuffix(b"\n")
    return ended.status, ended.output


def faults_of(own, program, command, document):
    """What a command of the library does otherwise than the program, on one document."""
    status, text = of_program(program, COMMANDS[command], document)
    length = len(text)
    for capacity in {0, max(length - 1, 0)} - {length}:
        if called(own, command, document, capacity) != (TOO_SMALL, length, FILL * (capacity + 1)):
            yield f"a buffer of {capacity} bytes for {length}"
    for more in (0, 100):
        if called(own, command, document, length + more) != (status, length, text + FILL * (more + 1)):
            yield f"a buffer of {length + more} bytes for {length}"


# ---- documents


def stored():
    """The document of each stored command line that the library has a command for, with that command."""
    numbers = {tuple(words): number for number, words in COMMANDS.items()}
    for case in cases_of(EXAMPLES / "commands.jsonl"):
        if tuple(case["words"]) in numbers and "document" not in case:
            yield numbers[tuple(case["words"])], text_of(case.get("stdin", "")).encode()


def pairs():
    """Each document of examples/ with each command, and the stored ones with their own."""
    found = [path.read_bytes() for path in sorted(EXAMPLES.rglob("*.json"))] + [b"", b"\xff", b"null"]
    return [*((command, document) for document in found for command in COMMANDS), *stored()]


def of_documents(own, program):
    tried = pairs()
    found = side_by_side(lambda pair: list(faults_of(own, program, *pair)), tried)
    for (command, document), faults in zip(tried, found):
        yield f"command {command} on {document[:60]}: {faults}", not faults


def of_others(own, program):
    """Numbers that no command has, and the version."""
    for number in (5, 15, 18, 21, 32, 2**32 - 1):
        status, length, buffer = called(own, number, b"{}", 1000)
        line = f"command: Unknown: {number} is no command; expected 0 to 4, or 16, 17, 19 or 20 for JSON"
        text = buffer[:length].decode() if number < 16 else json.loads(buffer[:length])["refusal"]["text"]
        yield f"command {number}", (status, text) == (REFUSED, line)
    said = subprocess.run([program, "--version"], capture_output=True, check=True).stdout
    written, buffer = ctypes.c_size_t(), ctypes.create_string_buffer(200)
    fits = own.argo_judge_version(buffer, 200, ctypes.byref(written))
    yield "the version", fits and b"argo_judge " + buffer.raw[: written.value] + b"\n" == said
    yield "no room for the version", not own.argo_judge_version(buffer, 3, ctypes.byref(written))


def of_threads(own, program):
    """Several threads call at once."""
    document = README_DOCUMENT.read_bytes()
    status, text = of_program(program, COMMANDS[3], document)
    with concurrent.futures.ThreadPoolExecutor(THREADS) as pool:
        calls = [pool.submit(called, own, 3, document, len(text)) for _ in range(50 * THREADS)]
        yield f"{THREADS} threads", all(call.result() == (status, len(text), text + FILL) for call in calls)


# ---- programs in other languages


def is_there(program):
    if shutil.which(program):
        return True
    print(f"embed: {program} isn't installed, so nothing is tried by it")
    return False


def compiled(words, **more):
    words = [str(word) for word in words]
    ended = subprocess.run(words, stdout=subprocess.PIPE, stderr=subprocess.STDOUT, text=True, **more)
    if ended.returncode != 0:
        print(ended.stdout, end="")
    return ended.returncode == 0


def starts(folder):
    """What starts each example, by its name; the C and the Go one are built first."""
    include, archive, shared = folder / "include", folder / "lib/libargo_judge.a", folder / "lib/libargo_judge.so"
    yield "Python", [sys.executable, EMBED / "judge.py", shared], True
    if is_there("cc"):
        strict = ["cc", "-Wall", "-Wextra", "-Werror", "-O1", "-I", include, EMBED / "judge.c"]
        yield "C", [folder / "judge"], compiled([*strict, archive, "-o", folder / "judge"])
        static = compiled([*strict, "-static", archive, "-o", folder / "judge-static"])
        yield "C, statically", [folder / "judge-static"], static
    if is_there("go"):
        how = {
            **os.environ,
            "CGO_ENABLED": "1",
            "CGO_CFLAGS": f"-I{include}",
            "CGO_LDFLAGS": str(archive),
            "GOCACHE": str(folder / "go"),
            "GOFLAGS": "-mod=mod",
            "GO111MODULE": "off",
        }
        words = ["go", "build", "-o", folder / "judge-go", EMBED / "judge.go"]
        yield "Go", [folder / "judge-go"], compiled(words, env=how, cwd=folder)


def of_examples(folder, program):
    refused, document = b"{}", README_DOCUMENT.read_bytes()
    for name, words, is_built in starts(folder):
        yield f"{name} is built", is_built
        if not is_built:
            continue
        for given, command in ((document, 3), (document, 20), (refused, 3)):
            own = subprocess.run([*words, str(command)], input=given, capture_output=True, check=False)
            wanted = subprocess.run([program, *COMMANDS[command]], input=given, capture_output=True, check=False)
            same = (own.returncode, own.stdout, own.stderr) == (wanted.returncode, wanted.stdout, wanted.stderr)
            yield f"{name} with command {command} on {given[:20]!r}", same


# ---- memory


def of_memory(folder):
    """Each allocation of a call is refused in turn, and then all after it, too."""
    if not is_there("cc"):
        return
    program = folder / "refusing"
    wrapped = [f"-Wl,--wrap={name}" for name in ("malloc", "realloc", "free")]
    words = [
        "cc",
        "-Wall",
        "-Wextra",
        "-Werror",
        "-O1",
        "-I",
        folder / "include",
        ROOT / "tests/embed/refusing.c",
        folder / "lib/libargo_judge.a",
        "-o",
        program,
        *wrapped,
    ]
    yield "the program that refuses memory is built", compiled(words)
    for command in (0, 1, 2, 3, 4, 17, 19, 20, 99):
        document = (EXAMPLES / "eval/healthy.json" if command == 0 else README_DOCUMENT).read_bytes()
        ended = subprocess.run([program, str(command)], input=document, capture_output=True, check=False)
        print(f"embed: command {command}: {ended.stdout.decode().strip()}")
        yield f"command {command} under refused memory: {ended.stderr.decode()}", ended.returncode == 0


# ---- stack


def measured(words, document):
    """The status of a call in a thread, and the bytes of stack that it used."""
    ended = subprocess.run(words, input=document, capture_output=True, check=False)
    found = ended.stdout.split()
    return (int(found[0]), int(found[1])) if len(found) == 2 else (ended.returncode, None)


def of_stack(folder):
    """Each call gets by with half of the stack that the header asks for."""
    if not is_there("cc"):
        return
    yield "the program that measures stacks is built", compiled(stacks.built_by(folder))
    asked, greatest = stacks.asked(), 0
    tried = list(stacks.documents())
    words = [[str(folder / "stack"), str(command), str(asked)] for command, _ in tried]
    found = side_by_side(lambda one: measured(one[0], one[1][1]), zip(words, tried))
    for (command, document), (status, used) in zip(tried, found):
        greatest = max(greatest, used or 0)
        is_so = used is not None and used <= asked // 2 and status in (0, 1, REFUSED, OUT_OF_MEMORY)
        yield f"command {command} on {document[:60]!r} with {asked} bytes of stack: {status}, {used}", is_so
    print(f"embed: of {asked} bytes of stack at most {greatest} were used")


def checks(program, archive, folder):
    library.made(folder, built=archive)
    own = library.loaded(folder / "lib/libargo_judge.so")
    yield from of_documents(own, program)
    yield from of_others(own, program)
    yield from of_threads(own, program)
    yield from of_examples(folder, program)
    yield from of_memory(folder)
    yield from of_stack(folder)


def main(words: list[str]) -> int:
    program = built(words[:1])
    archive = pathlib.Path(words[1]).resolve() if words[1:] else library.BUILT
    counts = Counts("embed", SHOWN)
    with tempfile.TemporaryDirectory() as scratch:
        for what, passed in list(checks(program, archive, pathlib.Path(scratch))):
            counts.expect(passed, f"embed: failed: {what}")
    return counts.end()


if __name__ == "__main__":
    sys.exit(main(sys.argv[1:]))
