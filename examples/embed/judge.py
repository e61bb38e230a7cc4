#!/usr/bin/env python3
"""Carries a command out on the document on standard input, by the library: what the program prints, with its status.

    examples/embed/judge.py LIBRARY [COMMAND] < document.json

LIBRARY is libargo_judge.so; COMMAND one of the numbers of argo_judge.h, 3 (`run --plain`) unless it is given.
"""
import ctypes
import sys

RUN, REFUSED, OUT_OF_MEMORY, TOO_SMALL = 3, 2, 3, 4


def loaded(path):
    """The library's call, with the types that argo_judge.h gives it."""
    call = ctypes.CDLL(path).argo_judge_run
    size = ctypes.c_size_t
    call.argtypes = [ctypes.c_uint32, ctypes.c_char_p, size, ctypes.c_char_p, size, ctypes.POINTER(size)]
    call.restype = ctypes.c_uint8
    return call


def judge(call, command, document):
    """A command's status and text for a document, which is bytes."""
    written = ctypes.c_size_t(4096)
    status = TOO_SMALL
    while status == TOO_SMALL:
        output = ctypes.create_string_buffer(written.value)
        status = call(command, document, len(document), output, len(output), ctypes.byref(written))
    return status, output.raw[:written.value]


def main(words):
    if len(words) not in (1, 2):
        sys.exit(__doc__)
    command = int(words[1]) if words[1:] else RUN
    status, text = judge(loaded(words[0]), command, sys.stdin.buffer.read())
    if status in (REFUSED, OUT_OF_MEMORY):
        sys.stderr.buffer.write(b"argo_judge: " + (text if status == REFUSED else b"out of memory") + b"\n")
    else:
        sys.stdout.buffer.write(text)
    return status


if __name__ == "__main__":
    sys.exit(main(sys.argv[1:]))
