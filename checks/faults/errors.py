"""What the program says on standard error where something was refused it, in one line."""

import os

from checks.faults.answers import is_answer

OUT_OF_MEMORY = "argo_judge: out of memory\n"
NO_WARNINGS = "argo_judge: warning: out of memory: warnings are not shown\n"
NO_THREAD = (
    "argo_judge: run: NoThread: a thread for a worker couldn't be started; "
    "try fewer --workers, or --plain, which starts none\n"
)
READ = "argo_judge: input: Read: the input can't be read: "
WRITE = "argo_judge: output: Write: the output can't be written: "
TOO_LARGE = "argo_judge: document: TooLarge: expected at most 16777216 bytes\n"


def is_out_of_memory(ended):
    return ended[:3] == (3, "", OUT_OF_MEMORY)


def is_without_warnings(ended, answer, words):
    """The answer is whole, and in the place of its warnings a line says that they aren't shown."""
    is_line = answer.warns and ended.errors == NO_WARNINGS
    return is_line and is_answer(ended, answer._replace(lines=1), words)


def is_without_thread(ended):
    return ended[:3] == (5, "", NO_THREAD)


def has_failed_to_read(ended, number):
    """Nothing was written, and the line reports the system's error of this number."""
    return ended[:3] == (4, "", f"{READ}{os.strerror(number)} (os error {number})\n")


def has_failed_to_write(ended, written, number=None):
    """Just these bytes were written, and the line reports the error of this number, or that a write took nothing."""
    said = "write zero" if number is None else f"{os.strerror(number)} (os error {number})"
    return ended[:3] == (4, written, f"{WRITE}{said}\n")
