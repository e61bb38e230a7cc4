"""Runs commands of the program on documents."""

from checks.harness import decoded, started_in_bytes

SECONDS = 20


def command(program, words, document):
    """The status of a command and what it wrote to standard output and to standard error."""
    ended = started_in_bytes([program, *words], document, SECONDS)
    return ended.status, ended.output, decoded(ended.errors)
