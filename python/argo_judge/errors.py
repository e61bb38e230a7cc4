"""How a command may end: the statuses, which are the engine's, too, and what ends it early."""

# Where nothing is found, and by a verdict: a run that isn't Successful, a mistake, a test that fails, a difference.
GOOD, VERDICT = 0, 1
# What the engine ends with where it judged a document.
JUDGED = (GOOD, VERDICT)
# 70 is a fault of the command itself.
REFUSED, NO_MEMORY, NOT_WRITTEN, UNEXPECTED = 2, 3, 4, 70


class Refused(Exception):
    """Input that a command can't use: where it is, what was found, and what was expected."""


class Status(Exception):
    """A status that ends a command at once; whatever there is to say was said by another program."""

    def __init__(self, status: int) -> None:
        super().__init__(status)
        self.status = status
