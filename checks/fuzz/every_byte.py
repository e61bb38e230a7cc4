"""One document with each of its bytes changed, and each of its proper prefixes."""

import itertools

from checks.fuzz.cases import in_document
from checks.oracle.answers import answer_of

DOCUMENT = (
    b'{"manifest":{"apiVersion":"argoproj.io/v1alpha1","kind":"AnalysisTemplate","metadata":{"name":"t"},"spec":'
    b'{"metrics":[{"name":"m","successCondition":"result[0] >= 0.95"}]}},"shapes":{"m":{"list":"decimal","max":10}},'
    b'"runs":[{"name":"r0"},{"name":"r1"}],"measurements":[{"run":"r0","metric":"m","value":["0.99"]},'
    b'{"run":"r1","metric":"m","value":["0.96"]}]}'
)
AT_A_TIME = 8_000


def prefixes():
    """Each proper prefix, which is refused."""
    for length in range(len(DOCUMENT)):
        yield {"call": "findings", "bytes": DOCUMENT[:length].hex()}, "Utf8OrJson"


def changes():
    """The document with each byte changed to each other value."""
    for place, byte in enumerate(DOCUMENT):
        for other in range(256):
            if other != byte:
                case = in_document({"call": "findings"}, DOCUMENT[:place] + bytes([other]) + DOCUMENT[place + 1 :])
                yield case, answer_of(case)


def cases_of_bytes():
    """All of these, some at a time."""
    cases = itertools.chain(prefixes(), changes())
    while some := list(itertools.islice(cases, AT_A_TIME)):
        yield some
