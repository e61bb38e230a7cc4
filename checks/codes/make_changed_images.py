"""Makes cases that give each byte of an image each of its values.

    tests/verifier/make_changed_images    writes conformance/changed-images.jsonl

What is expected is worked out by checks.oracle, which knows nothing of the program.
"""

import itertools
import sys

from checks.data import CONFORMANCE, compact
from checks.oracle.images import decode, encode, image_of, resolved
from checks.oracle.machine import run
from checks.oracle.printing import ended, verdict_line
from checks.oracle.refused import Refused
from checks.oracle.verifier import verify

OUTPUT = CONFORMANCE / "changed-images.jsonl"

HEAD = """\
# Each byte of an image with each of its values, made by tests/verifier/make_changed_images. The answers are those of
# checks/oracle, which reads the rules of images, of the verifier and of the machine a second time and knows nothing of
# the program.
"""

# The codes of conditions, with the shape of `result` and with values, each as JSON and as checks.oracle has it.
CODES = (
    (
        "result[0] >= 0.95",
        [("LoadResult",), ("PushWhole", 0), ("Index",), ("PushDecimal", 950_000), ("GeD",), ("Return",)],
        {"list": "decimal", "max": 10},
        ("list", "decimal", 10),
        [([], ("list", [])), (["0.96"], ("list", [("decimal", 960_000)]))],
    ),
    (
        'any(result, .a == "\u00e9")',
        [("LoadResult",), ("AnyEnter", 6), ("Item",), ("Field", "a"), ("PushText", "\u00e9"), ("EqText",)]
        + [("AnyStep", 1), ("Return",)],
        {"list": {"record": {"a": "text"}}, "max": 2},
        ("list", ("record", (("a", "text"),)), 2),
        [
            ([{"a": "a"}], ("list", [("record", {"a": ("text", "a")})])),
            ([{"a": "a"}, {"a": "\u00e9"}], ("list", [("record", {"a": ("text", text)}) for text in "a\u00e9"])),
        ],
    ),
    (
        'result contains "err"',
        [("LoadResult",), ("PushText", "err"), ("Contains",), ("Return",)],
        "text",
        "text",
        [("no error", ("text", "no error")), ("", ("text", ""))],
    ),
    (
        'one(result, # endsWith "\u00e9")',
        [("LoadResult",), ("OneEnter", 5), ("Item",), ("PushText", "\u00e9"), ("EndsWith",), ("OneStep", 1)]
        + [("Return",)],
        {"list": "text", "max": 2},
        ("list", "text", 2),
        [
            ([], ("list", [])),
            (["\u00e9", "a"], ("list", [("text", "\u00e9"), ("text", "a")])),
            (["\u00e9", "a\u00e9"], ("list", [("text", "\u00e9"), ("text", "a\u00e9")])),
        ],
    ),
)


def outcome(data, kind, values):
    """What comes of an image: its refusal, the fault of its code, or how runs of it end."""
    try:
        ops = resolved(decode(data))
    except Refused as refused:
        return str(refused)
    verdict = verify(ops, kind)
    if verdict[0] != "accepted":
        return verdict_line(ops, verdict)
    return ", ".join([verdict_line(ops, verdict), *(ended(run(ops, value)) for value in values)])


def stretch(first, last, text):
    return f"{first:02x} {text}" if first == last else f"{first:02x}-{last:02x} {text}"


def answer(data, place, kind, values):
    """Stretches of values of the byte at a place with the same outcome."""
    outcomes = [outcome(data[:place] + bytes([byte]) + data[place + 1 :], kind, values) for byte in range(256)]
    stretches, first = [], 0
    for text, group in itertools.groupby(outcomes):
        last = first + len(list(group)) - 1
        stretches.append(stretch(first, last, text))
        first = last + 1
    return " / ".join(stretches)


def lines(condition, ops, shape, kind, values):
    data = encode(image_of(ops))
    for place in range(len(data)):
        yield compact(
            {
                "call": "change_byte",
                "name": f"byte {place} of {condition}",
                "image": data.hex(),
                "place": place,
                "shape": shape,
                "values": [json for json, _ in values],
                "answer": answer(data, place, kind, [value for _, value in values]),
            }
        )


def main(words: list[str]) -> int:
    with OUTPUT.open("w", encoding="utf-8") as output:
        output.write(HEAD)
        for code in CODES:
            output.writelines(f"{line}\n" for line in lines(*code))
    return 0


if __name__ == "__main__":
    sys.exit(main(sys.argv[1:]))
