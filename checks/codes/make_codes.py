"""Makes random codes, on which the verifier and the machine are tried.

    tests/verifier/make_codes            writes conformance/random-codes.jsonl
    tests/verifier/make_codes --count    prints how many codes there are of each verdict

What is expected of each code is worked out by checks.oracle, which knows nothing of the program. The codes are
hand-made families, well-kinded random code, and random changes of that. The first are of version 1; after them are
those of version 2, of which most have an operation that version 1 lacks. Seeds are fixed, so the same file is made each
time.
"""

import collections
import random
import sys
from typing import Any

from checks.codes.changes import changed
from checks.codes.families import families
from checks.codes.families_2 import families_2
from checks.codes.generator import random_code
from checks.codes.shapes import SHAPES, TEXT_SHAPES, random_shape, random_value
from checks.codes.stepwise import stepwise_code
from checks.data import CONFORMANCE, compact
from checks.oracle.images import encode, image_of, version_of
from checks.oracle.machine import run
from checks.oracle.operations import ENTERS, JUMPS
from checks.oracle.printing import ended, verdict_line
from checks.oracle.shapes import shape_json
from checks.oracle.verifier import verify

SEED = 20240611
CODES = 500
WRITTEN = 70
STEPWISE = 60
CHANGES = 40_000
# Of version 2.
SEED_2 = 20250218
CODES_2 = 120
WRITTEN_2 = 24
STEPWISE_2 = 16
CHANGES_2 = 12_000
LONGEST = 64
FUEL = 100
OUTPUT = CONFORMANCE / "random-codes.jsonl"

# How many members of a family are taken, where it isn't all.
SAMPLES = {"jumps": 14, "pairs": 10, "crossings": 26, "meetings": 24, "kinds": 20, "members": 12}
SAMPLES_2 = {"jumps": 4, "pairs": 6, "loops": 10, "decided": 12, "bodies": 8, "texts": 10, "kinds": 8}

HEAD = """\
# Random codes, made by tests/verifier/make_codes. The answers are those of checks/oracle, which reads the rules of the
# verifier and of the machine a second time and knows nothing of the program.
"""


# Shapes and values as JSON


def decimal_text(millionths):
    digits = str(abs(millionths)).rjust(7, "0")
    return ("-" if millionths < 0 else "") + digits[:-6] + "." + digits[-6:]


def value_json(source, value):
    if value[0] == "nil":
        return None
    if value[0] == "decimal":
        return decimal_text(value[1])
    if value[0] == "list":
        return [value_json(source, item) for item in value[1]]
    if value[0] == "record":
        kept = {name: inner for name, inner in value[1].items() if inner[0] != "nil" or source.random() < 0.5}
        return {name: value_json(source, inner) for name, inner in kept.items()}
    return value[1]


# The choice of codes


def any_shape(source, version):
    if version == 2 and source.random() < 0.7:
        return source.choice(TEXT_SHAPES)
    return source.choice(SHAPES) if source.random() < 0.6 else random_shape(source)


def any_code(source, version):
    """A shape and code, most of it accepted."""
    shape = any_shape(source, version)
    if source.random() < 0.5:
        return shape, random_code(source, shape, source.choice((2, 3, 3, 4)), version)
    return shape, stepwise_code(source, shape, source.randrange(3, 40), version)


def is_rich(ops):
    """Whether code has a loop, or a place where several jumps meet."""
    targets = [op[1] for op in ops if op[0] in JUMPS]
    return any(op[0] in ENTERS for op in ops) or len(set(targets)) < len(targets)


def written(source, count, make, version):
    """Codes of one way to make them, no longer than is good; three of four have a loop or a shared end."""
    codes: list[Any] = []
    while len(codes) < count:
        shape = any_shape(source, version)
        ops = make(shape)
        if len(ops) <= LONGEST and (is_rich(ops) or source.random() < 0.1) and version_of(ops) == version:
            codes.append((shape, ops))
    return codes


def mutants(source, count, tries, version):
    """Changed codes, the reasons in turn as far as they come up, and accepted ones as one reason among them."""
    found = collections.defaultdict(list)
    for _ in range(tries):
        shape, ops = any_code(source, version)
        ops = changed(source, ops, version)
        if 0 < len(ops) <= LONGEST:
            found[verify(ops, shape)[0]].append((shape, ops))
    codes: list[Any] = []
    while len(codes) < count:
        for reason in sorted(found):
            if found[reason]:
                codes.append(found[reason].pop())
    return codes[:count]


def sampled(source, members_of, samples):
    codes: list[Any] = []
    for name, members in members_of.items():
        codes += source.sample(members, samples.get(name, len(members)))
    return codes


def chosen(source):
    codes = sampled(source, families(), SAMPLES)
    codes += written(source, WRITTEN, lambda shape: random_code(source, shape, source.choice((2, 3, 3, 4))), 1)
    codes += written(source, STEPWISE, lambda shape: stepwise_code(source, shape, source.randrange(5, 45)), 1)
    return codes + mutants(source, CODES - len(codes), CHANGES, 1)


def chosen_2(source):
    codes = sampled(source, families_2(), SAMPLES_2)
    codes += written(source, WRITTEN_2, lambda shape: random_code(source, shape, source.choice((2, 3, 3, 4)), 2), 2)
    codes += written(source, STEPWISE_2, lambda shape: stepwise_code(source, shape, source.randrange(5, 45), 2), 2)
    return codes + mutants(source, CODES_2 - len(codes), CHANGES_2, 2)


# Lines


def values(source, shape, ops, version):
    """Three values: one of little, one of much, and one whose run ends in another way, if one is found."""
    pair = [random_value(source, shape, fill, version) for fill in ("empty", "full")]
    seen = [run(ops, value)[0] for value in pair]
    others = [random_value(source, shape, "any", version) for _ in range(12)]
    fresh = [value for value in others if run(ops, value)[0] not in seen]
    return pair + (fresh or others)[:1]


def outcomes(ops, verdict, tried):
    if verdict[0] != "accepted":
        return [run(ops, value, FUEL) for value in tried]
    found = [run(ops, value) for value in tried]
    if any(outcome[0] == "stuck" or outcome[1] > verdict[2] for outcome in found):
        raise AssertionError(f"the rules contradict each other: {ops} on {tried}")
    return found


def line(source, number, shape, ops, version):
    verdict = verify(ops, shape)
    unused = ["unused"] if source.random() < 0.1 else []
    accepted = verdict[0] == "accepted"
    tried = values(source, shape, ops, version) if accepted else [random_value(source, shape, "any", version)]
    case = {
        "call": "verify",
        "name": str(number),
        "image": encode(image_of(ops, unused)).hex(),
        "shape": shape_json(shape),
        "values": [value_json(source, value) for value in tried],
        "fuel": FUEL,
        "answer": " / ".join(
            [verdict_line(ops, verdict), *(ended(outcome) for outcome in outcomes(ops, verdict, tried))]
        ),
    }
    return compact(case)


def main(words: list[str]) -> int:
    source, source_2 = random.Random(SEED), random.Random(SEED_2)
    codes, codes_2 = chosen(source), chosen_2(source_2)
    if "--count" in words:
        for some in (codes, codes_2):
            counts = collections.Counter((version_of(ops), verify(ops, shape)[0]) for shape, ops in some)
            for (version, reason), count in counts.most_common():
                print(f"version {version} {reason} {count}")
        return 0
    lines = [line(source, number, shape, ops, 1) for number, (shape, ops) in enumerate(codes)]
    lines += [line(source_2, number, shape, ops, 2) for number, (shape, ops) in enumerate(codes_2, len(codes))]
    with OUTPUT.open("w", encoding="utf-8") as output:
        output.write(HEAD)
        output.writelines(f"{text}\n" for text in lines)
    return 0


if __name__ == "__main__":
    sys.exit(main(sys.argv[1:]))
