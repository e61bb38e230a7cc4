"""Random shapes, and values under them."""

from checks.oracle.kinds import is_list, is_optional, is_record
from checks.oracle.operations import SCALARS

WHOLES = (0, 0, 1, 1, 2, 3, -1, -2, 5, 10, 1000, -7, 2**63 - 1, -(2**63), 9_223_372_036_855)
DECIMALS = (0, 1, -1, 500_000, 950_000, 1_000_000, 2_000_000, -1_500_000, 2**63 - 1, -(2**63), 333_333)
TEXTS = ("", "a", "b", "retry", "é", "x-y")
# Texts of which many have, begin or end with another one; the last bytes of é and ũ are the same.
TEXTS_2 = ("", "", "a", "é", "ab", "aé", "éa", "aab", "retry", "re", "try", "ret", "ũ", "€", "a€", "𐀀", "aé€é")
NAMES = ("a", "b", "errors", "p99", "é", "")
LIST_3 = ("list", "whole", 3)
SERIES = ("record", (("Values", ("list", "decimal", 4)), ("ok", "bool")))
SHAPES = (
    "bool",
    "whole",
    "decimal",
    "text",
    ("optional", "bool"),
    ("optional", "whole"),
    ("optional", "decimal"),
    ("optional", "text"),
    LIST_3,
    ("list", "decimal", 10),
    ("list", "bool", 2),
    ("list", "text", 4),
    ("list", "whole", 0),
    ("list", ("optional", "whole"), 3),
    ("list", ("optional", "text"), 2),
    ("optional", ("list", "decimal", 5)),
    ("list", ("list", "whole", 3), 2),
    ("list", ("list", ("list", "decimal", 2), 2), 3),
    ("list", "decimal", 10_000),
    ("list", ("list", "whole", 10_000), 1_000),
    ("record", ()),
    SERIES,
    ("list", SERIES, 3),
    ("optional", SERIES),
    ("record", (("errors", ("optional", "whole")), ("retry", "text"))),
    ("record", (("a", ("optional", "decimal")), ("b", ("list", ("optional", "decimal"), 2)), ("p99", "decimal"))),
    ("record", (("", "bool"), ("b", ("list", ("record", (("a", "whole"), ("é", ("optional", "text")))), 3)))),
)
# Shapes of version 2, besides those above: of texts.
TEXT_SHAPES = (
    "text",
    ("optional", "text"),
    ("list", "text", 4),
    ("list", ("optional", "text"), 3),
    ("list", ("list", "text", 2), 3),
    ("optional", ("list", "text", 5)),
    ("record", (("contains", "text"), ("none", ("optional", "text")))),
    ("list", ("record", (("endsWith", ("optional", "text")), ("one", ("list", "bool", 3)))), 3),
)


def random_shape(random, levels=3):
    choice = random.randrange(10 if levels else 4)
    if choice < 5:
        return random.choice(SCALARS)
    if choice < 7:
        inner = random_shape(random, levels - 1)
        return inner if is_optional(inner) else ("optional", inner)
    if choice < 9:
        most = random.choice((0, 1, 2, 3, 3, 5, 10, 100))
        return ("list", random_shape(random, levels - 1), most)
    names = sorted(random.sample(NAMES, random.randrange(1, 4)), key=str.encode)
    return ("record", tuple((name, random_shape(random, levels - 1)) for name in names))


def literals(version):
    """Values of each scalar kind."""
    return {"bool": (True, False), "whole": WHOLES, "decimal": DECIMALS, "text": TEXTS if version == 1 else TEXTS_2}


def random_value(random, kind, fill, version=1):
    """A value of the kind; fill is 'empty', 'full' or 'any', for lists and what is optional."""
    if is_optional(kind):
        nil = fill == "empty" or (fill == "any" and random.random() < 0.4)
        return ("nil",) if nil else random_value(random, kind[1], fill, version)
    if is_list(kind):
        most = min(kind[2], 4 if fill == "full" else 3)
        count = {"empty": 0, "full": most}.get(fill, random.randrange(most + 1))
        return ("list", [random_value(random, kind[1], fill, version) for _ in range(count)])
    if is_record(kind):
        return ("record", {name: random_value(random, inner, fill, version) for name, inner in kind[1]})
    return (kind, random.choice(literals(version)[kind]))
