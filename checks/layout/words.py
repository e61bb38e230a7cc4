"""Words that no page, no comment and no name has: what to write instead is next to each."""
import re
from collections.abc import Iterator

INSTEAD = {
    r"want of memory": "out of memory",
    r"truth values?": "boolean",
    r"beside": "next to, with",
    r"stands?|stood": "is, appears, represents",
    r"so many": "n, that many",
    r"made plain": "unwrapped",
    r"turned": "converted",
    r"lent": "borrowed",
    r"let go": "dropped",
    r"dear|dearest": "expensive, most expensive",
    r"looseness": "precedence",
    r"behind": "after",
    r"gives? way": "is replaced",
    r"goes": "proceeds, applies, moves",
    r"tells?|told": "reports, says",
    r"sees to": "ensures",
    r"at hand": "current",
    r"comes? to": "results in",
    r"wrong bod(?:y|ies)": "mutant",
}
# Of names, parts between capitals and underscores; public names that others have given stay.
IN_NAMES = {
    "looseness": "precedence",
    "dear": "expensive",
    "dearest": "costliest",
    "truth": "boolean",
    "truths": "booleans",
    "lent": "borrowed",
    "behind": "after, later",
    "beside": "next to",
    "told": "reported",
    "tells": "reports",
    "goes": "proceeds, continues",
    "stands": "is",
}
GIVEN = {"NotTruth", "leb_tells"}
NAME = re.compile(r"[A-Za-z_][A-Za-z_0-9]*")
PART = re.compile(r"[A-Z]?[a-z0-9]+|[A-Z]+(?![a-z])")
EACH = [(re.compile(rf"\b(?:{word})\b", re.I), instead) for word, instead in INSTEAD.items()]
CODE = re.compile(r"^```.*?^```$|`[^`\n]*`", re.M | re.S)


def found_in(text: str) -> Iterator[tuple[int, str, str]]:
    """The words of a text that it shouldn't have, each with its line and what to write instead; code is none of it."""
    text = CODE.sub(lambda code: "\n" * code[0].count("\n"), text)
    for pattern, instead in EACH:
        for match in pattern.finditer(text):
            yield text.count("\n", 0, match.start()) + 1, match[0], instead


def in_names(code: str) -> Iterator[tuple[int, str, str]]:
    """The names in code, without its texts and comments, that have such a part, each with its line and what to
    write."""
    for match in NAME.finditer(code):
        parts = [part.lower() for part in PART.findall(match[0])]
        for part in parts if match[0] not in GIVEN else []:
            if part in IN_NAMES:
                yield code.count("\n", 0, match.start()) + 1, match[0], IN_NAMES[part]
