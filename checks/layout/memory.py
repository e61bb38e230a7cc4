"""Where code answers out of memory by itself.

A contract lets a body answer out of memory for any input, since no clause can say when memory runs out. So the code has
to show that it never makes it up: `OutOfMemory`, `AllocError`, the status `OUT_OF_MEMORY` and calls of `out_of_memory`,
which answers it, may be an expression only in an arm of a `match` whose pattern or guard says that a call answered so,
and in an `impl From` of one of the first two. No call may ask for a growth that no memory suffices for.
"""
import re
from collections.abc import Iterator
from typing import TypeAlias

NAMES = ("OutOfMemory", "AllocError", "OUT_OF_MEMORY", "out_of_memory")
# Calls that ask for memory, and what makes a number of places too large for any.
GROWTHS = ("reserve", "reserve_exact", "with_capacity", "vec")
TOO_LARGE = ("MAX", "pow", "checked_pow", "saturating_pow", "wrapping_sub", "wrapping_neg")
MOST_PLACES = 2**32
# What a pattern has that says so, or a guard: `is_memory` is the question to an error of a library, `wants_memory` to a
# reader.
ANSWERS = {*NAMES, "is_memory", "wants_memory"}
# Types that say no more than that memory was refused.
SOURCES = {*NAMES, "AllocFailed"}
TOKEN = re.compile(r"""//[^\n]*|b?"(?:\\.|[^"\\])*"|b?'(?:\\.[^']*|[^'\\])'|'\w+|\w+|=>|->|::|\S""", re.S)
OPEN, CLOSE = "([{", ")]}"
CLAUSES = ("ensures", "requires", "invariant", "ghost")
DECLARATIONS = ("use", "enum", "const")


class Group:
    """What is between two brackets: tokens, and further groups."""

    def __init__(self, bracket: str, line: int) -> None:
        self.bracket, self.line = bracket, line
        self.items: Items = []


# What a group has: tokens and groups, each with its line.
Items: TypeAlias = list[tuple[Group | str, int]]


def tree_of(text: str) -> Group:
    """The tokens of a file, grouped by their brackets, each with its line; without comments."""
    root = Group("", 1)
    stack = [root]
    for match in TOKEN.finditer(text):
        token, line = match[0], text.count("\n", 0, match.start()) + 1
        if token.startswith("//"):
            continue
        if token in OPEN:
            group = Group(token, line)
            stack[-1].items.append((group, line))
            stack.append(group)
        elif token in CLOSE:
            stack.pop()
        else:
            stack[-1].items.append((token, line))
    return root


def words(items: Items) -> Iterator[str]:
    """All tokens of items, those in groups among them."""
    for item, _ in items:
        if isinstance(item, Group):
            yield from words(item.items)
        else:
            yield item


def arms(items: Items) -> Iterator[tuple[int, int, int]]:
    """The arms of a `match`: where each begins, its pattern's end, and where it ends."""
    begin, arrow = 0, None
    for place, (item, _) in enumerate(items):
        block = isinstance(item, Group) and item.bracket == "{"
        if item == "=>":
            arrow = place
        elif arrow is not None and (item == "," or block and arrow == place - 1):
            yield begin, arrow, place + 1
            begin, arrow = place + 1, None
        elif item == "," and arrow is None:
            begin = place + 1
    if arrow is not None:
        yield begin, arrow, len(items)


def is_type(items: Items, place: int) -> bool:
    """Whether a name is that of a type: in angle brackets, after a colon, or of an `impl`."""
    before = items[place - 1][0] if place else ""
    after = items[place + 1][0] if place + 1 < len(items) else ""
    return after == ">" or after == "::" or before in (":", "<", "->", "for", "&")


def block_after(items: Items, place: int) -> int:
    """Where the next block is, or a semicolon before it, or the end."""
    while place < len(items):
        item = items[place][0]
        if item == ";" or isinstance(item, Group) and item.bracket == "{":
            return place
        place += 1
    return place


def body_after(items: Items, place: int) -> int:
    """Where the body of a function is that is declared at a place, after its clauses."""
    body = block_after(items, place)
    for clause in range(place, body):
        if items[clause][0] in CLAUSES:
            return body_after(items, body + 1)
    return body


def skipped(items: Items, place: int) -> int:
    """Where a declaration, an import, a clause or an `impl From` ends that begins at a place, or the same place."""
    item = items[place][0]
    if item in DECLARATIONS or item in CLAUSES:
        return block_after(items, place) + 1
    if item == "fn" and items[place + 1][0] == "out_of_memory":
        return body_after(items, place) + 1
    if item == "impl":
        block = block_after(items, place)
        head = list(words(items[place:block]))
        if head.count("for") and SOURCES & set(head[: head.index("for")]) and "From" in head:
            return block + 1
    return place


def is_too_large(tokens: list[str]) -> bool:
    """Whether the arguments of a call ask for more places than any memory has."""
    tokens = [token.replace("_", "") if token[:1].isdigit() else token for token in tokens]
    numbers = [re.match(r"0x[0-9a-fA-F]+|[0-9]+", token) for token in tokens]
    shifts = any(pair == ("<", "<") for pair in zip(tokens, tokens[1:]))
    return shifts or not set(TOO_LARGE).isdisjoint(tokens) or any(it and int(it[0], 0) > MOST_PLACES for it in numbers)


def asks_for_too_much(items: Items, place: int) -> bool:
    """Whether a call that asks for memory is at a place, for more than there can be."""
    if items[place][0] not in GROWTHS:
        return False
    following = [item for item, _ in items[place + 1 : place + 3]]
    group = next((item for item in following if isinstance(item, Group)), None)
    return group is not None and is_too_large(list(words(group.items)))


def made_up(group: Group, allowed: bool = False, pattern: bool = False) -> Iterator[int]:
    """The lines on which code answers out of memory by itself, in a group."""
    items = group.items
    found = list(arms(items)) if group.bracket == "{" else []
    place = 0
    while place < len(items):
        beyond = skipped(items, place)
        if beyond != place:
            place = beyond
            continue
        item, line = items[place]
        arm = next((arm for arm in found if arm[0] <= place < arm[2]), None)
        in_pattern, good = pattern, allowed
        if arm:
            in_pattern = in_pattern or place < arm[1]
            good = good or not ANSWERS.isdisjoint(words(items[arm[0] : arm[1]]))
        if isinstance(item, Group):
            yield from made_up(item, good, in_pattern or is_let_pattern(items, place))
        elif item in NAMES and not (in_pattern or good or is_type(items, place)):
            yield line
        elif asks_for_too_much(items, place):
            yield line
        place += 1


def is_let_pattern(items: Items, place: int) -> bool:
    """Whether a group belongs to the pattern of a `let`, or to `matches!`."""
    before = [item for item, _ in items[max(0, place - 6) : place]]
    if len(before) > 1 and before[-2:] == ["matches", "!"]:
        return True
    for item in reversed(before):
        if item == "let":
            return True
        if item in (";", "=", "=>") or isinstance(item, Group) and item.bracket == "{":
            return False
    return False


def lines_made_up(text: str) -> list[int]:
    return sorted(set(made_up(tree_of(text))))
