"""The rules of docs/design/verifier.md, read apart from the program: which code is accepted, and its bounds.

It is a plain reading with lists, dictionaries and whole numbers without bound. checks/codes makes code with it, and
what the program has to answer to that.
"""

from typing import Any

from checks.oracle.kinds import family, is_list, is_record, merge, plain
from checks.oracle.operations import ENTERS, EQUAL, JUMPS, MIXED, PLAIN, STEPS, TEXT_TESTS, has_place, partner, taken
from checks.oracle.refused import Refused

OPERANDS = 64
LOOPS = 4
BUDGET = 1_000_000_000


def given(op, kinds, result, item):
    """The kind that an operation gives for the operands of these kinds, or None."""
    name = op[0]
    if name in PLAIN:
        return PLAIN[name][1] if kinds == PLAIN[name][0] else None
    if name in MIXED:
        return "bool" if all(kind in ("whole", "decimal") for kind in kinds) else None
    if name in EQUAL:
        return "bool" if all(family(kind) == EQUAL[name] for kind in kinds) else None
    if name in TEXT_TESTS:
        return "bool" if kinds == ("text", "text") else None
    if name == "MakeList":
        return ("list", op[1], op[2]) if all(kind == op[1] for kind in kinds) else None
    if name.startswith("Push"):
        return name[4:].lower()
    if name == "LoadResult":
        return result
    if name == "Item":
        return item
    return given_for_any(op, kinds)


def given_for_any(op, kinds):
    name, first, last = op[0], kinds[0], kinds[-1]
    if name == "Field":
        return dict(first[1]).get(op[1]) if is_record(first) else None
    if name == "Index":
        return first[1] if is_list(first) and last == "whole" else None
    if name == "Len":
        return "whole" if is_list(first) else None
    if name == "Need":
        return None if first == "nil" else plain(first)
    if name == "IsNil":
        return "bool"
    if name == "Default":
        return last if first == "nil" else merge(plain(first), last)
    if name == "ToDecimal":
        return {"whole": "decimal", ("optional", "whole"): ("optional", "decimal")}.get(first)
    if name == "IsIn":
        right = family(last[1]) if is_list(last) else None
        return "bool" if right and family(first) == right else None
    raise ValueError(name)


def answer_kind(enter, kind):
    return {"CountEnter": "whole", "FilterEnter": kind}.get(enter, "bool")


def check_places(ops):
    for place, op in enumerate(ops):
        if has_place(op):
            check_place(ops, place, op)


def check_place(ops, place, op):
    name, to = op
    if to >= len(ops):
        raise Refused("JumpOutside", place)
    if name in JUMPS + ENTERS and to <= place:
        raise Refused("Backward", place)
    if name in ENTERS + STEPS and ops[to] != (partner(name), place):
        raise Refused("UnpairedLoop", place)
    if name in STEPS and to >= place:
        raise Refused("UnpairedLoop", place)


def holding(ops, place):
    """The places of the Enters whose loops hold a place, the innermost last."""
    return [enter for enter, op in enumerate(ops) if op[0] in ENTERS and enter < place <= op[1]]


def check_loops(ops):
    for place, op in enumerate(ops):
        held = holding(ops, place)
        if op[0] in ENTERS and len(held) + 1 > LOOPS:
            raise Refused("LoopsTooDeep", place)
        crosses = (
            (op[0] in ENTERS and held and op[1] > ops[held[-1]][1])
            or (op[0] in JUMPS and held != holding(ops, op[1]))
            or (op[0] == "Return" and held)
        )
        if crosses:
            raise Refused("CrossesLoop", place)


class Kinds:
    """The kinds of the operands that arrive at each place, from its beginning to its end."""

    def __init__(self, ops, result):
        self.ops = ops
        self.result = result
        self.arrived: dict[int, list[tuple[Any, ...]]] = {0: [()]}
        self.at = []
        self.floors = {}
        self.items = {}
        self.depth = 0

    def send(self, place, kinds):
        self.arrived.setdefault(place, []).append(tuple(kinds))

    def height(self, place, kinds):
        if len(kinds) > OPERANDS:
            raise Refused("StackTooDeep", place)
        self.depth = max(self.depth, len(kinds))

    def merged(self, place):
        arrived = self.arrived.get(place)
        if not arrived:
            raise Refused("Unreachable", place)
        whole = arrived[0]
        for kinds in arrived[1:]:
            if len(kinds) != len(whole):
                raise Refused("BadMerge", place)
            whole = tuple(merge(one, other) for one, other in zip(whole, kinds))
            if None in whole:
                raise Refused("BadMerge", place)
        return whole

    def visit(self, place):
        op, kinds = self.ops[place], self.merged(place)
        self.at.append(kinds)
        held = holding(self.ops, place)
        floor = self.floors[held[-1]] if held else 0
        if len(kinds) - taken(op) < floor or (op[0] == "Item" and not held):
            raise Refused("MissingOperand", place)
        if op[0] in JUMPS:
            self.visit_jump(place, op, kinds)
        elif op[0] in ENTERS:
            self.visit_enter(place, op, kinds)
        elif op[0] in STEPS:
            self.visit_step(place, op, kinds, floor)
        elif op[0] == "Return":
            self.want_bool(place, kinds)
        else:
            self.visit_plain(place, op, kinds, held)

    def want_bool(self, place, kinds):
        if kinds[-1] != "bool":
            raise Refused("IllKinded", place)

    def visit_jump(self, place, op, kinds):
        name, to = op
        rest = kinds
        if name != "Jump":
            self.want_bool(place, kinds)
            rest = kinds[:-1]
            self.send(place + 1, rest)
        self.send(to, kinds if name in ("AndJump", "OrJump") else rest)
        self.height(place, kinds if name in ("AndJump", "OrJump") else rest)

    def visit_enter(self, place, op, kinds):
        if not is_list(kinds[-1]):
            raise Refused("IllKinded", place)
        below = kinds[:-1]
        self.floors[place] = len(below)
        self.items[place] = kinds[-1][1]
        after = below + (answer_kind(op[0], kinds[-1]),)
        self.height(place, after)
        self.send(place + 1, below)
        self.send(op[1] + 1, after)

    def visit_step(self, place, op, kinds, floor):
        self.want_bool(place, kinds)
        if len(kinds) - 1 > floor:
            raise Refused("BadMerge", place)
        enter = self.ops[op[1]][0]
        after = kinds[:-1] + (answer_kind(enter, self.at[op[1]][-1]),)
        self.height(place, after)
        self.send(place + 1, after)

    def visit_plain(self, place, op, kinds, held):
        count = taken(op)
        item = self.items[held[-1]] if held else None
        gives = given(op, kinds[len(kinds) - count :], self.result, item)
        if gives is None:
            raise Refused("IllKinded", place)
        after = kinds[: len(kinds) - count] + (gives,)
        self.height(place, after)
        self.send(place + 1, after)


def costliest(ops, at, place, end):
    """The costliest way from a place to Return, or to the end of the body that holds it."""
    ways: dict[int, Any] = {}
    for here in range(end, place - 1, -1):
        name = ops[here][0]
        cost, nexts = 1, [here + 1]
        if name == "IsIn":
            cost = 1 + at[here][-1][2]
        elif name in ENTERS:
            step = ops[here][1]
            cost = 1 + at[here][-1][2] * costliest(ops, at, here + 1, step)
            nexts = [step + 1]
        elif name == "Jump":
            nexts = [ops[here][1]]
        elif name in JUMPS:
            nexts = [here + 1, ops[here][1]]
        elif name == "Return" or here == end:
            nexts = []
        ways[here] = cost + max((ways[to] for to in nexts), default=0)
    return ways[place]


def verify(ops, result):
    """('accepted', depth, budget), or (reason, place)."""
    try:
        if not ops:
            raise Refused("Empty", 0)
        check_places(ops)
        check_loops(ops)
        if ops[-1][0] != "Return":
            raise Refused("NoReturn", len(ops) - 1)
        kinds = Kinds(ops, result)
        for place in range(len(ops)):
            kinds.visit(place)
        budget = costliest(ops, kinds.at, 0, len(ops) - 1)
        if budget > BUDGET:
            raise Refused("BudgetTooLarge", 0)
        return ("accepted", kinds.depth, budget)
    except Refused as refused:
        return refused.args
