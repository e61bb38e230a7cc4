"""The rules of docs/use/language.md on kinds, read apart from the program: a tree whose kinds are known, or a refusal.

Kinds are those of kinds.py. A typed tree shows where an operand is unwrapped and where a whole is
converted to a decimal; `!=`, `not in`, a comparison with the literal nil and the sign + are gone from it.
"""

import collections

from checks.oracle.grammar import PREDICATES, TEXT_TESTS, parse
from checks.oracle.kinds import family, is_list, is_optional, is_record, merge, plain
from checks.oracle.refused import Refused

NESTED = 4
ORDERS = ("<", ">", "<=", ">=")

Typed = collections.namedtuple("Typed", "operator sort children content kind")


def typed(operator, kind, children=(), content=None, sort=None):
    return Typed(operator, sort, tuple(children), content, kind)


def unwrapped(operand):
    return typed("plain", plain(operand.kind), [operand]) if is_optional(operand.kind) else operand


def made_decimal(operand):
    """The operand as a decimal, where it is a whole that may be nil or not."""
    converted = {"whole": "decimal", ("optional", "whole"): ("optional", "decimal")}.get(operand.kind)
    return typed("decimal", converted, [operand]) if converted else operand


def converted_kind(kind):
    return {"whole": "decimal", ("optional", "whole"): ("optional", "decimal")}.get(kind, kind)


def common(one, other):
    """The kind that two have in common once a whole next to a decimal is converted; None where there is none."""
    if {plain(one), plain(other)} == {"whole", "decimal"}:
        one, other = converted_kind(one), converted_kind(other)
    return merge(one, other)


def in_common(operands, kind):
    """The operands, converted where the kind that they have in common is a decimal."""
    return [made_decimal(operand) if plain(kind) == "decimal" else operand for operand in operands]


class Checker:
    """Finds kinds under a shape of `result`; `items` are the kinds of the items of the predicates around a tree."""

    def __init__(self, shape):
        self.shape = shape
        self.items = []

    def typed(self, tree):
        operator = tree.operator
        if operator in PREDICATES:
            return self.predicate(tree)
        children = [self.typed(child) for child in tree.children]
        if operator in ("whole", "decimal", "text"):
            return typed(operator, operator, [], tree.content)
        if operator in ("true", "false"):
            return typed(operator, "bool")
        if operator == "nil":
            return typed("nil", "nil")
        if operator == "result":
            return typed("result", self.shape)
        if operator == "#":
            return typed("#", self.items[-1])
        return self.operation(tree, children)

    def operation(self, tree, children):
        operator = tree.operator
        named = {
            "field": field,
            "index": index,
            "list": list_literal,
            "choice": choice,
            "len": length,
            "default": default,
            "in": member,
            "not-in": member,
            "==": equal,
            "!=": equal,
        }
        if operator in named:
            return named[operator](tree, children)
        if operator == "isNil":
            return typed("isNil", "bool", children)
        if operator in ("not", "and", "or"):
            return typed(operator, "bool", [self.want(tree, child, ("bool",)) for child in children])
        if operator in TEXT_TESTS:
            return typed(operator, "bool", [self.want(tree, child, ("text",)) for child in children])
        return self.numbers(tree, children)

    def want(self, tree, operand, kinds):
        """The operand unwrapped, where its plain kind is one of these."""
        if plain(operand.kind) not in kinds:
            raise Refused("WrongOperand", tree.place)
        return unwrapped(operand)

    def numbers(self, tree, children):
        operator = tree.operator
        kinds = ("whole",) if operator == "%" else ("whole", "decimal")
        operands = [self.want(tree, child, kinds) for child in children]
        found = {operand.kind for operand in operands}
        sort = found.pop() + "s" if len(found) == 1 else "mixed"
        if operator in ORDERS:
            return typed(operator, "bool", operands, sort=sort)
        if len(operands) == 1:
            return operands[0] if operator == "+" else typed("negative", operands[0].kind, operands, sort=sort)
        if sort == "mixed":
            operands, sort = [made_decimal(operand) for operand in operands], "decimals"
        kind = "decimal" if operator == "/" else sort[:-1]
        return typed(operator, kind, operands, sort=sort)

    def predicate(self, tree):
        items = wanted_list(tree, self.typed(tree.children[0]))
        if len(self.items) == NESTED:
            raise Refused("PredicatesTooDeep", tree.place)
        self.items.append(items.kind[1])
        holds = self.want(tree, self.typed(tree.children[1]), ("bool",))
        self.items.pop()
        kind = {"count": "whole", "filter": items.kind}.get(tree.operator, "bool")
        return typed(tree.operator, kind, [items, holds])


def wanted_list(tree, operand):
    if not is_list(plain(operand.kind)):
        raise Refused("NotAList", tree.place)
    return unwrapped(operand)


def field(tree, children):
    record = plain(children[0].kind)
    if not is_record(record):
        raise Refused("WrongOperand", tree.place)
    if tree.content not in dict(record[1]):
        raise Refused("NoSuchField", tree.place)
    return typed("field", dict(record[1])[tree.content], [unwrapped(children[0])], tree.content)


def index(tree, children):
    items = wanted_list(tree, children[0])
    if plain(children[1].kind) != "whole":
        raise Refused("WrongOperand", tree.place)
    return typed("index", items.kind[1], [items, unwrapped(children[1])])


def list_literal(tree, children):
    for item, found in zip(tree.children, children):
        if family(found.kind) is None:
            raise Refused("NotScalar", item.place)
    items = [unwrapped(found) for found in children]
    kind = items[0].kind
    for item in items[1:]:
        kind = common(kind, item.kind)
        if kind is None:
            raise Refused("NoCommonKind", tree.place)
    return typed("list", ("list", kind, len(items)), in_common(items, kind), sort=kind)


def choice(tree, children):
    condition, one, other = children
    kind = common(one.kind, other.kind)
    if kind is None:
        raise Refused("NoCommonKind", tree.place)
    if plain(condition.kind) != "bool":
        raise Refused("WrongOperand", tree.place)
    return typed("choice", kind, [unwrapped(condition), *in_common([one, other], kind)])


def length(tree, children):
    return typed("len", "whole", [wanted_list(tree, children[0])])


def default(tree, children):
    value, other = children
    if value.kind == "nil":
        return typed("default", other.kind, children)
    kind = common(plain(value.kind), other.kind)
    if kind is None:
        raise Refused("NoCommonKind", tree.place)
    return typed("default", kind, in_common(children, kind))


def opposite(tree, answer):
    return typed("not", "bool", [answer]) if tree.operator in ("!=", "not-in") else answer


def member(tree, children):
    items = wanted_list(tree, children[1])
    wanted = family(children[0].kind)
    if wanted is None or family(items.kind[1]) != wanted:
        raise Refused("WrongOperand", tree.place)
    return opposite(tree, typed("in", "bool", [children[0], items]))


def equal(tree, children):
    literal = [child.operator == "nil" for child in tree.children]
    if any(literal):
        return opposite(tree, typed("isNil", "bool", [children[0] if literal[1] else children[1]]))
    wanted = family(children[0].kind)
    if wanted is None or family(children[1].kind) != wanted:
        raise Refused("WrongOperand", tree.place)
    return opposite(tree, typed("==", "bool", children, sort=wanted))


def check(condition, shape):
    """The typed tree of a condition, or its first refusal."""
    whole = parse(condition)
    found = Checker(shape).typed(whole)
    if plain(found.kind) != "bool":
        raise Refused("NotTruth", whole.place)
    return unwrapped(found)
