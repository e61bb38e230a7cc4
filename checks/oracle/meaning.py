"""The meaning of docs/use/language.md, read apart from the program: what a condition says of a value, or its fault."""

from checks.oracle.grammar import PREDICATES
from checks.oracle.values import Fault, arithmetic, equal, exact, in_range, ordered, text_holds

SIGNS = {"+": "Add", "-": "Sub", "*": "Mul", "/": "Div", "%": "Rem", "negative": "Neg"}
TEXT_TESTS = {"contains": "Contains", "startsWith": "StartsWith", "endsWith": "EndsWith"}
ORDERS = {"<": "Lt", "<=": "Le", ">": "Gt", ">=": "Ge"}


def holds(tree, result, items):
    return value_of(tree, result, items)[1]


def value_of(tree, result, items):
    """The value of a typed tree; `items` are those of the predicates around it, the innermost last."""
    operator, children = tree.operator, tree.children
    if operator in ("whole", "decimal", "text") and not children:
        return (operator, tree.content)
    if operator in ("true", "false"):
        return ("bool", operator == "true")
    if operator == "nil":
        return ("nil",)
    if operator == "result":
        return result
    if operator == "#":
        return items[-1]
    if operator in PREDICATES:
        return over_items(tree, value_of(children[0], result, items)[1], result, items)
    if operator == "choice":
        return value_of(children[1 if holds(children[0], result, items) else 2], result, items)
    if operator == "and":
        return ("bool", holds(children[0], result, items) and holds(children[1], result, items))
    if operator == "or":
        return ("bool", holds(children[0], result, items) or holds(children[1], result, items))
    return applied(tree, [value_of(child, result, items) for child in children])


def over_items(tree, values, result, items):
    predicate = tree.children[1]
    if tree.operator == "all":
        return ("bool", all(holds(predicate, result, items + [item]) for item in values))
    if tree.operator == "any":
        return ("bool", any(holds(predicate, result, items + [item]) for item in values))
    if tree.operator == "none":
        return ("bool", not any(holds(predicate, result, items + [item]) for item in values))
    kept = [item for item in values if holds(predicate, result, items + [item])]
    if tree.operator == "one":
        return ("bool", len(kept) == 1)
    return ("whole", len(kept)) if tree.operator == "count" else ("list", kept)


def applied(tree, values):
    """What an operator gives that takes all of its operands."""
    operator, first, last = tree.operator, values[0], values[-1]
    if operator == "plain":
        if first[0] == "nil":
            raise Fault("NilOperand")
        return first
    if operator == "decimal":
        return first if first[0] == "nil" else ("decimal", in_range(exact(first)))
    if operator in SIGNS:
        name = SIGNS[operator] + ("W" if tree.sort == "wholes" else "D")
        return (tree.kind, arithmetic(name, [value[1] for value in values]))
    if operator in ORDERS:
        return ("bool", ordered(ORDERS[operator], exact(first), exact(last)))
    if operator == "list":
        return ("list", values)
    if operator == "field":
        return first[1][tree.content]
    if operator == "index":
        return item_at(first[1], last[1])
    if operator == "len":
        return ("whole", len(first[1]))
    if operator == "default":
        return last if first[0] == "nil" else first
    return ("bool", answer_of(operator, first, last))


def answer_of(operator, first, last):
    if operator == "==":
        return equal(first, last)
    if operator == "in":
        return any(equal(first, item) for item in last[1])
    if operator == "not":
        return not first[1]
    if operator == "isNil":
        return first[0] == "nil"
    return text_holds(TEXT_TESTS[operator], first[1], last[1])


def item_at(values, index):
    if not -len(values) <= index < len(values):
        raise Fault("IndexOutOfRange")
    return values[index]


def meaning(tree, value):
    """True, False, or the name of the fault that a checked condition meets on a value of its shape."""
    try:
        return holds(tree, value, [])
    except Fault as fault:
        return fault.args[0]
