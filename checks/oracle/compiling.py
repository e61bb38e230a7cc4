"""The code of conditions, by docs/design/machine.md, read apart from the program, and its bounds.

Operations are those of operations.py, which hold texts and names themselves.
"""

from checks.oracle.grammar import PREDICATES
from checks.oracle.refused import Refused
from checks.oracle.verifier import verify

MOST_OPERATIONS = 4_096
SIGNS = {
    "+": "Add",
    "-": "Sub",
    "*": "Mul",
    "/": "Div",
    "%": "Rem",
    "negative": "Neg",
    "<": "Lt",
    "<=": "Le",
    ">": "Gt",
    ">=": "Ge",
}
NAMED = {
    "result": "LoadResult",
    "#": "Item",
    "nil": "PushNil",
    "plain": "Need",
    "decimal": "ToDecimal",
    "index": "Index",
    "len": "Len",
    "isNil": "IsNil",
    "default": "Default",
    "in": "IsIn",
    "not": "Not",
    "contains": "Contains",
    "startsWith": "StartsWith",
    "endsWith": "EndsWith",
}


class Writer:
    def __init__(self):
        self.ops = []

    def put(self, name, *fields):
        self.ops.append((name,) + fields)
        return len(self.ops) - 1

    def aim(self, place):
        """The jump or Enter at a place names the place that comes next."""
        self.ops[place] = (self.ops[place][0], len(self.ops))

    def write(self, tree):
        operator, children = tree.operator, tree.children
        if operator in ("and", "or"):
            self.write(children[0])
            jump = self.put("AndJump" if operator == "and" else "OrJump", None)
            self.write(children[1])
            self.aim(jump)
        elif operator == "choice":
            self.choice(*children)
        elif operator in PREDICATES:
            self.loop(operator.capitalize(), *children)
        else:
            for child in children:
                self.write(child)
            self.put(*operation(tree))

    def choice(self, condition, one, other):
        self.write(condition)
        branch = self.put("BranchFalse", None)
        self.write(one)
        jump = self.put("Jump", None)
        self.aim(branch)
        self.write(other)
        self.aim(jump)

    def loop(self, family, items, predicate):
        self.write(items)
        enter = self.put(family + "Enter", None)
        self.write(predicate)
        self.aim(enter)
        self.put(family + "Step", enter)


def operation(tree):
    """The operation after the operands of a tree."""
    operator = tree.operator
    if operator in ("whole", "decimal", "text") and not tree.children:
        return "Push" + operator.capitalize(), tree.content
    if operator in ("true", "false"):
        return "PushBool", operator == "true"
    if operator == "list":
        return "MakeList", tree.sort, len(tree.children)
    if operator == "field":
        return "Field", tree.content
    if operator == "==":
        return ("Eq" + tree.sort.capitalize(),)
    if operator in SIGNS:
        return (SIGNS[operator] + tree.sort[0].upper(),)
    return (NAMED[operator],)


def compile_tree(tree):
    """The code of a typed condition, or its refusal."""
    writer = Writer()
    writer.write(tree)
    writer.put("Return")
    if len(writer.ops) > MOST_OPERATIONS:
        raise Refused("TooManyOps")
    return writer.ops


def bounds(ops, shape):
    """The depth and the budget of a condition's code, or the verifier's refusal."""
    verdict = verify(ops, shape)
    if verdict[0] != "accepted":
        raise Refused("Verifier", verdict[1], verdict[0])
    return verdict[1:]
