"""The grammar of docs/use/language.md, read apart from the program: the tree of a condition, or where it is refused.

The reader takes token after token, so a refusal is at the first token that no condition can have there.
"""

import collections

from checks.oracle.refused import Refused
from checks.oracle.tokens import tokens_of

OPENERS = 64
LEVELS = 64
ITEMS = 16
ONE_ARGUMENT = ("len", "isNil")
PREDICATES = ("all", "any", "none", "one", "count", "filter")
TEXT_TESTS = ("contains", "startsWith", "endsWith")
CALLS = ONE_ARGUMENT + ("default",) + PREDICATES

# Operators between two operands: the tree's operator and how tightly it binds.
OPERATORS = {
    "or": ("or", 1),
    "||": ("or", 1),
    "and": ("and", 2),
    "&&": ("and", 2),
    "in": ("in", 3),
    "not": ("not-in", 3),
}
OPERATORS |= {sign: (sign, 3) for sign in ("==", "!=", "<", ">", "<=", ">=", *TEXT_TESTS)}
OPERATORS |= {sign: (sign, 4) for sign in ("+", "-")}
OPERATORS |= {sign: (sign, 5) for sign in ("*", "/", "%")}
UNARY = {"-": "-", "+": "+", "!": "not", "not": "not"}

Tree = collections.namedtuple("Tree", "operator place children content levels")


def tree(operator, place, children=(), content=None):
    return Tree(operator, place, children, content, 1 + max((child.levels for child in children), default=0))


class Reader:
    """Reads a tree; `open` counts the openers that are unfinished, `inside` the predicates around this token."""

    def __init__(self, condition):
        self.tokens = tokens_of(condition)
        self.tokens.append(("end", None, len(condition.encode()), None))
        self.next = 0
        self.open = 0
        self.inside = 0

    @property
    def place(self):
        return self.tokens[self.next][2]

    def is_sign(self, sign):
        return self.tokens[self.next][:2] == ("sign", sign)

    def spelling(self):
        """The sign or the word of the language that is here."""
        sort, content = self.tokens[self.next][:2]
        return content if sort in ("sign", "word") else None

    def take(self):
        self.next += 1
        return self.tokens[self.next - 1]

    def begin(self):
        """Takes an opener."""
        if self.open == OPENERS:
            raise Refused("TooDeep", self.place)
        self.open += 1
        return self.take()[2]

    def end(self, sign):
        """Takes what ends an opener."""
        self.expect(sign)
        self.open -= 1

    def expect(self, sign):
        if not self.is_sign(sign):
            self.refuse()
        self.take()

    def refuse(self, name="Unexpected"):
        if self.is_sign("#") and not self.inside:
            name = "ItemOutside"
        raise Refused(name, self.place)

    def refuse_operand(self):
        if self.tokens[self.next][0] == "name":
            self.refuse("UnknownName")
        self.refuse("ItemOutside" if self.is_sign(".") else "Unexpected")

    # From the loosest operators to the tightest

    def choice(self):
        condition = self.operation(1)
        if not self.is_sign("?"):
            return condition
        place = self.begin()
        one = self.choice()
        self.expect(":")
        other = self.choice()
        self.open -= 1
        return tree("choice", place, (condition, one, other))

    def operation(self, loosest):
        left = self.signed()
        while True:
            operator, tightness = OPERATORS.get(self.spelling(), (None, 0))
            if tightness < loosest:
                return left
            place = self.take()[2]
            if operator == "not-in":
                if self.spelling() != "in":
                    self.refuse()
                self.take()
            left = tree(operator, place, (left, self.operation(tightness + 1)))

    def signed(self):
        operator = UNARY.get(self.spelling())
        if operator is None:
            return self.parts()
        place = self.begin()
        operand = self.signed()
        self.open -= 1
        return tree(operator, place, (operand,))

    def parts(self):
        """An operand with the fields and items that are taken of it."""
        whole = self.operand()
        while True:
            if self.is_sign("."):
                place = self.take()[2]
                whole = tree("field", place, (whole,), self.field_name())
            elif self.is_sign("["):
                place = self.begin()
                if self.tokens[self.next][0] == "text" and self.tokens[self.next + 1][:2] == ("sign", "]"):
                    whole = tree("field", place, (whole,), self.take()[1])
                else:
                    whole = tree("index", place, (whole, self.choice()))
                self.end("]")
            else:
                return whole

    def field_name(self):
        if self.tokens[self.next][0] not in ("word", "name"):
            self.refuse()
        return self.take()[1]

    def operand(self):
        sort, content, place = self.tokens[self.next][:3]
        if sort in ("whole", "decimal", "text"):
            self.take()
            return tree(sort, place, (), content)
        if self.spelling() in ("true", "false", "nil", "result"):
            self.take()
            return tree(content, place)
        if self.spelling() == "(":
            self.begin()
            group = self.choice()
            self.end(")")
            return group
        if self.spelling() == "[":
            return self.list()
        if self.spelling() in CALLS:
            return self.call(content)
        if self.spelling() in ("#", ".") and self.inside:
            return self.item(content)
        return self.refuse_operand()

    def item(self, sign):
        place = self.take()[2]
        item = tree("#", place)
        return tree("field", place, (item,), self.field_name()) if sign == "." else item

    def list(self):
        place = self.begin()
        items = [self.choice()]
        while self.is_sign(","):
            if len(items) == ITEMS:
                self.refuse("TooManyItems")
            self.take()
            items.append(self.choice())
        self.end("]")
        return tree("list", place, tuple(items))

    # Calls

    def call(self, name):
        place = self.begin()
        self.expect("(")
        if self.is_sign(")"):
            self.refuse("WrongCount")
        arguments = [self.choice()]
        if name not in ONE_ARGUMENT:
            if self.is_sign(")"):
                self.refuse("WrongCount")
            self.expect(",")
            arguments.append(self.predicate() if name in PREDICATES else self.choice())
        if self.is_sign(","):
            self.refuse("WrongCount")
        self.end(")")
        return tree(name, place, tuple(arguments))

    def predicate(self):
        """A predicate; after one without braces one is still inside, until the `)` or `,` that ends it."""
        self.inside += 1
        if self.is_sign("{"):
            self.begin()
            holds = self.choice()
            self.end("}")
        else:
            holds = self.choice()
            if not self.is_sign(")") and not self.is_sign(","):
                self.refuse()
        self.inside -= 1
        return holds


def parse(condition):
    """The tree of a condition, or its first refusal."""
    reader = Reader(condition)
    whole = reader.choice()
    if reader.tokens[reader.next][0] != "end":
        reader.refuse()
    if whole.levels > LEVELS:
        raise Refused("TooDeep", 0)
    return whole
