"""Random conditions under a shape, most of them of good kinds, as texts."""

from typing import Any

from checks.oracle.kinds import is_list, is_optional, is_record, plain

WHOLES = ("0", "1", "2", "3", "10", "007", "0x1F", "0b10", "0o17", "1000000", "9223372036854775807", "9223372036855")
DECIMALS = ("0.5", ".5", "0.95", "2.0", "0.000001", "1.999999", "9223372036854.775807", "0.333333", "100.0")
TEXTS = (
    '""',
    "''",
    "'a'",
    '"ok"',
    "'é'",
    '"aé"',
    '"€"',
    "'𐀀'",
    '"retry"',
    '"re"',
    "'try'",
    '"ab"',
    r"'it\'s'",
    r'"\n\t\\"',
)
TEXT_TESTS = (" contains ", " startsWith ", " endsWith ")
BLANKS = ("", " ", " ", " ", "  ", "\n", "\t", " /* why */ ", " // so\n")
WORDS = {
    name.encode(): name
    for name in ("a", "b", "errors", "p99", "Values", "ok", "retry", "contains", "none", "one", "endsWith")
}


class Maker:
    """Makes conditions; `items` are the kinds of the items of the predicates that are open."""

    def __init__(self, source, shape):
        self.source = source
        self.shape = shape
        self.items = []

    def chance(self, share):
        return self.source.random() < share

    def one_of(self, *ways):
        return self.source.choice(ways)()

    def pick(self, choices):
        return self.source.choice(choices)

    def group(self, text):
        return f"({text})" if self.chance(0.6) else text

    def joined(self, *parts):
        return "".join(part + self.pick(BLANKS) for part in parts)

    def two(self, make, signs, depth):
        """Two operands with one of these operators between them."""
        return self.joined(self.group(make(depth - 1)), self.pick(signs), self.group(make(depth - 1)))

    # What is reached from `result` and `#`

    def reach(self, wanted):
        """A way to a part whose kind is wanted, if one is found in a few attempts."""
        for _ in range(8):
            text, kind = self.walk()
            if wanted(kind):
                return text
        return None

    def walk(self):
        text, kind = "result", self.shape
        if self.items and self.chance(0.75):
            text, kind = "#", self.items[-1]
        while self.chance(0.75):
            inner = plain(kind)
            if is_record(inner) and inner[1]:
                name, kind = self.pick(inner[1])
                text = self.field(text, name)
            elif is_list(inner):
                text, kind = f'{text}[{self.pick(("0", "0", "-1", "1", "2 - 1", "len(result)"))}]', inner[1]
            else:
                break
        return text, kind

    def field(self, text, name):
        if name.encode() not in WORDS:
            return f"{text}['{name}']"
        if text == "#" and self.chance(0.5):
            return f".{name}"
        return f"{text}.{name}" if self.chance(0.8) else f'{text}["{name}"]'

    # Operands by kind

    def scalar(self, kind, depth):
        return {"bool": self.boolean, "whole": self.whole, "decimal": self.number, "text": self.text}[kind](depth)

    def leaf(self, kinds, literals):
        found = self.reach(lambda kind: plain(kind) in kinds) if self.chance(0.6) else None
        return found or self.pick(literals)

    def common(self, make, depth):
        """A choice between two operands, or one in the place of another that is nil."""
        if self.chance(0.5):
            return self.joined(self.group(self.boolean(depth - 1)), "?", self.maybe(make, depth), ":", make(depth - 1))
        return f"default({self.maybe(make, depth)}, {make(depth - 1)})"

    def maybe(self, make, depth):
        return "nil" if self.chance(0.15) else make(depth - 1)

    def whole(self, depth):
        if depth <= 0 or self.chance(0.3):
            return self.leaf(("whole",), WHOLES)
        return self.one_of(
            lambda: self.two(self.whole, "+-*%", depth),
            lambda: self.pick("-+") + self.group(self.whole(depth - 1)),
            lambda: f"len({self.list(depth - 1)[0]})",
            lambda: self.loop("count", depth),
            lambda: f"({self.common(self.whole, depth)})",
        )

    def number(self, depth):
        if depth <= 0 or self.chance(0.3):
            return self.leaf(("whole", "decimal"), DECIMALS if self.chance(0.6) else WHOLES)
        return self.one_of(
            lambda: self.two(self.number, "+-*/", depth),
            lambda: self.pick("-+") + self.group(self.number(depth - 1)),
            lambda: self.whole(depth - 1),
            lambda: f"({self.common(self.number, depth)})",
            lambda: f'[{self.number(depth - 1)}, {self.number(depth - 1)}][{self.pick(("0", "1", "-1", "-2", "2"))}]',
        )

    def text(self, depth):
        if depth <= 0 or self.chance(0.6):
            return self.leaf(("text",), TEXTS)
        return f"({self.common(self.text, depth)})"

    def list(self, depth):
        """A list, and the kind of its items where that is known, else a number's."""
        if depth <= 0 or self.chance(0.6):
            found: list[Any] = []

            def is_wanted(kind: Any) -> bool:
                found.extend([plain(kind)[1]] if is_list(plain(kind)) else [])
                return is_list(plain(kind))

            text = self.reach(is_wanted)
            if text:
                return text, found[-1]
        if depth > 0 and self.chance(0.4):
            text, kind = self.list(depth - 1)
            return self.over("filter", text, kind, depth), kind
        kind = self.pick(("whole", "whole", "decimal", "text", "bool"))
        return f'[{", ".join(self.scalar(kind, depth - 1) for _ in range(self.pick((1, 2, 2, 3))))}]', kind

    def over(self, name, text, kind, depth):
        self.items.append(kind)
        holds = self.boolean(depth - 1)
        self.items.pop()
        return f"{name}({text}, {{{holds}}})" if self.chance(0.4) else f"{name}({text}, {holds})"

    def loop(self, name, depth):
        text, kind = self.list(depth - 1)
        return self.over(name, text, kind, depth)

    def boolean(self, depth):
        if depth <= 0 or self.chance(0.08):
            return self.leaf(("bool",), ("true", "false"))
        return self.one_of(
            lambda: self.compared(depth),
            lambda: self.compared(depth),
            lambda: self.equal(depth),
            lambda: self.member(depth),
            lambda: self.nil_test(depth),
            lambda: self.pick(("!", "not ")) + self.group(self.boolean(depth - 1)),
            lambda: self.two(self.boolean, (" and ", " or ", "&&", "||"), depth),
            lambda: self.loop(self.pick(("all", "any")), depth),
            lambda: self.loop(self.pick(("all", "any")), depth),
            lambda: self.loop(self.pick(("none", "one")), depth),
            lambda: self.text_test(depth),
            lambda: self.text_test(depth),
            lambda: f"({self.common(self.boolean, depth)})",
        )

    def compared(self, depth):
        return self.two(self.number, ("<", "<=", ">", ">="), depth)

    def text_test(self, depth):
        """A test of two texts, now and then of nil, or with another operator of its level after it."""
        if self.chance(0.05):
            return self.two(lambda inner: self.maybe(self.text, inner), TEXT_TESTS, depth)
        test = self.two(self.text, TEXT_TESTS, depth)
        if self.chance(0.1):
            test = self.joined(self.group(test), self.pick(("==", "!=", " contains ")), self.boolean(0))
        return test

    def equal(self, depth):
        kind = self.pick(("bool", "whole", "decimal", "text"))
        return self.two(lambda inner: self.scalar(kind, inner), ("==", "!="), depth)

    def member(self, depth):
        text, kind = self.list(depth - 1)
        kind = plain(kind) if plain(kind) in ("bool", "whole", "decimal", "text") else "whole"
        return self.joined(self.group(self.scalar(kind, depth - 1)), self.pick((" in ", " not in ")), text)

    def nil_test(self, depth):
        text = self.reach(is_optional) or self.walk()[0]
        return self.pick((f"isNil({text})", f"{text} == nil", f"nil != {text}", f"isNil({self.number(depth - 1)})"))


def random_condition(source, shape):
    return Maker(source, shape).boolean(source.choice((1, 2, 2, 3, 3, 4)))
