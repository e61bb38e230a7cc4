"""Random code of good kinds, for make_codes and for random inputs.

Of version 1 there are the operations that images of version 1 have, of version 2 all; what is made of version 1 from
a seed stays as it is.
"""

from typing import Any

from checks.codes.shapes import literals
from checks.codes.writing import Code, Label
from checks.oracle.kinds import is_list
from checks.oracle.operations import PLAIN, SCALARS, TEXT_TESTS


class Writer(Code):
    """Writes random code that leaves an operand of a wanted kind."""

    def write(self, kind, depth):
        """Leaves an operand of just this scalar kind."""
        {"bool": self.boolean, "whole": self.whole, "decimal": self.decimal, "text": self.text}[kind](depth)

    def leaf(self, kind):
        if self.chance(0.6) and self.reach(lambda found: found == kind):
            return
        self.put("Push" + kind.capitalize(), self.random.choice(literals(self.version)[kind]))

    def choose(self, kind, depth, ways):
        """A leaf, a choice between branches, a default, or one of the ways."""
        if depth <= 0 or self.chance(0.12):
            return self.leaf(kind)
        common = [
            lambda: self.branches(lambda: self.write(kind, depth - 2), depth),
            lambda: self.default(kind, depth - 1),
            lambda: self.needed(kind, depth - 1),
        ]
        return self.random.choice(ways * 2 + common)()

    def branches(self, branch, depth):
        """Two to four branches that meet after the last."""
        end = Label()
        for _ in range(self.random.choice((1, 1, 1, 2, 3))):
            other = Label()
            self.boolean(depth - 2)
            self.put("BranchFalse", other)
            branch()
            self.put("Jump", end)
            self.here(other)
        branch()
        self.here(end)

    def default(self, kind, depth):
        self.optional(kind, depth)
        self.write(kind, depth - 1)
        self.put("Default")

    def needed(self, kind, depth):
        self.optional(kind, depth)
        self.put("Need")

    def optional(self, kind, depth):
        """Leaves an operand of the scalar kind or of the optional one."""
        choice = self.random.randrange(4)
        if choice == 0 and self.reach(lambda found: found == ("optional", kind)):
            return
        if choice == 1:
            self.write(kind, depth - 1)
        elif choice == 2 and kind == "decimal":
            self.optional("whole", depth - 1)
            self.put("ToDecimal")
        else:
            nil = [lambda: self.put("PushNil"), lambda: self.write(kind, depth - 2)]
            self.random.shuffle(nil)
            self.branches(lambda: nil.pop()() if nil else self.write(kind, depth - 2), depth)

    def boolean(self, depth):
        second = [
            lambda: self.text_test(depth),
            lambda: self.text_test(depth),
            lambda: self.text_test(depth),
            lambda: self.loop("None", depth),
            lambda: self.loop("One", depth),
            lambda: self.loop("One", depth),
        ]
        self.choose(
            "bool",
            depth,
            (second if self.version == 2 else [])
            + [
                lambda: self.negated(depth),
                lambda: self.comparison(depth),
                lambda: self.comparison(depth),
                lambda: self.comparison(depth),
                lambda: self.equality(depth),
                lambda: self.membership(depth),
                lambda: self.nil_test(depth),
                lambda: self.decided(depth),
                lambda: self.decided(depth),
                lambda: self.loop(self.random.choice(("All", "Any")), depth),
                lambda: self.loop(self.random.choice(("All", "Any")), depth),
            ],
        )

    def negated(self, depth):
        self.boolean(depth - 1)
        self.put("Not")

    def comparison(self, depth):
        kinds = [self.random.choice(("whole", "decimal")) for _ in range(2)]
        for kind in kinds:
            self.write(kind, depth - 1)
        fitting = kinds[0][0].upper() if kinds[0] == kinds[1] and self.chance(0.8) else "M"
        self.put(self.random.choice(("Lt", "Le", "Gt", "Ge")) + fitting)

    def equality(self, depth):
        family = self.random.choice(("Bool", "Number", "Number", "Text"))
        for _ in range(2):
            kind = self.random.choice(("whole", "decimal")) if family == "Number" else family.lower()
            self.optional(kind, depth - 1)
        self.put("Eq" + family)

    def text_test(self, depth):
        for _ in range(2):
            self.text(depth - 1)
        self.put(self.random.choice(TEXT_TESTS))

    def membership(self, depth):
        kind = self.random.choice(SCALARS)
        self.optional(kind, depth - 1)
        items = [kind, ("optional", kind)]
        if not (self.chance(0.5) and self.reach(lambda found: is_list(found) and found[1] in items)):
            self.literal(kind, depth - 2)
        self.put("IsIn")

    def literal(self, kind, depth):
        count = self.random.choice((0, 1, 2, 2, 3, 5))
        for _ in range(count):
            self.write(kind, depth - 1)
        self.put("MakeList", kind, count)

    def nil_test(self, depth):
        if self.chance(0.5):
            self.walk()
        else:
            self.optional(self.random.choice(SCALARS), depth - 1)
        self.put("IsNil")

    def decided(self, depth):
        """A chain of `and` and `or`, of one end or nested."""
        end = Label()
        name = self.random.choice(("AndJump", "OrJump"))
        for _ in range(self.random.choice((1, 1, 2, 3))):
            self.boolean(depth - 1)
            self.put(name, end)
            if self.chance(0.2):
                name = "OrJump" if name == "AndJump" else "AndJump"
        self.boolean(depth - 1)
        self.here(end)

    def number(self, kind, depth):
        letter = kind[0].upper()
        sign = self.random.choice(("Add", "Sub", "Mul", "Neg") + (("Rem",) if letter == "W" else ("Div",)))
        for _ in PLAIN[sign + letter][0]:
            self.write(kind, depth - 1)
        self.put(sign + letter)

    def whole(self, depth):
        self.choose(
            "whole",
            depth,
            [
                lambda: self.number("whole", depth),
                lambda: self.length(depth),
                lambda: self.loop("Count", depth),
            ],
        )

    def length(self, depth):
        self.list(depth - 1)
        self.put("Len")

    def decimal(self, depth):
        self.choose(
            "decimal",
            depth,
            [
                lambda: self.number("decimal", depth),
                lambda: self.converted(depth),
                lambda: self.quotient(depth),
            ],
        )

    def converted(self, depth):
        self.whole(depth - 1)
        self.put("ToDecimal")

    def quotient(self, depth):
        self.whole(depth - 1)
        self.whole(depth - 1)
        self.put("DivW")

    def text(self, depth):
        self.choose("text", depth, [lambda: self.leaf("text")])

    def list(self, depth):
        """Leaves a list and answers its item's kind."""
        choice = self.random.randrange(6)
        if choice < 4 or len(self.items) >= 4:
            found: list[Any] = []

            def is_wanted(kind: Any) -> bool:
                found.extend([kind[1]] if is_list(kind) else [])
                return bool(is_list(kind))

            if self.reach(is_wanted):
                return found[-1]
        kind = self.random.choice(SCALARS)
        if choice == 4 and depth > 0 and len(self.items) < 4:
            return self.filtered(depth)
        if choice == 5 and depth > 0:
            self.branches(lambda: self.literal(kind, depth - 2), depth)
        else:
            self.literal(kind, depth - 1)
        return kind

    def filtered(self, depth):
        found: list[Any] = []
        self.loop("Filter", depth, found)
        return found[0]

    def loop(self, family, depth, found=None):
        if len(self.items) >= 4:
            return self.literal_answer(family, found)
        item = self.list(depth - 1)
        if found is not None:
            found.append(item)
        enter, step = Label(), Label()
        self.here(enter)
        self.put(family + "Enter", step)
        self.items.append(item)
        self.boolean(depth - 1)
        self.items.pop()
        self.here(step)
        self.put(family + "Step", enter)

    def literal_answer(self, family, found):
        """What replaces a loop where there are as many as may be."""
        if family in ("All", "Any", "None", "One"):
            return self.put("PushBool", True)
        if family == "Count":
            return self.put("PushWhole", 1)
        found.append("bool")
        return self.put("MakeList", "bool", 0)


def random_code(random, shape, depth, version=1):
    writer = Writer(random, shape, version)
    for _ in range(random.choice((0, 0, 0, 0, 1, 2))):
        writer.write(random.choice(SCALARS), 1)
    writer.boolean(depth)
    writer.put("Return")
    return writer.finished()


# Changes
