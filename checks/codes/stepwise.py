"""Random code made operation by operation, each one fitting the kinds on the stack, for make_codes.

It makes what no condition is compiled to: jumps that share an end, operands that are dropped, Returns in
the middle, loops whose bodies branch.
"""

from typing import Any

from checks.codes.shapes import DECIMALS, WHOLES, literals
from checks.oracle.kinds import is_list, is_optional, is_record, merge
from checks.oracle.operations import ENTERS, ENTERS_1, EQUAL, MIXED, PLAIN, SCALARS, TEXT_TESTS
from checks.oracle.verifier import answer_kind, given, taken

CALM = list(PLAIN) + list(MIXED) + list(EQUAL) + ["Default", "IsIn", "Index", "Len", "Need", "IsNil", "ToDecimal"]


class NoWay(Exception):
    """This attempt can't be ended well."""


class Stepwise:
    def __init__(self, random, shape, version):
        self.random = random
        self.shape = shape
        self.version = version
        self.ops = []
        self.kinds: Any = ()
        self.waiting = []  # [the jumps' places, the kinds at their target, how many loops hold it]
        self.loops = []  # (place of the Enter, kinds below, the list's kind)

    def floor(self):
        return len(self.loops[-1][1]) if self.loops else 0

    def item(self):
        return self.loops[-1][2][1] if self.loops else None

    def put(self, *op):
        """An operation that continues at the next place."""
        count = taken(op)
        if len(self.kinds) - count < self.floor():
            return False
        gives = given(op, self.kinds[len(self.kinds) - count :], self.shape, self.item())
        if gives is None or len(self.kinds) - count >= 64:
            return False
        self.ops.append(op)
        self.kinds = self.kinds[: len(self.kinds) - count] + (gives,)
        return True

    def push(self):
        sorts = (
            lambda: ("PushBool", self.random.random() < 0.5),
            lambda: ("PushBool", self.random.random() < 0.5),
            lambda: ("PushWhole", self.random.choice(WHOLES)),
            lambda: ("PushDecimal", self.random.choice(DECIMALS)),
            lambda: ("PushText", self.random.choice(literals(self.version)["text"])),
            lambda: ("PushNil",),
            lambda: ("LoadResult",),
            lambda: ("LoadResult",),
            lambda: ("Item",) if self.loops else ("LoadResult",),
            lambda: ("MakeList", self.random.choice(SCALARS), self.random.randrange(4)),
        )
        self.put(*self.random.choice(sorts)())

    def calm(self):
        calm = CALM if self.version == 1 else CALM + list(TEXT_TESTS)
        names = self.random.sample(calm, len(calm))
        top = self.kinds[-1] if len(self.kinds) > self.floor() else None
        if is_record(top) and top[1]:
            return self.put("Field", self.random.choice(top[1])[0])
        if is_optional(top) and self.random.random() < 0.4:
            return self.put("Need")
        return any(self.put(name) for name in names)

    def has_bool(self):
        return len(self.kinds) > self.floor() and self.kinds[-1] == "bool"

    def jump(self):
        name = self.random.choice(("AndJump", "OrJump", "BranchFalse", "BranchFalse", "Jump"))
        if name != "Jump" and not self.has_bool():
            return
        there = self.kinds[:-1] if name == "BranchFalse" else self.kinds
        place = len(self.ops)
        self.ops.append((name, None))
        self.kinds = None if name == "Jump" else self.kinds[:-1]
        for wait in self.waiting:
            both = self.met(wait[1], there) if wait[2] == len(self.loops) else None
            if both is not None and self.random.random() < 0.6:
                wait[0].append(place)
                wait[1] = both
                return
        self.waiting.append([[place], there, len(self.loops)])

    def met(self, one, other):
        if len(one) != len(other):
            return None
        both = tuple(merge(*pair) for pair in zip(one, other))
        return None if None in both else both

    def bind(self, wait):
        """The waiting jumps lead to the next place."""
        both = wait[1] if self.kinds is None else self.met(self.kinds, wait[1])
        if both is None:
            return False
        self.waiting.remove(wait)
        self.kinds = both
        for place in wait[0]:
            self.ops[place] = (self.ops[place][0], len(self.ops))
        return True

    def bound_here(self):
        waits = [wait for wait in self.waiting if wait[2] == len(self.loops)]
        self.random.shuffle(waits)
        return any(self.bind(wait) for wait in waits)

    def enter(self):
        if len(self.kinds) > self.floor() and is_list(self.kinds[-1]) and len(self.loops) < 4:
            name = self.random.choice(ENTERS_1 if self.version == 1 else ENTERS)
            self.loops.append((len(self.ops), self.kinds[:-1], self.kinds[-1]))
            self.ops.append((name, None))
            self.kinds = self.kinds[:-1]

    def step(self):
        """Ends the innermost loop, with all that waits in it."""
        self.meet_all()
        self.lower(self.floor())
        self.raise_to(self.kinds + ("bool",))
        enter, below, kind = self.loops.pop()
        name = self.ops[enter][0]
        self.ops[enter] = (name, len(self.ops))
        self.ops.append((name[:-5] + "Step", enter))
        self.kinds = below + (answer_kind(name, kind),)

    def lower(self, height):
        """Drops operands, each by a branch to the next place."""
        while len(self.kinds) > height:
            self.kinds[-1] == "bool" or self.put("IsNil")
            self.ops.append(("BranchFalse", len(self.ops) + 1))
            self.kinds = self.kinds[:-1]

    def raise_to(self, kinds):
        for kind in kinds[len(self.kinds) :]:
            self.make(kind)

    def make(self, kind):
        bare = kind[1] if is_optional(kind) else kind
        pushes = {"bool": True, "whole": 1, "decimal": 1_000_000, "text": "a"}
        if bare in pushes:
            done = self.put("Push" + bare.capitalize(), pushes[bare])
        elif kind == "nil" or is_optional(kind):
            done = self.put("PushNil")
        elif is_list(kind) and kind[1] in SCALARS:
            done = self.put("MakeList", kind[1], 0)
        else:
            done = kind == self.shape and self.put("LoadResult")
        if not done:
            raise NoWay

    def meet_all(self):
        """Leads all jumps of the innermost loop to places here."""
        while True:
            waits = [wait for wait in self.waiting if wait[2] == len(self.loops)]
            if not waits:
                if self.kinds is None:
                    raise NoWay
                return
            self.meet(waits[0])

    def meet(self, wait):
        if self.kinds is not None:
            shared = 0
            while shared < min(len(wait[1]), len(self.kinds)) and merge(wait[1][shared], self.kinds[shared]):
                shared += 1
            if shared < self.floor():
                raise NoWay
            self.lower(shared)
            self.raise_to(wait[1])
        if not self.bind(wait):
            raise NoWay

    def act(self):
        if self.kinds is None:
            if not self.bound_here():
                raise NoWay
            return
        choice = self.random.randrange(20)
        if choice < 6:
            self.push()
        elif choice < 12:
            self.calm()
        elif choice < 15:
            self.jump()
        elif choice < 17:
            self.enter()
        elif choice == 17:
            self.bound_here()
        elif choice == 18 and self.loops:
            self.step()
        elif choice == 19 and self.has_bool() and not self.loops and self.waiting:
            self.ops.append(("Return",))
            self.kinds = None

    def write(self, length):
        while len(self.ops) < length:
            self.act()
        while self.loops:
            self.step()
        self.meet_all()
        if not self.has_bool():
            self.raise_to(self.kinds + ("bool",))
        self.ops.append(("Return",))
        return self.ops


def stepwise_code(random, shape, length, version=1):
    """Code of about this length."""
    while True:
        try:
            return Stepwise(random, shape, version).write(length)
        except NoWay:
            continue
