"""Code that is being written: operations with labels, and ways to parts of the measured value."""

from checks.oracle.kinds import is_list, is_optional, is_record


class Label:
    """A place that is known once its code is written."""

    def __init__(self):
        self.place = None


class Code:
    """Code that is being written at random: its operations so far, and ways into the measured value and the item."""

    def __init__(self, random, shape, version):
        self.random = random
        self.shape = shape
        self.version = version
        self.ops = []
        self.items = []

    def put(self, name, *fields):
        self.ops.append((name,) + fields)

    def here(self, label):
        label.place = len(self.ops)

    def finished(self):
        return [
            op[:1] + tuple(field.place if isinstance(field, Label) else field for field in op[1:]) for op in self.ops
        ]

    def chance(self, share):
        return self.random.random() < share

    # What can be reached from the shape and the item by fields and indexes

    def reach(self, wanted):
        """Writes a way to a part of a kind that is wanted, if one is found in a few attempts."""
        for _ in range(12):
            start = len(self.ops)
            if wanted(self.walk()):
                return True
            del self.ops[start:]
        return False

    def walk(self):
        kind = self.shape
        if self.items and self.chance(0.75):
            kind = self.items[-1]
            self.put("Item")
        else:
            self.put("LoadResult")
        while self.chance(0.75):
            if is_optional(kind):
                self.put("Need")
                kind = kind[1]
            elif is_record(kind) and kind[1]:
                name, kind = self.random.choice(kind[1])
                self.put("Field", name)
            elif is_list(kind):
                self.put("PushWhole", self.random.choice((0, 0, -1, 1)))
                self.put("Index")
                kind = kind[1]
            else:
                break
        return kind

    # Operands by kind
