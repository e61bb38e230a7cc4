"""The images of docs/use/formats.md, read apart from the program: code as bytes, and bytes as code.

Code is here its texts, its names and its operations with numbers of texts and names, as they are in an image.
"""

import collections

from checks.oracle.operations import ENTERS, JUMPS, SCALARS, STEPS
from checks.oracle.refused import Refused

MAGIC = b"ARCV"
MOST = 4_096
NAMES = (
    "PushBool PushWhole PushDecimal PushText PushNil MakeList LoadResult Item Field Index Len Need IsNil Default "
    "ToDecimal IsIn Not AddW SubW MulW DivW RemW NegW AddD SubD MulD DivD NegD LtW LeW GtW GeW LtD LeD GtD GeD "
    "LtM LeM GtM GeM EqBool EqNumber EqText AndJump OrJump BranchFalse Jump AllEnter AllStep AnyEnter AnyStep "
    "CountEnter CountStep FilterEnter FilterStep Return "
    "NoneEnter NoneStep OneEnter OneStep Contains StartsWith EndsWith"
).split()
LAST_OF_VERSION_1 = 56
CODES = {name: code for code, name in enumerate(NAMES, 1)}

Image = collections.namedtuple("Image", "texts names operations")


def unsigned(number):
    more = b""
    while number >= 128:
        more += bytes([number % 128 + 128])
        number //= 128
    return more + bytes([number])


def signed(number):
    return unsigned(2 * number if number >= 0 else -2 * number - 1)


def table(entries):
    return unsigned(len(entries)) + b"".join(unsigned(len(entry.encode())) + entry.encode() for entry in entries)


def operation_bytes(op):
    name, fields = op[0], op[1:]
    code = bytes([CODES[name]])
    if name in ("PushWhole", "PushDecimal"):
        return code + signed(fields[0])
    if name == "MakeList":
        return code + unsigned(SCALARS.index(fields[0])) + unsigned(fields[1])
    return code + b"".join(unsigned(int(field)) for field in fields)


def version_of(operations):
    return 2 if any(CODES[op[0]] > LAST_OF_VERSION_1 for op in operations) else 1


def encode(image):
    head = MAGIC + bytes([version_of(image.operations)]) + table(image.texts) + table(image.names)
    operations = b"".join(operation_bytes(op) for op in image.operations)
    return head + unsigned(len(image.operations)) + operations


class Reader:
    def __init__(self, code):
        self.code = code
        self.at = 0

    def byte(self):
        if self.at >= len(self.code):
            raise Refused("Truncated", len(self.code))
        self.at += 1
        return self.code[self.at - 1]

    def number(self, limit):
        """An unsigned number below a limit, in its shortest form."""
        start, number, shift = self.at, 0, 0
        while True:
            byte = self.byte()
            number += (byte & 127) << shift
            shift += 7
            if byte < 128:
                break
        if unsigned(number) != self.code[start : self.at] or number >= limit:
            raise Refused("BadNumber", start)
        return number

    def boolean(self):
        byte = self.byte()
        if byte > 1:
            raise Refused("BadNumber", self.at - 1)
        return byte == 1

    def signed(self):
        number = self.number(2**64)
        return -(number + 1) // 2 if number % 2 else number // 2

    def count(self):
        number = self.number(2**64)
        if number > MOST:
            raise Refused("TooLarge")
        return number

    def text(self):
        length = self.count()
        start = self.at
        if start + length > len(self.code):
            raise Refused("Truncated", len(self.code))
        self.at += length
        try:
            return self.code[start : self.at].decode()
        except UnicodeDecodeError:
            raise Refused("BadText", start) from None

    def table(self):
        return [self.text() for _ in range(self.count())]

    def operation(self, version, texts, names):
        start = self.at
        code = self.byte()
        if not 1 <= code <= (LAST_OF_VERSION_1 if version == 1 else len(NAMES)):
            raise Refused("UnknownOp", start)
        name = NAMES[code - 1]
        if name == "PushBool":
            return (name, self.boolean())
        if name in ("PushWhole", "PushDecimal"):
            return (name, self.signed())
        if name == "MakeList":
            return (name, SCALARS[self.number(4)], self.number(17))
        if name in ("PushText", "Field"):
            number = self.number(2**32)
            if number >= len(texts if name == "PushText" else names):
                raise Refused("BadText", start)
            return (name, number)
        return (name, self.number(2**32)) if name in JUMPS + ENTERS + STEPS else (name,)


def decode(code):
    """The image of these bytes, or their first fault."""
    reader = Reader(code)
    for byte in MAGIC:
        if reader.byte() != byte:
            raise Refused("BadMagic")
    version = reader.byte()
    if version not in (1, 2):
        raise Refused("BadVersion")
    texts, names = reader.table(), reader.table()
    operations = [reader.operation(version, texts, names) for _ in range(reader.count())]
    if version != version_of(operations):
        raise Refused("BadVersion")
    if reader.at < len(code):
        raise Refused("Trailing", reader.at)
    return Image(texts, names, operations)


def resolved(image):
    """The operations of an image as verifier.py and machine.py take them, with texts and names in place of numbers."""
    lists = {"PushText": image.texts, "Field": image.names}
    return [(op[0], lists[op[0]][op[1]]) if op[0] in lists else op for op in image.operations]


def listing(image):
    """The lines of a listing; after the number of a text or a name comes the text itself."""
    lists = {"PushText": image.texts, "Field": image.names}
    lines = []
    for place, op in enumerate(image.operations):
        fields = list(op[1:]) + ([lists[op[0]][op[1]]] if op[0] in lists else [])
        if op[0] == "PushBool":
            fields = ["true" if op[1] else "false"]
        lines.append(" ".join(str(part) for part in (place, op[0], *fields)))
    return lines


def image_of(ops, unused=()):
    """The image of operations that hold texts and names themselves; its tables may have unused entries, too."""
    texts = list(dict.fromkeys([*(op[1] for op in ops if op[0] == "PushText"), *unused]))
    names = list(dict.fromkeys([*(op[1] for op in ops if op[0] == "Field"), *unused]))
    numbers = {"PushText": texts, "Field": names}
    return Image(texts, names, [(op[0], numbers[op[0]].index(op[1])) if op[0] in numbers else op for op in ops])
