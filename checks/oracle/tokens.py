"""The rules of docs/use/language.md on tokens, read apart from the program.

A token is a tuple of its sort, its content, and the offsets of its first byte and of the byte after it. Sorts are
'word' (one that the language names), 'name', 'whole', 'decimal' (in millionths), 'text' and 'sign'.
"""

import re
from typing import Any

from checks.oracle.refused import Refused

LONGEST = 4_096
LARGEST = 2**63 - 1
WORDS = set(
    "true false nil result len isNil default all any none one count filter and or not in "
    "contains startsWith endsWith".split()
)

BLANKS = re.compile(rb"(?:[ \t\r\n]|//[^\n]*)+")
WORD = re.compile(rb"[A-Za-z_][A-Za-z0-9_]*")
NUMBER = re.compile(rb"0x[0-9a-fA-F]+|0o[0-7]+|0b[01]+|[0-9]+(?:\.[0-9]+)?|\.[0-9]+")
SIGN = re.compile(rb"==|!=|<=|>=|&&|\|\||[-+*/%<>!?:,.()\[\]{}#]")
ESCAPES = {"\\": "\\", '"': '"', "'": "'", "n": "\n", "r": "\r", "t": "\t"}


def blank_end(code, at):
    """The offset of the first byte from here that is neither blank nor in a comment."""
    while True:
        if found := BLANKS.match(code, at):
            at = found.end()
        elif code.startswith(b"/*", at):
            end = code.find(b"*/", at + 2)
            if end < 0:
                raise Refused("OpenComment", at)
            at = end + 2
        else:
            return at


def is_field_point(code, at, tokens):
    """Whether a point directly follows a word, `)`, `]` or `#`."""
    if code[at : at + 1] != b"." or not tokens or tokens[-1][3] != at:
        return False
    sort, content = tokens[-1][:2]
    return sort in ("word", "name") or (sort == "sign" and content in (")", "]", "#"))


def number_token(code, found):
    start, end = found.span()
    spelt = found.group().decode()
    if "." in spelt:
        before, after = spelt.split(".")
        if len(after) > 6:
            raise Refused("LiteralTooFine", start)
        sort, value = "decimal", int(before or "0") * 1_000_000 + int(after.ljust(6, "0"))
    else:
        base = {"0x": 16, "0o": 8, "0b": 2}.get(spelt[:2], 10)
        sort, value = "whole", int(spelt[2:] if base != 10 else spelt, base)
    if value > LARGEST:
        raise Refused("NumberTooLarge", start)
    if end < len(code) and (chr(code[end]).isalnum() and code[end] < 128 or code[end] == ord("_")):
        raise Refused("BadCharacter", end)
    return (sort, value, start, end)


def text_end(code, at):
    """The offset of the quote that ends the text which begins here."""
    quote, place = code[at], at + 1
    while place < len(code) and code[place] != quote:
        place += 2 if code[place] == ord("\\") else 1
    if place >= len(code):
        raise Refused("OpenText", at)
    return place


def text_token(code, at):
    end = text_end(code, at)
    content, place = b"", at + 1
    while place < end:
        if code[place] != ord("\\"):
            content += code[place : place + 1]
            place += 1
            continue
        escaped = ESCAPES.get(chr(code[place + 1]))
        if escaped is None:
            raise Refused("BadEscape", place)
        content += escaped.encode()
        place += 2
    return ("text", content.decode(), at, end + 1)


def sign_token(code, at):
    found = SIGN.match(code, at)
    if not found or (found.group() == b"?" and code[at + 1 : at + 2] in (b"?", b".")):
        raise Refused("BadCharacter", at)
    return ("sign", found.group().decode(), at, found.end())


def token_at(code, at, tokens):
    """The token that begins here, after these tokens."""
    if found := WORD.match(code, at):
        word = found.group().decode()
        return ("word" if word in WORDS else "name", word, at, found.end())
    found = NUMBER.match(code, at)
    if found and not is_field_point(code, at, tokens):
        return number_token(code, found)
    if code[at] in b"\"'":
        return text_token(code, at)
    return sign_token(code, at)


def tokens_of(condition):
    """The tokens of a condition, or its first token fault."""
    code = condition.encode()
    if len(code) > LONGEST:
        raise Refused("TooLong")
    tokens: list[Any] = []
    at = blank_end(code, 0)
    while at < len(code):
        tokens.append(token_at(code, at, tokens))
        at = blank_end(code, tokens[-1][3])
    return tokens
