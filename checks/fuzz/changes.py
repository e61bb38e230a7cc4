"""Random changes of conditions and of bytes: tokens and whole parts of a condition, and single bytes."""

from checks.oracle.grammar import parse
from checks.oracle.refused import Refused
from checks.oracle.tokens import tokens_of

SPELT = (
    "true false nil result len isNil default all any none one count filter and or not in contains startsWith endsWith "
    "foo x None contain none(result, one(#, .contains .one .5contains not\tcontains "
    '+ - * / % == != < > <= >= ! && || ? : , . ( ) [ ] { } # 0 1 2.5 .5 9223372036854775808 0.1234567 0x 0xff "a" '
    "'b' '' 'é' len( all(result, ?? ?. ^ | & = ; $ ` @ é _ \" ' // /* */ /*/ /*/*/ \\ not\tin 0.1000000 }.5 ).5 #.5 1."
).split(" ")
BYTES = b"\x00\x01\x02\t\n\r !\"#$%&'()*+,-./0123456789:;<=>?@AZ[\\]^_`aezn{|}~\x7f\x80\xbf\xc0\xc3\xe2\xed\xf0\xff"
CHARACTERS = "\x00\t\n\"'\\\x7fé€😀"
LONG = (15, 16, 17, 62, 63, 64, 65, 66)
PARTS = 40
# What is put between the bytes of a document.
SNIPPETS = (
    b"\\ud800",
    b"\\udc00",
    b"\\ud83d\\ude00",
    b"\\u00e9",
    b"\\u0000",
    b"\\u00g0",
    b"\\/",
    b"\\b",
    b"\\x",
    b"\\n",
    b"\\",
    b"\xef\xbb\xbf",
    b"\xed\xa0\x80",
    b"\xf0\x9f\x98\x80",
    b"\xc2\xa0",
    b"\x0b",
    b" \n",
    b"NaN",
    b"-",
    b"1e5",
    b".0",
    b"0",
    b"/**/",
    b",",
    b"{}",
    b"[[",
    b'""',
    b"null",
)


def pieces(text):
    """The spellings of the tokens of a condition, or its characters where it has none."""
    try:
        tokens = tokens_of(text)
    except Refused:
        return list(text)
    code = text.encode()
    return [code[start:end].decode() for _, _, start, end in tokens]


def swapped(source, words):
    if len(words) > 1:
        one, other = source.randrange(len(words)), source.randrange(len(words))
        words[one], words[other] = words[other], words[one]


def changed_words(source, words):
    """One change of a list of tokens."""
    place = source.randrange(len(words) + 1)
    way = source.randrange(6)
    if way == 0:
        words.insert(place, source.choice(SPELT))
    elif way == 1 and words:
        words[place % len(words)] = source.choice(SPELT)
    elif way == 2 and words:
        del words[place % len(words)]
    elif way == 3:
        swapped(source, words)
    elif way == 4 and words:
        words.insert(place, source.choice(words))
    else:
        del words[place : place + source.randrange(1, 4)]
    return words


def is_condition(text):
    try:
        parse(text)
    except Refused:
        return False
    return True


def part(source, words):
    """The places of some tokens that are a condition by themselves, or None."""
    for _ in range(PARTS if words else 0):
        start = source.randrange(len(words))
        end = min(len(words), start + source.choice((1, 1, 3, 3, 4, 5, 6, 7, 9)))
        if is_condition(" ".join(words[start:end])):
            return start, end
    return None


def with_part(source, words, others):
    """The tokens, one part of them changed for a part of others."""
    here, there = part(source, words), part(source, others)
    if here and there:
        words[here[0] : here[1]] = others[there[0] : there[1]]
    return words


def repeated(source, text):
    """A condition inside openers, or as items, of which there are nearly as many as a limit allows."""
    count = source.choice(LONG)
    return source.choice(
        (
            "!" * count + text,
            "(" * count + text + ")" * count,
            "-" * count + text,
            "[" * count + text + "]" * count,
            "true?" * count + text + ":false" * count,
            "true?1:" * (count - 1) + f"({text})",
            "true?1:" * count + text,
            f'[{",".join(["1"] * count)}] == nil or {text}',
            "any(result," * 5 + text + ")" * 5,
            "(" * (count - 1) + f"len({text}" + ")" * count,
            "all(result,{" * count + text + "})" * count,
            f'1{"+1" * count}>0',
            f'result{".a" * count}',
            f'{text}{" or true" * count}',
            " " * (4_096 - len(text.encode())) + text + " " * (count % 3),
            "1+(" * (count - 4) + "len([1,1,1,1,1])" + ")" * (count - 4) + ">0",
            f"[{text}," * 15 + text + "]" * 15,
            f"all({text}," * 3 + text + ")" * 3,
            "any(result,all(#," * 2 + "any(result," + text + ")" * 5,
            f"one({text}," * 3 + text + ")" * 3,
            "none(result," * 5 + text + ")" * 5,
            "none(result,one(#," * 2 + f"none(result,{{{text}" + "})" + ")" * 4,
            f'{text}{" contains result" * count}',
            f'result{" startsWith 1" * (count - 1)}',
            "one(result," * count + text + ")" * count,
            f"({text}) contains" * (count % 3 + 1) + " ''",
        )
    )


def changed_condition(source, text, other):
    """A condition with one to three changes; `other` is one from which parts are taken."""
    if source.random() < 0.05:
        return repeated(source, text)
    if source.random() < 0.1:
        return changed_text(source, text)
    words = pieces(text)
    for _ in range(source.choice((1, 1, 1, 2, 3))):
        words = with_part(source, words, pieces(other)) if source.random() < 0.4 else changed_words(source, words)
    return source.choice((" ", " ", " ", "")).join(words)


def changed_text(source, text):
    """A text with one character changed, put in or left out."""
    place = source.randrange(len(text) + 1)
    fresh = source.choice(("", source.choice(SPELT), source.choice(CHARACTERS)))
    return text[:place] + fresh + text[place + source.randrange(2) :]


def changed_bytes(source, code):
    """Bytes with one to three changes: a byte changed, put in or left out, or the end cut off."""
    code = bytearray(code)
    for _ in range(source.choice((1, 1, 1, 2, 3))):
        place = source.randrange(len(code) + 1)
        way = source.randrange(10)
        if way > 7:
            code[place:place] = source.choice(SNIPPETS)
        elif way < 3 and place < len(code):
            code[place] = source.choice(BYTES) if source.random() < 0.7 else source.randrange(256)
        elif way < 5:
            code[place:place] = bytes([source.choice(BYTES)])
        elif way < 7:
            del code[place : place + source.choice((1, 1, 2, 5))]
        elif source.random() < 0.3:
            del code[place:]
        elif place < len(code):
            code[place] ^= 1 << source.randrange(8)
    return bytes(code)
