"""How docs/design/conformance.md writes answers: decimals, texts, shapes, values, tokens and trees."""

import re

from checks.oracle.kinds import is_list, is_optional, is_record

ESCAPED = {'"': '\\"', "\\": "\\\\", "\n": "\\n", "\r": "\\r", "\t": "\\t"}
SPECIAL = re.compile('["\\\\\x00-\x1f]')


def shown_text(text):
    return '"' + SPECIAL.sub(lambda found: ESCAPED.get(found[0]) or f"\\u{ord(found[0]):04x}", text) + '"'


def shown_decimal(millionths):
    before, after = divmod(abs(millionths), 1_000_000)
    return ("-" if millionths < 0 else "") + f'{before}.{str(after).rjust(6, "0").rstrip("0") or "0"}'


def by_bytes(name):
    return name.encode()


def shown_kind(kind):
    """The JSON that declares a shape; null for the kind of nil."""
    if kind == "nil":
        return "null"
    if is_list(kind):
        return f'{{"list":{shown_kind(kind[1])},"max":{kind[2]}}}'
    if is_record(kind):
        fields = ",".join(f"{shown_text(name)}:{shown_kind(inner)}" for name, inner in kind[1])
        return f'{{"record":{{{fields}}}}}'
    if is_optional(kind):
        return f'{{"optional":{shown_kind(kind[1])}}}'
    return f'"{kind}"'


def shown_value(value):
    sort = value[0]
    if sort == "nil":
        return "null"
    if sort == "bool":
        return "true" if value[1] else "false"
    if sort == "decimal":
        return shown_decimal(value[1])
    if sort == "text":
        return shown_text(value[1])
    if sort == "list":
        return "[" + ",".join(shown_value(item) for item in value[1]) + "]"
    if sort == "record":
        names = sorted(value[1], key=by_bytes)
        return "{" + ",".join(f"{shown_text(name)}:{shown_value(value[1][name])}" for name in names) + "}"
    return str(value[1])


def shown_literal(sort, content):
    if sort == "decimal":
        return shown_decimal(content)
    return shown_text(content) if sort == "text" else str(content)


def shown_tokens(tokens):
    return (
        "["
        + ", ".join(f"{start}-{end} {sort} {shown_literal(sort, content)}" for sort, content, start, end in tokens)
        + "]"
    )


def shown_tree(tree):
    """A tree with its places, as `parse` answers it."""
    if tree.operator in ("whole", "decimal", "text"):
        return f"{shown_literal(tree.operator, tree.content)}@{tree.place}"
    if not tree.children:
        return f"{tree.operator}@{tree.place}"
    words = [f"{tree.operator}@{tree.place}", *(shown_tree(child) for child in tree.children)]
    if tree.operator == "field":
        words.append(shown_text(tree.content))
    return f'({" ".join(words)})'


def shown_typed(tree):
    """A tree whose kinds are known, as `check` answers it."""
    if tree.operator in ("whole", "decimal", "text") and not tree.children:
        return shown_literal(tree.operator, tree.content)
    if not tree.children:
        return tree.operator
    words = [tree.operator] + ([tree.sort] if tree.sort else []) + [shown_typed(child) for child in tree.children]
    if tree.operator == "field":
        words.append(shown_text(tree.content))
    return f'({" ".join(words)})'


# Verdicts, and how runs end


def joined(lines):
    """Several lines in one, as an answer has them; line feeds in names and texts are written as those between lines."""
    return " / ".join(lines).replace("\n", " / ")


def said(answer):
    return {True: "true", False: "false"}.get(answer, f"fault {answer}")


def ended(outcome):
    """How a run of code ended."""
    if outcome[0] == "spent":
        return "spent"
    if outcome[0] == "stuck":
        return f"stuck {outcome[1]}"
    return f"{said(outcome[0])} cost={outcome[1]}"


def verdict_line(ops, verdict):
    """What the verifier says of code."""
    if verdict[0] == "accepted":
        return f"accepted operations={len(ops)} depth={verdict[1]} budget={verdict[2]}"
    return f"{verdict[0]} at {verdict[1]}"
