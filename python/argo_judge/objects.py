"""Values of JSON as they are looked at: members that may be missing, and how a line shows values and names."""
import json
from collections.abc import Sequence
from typing import Any, TypeAlias

from argo_judge.notes import one_line

# What JSON may have: looked at before it is used.
Json: TypeAlias = Any
Object: TypeAlias = dict[str, Json]


def member(value: Json, *names: str, default: Json = None) -> Json:
    """The value under names in objects that lie in one another; null and what is missing are the default."""
    for name in names:
        value = value.get(name) if isinstance(value, dict) else None
    return default if value is None else value


def objects(value: Json) -> list[Object]:
    """The objects of a list, of which none is missing where the list is."""
    return [item for item in value if isinstance(item, dict)] if isinstance(value, list) else []


def shown(value: Json) -> str:
    """A value as a line shows it: JSON, of which the first 64 characters are enough."""
    text = one_line(json.dumps(value, ensure_ascii=False))
    return text if len(text) <= 64 else f"{text[:64]}.."


def listed(names: Sequence[Json]) -> str:
    """Names as a line lists them, of which the first eight are enough."""
    more = f" and {len(names) - 8} more" if len(names) > 8 else ""
    return ", ".join(map(shown, names[:8])) + more or "none"
