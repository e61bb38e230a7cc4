"""What the tests of a suite may name, and how much they may have."""
from collections.abc import Sequence
from typing import NamedTuple

from argo_judge.engine.limits import Limits


class Known(NamedTuple):
    """The names of a template's metrics and arguments, and what the engine takes at most."""

    metrics: Sequence[str]
    arguments: Sequence[str]
    limits: Limits
