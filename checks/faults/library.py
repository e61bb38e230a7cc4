"""The library of tests/faults/refuse.c, which a program loads first and which does to it what it is asked for."""

import contextlib
import os
import subprocess
from collections.abc import Callable, Iterator
from typing import Any

from checks import ROOT

FOLDER = ROOT / "tests/faults"


class Library:
    """The library, which is made in a folder."""

    def __init__(self, folder: str) -> None:
        self.path = os.path.join(folder, "refuse.so")
        source = str(FOLDER / "refuse.c")
        subprocess.run(["cc", "-shared", "-fPIC", "-O1", "-o", self.path, source, "-ldl"], check=True)

    @contextlib.contextmanager
    def asked(self, **variables: object) -> Iterator[tuple[dict[str, Any], Callable[[], bool]]]:
        """What a run is given of which the library is asked something, as REFUSE_CALL=3; and what says afterwards
        whether it refused something. It reports that to a file of each run's own, since runs are side by side."""
        refusals = os.memfd_create("refusals")
        try:
            own = {name: str(value) for name, value in variables.items()}
            environment = {**os.environ, "LD_PRELOAD": self.path, "REPORT_ON": str(refusals), **own}
            yield {"env": environment, "pass_fds": (refusals,)}, lambda: os.fstat(refusals).st_size > 0
        finally:
            os.close(refusals)
