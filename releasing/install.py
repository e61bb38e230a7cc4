"""Installs argo_judge from this checkout: the program, the recipes, kubectl's plugin, the manual page and completions.

    bin/install [PREFIX]                ~/.local without PREFIX
    bin/install --uninstall [PREFIX]    removes what was installed there

PREFIX/bin gets argo_judge and kubectl-argo_judge, PREFIX/lib/argo_judge the recipes, their package and docs/use. What
is installed needs neither this checkout nor the kit: the program the C library, the recipes python3. The program has to
be that of the sources as they are, which bin/prove argo_judge proves and builds. Status 2 where it isn't, where PREFIX
has files of these names that were not installed so, and while another start works on PREFIX.

A second start replaces what the first one installed, the program last. A copy that fails changes nothing; after a later
stop, the next start completes it.
"""
import contextlib
import pathlib
import sys
import tempfile
from collections.abc import Iterator

from releasing import ROOT, installing, tree

PROGRAM = ROOT / "crates/argo_judge/out/argo_judge"


@contextlib.contextmanager
def tree_of_checkout() -> Iterator[pathlib.Path]:
    """What this checkout has to install, in a folder that is there meanwhile."""
    if not PROGRAM.is_file() or not tree.is_current("argo_judge"):
        raise installing.Refused(
            "the program isn't that of the sources as they are; bin/prove argo_judge proves and builds it"
        )
    with tempfile.TemporaryDirectory() as scratch:
        tree.make(pathlib.Path(scratch), PROGRAM)
        yield pathlib.Path(scratch)


if __name__ == "__main__":
    sys.exit(installing.main(__doc__, tree_of_checkout))
