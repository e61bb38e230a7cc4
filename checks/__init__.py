"""What the gate runs besides the proofs: a module or a package for each check, all of them on one harness.

The executables in `tests`, `examples`, `benches` and the like start these by `bin/module`. `checks.oracle` has second
readings of the rules of the engine, which know nothing of the crates.
"""

import pathlib

ROOT = pathlib.Path(__file__).resolve().parent.parent
