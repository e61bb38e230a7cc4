"""How the program and the C library are proved and built: what `bin/prove`, `bin/argo_judge` and `bin/try` start."""

import pathlib

ROOT = pathlib.Path(__file__).resolve().parent.parent
