"""What is installed and released, and how it is made: what bin/install, bin/release and packaging/ start."""

import pathlib

ROOT = pathlib.Path(__file__).resolve().parent.parent
