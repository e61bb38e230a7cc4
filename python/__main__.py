"""What the executables in recipes/ start: `python3 FOLDER RECIPE ..`, with the folder that this file is in.

Python looks for modules in the folder that it runs before all others, so the package is found wherever that folder is.
"""
import sys

from argo_judge.running import run_command

# Help and notes begin with the recipe's name.
sys.argv[:2] = sys.argv[1:2] or ["recipe"]
run_command(sys.argv[0])
