"""Where the package, the program and the pages are: in a checkout, in what was installed, or elsewhere."""
import os
import shutil

# The checkout, or PREFIX/lib/argo_judge.
ROOT = os.path.dirname(os.path.dirname(os.path.dirname(os.path.realpath(__file__))))
# What is installed has a list of it, and the program in PREFIX/bin.
IS_INSTALLED = os.path.isfile(os.path.join(ROOT, "installed"))
IS_CHECKOUT = not IS_INSTALLED and os.path.isdir(os.path.join(ROOT, "recipes"))
BUILT = os.path.join(ROOT, "crates", "argo_judge", "out", "argo_judge")


def engine() -> str:
    """The program's path, whether it is there or not; of a package elsewhere it is the one on the PATH."""
    if IS_INSTALLED:
        return os.path.join(os.path.dirname(os.path.dirname(ROOT)), "bin", "argo_judge")
    return BUILT if IS_CHECKOUT else shutil.which("argo_judge") or "argo_judge"


def makes_engine() -> str:
    """What puts the program there."""
    return "install puts there" if IS_INSTALLED else f"{ROOT}/bin/prove argo_judge builds"


def engine_help() -> str:
    """What `--help` says of the flag that names another program."""
    if not IS_INSTALLED and not IS_CHECKOUT:
        return "argo_judge, where it isn't the one on the PATH"
    made = "was installed" if IS_INSTALLED else "bin/prove argo_judge built"
    return f"argo_judge, where it isn't the one that {made} here"
