"""Tries bin/install, what is installed by it or from a release, and the installer on small releases."""
import pathlib
import shutil
import subprocess

from releasing import ROOT
from releasing.checks.prefixes import of_words_and_locks
from releasing.checks.replaced import of_replaced
from releasing.checks.small import Releases
from releasing.checks.starts import (
    ALLOWED,
    BUILT,
    Tried,
    Words,
    ended,
    hidden,
    is_allowed,
    is_current,
    note,
    own_environment,
    side_by_side,
)

DOCUMENT = ROOT / "examples/bundles/success-rate.json"
TEMPLATE = "objects/kind/default/analysistemplate/success-rate.json"
SUITE = ROOT / "recipes/tests/kubectl-lint/suite.json"
LINT = "lib/argo_judge/recipes/lint"
TEST = "lib/argo_judge/recipes/test"
LINTED = "1 template: "
PLUGIN = "bin/kubectl-argo_judge"
FOREIGN = "another program\n"


def prepare(folder: pathlib.Path) -> None:
    """The inputs of the starts, in a folder of their own."""
    shutil.copy(DOCUMENT, folder / "document.json")
    shutil.copy(ROOT / "recipes/tests" / TEMPLATE, folder / "template.json")
    suite = SUITE.read_text(encoding="utf-8").replace(f"../{TEMPLATE}", "template.json")
    (folder / "suite.json").write_text(suite, encoding="utf-8")


def reported(words: Words) -> tuple[int, bytes]:
    """The status and the bytes of a report on the document of README.md."""
    with DOCUMENT.open("rb") as document:
        found = subprocess.run([str(word) for word in words], stdin=document, stdout=subprocess.PIPE)
    return found.returncode, found.stdout


def of_program(what: str, words: Words) -> Tried:
    """Whether a program, as these words start it, reports as the one of this checkout does."""
    yield f"{what}, the report", reported([*words, "run", "--plain"]) == reported([BUILT, "run", "--plain"])


def starts_of(prefix: pathlib.Path, folder: pathlib.Path) -> list[tuple[str, Words, str]]:
    """Starts of the scripts that are installed, each by its name, with what its output has to have."""
    return [
        ("a recipe", [prefix / LINT, folder / "template.json"], LINTED),
        ("tests of templates", [prefix / TEST, folder / "suite.json"], "1 passed, 0 failed"),
        ("the plugin", [prefix / PLUGIN, "test", folder / "suite.json"], "1 passed, 0 failed"),
    ]


def of_prefix(what: str, prefix: pathlib.Path, folder: pathlib.Path) -> Tried:
    """Tries what is below a prefix, with the checkout and the kit out of sight."""
    yield from of_program(what, hidden([prefix / "bin/argo_judge"]))
    # Python keeps what it compiled, which is removed, too.
    environment = own_environment("PYTHONDONTWRITEBYTECODE")
    for name, words, wanted in starts_of(prefix, folder):
        yield f"{what}, {name}", wanted in ended(hidden(words), cwd=folder, env=environment).stdout


def of_removal(what: str, install: Words, prefix: pathlib.Path) -> Tried:
    """Tries to remove what was installed, and to install over a file of another's."""
    yield f"{what}, removed", ended([*install, "--uninstall", prefix]).returncode == 0
    yield f"{what}, nothing is left", not any(prefix.iterdir())
    yield f"{what}, removed twice is refused", ended([*install, "--uninstall", prefix]).returncode == 2
    (prefix / "bin").mkdir()
    (prefix / "bin/argo_judge").write_text(FOREIGN, encoding="utf-8")
    yield f"{what}, another's program is in the way", ended([*install, prefix]).returncode == 2
    yield f"{what}, and stays", (prefix / "bin/argo_judge").read_text(encoding="utf-8") == FOREIGN
    yield f"{what}, alone", [path.name for path in prefix.rglob("*")] == ["bin", "argo_judge"]


def of_stops(folder: pathlib.Path, *words: str) -> Tried:
    """Tries the installer where it fails, on a disk of its own where the system allows that."""
    disk = folder / "-".join(["stops", *words])
    disk.mkdir()
    start: Words = [ROOT / "bin/module", "releasing.checks.stops", *words, disk]
    if is_allowed():
        start = [*ALLOWED, "sh", "-c", 'mount -t tmpfs none "$0" && exec "$@"', disk, *start]
    found = ended(start)
    lines = found.stdout.splitlines()
    yield from ((line, False) for line in lines[:-1])
    yield f"the installer where it fails: {lines[-1:]}", found.returncode == 0


def of_small_releases(folder: pathlib.Path) -> Tried:
    groups = [of_stops(folder)]
    if is_allowed():
        groups.append(of_stops(folder, "--disks"))
    else:
        note("no name space is allowed here, so nothing is installed on a full or a read-only disk")
    for name, group in (("words", of_words_and_locks), ("replaced", of_replaced)):
        (folder / name).mkdir()
        groups.append(group(Releases(folder / name)))
    yield from side_by_side(*groups)


def of_checkout(folder: pathlib.Path) -> Tried:
    what, prefix, install = "by bin/install", folder / "prefix", [ROOT / "bin/install"]
    if not is_current("argo_judge"):
        yield "a program of other sources is refused", ended([*install, prefix]).returncode == 2
        note("the program isn't of the sources as they are, so it isn't installed")
        return
    for turn in ("installed", "installed again"):
        yield f"{what}, {turn}", ended([*install, prefix]).returncode == 0
    yield from of_prefix(what, prefix, folder)
    yield from of_removal(what, install, prefix)


def of_install(folder: pathlib.Path) -> Tried:
    yield from side_by_side(of_checkout(folder), of_small_releases(folder))
