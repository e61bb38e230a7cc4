"""Tries bin/release: a trial of this checkout and one of a copy of it, and what is unpacked and installed of them."""
import hashlib
import os
import pathlib
import re
import shutil
from itertools import chain

from releasing import ROOT, library
from releasing.checks.archives import archive_in, copy_of_checkout, unpacked, values_of
from releasing.checks.contents import add_ignored, of_checksums, of_links
from releasing.checks.gates import of_gate
from releasing.checks.images import of_images
from releasing.checks.installs import LINT, LINTED, of_prefix, of_program, of_removal, reported
from releasing.checks.refusals import of_refusals, of_stamps
from releasing.checks.starts import (
    BUILT,
    Tried,
    ended,
    hidden,
    in_folder,
    in_folder_with_python,
    is_current,
    note,
    own_environment,
    put_shell,
    side_by_side,
)
from releasing.evidence import OBJECT
from releasing.tree import LIBRARY_FILES

# ---- what is in a release


def of_proved(tree: pathlib.Path) -> Tried:
    values, _, sources = values_of(tree)
    program = (tree / "bin/argo_judge").read_bytes()
    commit = ended(["git", "-C", ROOT, "rev-parse", "HEAD"]).stdout.strip()
    yield "PROVED names the program", values["sha256 of bin/argo_judge"] == hashlib.sha256(program).hexdigest()
    yield "PROVED has the sources", sources == ended([ROOT / "bin/prove", "--sources", "argo_judge"]).stdout
    yield "PROVED has the commit", values["commit"] == commit
    yield "a trial says so", values.get("trial", "") != ""
    said = ended([tree / "bin/argo_judge", "--version"]).stdout
    yield "--version has the commit and the kit", commit[:12] in said and values["kit"].split()[0] in said
    texts = [path.read_bytes() for path in tree.rglob("*") if path.is_file()]
    yield "no file names this folder", not any(os.fsencode(ROOT) + b"/" in text for text in texts)


def of_library(tree: pathlib.Path, folder: pathlib.Path) -> Tried:
    """The C library, where it is built, has the stamp of the program, and examples/embed calls it."""
    if not library.BUILT.is_file() or not is_current("argo_judge_c"):
        note("the C library isn't built of the sources as they are, so it is tried in no release")
        return
    stamp = ended([tree / "bin/argo_judge", "--version"]).stdout.partition(" (")[2].strip()
    yield "the C library is in a release", all((tree / path).is_file() for path in LIBRARY_FILES)
    for path in LIBRARY_FILES[1:]:
        yield f"{path} has the commit and the kit", (tree / path).read_bytes().count(stamp.encode()) == 1
    embed, caller = tree / "lib/argo_judge/examples/embed", folder / "caller"
    built = ended(["cc", "-I", tree / "include", embed / "judge.c", tree / LIBRARY_FILES[1], "-o", caller])
    yield "a caller in C is built of what a release has", built.returncode == 0
    wanted = reported([BUILT, "run", "--plain"])
    yield "a caller in C reports as the program", reported(hidden([caller])) == wanted
    by_python = [embed / "judge.py", tree / LIBRARY_FILES[2]]
    yield "a caller in Python reports as the program", reported(hidden(by_python)) == wanted


def of_page(tree: pathlib.Path) -> Tried:
    """The commands for a first start in a release's README.md."""
    start = (tree / "README.md").read_text(encoding="utf-8").partition("\n## Install\n")[0]
    for block in re.findall(r"^```sh\n(.*?)^```$", start, re.M | re.S):
        found = ended(hidden(["bash", "-o", "pipefail", "-c", block]), cwd=tree)
        yield f"README.md of a release: {block}", found.returncode in (0, 1) and found.stdout.startswith("run ")
    (tree / "shapes.json").unlink()


def of_small_roots(tree: pathlib.Path, folder: pathlib.Path) -> Tried:
    """The program alone, and from a shell, in folders that have nothing else."""
    alone, with_shell = folder / "alone", folder / "with a shell"
    for root in (alone, with_shell):
        (root / "bin").mkdir(parents=True)
        shutil.copy(tree / "bin/argo_judge", root / "bin")
    put_shell(with_shell)
    program = "/bin/argo_judge"
    for root, start in ((alone, [program]), (with_shell, ["/bin/sh", "-c", '"$@"', "sh", program])):
        words = in_folder(root, start)
        if words is not None:
            yield from of_program(f"in an empty system, {root.name}", words)


def of_python(prefix: pathlib.Path, folder: pathlib.Path) -> Tried:
    """What is installed, moved to a system that has Python, and neither the checkout nor the kit."""
    root = folder / "with python"
    shutil.copytree(prefix, root / "installed", symlinks=True)
    shutil.copy(folder / "template.json", root)
    words = in_folder_with_python(root, [f"/installed/{LINT}", "/template.json"])
    if words is not None:
        yield "in a system with a shell and Python, a recipe", LINTED in ended(words).stdout


def of_tree(tree: pathlib.Path, folder: pathlib.Path) -> Tried:
    yield from of_proved(tree)
    yield from of_checksums(tree)
    yield from of_links("in a release", tree)
    yield from of_library(tree, folder)
    yield from of_page(tree)
    yield from of_program("unpacked", hidden([tree / "bin/argo_judge"]))
    yield "unpacked, a recipe", LINTED in ended(hidden([tree / LINT, folder / "template.json"])).stdout
    yield from of_small_roots(tree, folder)
    home = folder / "home"
    prefix, install = home / ".local", [tree / "install"]
    for turn in ("installed", "installed again"):
        start = ended(hidden(install), env={**own_environment(), "HOME": str(home)})
        yield f"from a release, {turn}", start.returncode == 0
    yield from of_prefix("from a release", prefix, folder)
    yield from of_python(prefix, folder)
    yield "a release isn't installed over itself", ended([*install, tree]).returncode == 2
    yield from of_removal("from a release", install, prefix)
    (tree / LINT).unlink()
    refused = ended([*install, folder / "not installed"])
    yield "a release without a file is refused", refused.returncode == 2 and f"{LINT} is missing" in refused.stdout
    yield "and nothing is installed", not (folder / "not installed").exists()


# ---- all of that


def can_release() -> bool:
    """Whether a release can be tried; otherwise a line says why not."""
    if not OBJECT.is_file():
        note("the proof left no object file, so no release is tried; bin/prove --object argo_judge makes it")
    elif shutil.which("cc") is None:
        note("cc isn't installed, so no release is tried")
    elif not is_current("argo_judge"):
        note("the program isn't of the sources as they are, so no release is tried")
    else:
        return True
    return False


def of_trial(checkout: pathlib.Path, folder: pathlib.Path) -> Tried:
    found = ended([checkout / "bin/release", "--trial", "--to", folder])
    if found.returncode != 0:
        print(f"packaging: {found.stdout}", end="")
    yield f"a trial in {folder.name}", found.returncode == 0


def of_release(folder: pathlib.Path) -> Tried:
    if not can_release():
        return
    copy, one, two = folder / "copy", folder / "one", folder / "two"
    copy_of_checkout(copy)
    add_ignored(copy)
    trials = list(side_by_side(of_trial(ROOT, one), of_trial(copy, two)))
    yield from trials
    if not all(passed for _, passed in trials):
        return
    yield "the same bytes from two folders", archive_in(one).read_bytes() == archive_in(two).read_bytes()
    checked = ended(["sha256sum", "--check", "--quiet", f"{archive_in(one).name}.sha256"], cwd=one)
    yield "the archive's checksum", checked.returncode == 0
    tree = unpacked(archive_in(one), folder / "unpacked")
    yield from side_by_side(
        of_images(archive_in(one), archive_in(two), tree, folder),
        of_tree(tree, folder),
        chain(of_stamps(), of_gate(copy, folder), of_refusals(copy)),
    )
