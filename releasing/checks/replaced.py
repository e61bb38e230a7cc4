"""Tries the installer of small releases where PREFIX has links, a damaged list, and files of others."""
import pathlib
import shutil
import sys
from itertools import chain

from releasing.checks.small import (
    BOTH,
    MODULE,
    PAGE,
    RECIPE,
    TEXT,
    THEIRS,
    Releases,
    files,
    install,
    is_done,
    is_refused,
    put_theirs,
    state,
    write,
)
from releasing.checks.starts import Tried, ended, own_environment
from releasing.installing import LIST, PROGRAM

LIBRARY = "lib/argo_judge"
# Lines that no list has.
DAMAGED = {
    "a path out of PREFIX": b"../victim",
    "a path out of PREFIX, further on": b"lib/argo_judge/../../../victim",
    "an absolute path": b"/victim",
    "an empty line": b"",
    "a folder that is PREFIX": b"./",
    "another form of a path": b"lib/argo_judge//page",
    "a file of another name": b"bin/victim",
    "a NUL": b"lib/argo_judge/\0",
    "an escape": b"lib/argo_judge/\x1b[2J",
    "bytes that aren't UTF-8": b"lib/argo_judge/\xff",
}


# ---- links


def of_linked_folders(releases: Releases) -> Tried:
    """Folders of PREFIX that are links to folders elsewhere, in which others may have files, too."""
    for linked, theirs in (("bin", ""), ("bin", "mine"), ("lib", "mine"), ("share/man", ""), (LIBRARY, "")):
        folder, what = releases.scratch(), f"where {linked} is a link to a folder with {theirs or 'nothing'}"
        prefix, elsewhere = folder / "prefix", folder / "elsewhere"
        (prefix / linked).parent.mkdir(parents=True)
        (prefix / linked).symlink_to(elsewhere)
        yield f"{what}, without it", is_refused(install(releases.old, prefix), f"{linked} is no folder")
        elsewhere.mkdir()
        if theirs:
            write(elsewhere / theirs, TEXT)
        before = state(folder)
        yield f"{what}, installed", is_done(releases.old, prefix)
        yield f"{what}, installed again", is_done(releases.new, prefix)
        yield f"{what}, it stays one", (prefix / linked).is_symlink() and (prefix / PROGRAM).is_file()
        is_new = ["new" in (prefix / path).read_text(encoding="utf-8") for path in (PROGRAM, RECIPE, PAGE)]
        yield f"{what}, all is new", all(is_new) and not (prefix / "share/gone").exists()
        yield f"{what}, removed", is_done(releases.new, "--uninstall", prefix) and state(folder) == before


def of_links_of_others(releases: Releases) -> Tried:
    """Links that others put into the place of what was installed."""
    folder = releases.scratch()
    prefix, theirs = folder / "prefix", folder / "theirs"
    install(releases.old, prefix)
    write(theirs / "kubectl-argo_judge", TEXT)
    for path in (PROGRAM, PAGE):
        (prefix / path).unlink()
        (prefix / path).symlink_to(theirs / "kubectl-argo_judge")
    yield "over a link in the place of a file", is_done(releases.new, prefix) and not (prefix / PAGE).is_symlink()
    recipes = (prefix / RECIPE).parent
    shutil.rmtree(recipes)
    recipes.symlink_to(theirs)
    for words in BOTH:
        before = state(folder)
        yield f"a link in {LIBRARY}, {words}", is_refused(install(releases.new, *words, prefix), "recipes is a link")
        yield "and nothing has changed", state(folder) == before
    recipes.unlink()
    (prefix / PROGRAM).unlink(missing_ok=True)
    (prefix / PROGRAM).symlink_to(theirs / "kubectl-argo_judge")
    yield "removed with a link in the place of a file", is_done(releases.new, "--uninstall", prefix)
    yield "whose file stays", files(state(folder)) == {"theirs/kubectl-argo_judge": TEXT}


def of_one_place(releases: Releases) -> Tried:
    """A link by which two files are one."""
    prefix = releases.scratch()
    install(releases.old, prefix)
    shutil.rmtree(prefix / "bin")
    (prefix / "bin").symlink_to(pathlib.Path(RECIPE).parent)
    before = state(prefix)
    yield "two files in one place", is_refused(install(releases.new, prefix), "by a link") and state(prefix) == before


# ---- lists, and files of others


def of_lists(releases: Releases) -> Tried:
    folder = releases.scratch()
    prefix = folder / "prefix"
    install(releases.old, prefix)
    for path in ("victim", "prefix/bin/victim"):
        write(folder / path, TEXT)
    whole = (prefix / LIST).read_bytes()
    damaged = {what: line + b"\n" + whole for what, line in DAMAGED.items()}
    damaged["an absolute path that is there"] = bytes(folder / "victim") + b"\n" + whole
    damaged.update({"no line at all": b"", "no end of its last line": whole[:-1], "half of its lines": whole[:99]})
    for what, content in damaged.items():
        (prefix / LIST).write_bytes(content)
        before = state(folder)
        for words in BOTH:
            refused = is_refused(install(releases.new, *words, prefix), f"{prefix / LIST}")
            yield f"a list with {what}, {words}", refused and state(folder) == before
    (prefix / LIST).write_bytes(whole)
    tree = shutil.copytree(releases.old, folder / "old", symlinks=True)
    (tree / LIST).write_bytes(b"../victim\n" + whole)
    yield "a release whose list is damaged", is_refused(install(tree, folder / "none"), "line 1, is '../victim'")


def of_files_of_others(releases: Releases) -> Tried:
    """What others put into folders stays, with what Python made of it; what Python made of installed files doesn't."""
    prefix = releases.scratch()
    (prefix / "include").mkdir()
    (prefix / "bin").mkdir(mode=0o700)
    install(releases.old, prefix)
    environment = own_environment("PYTHONDONTWRITEBYTECODE")
    for flag in ("-s", "-O"):
        ended([sys.executable, flag, (prefix / MODULE).parent], env=environment)
    compiled = (prefix / MODULE).parent / "__pycache__"
    yield "Python compiles what is installed", len([*compiled.glob("names.*.pyc")]) == 2
    yield "installed again, the new module runs", is_done(releases.new, prefix) and not compiled.exists()
    ended([sys.executable, (prefix / MODULE).parent], env=environment)
    kept = compiled / "mine.cpython-311.pyc"
    put_theirs(prefix)
    write(kept, TEXT)
    mine = {*THEIRS, str(kept.relative_to(prefix))}
    removed = install(releases.new, "--uninstall", prefix)
    yield "files of others stay", files(state(prefix)) == dict.fromkeys(mine, TEXT)
    yield "which a line says", removed.returncode == 0 and f"{LIBRARY} has files" in removed.stdout
    for path in mine:
        (prefix / path).unlink()
    yield "installed and removed", is_done(releases.new, prefix) and is_done(releases.new, "--uninstall", prefix)
    yield "empty folders of others stay", {"bin/", "include/"} <= {*state(prefix)}
    yield "with their modes", (prefix / "bin").stat().st_mode & 0o777 == 0o700


def of_things_in_the_way(releases: Releases) -> Tried:
    """What is in the way is refused before anything changes, after a first installation, too."""
    for path, name, tree in (
        (PROGRAM, "", None),
        (PROGRAM, "mine", releases.old),
        ("bin/.argo_judge.new", "", releases.old),
        ("share/man", "", None),
        ("share/man", "", releases.old),
    ):
        prefix = releases.scratch()
        if tree is not None:
            install(tree, prefix)
            shutil.rmtree(prefix / pathlib.Path(path).parts[0])
        write(prefix / path / name, TEXT)
        before = state(prefix)
        refused = is_refused(install(releases.new, prefix), f"{prefix / path} is ", "remove it first")
        yield f"{path}/{name} in the way, {tree}", refused and state(prefix) == before


def of_replaced(releases: Releases) -> Tried:
    """Tries all of that."""
    groups = (of_linked_folders, of_links_of_others, of_one_place, of_lists, of_files_of_others, of_things_in_the_way)
    yield from chain.from_iterable(group(releases) for group in groups)
