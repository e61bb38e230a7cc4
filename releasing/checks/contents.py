"""Tries which files are installed and released, and that the links of pages lead to them."""
import pathlib
import re
import shutil
import subprocess

from checks.docs.pages import LINK, anchors_of, without_code
from releasing import ROOT, pages, tracked, tree
from releasing.checks.archives import values_of
from releasing.checks.starts import Tried, ended, note
from releasing.installing import LIBRARY

# Files that a copy of this checkout gets: one that git doesn't track, and two that it ignores.
UNTRACKED, IGNORED = "recipes/untracked", "python/argo_judge/out/ignored.py"
COMPILED = "python/argo_judge/__pycache__/cli.cpython-311.pyc"
EMBED = ("judge.c", "judge.go", "judge.py")

# ---- links


def dead_links(folder: pathlib.Path) -> list[str]:
    """The links of the pages below a folder that lead to no file of it, or to no heading."""
    found = []
    for page in sorted(folder.rglob("*.md")):
        for link in LINK.findall(without_code(page.read_text(encoding="utf-8"))):
            name, _, anchor = link.partition("#")
            file = (page.parent / name).resolve() if name else page
            is_there = file.is_relative_to(folder.resolve()) and file.exists()
            if "://" not in link and not (is_there and (not anchor or anchor in anchors_of(file))):
                found.append(f"{page.relative_to(folder)}: {link}")
    return found


def of_links(what: str, folder: pathlib.Path) -> Tried:
    dead = dead_links(folder)
    yield f"{what}, each link leads to a file or a heading; not {dead}", not dead


def of_pages() -> Tried:
    """How a page is packed that is next to one other."""
    for text, wanted in (
        ("[a](b.md#c), [`d`](../e/f.rt)", "[a](b.md#c), `d`"),
        ("[a](#b) and [web](https://example.com/c)", "[a](#b) and [web](https://example.com/c)"),
        ("[folder](../docs/), `[a](b.c)`, list[0](d)", "[folder](../docs/), `[a](b.c)`, list0"),
        ("```\n[a](b.c)\n```\n[a](b.c)", "```\n[a](b.c)\n```\na"),
    ):
        yield f"a page with {text!r}", pages.packed("docs/a.md", text, ["docs/a.md", "docs/b.md"]) == wanted


def of_checkout(folder: pathlib.Path) -> Tried:
    """What is packed of this checkout."""
    if missing := tree.left_out():
        note(f"git doesn't track {', '.join(missing)}, so that is neither installed nor released")
    packed = folder / "packed"
    tree.copy_files(packed)
    yield from of_links("packed", packed)
    own = packed / LIBRARY
    yield "callers of the C library are packed", all((own / "examples/embed" / name).is_file() for name in EMBED)
    linked = {link for page in (ROOT / "docs/use").glob("*.md") for link in LINK.findall(page.read_text("utf-8"))}
    examples = [link.removeprefix("../../") for link in linked if link.startswith("../../examples/")]
    yield "examples that pages link to are packed", examples != [] and all((own / name).exists() for name in examples)
    names = {path.relative_to(own).as_posix() for path in own.rglob("*") if path.is_file()}
    yield "what is packed is tracked", names <= set(tracked.files("."))


# ---- what git tracks


def of_small_checkout(folder: pathlib.Path) -> Tried:
    """Which files a checkout has, and the same without git."""
    root = folder / "small"
    (root / "a/out").mkdir(parents=True)
    for name in (".gitignore", "a/tracked", "a/removed", "a/untracked", "a/out/ignored"):
        (root / name).write_text("out/\n", encoding="utf-8")
    subprocess.run(["git", "init", "--quiet", root], check=True)
    subprocess.run(["git", "-C", root, "add", ".gitignore", "a/tracked", "a/removed"], check=True)
    (root / "a/removed").unlink()
    yield "files that git tracks", tracked.files("a", root=root) == ["a/tracked"]
    yield "files that git doesn't track", tracked.untracked("a", root=root) == ["a/untracked"]
    shutil.rmtree(root / ".git")
    yield "files without git", tracked.files("a", root=root) == ["a/out/ignored", "a/tracked", "a/untracked"]
    yield "no file is untracked without git", tracked.untracked("a", root=root) == []


def add_ignored(copy: pathlib.Path) -> None:
    """Adds files to a copy of this checkout that git ignores."""
    for name in (IGNORED, COMPILED):
        (copy / name).parent.mkdir(parents=True, exist_ok=True)
        (copy / name).write_bytes(b"")


def installed_in(copy: pathlib.Path, prefix: pathlib.Path) -> tuple[str, set[str]]:
    """What bin/install of a copy says, and what it installs."""
    found = ended([copy / "bin/install", prefix])
    return found.stdout, set(tree.files_of(prefix))


def of_tracked_files(copy: pathlib.Path, folder: pathlib.Path) -> Tried:
    """bin/install of a copy installs what git tracks there; without git, all but what Python keeps."""
    (copy / UNTRACKED).write_text("", encoding="utf-8")
    said, files = installed_in(copy, folder / "from git")
    yield "bin/install says what it leaves out", f"without {UNTRACKED}, which git doesn't track\n" in said
    more = {str(LIBRARY / name) for name in (UNTRACKED, IGNORED, COMPILED)}
    yield "bin/install installs what git tracks", len(files) > 100 and not more & files
    (copy / ".git").rename(copy / "no git")
    _, without = installed_in(copy, folder / "without git")
    yield "and all files without git but what Python keeps", without - files == more - {str(LIBRARY / COMPILED)}
    refused = ended([copy / "bin/release", "--trial", "--to", folder / "without git"])
    wanted = f"release: {copy} has no .git; expected a checkout\n"
    yield "bin/release without git is refused", refused.returncode == 2 and refused.stdout == wanted
    (copy / "no git").rename(copy / ".git")
    (copy / UNTRACKED).unlink()


def of_contents(folder: pathlib.Path) -> Tried:
    """What needs no program: pages as they are packed, and which files a checkout has."""
    yield from of_pages()
    yield from of_checkout(folder)
    yield from of_small_checkout(folder)


# ---- checksums


def of_checksums(folder: pathlib.Path) -> Tried:
    """The checksums of a release's files, by the command that its README.md says."""
    found = values_of(folder)
    paths = [line.partition("  ")[2] for line in found.files.splitlines()]
    yield "PROVED lists the files, sorted", paths == [path for path in tree.files_of(folder) if path != "PROVED"]
    page = (folder / "README.md").read_text(encoding="utf-8")
    [command] = re.findall(r"^.*sha256sum.*$", page, re.M)
    checked = ended(["bash", "-o", "pipefail", "-c", command], cwd=folder)
    yield "the command of README.md for checksums", checked.returncode == 0 and checked.stdout == ""
    file = folder / "install"
    before = file.read_bytes()
    file.write_bytes(before + b"\n")
    checked = ended(["bash", "-o", "pipefail", "-c", command], cwd=folder)
    yield "and it finds a change", checked.returncode != 0 and f"{file.name}: FAILED" in checked.stdout
    file.write_bytes(before)
