"""Looks whether the program that benches/run builds names what the crates have.

    tests/benches/check

For each name that benches/plain_run.txt imports of a crate of this repository: whether it is public there, in the
module that is named. The last line counts the names, and the status is 0 where each was found.
"""

import re
import sys

from checks import ROOT
from checks.harness import Counts, named

SOURCE = ROOT / "benches" / "plain_run.txt"
IMPORT = re.compile(r"^use ((?:ar_\w+)(?:::\w+)*)::(?:(\w+)|\{([^}]*)\});", re.M)
EXPORT = re.compile(r"^pub use [^;]*;", re.M)


def imports(text):
    """Each imported name, with the path that it is imported by."""
    for path, one, many in IMPORT.findall(text):
        for name in [one] if one else many.split(","):
            if name.strip():
                yield path.split("::"), name.strip()


def module(path):
    """The text of the module of a path, if each of its parts is public."""
    folder = ROOT / "crates" / path[0] / "src"
    text = (folder / "lib.rt").read_text(encoding="utf-8")
    for part in path[1:]:
        if not re.search(rf"^pub mod {part};", text, re.M):
            return None
        folder, file = folder / part, folder / f"{part}.rt"
        text = (file if file.exists() else folder / "mod.rt").read_text(encoding="utf-8")
    return text


def is_public(path, name):
    text = module(path)
    if text is None:
        return False
    if re.search(rf"^pub (?:fn|struct|enum|trait|type|const|static|mod) {name}\b", text, re.M):
        return True
    return any(re.search(rf"\b{name}\b", export) for export in EXPORT.findall(text))


def main(words: list[str]) -> int:
    counts = Counts("benches")
    for path, name in imports(SOURCE.read_text(encoding="utf-8")):
        counts.expect(is_public(path, name), f"{named(SOURCE)}: {'::'.join(path)} has no public {name}")
    return counts.end()


if __name__ == "__main__":
    sys.exit(main(sys.argv[1:]))
