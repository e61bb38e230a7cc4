"""Pages as they are packed: a link that leads to nothing in the archive is its text alone."""
import pathlib
import posixpath
import re
from collections.abc import Collection, Iterator

# Code, in which no link is one, and links, whose text may have code.
CODE_OR_LINK = re.compile(
    r"^```.*?^```$|\[(?P<text>(?:`[^`\n]*`|[^\[\]`])*)\]\((?P<target>[^)\s]+)\)|`[^`\n]*`", re.M | re.S
)
ADDRESS = re.compile(r"[a-z][a-z0-9+.-]*:")


def path_of(page: str, link: str) -> str:
    """The path that a link of a page leads to."""
    name = link.partition("#")[0] or posixpath.basename(page)
    return posixpath.normpath(posixpath.join(posixpath.dirname(page), name))


def linked(page: str, text: str) -> Iterator[str]:
    """The paths that a page links to."""
    for found in CODE_OR_LINK.finditer(text):
        if found["target"] and not ADDRESS.match(found["target"]):
            yield path_of(page, found["target"])


def packed(page: str, text: str, files: Collection[str]) -> str:
    """The text of a page next to these files, without links to others."""
    parents = (parent.as_posix() for file in files for parent in pathlib.PurePosixPath(file).parents)
    there = {*files, *parents} - {"."}

    def shown(found: re.Match[str]) -> str:
        link = found["target"]
        stays = link is None or ADDRESS.match(link) or path_of(page, link) in there
        return found[0] if stays else found["text"]

    return CODE_OR_LINK.sub(shown, text)
