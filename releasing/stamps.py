"""The stamp of a release: the commit and the kit, in the place of what --version of a checkout's program prints."""
from releasing.installing import Refused

PLACEHOLDER = "(built from a checkout; a release shows the commit and the kit here)"
# A commit that is cut further would not be found by git.
SHORTEST_COMMIT = 12


def stamp_of(commit: str, kit: str) -> str:
    """The stamp, as long as the placeholder: a kit's long name cuts the commit, a short one leaves spaces."""
    room = len(PLACEHOLDER) - len(f"(of commit , {kit})")
    if room < SHORTEST_COMMIT:
        raise Refused(f"the kit's name is {kit}; expected one that leaves {SHORTEST_COMMIT} digits of the commit")
    text = f"(of commit {commit[:room]}, {kit}"
    return text.ljust(len(PLACEHOLDER) - 1) + ")"


def stamped(content: bytes, stamp: str) -> bytes:
    """An object file's content with the stamp in it."""
    found = content.count(PLACEHOLDER.encode("ascii"))
    if found != 1:
        raise Refused(f"the object file has the text of --version {found} times; expected it once: {PLACEHOLDER}")
    return content.replace(PLACEHOLDER.encode("ascii"), stamp.encode("ascii"))
