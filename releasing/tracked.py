"""What git says of this checkout, and which files it has; of sources that were exported without git, too."""
import pathlib
import subprocess

from releasing import ROOT
from releasing.installing import Refused


def reason(errors: str) -> str:
    """Why git failed, in one line."""
    lines = errors.strip().splitlines() or ["it wrote nothing"]
    fatal = [line.removeprefix("fatal: ") for line in lines if line.startswith("fatal: ")]
    return (fatal or lines[-1:])[0]


def has_git(root: pathlib.Path = ROOT) -> bool:
    """Whether this is a checkout. Sources that were exported have no .git, and may be in a folder of another's."""
    return (root / ".git").exists()


def git(*words: str, root: pathlib.Path = ROOT) -> str:
    """What git prints of a checkout."""
    if not has_git(root):
        raise Refused(f"{root} has no .git; expected a checkout")
    command = ["git", "--no-optional-locks", "-C", str(root), *words]
    try:
        ended = subprocess.run(command, capture_output=True, text=True, errors="surrogateescape")
    except FileNotFoundError:
        raise Refused("git isn't installed; expected it, since this is a checkout") from None
    if ended.returncode != 0:
        raise Refused(f"git {words[0]}: {reason(ended.stderr)}")
    return ended.stdout.strip()


def files(*places: str, root: pathlib.Path = ROOT) -> list[str]:
    """The files at these paths and below them, by their paths: those that git tracks, or all where there is no git."""
    if has_git(root):
        found = git("ls-files", "-z", "--", *places, root=root).split("\0")
    else:
        below = [path for place in places for path in (root / place, *(root / place).rglob("*"))]
        found = [path.relative_to(root).as_posix() for path in below]
    return sorted({name for name in found if (root / name).is_file()})


def untracked(*places: str, root: pathlib.Path = ROOT) -> list[str]:
    """The files there that git neither tracks nor ignores."""
    if not has_git(root):
        return []
    found = git("ls-files", "-z", "--others", "--exclude-standard", "--", *places, root=root).split("\0")
    return sorted(name for name in found if name)
