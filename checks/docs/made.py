"""Pages, and tables in pages, that are made of the sources."""

import pathlib
from collections.abc import Iterable

from checks.harness import Counts, named


def held(name: str, page: pathlib.Path, wanted: str, words: list[str], command: str, faults: Iterable[str] = ()) -> int:
    """Writes what a page has to have where the words are --write; otherwise counts whether it has that, and no
    faults."""
    if words == ["--write"]:
        page.write_text(wanted, encoding="utf-8")
        return 0
    found = list(faults)
    if not page.is_file() or page.read_text(encoding="utf-8") != wanted:
        found.insert(0, f"{named(page)} isn't what the sources say: {command} --write")
    counts = Counts(name)
    counts.expect(not found, "\n".join(found))
    return counts.end()
