"""Measures the proofs: proves every crate by `rt ci` on a copy without mutants, and writes the processor seconds that
each took, with its functions and its lines of specs and proofs, into the table of docs/design/proof-cost.md.

    benches/proofs           what this machine has proved before isn't proved again: its seconds stay
    benches/proofs --anew    proves all from nothing

Seconds are those of the processes that work in a crate's folder, looked at twice a second. The machine is to have
nothing else to do. `bin/prove --plan` says what follows from the table.
"""
import os
import pathlib
import re
import subprocess
import sys
import tempfile
import threading

from building import crates, plan, prove

TICKS = os.sysconf("SC_CLK_TCK")


def processes(folder):
    """Each process that works in a crate's folder of a copy: an identity, the crate, and its processor seconds."""
    for entry in pathlib.Path("/proc").iterdir():
        try:
            inside = re.fullmatch(rf"{re.escape(str(folder))}/crates/(\w+)(?:/.*)?", os.readlink(entry / "cwd"))
            if inside:
                fields = (entry / "stat").read_text(encoding="utf-8").rpartition(")")[2].split()
                yield (entry.name, fields[19]), inside[1], (int(fields[11]) + int(fields[12])) / TICKS
        except OSError:  # no process, or one that has ended
            continue


class Watch(threading.Thread):
    """Adds up what the processes of each crate take."""

    def __init__(self, folder):
        super().__init__(daemon=True)
        self.folder, self.seen, self.ended = folder, {}, threading.Event()

    def run(self):
        while not self.ended.wait(0.5):
            self.seen.update({identity: (crate, seconds) for identity, crate, seconds in processes(self.folder)})

    def seconds(self):
        found: dict[str, float] = {}
        for crate, seconds in self.seen.values():
            found[crate] = found.get(crate, 0) + seconds
        return found


def proved(copy, words):
    """The crates that `rt ci` proves now; none where it fails."""
    ended = subprocess.run(
        ["rt", "ci", *words],
        cwd=copy,
        env={**os.environ, "RT_JOBS": str(prove.at_a_time())},
        text=True,
        errors="replace",
        stdin=subprocess.DEVNULL,
        stdout=subprocess.PIPE,
        stderr=subprocess.STDOUT,
        check=False,
    )
    if ended.returncode != 0:
        print(ended.stdout)
        return []
    return re.findall(r"^rt: (\w+) proved\b", ended.stdout, re.M)


def main(words):
    if words not in ([], ["--anew"]):
        print(__doc__.strip())
        return 0 if words == ["--help"] else 2
    uses = crates.uses_by_crate()
    with tempfile.TemporaryDirectory() as folder:
        copy = pathlib.Path(folder).resolve()
        crates.copy_crates(uses, copy)
        watch = Watch(copy)
        watch.start()
        new = proved(copy, words)
        watch.ended.set()
    if not new:
        print("proofs: nothing new is proved, so the table stays")
        return 1
    kept, seconds = plan.table(), watch.seconds()
    took = {it: round(seconds[it]) if it in new else plan.seconds_of(it, kept) for it in uses}
    costs = {it: plan.Cost(took[it], plan.functions_of(it), plan.lines_of(it)) for it in uses}
    plan.write(costs)
    print(plan.text(uses, costs, prove.at_a_time()))
    return 0


if __name__ == "__main__":
    sys.exit(main(sys.argv[1:]))
