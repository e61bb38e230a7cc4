"""Proves and builds a program or a C library and all crates that it uses, and says on standard error as each crate is
done.

    prove NAME              as argo_judge, or argo_judge_c
    prove --sources NAME    prints the checksums of the sources of NAME and of all crates that it uses
    prove --unchanged NAME  status 0 where these are the ones that were kept as the program was built, else 1
    prove --object NAME     as prove NAME, and makes its object file where the proof left none, which takes minutes
    prove --compile NAME    compiles NAME in this checkout, in which `rt ci` has built what is below it
    prove --at-a-time       prints how many proofs run at a time on this machine
    prove --plan [NAME]     prints, by the times in docs/design/proof-cost.md, the longest chain of crates each of which
                            waits for the one before, and which processor proves what when; of NAME and all below it, or
                            of all

A line a crate: its name, which of how many it is, the seconds since the start, and about how many minutes are left by
those times and the speed so far. It is `rt ci` on a copy of these crates without their mutants, as the gate runs it:
several side by side, and what this machine proved before is taken as it was. The program, or the library's archive, is
put into its crate's folder out, and next to it NAME.sources, the checksums of the sources that it was built of, and the
object file NAME.o where NAME itself was proved now: what was proved before comes without. What the prover says of a
crate that it refuses is written to standard error, too.
"""
import contextlib
import filecmp
import os
import pathlib
import re
import shutil
import subprocess
import sys
import tempfile
import time
from collections.abc import Collection, Container

from building import ROOT, plan
from building.crates import below, built_of, checksums, copy_crates, is_library, own_and_kit, uses_by_crate

# What proofs of these crates were seen to take at most, in kB.
MEMORY_OF_A_PROOF = 4_000_000


def processors() -> int:
    return len(os.sched_getaffinity(0))


def at_a_time() -> int:
    """One proof a processor, and no more than there is memory for: `rt` reckons more for each than it takes, and
    would keep the last ones waiting."""
    [memory] = re.findall(r"MemAvailable:\s+(\d+)", pathlib.Path("/proc/meminfo").read_text(encoding="utf-8"))
    return max(1, min(processors(), int(memory) // MEMORY_OF_A_PROOF))


def replace(made: pathlib.Path, file: pathlib.Path, time: float) -> None:
    """Puts a file into the folder `made` at once, as old as that time."""
    shutil.copy2(file, made / f"{file.name}.new")
    os.utime(made / f"{file.name}.new", (time, time))
    os.replace(made / f"{file.name}.new", made / file.name)


def keep(made: pathlib.Path, wanted: str, copy: pathlib.Path, sources: str, begun: float) -> None:
    """Puts what was built, its object file where there is one, and the checksums of its sources into the folder `made`.
    What was built is as old as the begin of its proof, so that a source that is edited meanwhile isn't taken for
    built."""
    made.mkdir(exist_ok=True)
    program, linked_of = (copy / "crates" / wanted / "out" / name for name in (built_of(wanted), f"{wanted}.o"))
    if not (made / program.name).is_file() or not filecmp.cmp(program, made / program.name, shallow=False):
        (made / linked_of.name).unlink(missing_ok=True)  # it is of another program
    replace(made, program, begun)
    if linked_of.is_file():
        replace(made, linked_of, begun)
    (made / f"{wanted}.sources").write_text(sources, encoding="utf-8")


def words_of_build(wanted: str, copy: pathlib.Path, to: pathlib.Path) -> list[str]:
    """The words by which the kit compiles a crate over those below it, as `rt ci` has built them."""
    kit = pathlib.Path(shutil.which("rt") or "rt").resolve().parent.parent
    own, of_kit = own_and_kit(wanted)
    built = {name: copy / "crates" / name / "out/rlib" for name in below(wanted, uses_by_crate()) - {wanted}}
    words = [f"{kit}/bin/rattle", "build", "--crate-name", wanted]
    words += ["src/lib.rt", "--crate-type", "staticlib"] if is_library(wanted) else ["src/main.rt"]
    for name in ["std", *of_kit]:
        words += ["--extern", f"{name}={kit}/rlibs/{name}.rlib"]
    for name in own:
        words += ["--extern", f"{name}={built[name]}/{name}.rlib"]
    for folder in [kit / "rlibs", *built.values()]:
        words += ["-L", f"dependency={folder}"]
    words += ["--antt-project", f"{kit}/rattle/logic/antt-project.json", "--logic-built", f"{kit}/logic_built"]
    return [*words, "--jobs", str(at_a_time()), "--toolchain", f"{kit}/toolchain", "--backend", "llvm", "-o", str(to)]


def compile(wanted: str, copy: pathlib.Path) -> bool:
    """Has the kit compile a proved program to its object file, or a library to its archive, where that isn't there.
    Answers whether it is then. What isn't proved isn't compiled, so the kit proves the crate itself once more."""
    crate = copy / "crates" / wanted
    made = crate / "out" / (built_of(wanted) if is_library(wanted) else f"{wanted}.o")
    if made.is_file():
        return True
    print(f"{wanted}: {made.name} is made, which takes minutes", file=sys.stderr, flush=True)
    made.parent.mkdir(exist_ok=True)
    words = words_of_build(wanted, copy, made)
    ended = subprocess.run(
        words,
        cwd=crate,
        stdin=subprocess.DEVNULL,
        stdout=subprocess.PIPE,
        stderr=subprocess.STDOUT,
        text=True,
        errors="replace",
    )
    if ended.returncode != 0:
        print(ended.stdout, file=sys.stderr, flush=True)
    return ended.returncode == 0 and made.is_file()


class Progress:
    """Which crates are done, and how long the others may take."""

    def __init__(self, names: Container[str]) -> None:
        uses = uses_by_crate()
        self.left = {name: uses[name] for name in uses if name in names}
        self.proved: plan.Uses = {}
        self.costs, self.begun = plan.table(), time.monotonic()

    def add(self, name: str, is_proved: bool) -> None:
        uses = self.left.pop(name)
        if is_proved:
            self.proved[name] = uses

    def seconds(self) -> float:
        return time.monotonic() - self.begun

    def left_in_words(self) -> str:
        """By the table, and by how this machine's speed so far compares with it; nothing where there is no table."""
        if not self.costs:
            return ""
        planned = plan.seconds_in_all(self.proved, self.costs, at_a_time())
        slowness = self.seconds() / planned if planned else 1
        seconds = plan.seconds_in_all(self.left, self.costs, at_a_time()) * slowness
        return f", about {seconds / 60:.0f} minutes left"


def prove(wanted: str, names: Collection[str], copy: pathlib.Path) -> bool:
    """Answers whether all was proved, built and run."""
    progress, said = Progress(names), []
    with subprocess.Popen(
        ["rt", "ci"],
        cwd=copy,
        env={**os.environ, "RT_JOBS": str(at_a_time())},
        text=True,
        errors="replace",
        stdin=subprocess.DEVNULL,
        stdout=subprocess.PIPE,
        stderr=subprocess.STDOUT,
    ) as run:
        for line in run.stdout or ():
            said.append(line)
            ended = re.match(r"rt: (\w+) (proved|is kept)\b", line)
            if ended and ended[1] in progress.left:
                progress.add(ended[1], ended[2] == "proved")
                print(
                    f"{wanted}: {ended[1]} is proved, {len(names) - len(progress.left)} of {len(names)}, "
                    f"{progress.seconds():.0f} seconds{progress.left_in_words()}",
                    file=sys.stderr,
                    flush=True,
                )
    if run.returncode != 0:
        print("".join(said), file=sys.stderr, flush=True)
    return run.returncode == 0


def names_below(wanted: str) -> set[str]:
    uses = uses_by_crate()
    if wanted not in uses:
        sys.exit(f"prove: crates.txt has no crate {wanted}")
    return below(wanted, uses)


def prove_and_keep(wanted: str, with_object: bool = False) -> int:
    names, begun = names_below(wanted), time.time()
    with tempfile.TemporaryDirectory() as work:
        copy = pathlib.Path(work)
        copy_crates(names, copy)
        sources = checksums(names, copy)
        if not prove(wanted, names, copy):
            return 1
        if (with_object or is_library(wanted)) and not compile(wanted, copy):
            return 1
        keep(ROOT / "crates" / wanted / "out", wanted, copy, sources, begun)
    return 0


def is_unchanged(wanted: str) -> bool:
    """Whether the program is one of the sources as they are. If so, it is as new as this look at them, so that the next
    start need not look at their content again."""
    begun, made = time.time(), ROOT / "crates" / wanted / "out"
    kept = made / f"{wanted}.sources"
    if not kept.is_file() or kept.read_text(encoding="utf-8") != checksums(names_below(wanted), ROOT):
        return False
    with contextlib.suppress(OSError):  # in a folder that can't be written each start looks
        os.utime(made / built_of(wanted), (begun, begun))
    return True


def has_object(wanted: str) -> bool:
    """Whether the program is one of the sources as they are, with its object file."""
    return is_unchanged(wanted) and (ROOT / "crates" / wanted / "out" / f"{wanted}.o").is_file()


def print_plan(names: Container[str]) -> None:
    costs, uses = plan.table(), uses_by_crate()
    if not costs:
        sys.exit("prove: docs/design/proof-cost.md has no table of times; benches/proofs makes it")
    print(plan.text({name: uses[name] for name in uses if name in names}, costs, processors()))


def main(words: list[str]) -> int:
    if words == ["--help"]:
        print(__doc__.strip())
    elif words == ["--at-a-time"]:
        print(at_a_time())
    elif words[:1] == ["--plan"] and len(words) <= 2:
        print_plan(names_below(words[1]) if len(words) == 2 else uses_by_crate())
    elif len(words) == 2 and words[0] == "--sources":
        sys.stdout.write(checksums(names_below(words[1]), ROOT))
    elif len(words) == 2 and words[0] == "--unchanged":
        return 0 if is_unchanged(words[1]) else 1
    elif len(words) == 2 and words[0] == "--compile":
        return 0 if compile(words[1], ROOT) else 1
    elif len(words) == 2 and words[0] == "--object":
        return 0 if has_object(words[1]) else prove_and_keep(words[1], with_object=True)
    elif len(words) == 1 and not words[0].startswith("-"):
        return prove_and_keep(words[0])
    else:
        sys.exit(f"prove: {' '.join(words) or 'no name'}: no such words; prove --help lists what it takes")
    return 0


if __name__ == "__main__":
    sys.exit(main(sys.argv[1:]))
