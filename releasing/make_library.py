"""Makes the C library of what bin/prove argo_judge_c has built.

    packaging/make-library FOLDER    include/argo_judge.h, lib/libargo_judge.a and lib/libargo_judge.so in FOLDER
"""
import pathlib
import sys

from releasing import library
from releasing.installing import Refused
from releasing.tree import is_current


def main(words: list[str]) -> int:
    if len(words) != 1 or words[0].startswith("-"):
        print(__doc__.strip())
        return 0 if {"-h", "--help"} & {*words} else 2
    try:
        if not library.BUILT.is_file() or not is_current("argo_judge_c"):
            raise Refused(
                "the library isn't that of the sources as they are; bin/prove argo_judge_c proves and builds it"
            )
        for path in library.made(pathlib.Path(words[0])):
            print(path)
    except (Refused, OSError) as fault:
        print(f"library: {fault}", file=sys.stderr)
        return 2
    return 0


if __name__ == "__main__":
    sys.exit(main(sys.argv[1:]))
