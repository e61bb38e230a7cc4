"""Names that are made to collide in a hash map of the kit."""

import pathlib
import subprocess
import tempfile

from checks import ROOT

SOURCE = ROOT / "tests/hostile/colliding.c"

# the hasher that the kit's maps take by default: its seed and its factor
SEED, FACTOR = 0x243F6A8885A308D3, 0x9E3779B97F4A7C15


def folded(one, other):
    product = one * other
    return (product ^ product >> 64) % 2**64


def word(text):
    return int.from_bytes(text, "little")


def under_the_default(count):
    """Names whose hashes are the same, of 64 bits, under the hasher that the kit's maps take by default.

    It takes 16 bytes at a time, and multiplies the first eight, once the state is mixed in, by the others. So where
    the eight are the state itself, the product is 0 whatever the others are."""
    for number in range(10**8):
        start = b"argument%08d" % number
        state = folded(word(start[:8]) ^ (SEED + 32), word(start[8:]) ^ FACTOR).to_bytes(8, "little")
        if all(chr(byte).isalnum() and byte < 128 for byte in state):
            return [(start + state + b"%08d" % last).decode() for last in range(count)]
    raise ValueError("no start was found")


def once_fed(count, bits, fed=()):
    """Names which collide in a map of 9 * 2 ^ bits entries, once the other names are fed: `colliding.c` says how."""
    with tempfile.TemporaryDirectory() as folder:
        program = pathlib.Path(folder) / "colliding"
        subprocess.run(["cc", "-Wall", "-Wextra", "-Werror", "-O2", "-o", program, SOURCE], check=True)
        lines = "".join(name + "\n" for name in fed)
        words = [str(program), str(count), str(bits)]
        return subprocess.run(words, input=lines, capture_output=True, text=True, check=True).stdout.split()
