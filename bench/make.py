#!/usr/bin/env python3
"""`make` of a chain beside a plain program in C that writes the same one, and how `demo` grows.

The program makes a chain of 10,000 blocks and one of 100,000, and `plain.c`, compiled with `cc -O2`, the larger one, in turn. The best of five runs counts. It
prints processor seconds (those of the program and of the system for it, which other work beside changes least), the ratio to the plain program, the growth
from the smaller chain to the larger one (10 is linear), and the most memory that the program held, as a multiple of the file. Both must write the same
bytes, or it stops. The ratio is to be at most 2. Then `demo` of 5,000 blocks and of 20,000: four times the blocks are to take at most six times as long. The
program is built first where it is old.
"""
import filecmp
import os
import subprocess
import tempfile

from runs import best

BENCH = os.path.dirname(os.path.abspath(__file__))
ROOT = os.path.dirname(BENCH)
PROGRAM = os.path.join(ROOT, ".build", "cf")
SEED = "7"


def main():
    subprocess.run([os.path.join(ROOT, "dev"), "build"], check=True)
    with tempfile.TemporaryDirectory() as folder:
        plain, made, other, small = (os.path.join(folder, name) for name in ("plain", "made", "other", "small"))
        subprocess.run(["cc", "-O2", "-o", plain, os.path.join(BENCH, "plain.c")], check=True)
        (_, seconds, size), (_, base, _), (_, few, _) = best(
            [PROGRAM, "make", SEED, "100000", made], [plain, "make", other, SEED, "100000"], [PROGRAM, "make", SEED, "10000", small]
        )
        if not filecmp.cmp(made, other, shallow=False):
            raise SystemExit("the chains differ")
        print("%-26s %9s %9s %7s %7s %7s" % ("100,000 blocks", "program", "plain", "ratio", "growth", "memory"))
        print("%-26s %8.2fs %8.2fs %7.1f %7.1f %7.1f" % ("make", seconds, base, seconds / base, seconds / few, size / os.path.getsize(made)))
    (_, few, _), (_, many, size) = best([PROGRAM, "demo", SEED, "5000"], [PROGRAM, "demo", SEED, "20000"])
    print("%-26s %9s %9s %7s %7s" % ("demo", "5,000", "20,000", "growth", "memory"))
    print("%-26s %8.2fs %8.2fs %7.1f %5.0fMB" % ("", few, many, many / few, size / 1e6))


if __name__ == "__main__":
    main()
