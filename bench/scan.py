#!/usr/bin/env python3
"""`scan` and `filter` of made chains beside a plain reader in C of the same files.

For each command the program runs on a made chain of 10,000 blocks and on one of 100,000, and `plain.c`, compiled with `cc -O2`, on the larger one, in turn. The
best of five runs counts. It prints processor seconds (those of the program and of the system for it, which other work beside changes least), the ratio to the
plain reader, the growth from the smaller chain to the larger one (10 is linear), and the most memory that the program held, as a multiple of the file. Both
must write the same text, or it stops. The program is built first where it is old.
"""
import os
import subprocess
import tempfile

from runs import best

BENCH = os.path.dirname(os.path.abspath(__file__))
ROOT = os.path.dirname(BENCH)
PROGRAM = os.path.join(ROOT, ".build", "cf")
SCRIPT = "01087551"


def main():
    subprocess.run([os.path.join(ROOT, "dev"), "build"], check=True)
    with tempfile.TemporaryDirectory() as folder:
        plain, watch, small, large = (os.path.join(folder, name) for name in ("plain", "watch", "small", "large"))
        subprocess.run(["cc", "-O2", "-o", plain, os.path.join(BENCH, "plain.c")], check=True)
        with open(watch, "w") as file:
            file.write(SCRIPT + "\n")
        for name, blocks in ((small, "10000"), (large, "100000")):
            subprocess.run([os.path.join(BENCH, "made_chain.py"), "7", blocks, name], check=True)
        rows = [
            ("scan", lambda name: [PROGRAM, "scan", name, watch], [plain, "scan", large, SCRIPT]),
            ("filter, the last block's", lambda name: [PROGRAM, "filter", name, "10000" if name == small else "100000"], [plain, "filters", large]),
        ]
        print("%-26s %9s %9s %7s %7s %7s" % ("100,000 blocks", "program", "plain", "ratio", "growth", "memory"))
        for name, program, other in rows:
            (text, seconds, size), (expected, base, _), (_, few, _) = best(program(large), other, program(small))
            if text != expected:
                raise SystemExit("%s: the texts differ" % name)
            print("%-26s %8.2fs %8.2fs %7.1f %7.1f %7.1f" % (name, seconds, base, seconds / base, seconds / few, size / os.path.getsize(large)))


if __name__ == "__main__":
    main()
