#!/usr/bin/env python3
"""How the time of `replay` grows with its files.

Each row runs the program on a file and on one four times as large, the best of three runs each, and prints both times and their ratio. Work that is
linear in the file gives a ratio of about 4; work that grows with its square gives about 16. The program is built first where it is old.
"""
import os
import subprocess
import tempfile
import time

ROOT = os.path.dirname(os.path.dirname(os.path.abspath(__file__)))
PROGRAM = os.path.join(ROOT, ".build", "cf")
PING = "fabfb5da70696e670000000000000000080000002502fa940102030405060708"


def recorded():
    """The lines of the first session: the dial, `version`, `verack` and `headers`."""
    with open(os.path.join(ROOT, "data", "session.txt")) as file:
        return file.read().splitlines()


def session_of_lines(pings):
    first = recorded()
    return "\n".join(first[:3] + ["got 1 " + PING] * pings + first[3:]) + "\n"


def session_of_one_line(pings):
    first = recorded()
    return "\n".join(first[:3] + ["got 1 " + PING * pings] + first[3:]) + "\n"


def session_of_bytes(pings):
    first = recorded()
    pieces = ["got 1 " + PING[i : i + 2] for i in range(0, len(PING), 2)]
    return "\n".join(first[:3] + pieces * pings + first[3:]) + "\n"


def watch_of(scripts):
    """Scripts of 10,000 bytes that differ in their last bytes alone."""
    return "".join("01" * 9990 + "%020x\n" % i for i in range(scripts))


def measure(watch, session):
    """The seconds of one run."""
    start = time.monotonic()
    subprocess.run([PROGRAM, "replay", watch, session], check=True, stdout=subprocess.DEVNULL)
    return time.monotonic() - start


def best(folder, watch, session):
    names = [os.path.join(folder, name) for name in ("watch.txt", "session.txt")]
    for name, text in zip(names, (watch, session)):
        with open(name, "w") as file:
            file.write(text)
    return min(measure(*names) for _ in range(3))


def main():
    subprocess.run([os.path.join(ROOT, "dev"), "build"], check=True)
    rows = [
        ("session, a frame on each line", lambda n: ("", session_of_lines(50_000 * n))),
        ("session, all frames on one line", lambda n: ("", session_of_one_line(50_000 * n))),
        ("session, a byte on each line", lambda n: ("", session_of_bytes(5_000 * n))),
        ("watch file", lambda n: (watch_of(250 * n), session_of_lines(0))),
    ]
    print("%-34s %9s %9s %6s" % ("file", "once", "4 times", "ratio"))
    with tempfile.TemporaryDirectory() as folder:
        for name, files in rows:
            small, large = (best(folder, *files(n)) for n in (1, 4))
            print("%-34s %8.3fs %8.3fs %6.1f" % (name, small, large, large / small))


if __name__ == "__main__":
    main()
