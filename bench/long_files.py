#!/usr/bin/env python3
"""Files of blocks that have too many bytes: `scan` and `filter` of the longest one that may be, of zeros alone; of one byte more, told by its
length; and of /dev/zero, whose length isn't told, so it is read as far as a file may go. Each has to end with its status, and without a text
where it is refused; the most memory of each run is printed beside it. The program is `.build/cf`; the files have holes, and take no room.
"""
import os
import subprocess
import sys
import tempfile

ROOT = os.path.dirname(os.path.dirname(os.path.abspath(__file__)))
PROGRAM = os.path.join(ROOT, ".build", "cf")
MOST = 1_073_741_824


def ran(words):
    """The status, whether there was a text, and the most memory in megabytes."""
    read, write = os.pipe()
    child = subprocess.Popen([PROGRAM, *words], stdout=write, stderr=subprocess.DEVNULL)
    os.close(write)
    with os.fdopen(read, "rb") as out:
        text = out.read()
    _, status, used = os.wait4(child.pid, 0)
    return os.waitstatus_to_exitcode(status), bool(text), used.ru_maxrss // 1024


def main():
    wrong = 0
    with tempfile.TemporaryDirectory() as folder:
        watch, longest, longer = (os.path.join(folder, name) for name in ("watch", "longest", "longer"))
        open(watch, "w").close()
        for name, size in ((longest, MOST), (longer, MOST + 1)):
            with open(name, "wb") as file:
                file.truncate(size)
        for name, wanted in ((longest, 0), (longer, 3), ("/dev/zero", 3)):
            for words in (["scan", name, watch], ["filter", name, "0"]):
                status, told, memory = ran(words)
                right = (status, told) == (wanted, wanted == 0)
                wrong += not right
                print("%-6s %-10s status %d, %d MB%s" % (words[0], os.path.basename(name), status, memory, "" if right else ": WRONG"))
    sys.exit(wrong > 0)


if __name__ == "__main__":
    main()
