#!/usr/bin/env python3
"""The greatest height of a chain, 500,000, seen from outside: a made chain of so many blocks is taken, and of one more it is not.

A peer shows its headers, 2000 in a message: of 500,000 none deserves a cause, and the session ends while blocks are asked for (status 8); with one
more the peer is closed with `TooHigh` (status 6). A file of so many blocks is scanned (status 0); in a file with one more the record 500,001 is
`TooHigh` (status 3). The program is `.build/cf`, or the file that is named.
"""
import os
import subprocess
import sys
import tempfile

from conversation import compact, frame, greeting
from made_chain import records
from sync import PROGRAM

GREATEST = 500_000


def write_headers(blocks, path):
    with open(path, "w") as file:
        file.write("dial a\n")
        file.write("got 1 %s\n" % greeting(len(blocks)).hex())
        for at in range(0, len(blocks), 2000):
            part = blocks[at:at + 2000]
            payload = compact(len(part)) + b"".join(block[8:88] + b"\0" for block in part)
            file.write("got 1 %s\n" % frame("headers", payload).hex())


def called(words):
    run = subprocess.run(words, stdout=subprocess.PIPE, stderr=subprocess.PIPE)
    return run.returncode, run.stdout.decode(), run.stderr.decode()


def expect(what, found, wanted):
    print("%s: %s" % (what, found))
    if found != wanted:
        raise SystemExit("%s: %s was expected" % (what, wanted))


def main():
    program = sys.argv[1] if len(sys.argv) > 1 else PROGRAM
    blocks = list(records((7, GREATEST + 1)))
    with tempfile.TemporaryDirectory() as folder:
        watch, session, file = (os.path.join(folder, name) for name in ["watch", "session", "blocks"])
        open(watch, "w").close()
        for count, status, close in [(GREATEST, 8, []), (GREATEST + 1, 6, ["x 1 TooHigh"])]:
            write_headers(blocks[:count], session)
            code, text, _ = called([program, "replay", "--trace", watch, session])
            expect("%d headers" % count, (code, [line for line in text.splitlines() if line[0] == "x"]), (status, close))
            with open(file, "wb") as out:
                out.write(b"".join(blocks[:count]))
            code, text, fault = called([program, "scan", file, watch])
            if count == GREATEST:
                expect("%d blocks" % count, (code, text.split()[:2]), (0, ["synced", str(GREATEST)]))
            else:
                print(fault.strip())
                expect("%d blocks" % count, (code, text, str(GREATEST + 1) in fault), (3, "", True))


if __name__ == "__main__":
    main()
