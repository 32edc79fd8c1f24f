#!/usr/bin/env python3
"""Memory that is refused: runs each command once for each call by which it asks for memory, and refuses that one.

    memory.py [--program FILE] [--from N] [--to N] [--seconds N] [COMMAND ..]

FILE is `.build/cf` unless it is named, a program that takes its memory by malloc. `refuse.c` is compiled with `cc` and
loaded with it: so a run takes milliseconds, where one of `rt try --fail-alloc N` builds the program first. COMMAND is
one of those that are listed in COMMANDS, and without any it is each of them. N counts the calls of one run, from 1; and
the seconds are those of all runs together.

A run may end as it does with ample memory (`right`), or with status 1, no text, and its file unwritten or as it is else
(`refused`). A record is compared by its replay. What `serve` has written to a connection may be any beginning of the
answers, and its status 0 or 1. With `--grow` the first peer brings three blocks, and the second one may be answered by
the chain with any number of them. Each other end is told, with the numbers of its runs. The status is then 1.

One of these is known: a thread that can't be started for want of memory is one that was refused, and a dial that finds
no thread fails. So `sync` may end with status 6, where its one peer isn't dialled.

Where a run has several threads, their calls aren't in the same order each time: then a number names no call for good.
"""
import argparse
import collections
import os
import re
import shutil
import socket
import subprocess
import sys
import tempfile
import time

from client import Play
from conversation import MAGIC, THEIR_VERSION, greeting, whole
from faults import long_chain
from growing import PING, PONG, bringing, grown
from sessions import Chain, script

BENCH = os.path.dirname(os.path.abspath(__file__))
ROOT = os.path.dirname(BENCH)
TXID = "72c9f9a6d21d37da3363854f04dd2a7294bcfdbec0b806dc789bf7c9d3aab8a7"
ADDRESS = "bcrt1qw508d6qejxtdg4y5r3zarvary0c5xw7kygt080"
# `@` stands for an address. Each has the words, and the file that it writes.
COMMANDS = {
    "address": ("address " + ADDRESS, None),
    "scan": ("scan f w", None),
    "filter": ("filter f 2", None),
    # Of a file that is read in three pieces.
    "pieces": ("scan l w", None),
    "built": ("filter l 3", None),
    "prove": ("prove f " + TXID, None),
    "check": ("check p", None),
    "replay": ("replay w s", None),
    "trace": ("replay --trace w s", None),
    "make": ("make 7 3 b", "b"),
    "witness": ("make --witness 7 3 b", "b"),
    "demo": ("demo 7 3", None),
    "sync": ("sync w @", None),
    "one": ("sync --workers 1 w @", None),
    "record": ("sync --record r w @", "r"),
    "serve": ("serve --connections 2 f @", None),
    "grow": ("serve --grow --connections 2 f @", None),
}
SERVING = ("serve", "grow")
# Of one run, or of one read.
LIMIT = 20

End = collections.namedtuple("End", "status text file told")


class Trial:
    """The files of the runs, and the program."""

    def __init__(self, program, folder):
        self.program, self.folder = program, folder
        self.refusing = os.path.join(folder, "refuse.so")
        cc = ["cc", "-O2", "-shared", "-fPIC", "-o", self.refusing, os.path.join(BENCH, "refuse.c")]
        subprocess.run(cc, check=True)
        chain = Chain((7, 3))
        scripts = [script(k) for k in (8, 14)]
        shutil.copy(os.path.join(ROOT, "data", "blocks.dat"), os.path.join(folder, "f"))
        self.write("w", "".join(text.hex() + "\n" for text in scripts))
        self.write("s", "".join(line + "\n" for line in Play(chain, 2, scripts).played().lines))
        self.write("p", self.run("prove", 0).text.decode())
        with open(os.path.join(folder, "l"), "wb") as file:
            file.writelines(MAGIC + len(block).to_bytes(4, "little") + block for block in long_chain().blocks[1:])
        asked, told = whole(chain)
        self.asked = {"serve": [asked, THEIR_VERSION], "grow": [bringing(), THEIR_VERSION + PING]}
        # Of each connection the answers that it may have, the last one with ample memory.
        still, growing = [[told], [greeting(chain.tip)]], [greeting(tip) + PONG for tip in range(3, 7)]
        both = {"serve": still, "grow": [[grown(bringing())[1]], growing]}
        self.answers = {name: [[*map(without_choice, texts)] for texts in each] for name, each in both.items()}

    def write(self, name, text):
        with open(os.path.join(self.folder, name), "w") as file:
            file.write(text)

    def read(self, name):
        try:
            with open(os.path.join(self.folder, name), "rb") as file:
                return file.read()
        except FileNotFoundError:
            return None

    def start(self, words, refused, err=subprocess.PIPE):
        env, count = dict(os.environ), os.path.join(self.folder, "count")
        if refused is not None:
            env.update(LD_PRELOAD=self.refusing, REFUSED=str(refused), COUNTED=count)
        return subprocess.Popen([self.program, *words], cwd=self.folder, env=env, stdout=subprocess.PIPE, stderr=err)

    def served(self, words, refused):
        """A server that listens, or has ended, and where it listens."""
        with open(os.path.join(self.folder, "told"), "wb") as told:
            server = self.start(words, refused, told)
        for _ in range(100 * LIMIT):
            has_ended = server.poll() is not None
            place = re.search(rb"listening on \S+:(\d+)\n", self.read("told"))
            if place or has_ended:
                break
            time.sleep(0.01)
        return server, int(place.group(1)) if place else None

    def run(self, name, refused):
        words, file = COMMANDS[name]
        words = words.split(" ")
        if file and os.path.exists(os.path.join(self.folder, file)):
            os.remove(os.path.join(self.folder, file))
        if name in SERVING:
            return self.run_serve(name, words, refused)
        helper = None
        if "@" in words:
            helper, port = self.served(["serve", "--connections", "1", "f", "127.0.0.1:0"], None)
            words = [word.replace("@", "127.0.0.1:%d" % port) for word in words]
        child = self.start(words, refused)
        try:
            text, told = child.communicate(timeout=LIMIT)
        except subprocess.TimeoutExpired:
            child.kill()
            text, told = child.communicate()
            return End("hangs", text, None, told)
        finally:
            if helper:
                helper.kill()
                helper.communicate()
        return End(child.returncode, text, self.kept(name, file), told)

    def kept(self, name, file):
        """What stands in the file that a command writes, or what its record comes to."""
        if name != "record" or self.read("r") is None:
            return self.read(file) if file else None
        return self.start(["replay", "w", "r"], None).communicate()[0]

    def run_serve(self, name, words, refused):
        server, port = self.served([word.replace("@", "127.0.0.1:0") for word in words], refused)
        text = tuple(self.converse(port, asked) for asked in self.asked[name])
        try:
            status = server.wait(timeout=LIMIT)
        except subprocess.TimeoutExpired:
            server.kill()
            server.wait()
            status = "hangs"
        server.stdout.close()
        return End(status, text, None, self.read("told"))

    def converse(self, port, asked):
        """What is read on one connection, up to its end."""
        got = b""
        try:
            with socket.create_connection(("127.0.0.1", port or 1), timeout=LIMIT) as conn:
                conn.sendall(asked)
                conn.shutdown(socket.SHUT_WR)
                while True:
                    part = conn.recv(65536)
                    if not part:
                        break
                    got += part
        except OSError:
            pass
        return without_choice(got)

    def count(self):
        return int(self.read("count") or 0)


def without_choice(text):
    """What a server has written, but for the time and the number of its version, and that one's checksum."""
    text = bytearray(text)
    for first, last in ((20, 24), (36, 44), (96, 104)):
        text[first:last] = bytes(len(text[first:last]))
    return bytes(text)


def kind_of(trial, name, ample, found):
    """`right`, `refused` or `other`."""
    if found[:3] == ample[:3]:
        return "right"
    if name in SERVING:
        both = zip(trial.answers[name], found.text)
        begins = all(any(text.startswith(part) for text in texts) for texts, part in both)
        return "refused" if begins and found.status in (0, 1) else "other"
    if found.status == 1 and not found.text and found.file in (None, ample.file):
        return "refused"
    return "other"


def ranges(numbers):
    """Numbers in words: `1 to 3, 7`."""
    found = []
    for number in numbers:
        if found and found[-1][1] == number - 1:
            found[-1][1] = number
        else:
            found.append([number, number])
    return ", ".join("%d to %d" % (a, b) if a < b else str(a) for a, b in found)


def tried(trial, name, first, last, until):
    """Whether each run of a command ends as it may."""
    ample = trial.run(name, 0)
    count = trial.count()
    if ample.status or name in SERVING and ample.text != tuple(texts[-1] for texts in trial.answers[name]):
        raise SystemExit("%s ends otherwise with ample memory: %r" % (name, ample))
    kinds, others = collections.Counter(), collections.defaultdict(list)
    number = first
    while number <= min(last, count) and time.monotonic() < until:
        found = trial.run(name, number)
        kind = kind_of(trial, name, ample, found)
        kinds[kind] += 1
        if kind == "other":
            told = found.told.decode(errors="replace").strip().splitlines()[-1:]
            end = "status %s, %s, %r" % (found.status, " ".join(told), found.text or found.file)
            others[end[:300]].append(number)
        number += 1
    told = ", ".join("%d %s" % (kinds[kind], kind) for kind in ("refused", "right", "other"))
    print("%s: %d to %d of %d calls: %s" % (name, first, number - 1, count, told), flush=True)
    for end, numbers in others.items():
        print("    %s: %s" % (ranges(numbers), end), flush=True)
    return kinds["other"] == 0


def main():
    parser = argparse.ArgumentParser()
    parser.add_argument("--program", default=os.path.join(ROOT, ".build", "cf"))
    parser.add_argument("--from", dest="first", type=int, default=1)
    parser.add_argument("--to", dest="last", type=int, default=10_000)
    parser.add_argument("--seconds", type=int, default=600)
    parser.add_argument("commands", nargs="*", metavar="COMMAND")
    words = parser.parse_args()
    until = time.monotonic() + words.seconds
    with tempfile.TemporaryDirectory() as folder:
        trial = Trial(os.path.abspath(words.program), folder)
        ends = [tried(trial, name, words.first, words.last, until) for name in words.commands or COMMANDS]
    sys.exit(not all(ends))


if __name__ == "__main__":
    main()
