#!/usr/bin/env python3
"""`serve` and `sync` over loopback, beside peers that do harm: `load.py [PROGRAM]`, where PROGRAM is `.build/cf` unless it is named.

First `scan` and one `sync` run in turns, as often as TRIES says, over chains of 20,000 blocks. The time of each `sync` is told as a multiple of that of the `scan` of the
same file before it: of these the one in the middle counts, which is to be at most MOST. Time and memory are those of the runs in the middle. The chains are a made one, whose blocks are so small that a block is hardly more than its header and
its filter are, with a script that an eighth of the blocks pays, each of which is then fetched, one after another, and with one that none pays; and one whose blocks have 50
outputs more. Then the made chain is served to eight `sync` side by side and beside them to one with eight peers (the same address eight times), one client that
asks for all filters and never reads, and one that sends bytes that are no frames. Each `sync` is to end with status 0 and the text of `scan`, and each
server with status 0 once its connections are over. No process runs for longer than LIMIT seconds.
"""
import contextlib
import os
import random
import re
import signal
import socket
import subprocess
import sys
import tempfile
import threading
import time

from conversation import frame, of_range, version
from made_chain import records

BENCH = os.path.dirname(os.path.abspath(__file__))
ROOT = os.path.dirname(BENCH)
SEED, BLOCKS = 7, 20_000
PAID, UNPAID = "01087551", "01107551"
OUTPUTS = 50
TRIES = 9
SIDE_BY_SIDE, PEERS = 8, 8
CONNECTIONS = SIDE_BY_SIDE + PEERS + 2
MOST = 3
LIMIT = 600


class Run:
    """A process, with its text, its status, its time and its greatest memory once it has ended."""

    def __init__(self, words):
        self.start = time.monotonic()
        self.out, self.err = tempfile.TemporaryFile(), tempfile.TemporaryFile()
        self.process = subprocess.Popen(words, stdin=subprocess.DEVNULL, stdout=self.out, stderr=self.err)
        self.thread = threading.Thread(target=self.wait)
        self.thread.start()
        self.timer = threading.Timer(LIMIT, self.stop)
        self.timer.start()

    def wait(self):
        _, status, usage = os.wait4(self.process.pid, 0)
        self.seconds = time.monotonic() - self.start
        self.status = os.waitstatus_to_exitcode(status)
        self.memory = usage.ru_maxrss / 1024
        self.processor = usage.ru_utime + usage.ru_stime

    def stop(self):
        if self.thread.is_alive():
            # It may end by itself just then.
            with contextlib.suppress(ProcessLookupError):
                os.kill(self.process.pid, signal.SIGKILL)

    def join(self):
        self.thread.join()
        self.timer.cancel()
        return self

    @staticmethod
    def read(file):
        return os.pread(file.fileno(), os.fstat(file.fileno()).st_size, 0)

    def text(self):
        return self.read(self.out)

    def told(self):
        return self.read(self.err).decode()


def address_of(server):
    """Where the server listens, once it has told so."""
    for _ in range(LIMIT * 10):
        place = re.search(r"listening on (\S+)", server.told())
        if place and "serving" in server.told():
            return place.group(1)
        if not server.thread.is_alive():
            break
        time.sleep(0.1)
    raise SystemExit("the server doesn't listen: " + server.told())


def connected(address):
    host, port = address.rsplit(":", 1)
    return socket.create_connection((host, int(port)), timeout=LIMIT)


def never_reading(address, tip):
    """A peer that asks for all filters over and over, as long as it is taken, and reads nothing."""
    peer = connected(address)
    peer.setsockopt(socket.SOL_SOCKET, socket.SO_RCVBUF, 4096)
    peer.settimeout(1)
    asked = 1000 * of_range("getcfilters", 0, BLOCKS - 999, tip)
    try:
        peer.sendall(version(0, 0, 0, b"/load/", 0, b"\0") + frame("verack") + asked)
    except OSError:
        pass
    return peer


def noisy(address):
    """A peer that sends a million bytes that are no frames."""
    peer = connected(address)
    peer.settimeout(1)
    try:
        peer.sendall(random.Random(SEED).randbytes(1_000_000))
    except OSError:
        pass
    return peer


def in_turns(*calls):
    """Runs of each call, which take turns."""
    return list(zip(*([Run(words).join() for words in calls] for _ in range(TRIES))))


def middle(runs):
    return sorted(runs, key=lambda run: run.seconds)[len(runs) // 2]


def fails(what, run, text):
    """Whether a run has ended otherwise than wanted."""
    if run.status == 0 and run.text() == text:
        return False
    print(f"{what}: status {run.status}, {len(run.text())} bytes where {len(text)} are wanted\n{run.told()}")
    return True


def line(what, run):
    print(f"{what}: {run.seconds:.2f} s, of the processor {run.processor:.2f} s; {run.memory:.0f} MB")


def written(folder, name, lines):
    """The path of a new file with these bytes."""
    path = os.path.join(folder, name)
    with open(path, "wb") as file:
        file.writelines(lines)
    return path


def served(program, blocks, connections):
    """A server of a file for so many connections, and its address."""
    server = Run([program, "serve", "--connections", str(connections), blocks, "127.0.0.1:0"])
    return server, address_of(server)


def alone(program, what, blocks, watch):
    """Whether one `sync` over a chain fails, or takes longer than is wanted."""
    server, address = served(program, blocks, TRIES)
    scans, syncs = in_turns([program, "scan", blocks, watch], [program, "sync", watch, address])
    line(f"{what}: scan", middle(scans))
    line(f"{what}: one sync", middle(syncs))
    ratios = sorted(sync.seconds / scan.seconds for scan, sync in zip(scans, syncs))
    ratio = ratios[TRIES // 2]
    print(f"{what}: one sync over loopback takes {ratio:.2f} times what scan takes, from {ratios[0]:.2f} to {ratios[-1]:.2f}; {MOST} is the most that is wanted")
    bad = fails(f"{what}: the server", server.join(), b"") | (ratio > MOST)
    for run in scans + syncs:
        bad |= fails(what, run, scans[0].text())
    return bad


def together(program, blocks, watch):
    """Whether one of several `sync` beside peers that do harm fails, or their server."""
    scan = Run([program, "scan", blocks, watch]).join()
    if fails("scan", scan, scan.text()):
        return True
    text = scan.text()
    tip = bytes.fromhex(text.split()[-1].decode())[::-1]
    server, address = served(program, blocks, CONNECTIONS)
    harmful = [never_reading(address, tip), noisy(address)]
    several = [Run([program, "sync", watch, address]) for _ in range(SIDE_BY_SIDE)]
    wide = Run([program, "sync", watch] + [address] * PEERS)
    bad = False
    for number, run in enumerate(several, 1):
        line(f"sync {number} of {SIDE_BY_SIDE} side by side", run.join())
        bad |= fails(f"sync {number}", run, text)
    line(f"sync with {PEERS} peers beside them", wide.join())
    bad |= fails(f"sync with {PEERS} peers", wide, text)
    for peer in harmful:
        peer.close()
    line("the server of all", server.join())
    bad |= fails("the server", server, b"")
    print("".join(told + "\n" for told in server.told().splitlines() if "connection" in told))
    return bad


def main():
    program = sys.argv[1] if len(sys.argv) > 1 else os.path.join(ROOT, ".build", "cf")
    with tempfile.TemporaryDirectory() as folder:
        made = written(folder, "made.dat", records((SEED, BLOCKS)))
        large = written(folder, "large.dat", records((SEED, BLOCKS), others=OUTPUTS))
        paid = written(folder, "paid.txt", [PAID.encode()])
        unpaid = written(folder, "unpaid.txt", [UNPAID.encode()])
        bad = alone(program, "made, an eighth fetched", made, paid)
        bad |= alone(program, "made, none fetched", made, unpaid)
        bad |= alone(program, f"{OUTPUTS} outputs more, an eighth fetched", large, paid)
        bad |= together(program, made, paid)
        return 1 if bad else 0


if __name__ == "__main__":
    sys.exit(main())
