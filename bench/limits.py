#!/usr/bin/env python3
"""What the connections of `serve` may hold and take, over loopback: `limits.py [PROGRAM [CASE..]]`, where PROGRAM is `.build/cf` unless it is named. Cases:

    many      1,000 of the worst connections at once, with `--at-once 1000`, and a `sync` beside them
    usual     the same without `--at-once`
    seats     with `--at-once 2` a third connection is answered once one has gone; or, of silent ones, the oldest is cut for it
    fair      one address holds all seats and goes on asking; one of another address is answered all the same
    endless   `--endless` serves as `--connections` does
    times     no `version`, a message that doesn't end, an answer that nobody reads, one that is read slowly: each is closed in time
    busy      a busy port, and an ADDRESS that is no HOST:PORT, are told before the chain is loaded, with status STATUS

The worst: idle ones, single bytes, 4,000,000 bytes of a message but the last, `getdata` of 50,000 blocks and `getcfilters` of 1,000 over and over of which
nothing is read. They come from SOURCES addresses 127.0.0.x. A server's peak memory is below MEMORY, and a `sync` beside them ends within FACTOR times its
time alone, and a second. Figures are printed, and the status is 1 where a bound is broken. `times` takes some three minutes.
"""
import os
import re
import resource
import selectors
import socket
import struct
import subprocess
import sys
import tempfile
import threading
import time

from conversation import THEIR_VERSION, compact, frame
from network import ROOT, Run, comes

WORST, SOURCES, MEMORY, FACTOR = 1000, 8, 400 << 20, 2
# The blocks of the chain that is served. The `sync` comes once the worst hold what they can: the server needs less than REST of a processor, or QUIET seconds
# are over.
BLOCKS, REST, QUIET = 30_000, 0.1, 40
# `LinkFault`, and how long a peer waits for an answer at most, in seconds.
STATUS, WAIT = 9, 30
# How much longer than its limit a connection may stay, in seconds, and how long one stays whose answer is read slowly.
LATE, SLOW = 15, 170
KINDS = ("idle", "bytes", "message", "getdata", "getcfilters")


def wanted(so, text):
    if not so:
        raise SystemExit("limits.py: " + text)


class Server(Run):
    """A server at a port of its own."""

    def __init__(self, program, file, *options):
        super().__init__(program, "serve", *options, file, "127.0.0.1:0")
        comes(lambda: "cf: serving" in self.told() or self.is_over())
        wanted(not self.is_over(), "it does not serve: " + self.told())
        place = re.search(r"listening on (\S+):(\d+)", self.told())
        self.place = (place.group(1), int(place.group(2)))
        self.name = "%s:%d" % self.place

    def threads(self):
        return len(os.listdir(f"/proc/{self.process.pid}/task"))

    def peak(self):
        with open(f"/proc/{self.process.pid}/status") as file:
            return int(re.search(r"VmHWM:\s+(\d+) kB", file.read()).group(1)) << 10

    def seconds(self):
        """The processor's time that it has taken."""
        with open(f"/proc/{self.process.pid}/stat") as file:
            fields = file.read().rsplit(")", 1)[1].split()
        return (int(fields[11]) + int(fields[12])) / os.sysconf("SC_CLK_TCK")

    def rests(self):
        """Waits until it has little to do."""
        start = time.monotonic()
        time.sleep(2)
        while time.monotonic() - start < QUIET:
            taken = self.seconds()
            time.sleep(1)
            if self.seconds() - taken < REST:
                break
        return time.monotonic() - start

    def peer(self, source="127.0.0.1", small=False):
        """A connection from this address. Its side takes little where it is small."""
        peer = socket.socket()
        if small:
            peer.setsockopt(socket.SOL_SOCKET, socket.SO_RCVBUF, 4096)
        peer.settimeout(WAIT)
        peer.bind((source, 0))
        peer.connect(self.place)
        return peer


def is_answered(peer, wait=WAIT):
    """Whether a `version` is answered."""
    try:
        peer.settimeout(wait)
        peer.sendall(THEIR_VERSION)
        return len(peer.recv(24, socket.MSG_WAITALL)) == 24
    except OSError:
        return False


def is_closed(peer, wait=0.1):
    """Whether the server has closed it; what has come is read over."""
    try:
        peer.settimeout(wait)
        while peer.recv(1 << 16):
            pass
        return True
    except socket.timeout:
        return False
    except OSError:
        return True


# ---- the worst connections

def tip_of(told):
    return bytes.fromhex(re.search(r"cf: serving \d+ ([0-9a-f]{64})", told).group(1))[::-1]


def worst_bytes(kind, tip):
    """What a connection of this kind sends at once."""
    if kind == "message":
        return THEIR_VERSION + frame("block", bytes(4_000_000))[:-1]
    if kind == "getdata":
        return THEIR_VERSION + frame("getdata", compact(50_000) + (struct.pack("<I", 2) + tip) * 50_000)
    if kind == "getcfilters":
        return THEIR_VERSION + frame("getcfilters", struct.pack("<BI", 0, BLOCKS - 999) + tip) * 500
    return b""


class Worst:
    """Connections that do as badly as they can, until they are ended. Where one is closed it stays so."""

    def __init__(self, server, count):
        self.stop = False
        self.data = {kind: memoryview(worst_bytes(kind, tip_of(server.told()))) for kind in KINDS}
        self.peers = []
        for i in range(count):
            peer = socket.socket()
            peer.setblocking(False)
            if KINDS[i % len(KINDS)] in ("getdata", "getcfilters"):
                peer.setsockopt(socket.SOL_SOCKET, socket.SO_RCVBUF, 4096)
            peer.bind((f"127.0.0.{2 + i // len(KINDS) % SOURCES}", 0))
            peer.connect_ex(server.place)
            self.peers.append([peer, KINDS[i % len(KINDS)], 0])
        self.thread = threading.Thread(target=self.go)
        self.thread.start()

    def go(self):
        look = selectors.DefaultSelector()
        for state in self.peers:
            if len(self.data[state[1]]):
                look.register(state[0], selectors.EVENT_WRITE, state)
        last = 0
        while not self.stop:
            for key, _ in look.select(0.1) if look.get_map() else (time.sleep(0.1), [])[1]:
                state = key.data
                data = self.data[state[1]]
                try:
                    state[2] += state[0].send(data[state[2]:state[2] + (1 << 18)])
                except BlockingIOError:
                    continue
                except OSError:
                    state[2] = len(data)
                if state[2] >= len(data):
                    look.unregister(state[0])
            if time.monotonic() - last > 1:
                last = time.monotonic()
                for state in self.peers:
                    if state[1] == "bytes" and state[2] < len(THEIR_VERSION) - 1:
                        try:
                            state[0].send(THEIR_VERSION[state[2]:state[2] + 1])
                            state[2] += 1
                        except OSError:
                            pass

    def end(self):
        self.stop = True
        self.thread.join()
        for peer, _, _ in self.peers:
            peer.close()


def seconds_of(program, server, text):
    """How long a `sync` takes, whose text is to be this one."""
    start = time.monotonic()
    run = subprocess.run([program, "sync", os.path.join(ROOT, "data", "watch.txt"), server.name], stdout=subprocess.PIPE, stderr=subprocess.PIPE, text=True)
    seconds = time.monotonic() - start
    wanted(run.returncode == 0 and run.stdout == text, f"sync ends with status {run.returncode}: {run.stderr}")
    return seconds


def beside_the_worst(program, file, *options):
    text = subprocess.run([program, "scan", file, os.path.join(ROOT, "data", "watch.txt")], stdout=subprocess.PIPE, text=True, check=True).stdout
    server = Server(program, file, *options)
    try:
        alone = min(seconds_of(program, server, text) for _ in range(2))
        before = server.peak()
        worst = Worst(server, WORST)
        try:
            rested = server.rests()
            beside = seconds_of(program, server, text)
            server.rests()
        finally:
            worst.end()
        peak = server.peak()
        print(f"    sync alone {alone:.1f} s, beside {WORST} of the worst, {rested:.0f} s after they came, {beside:.1f} s; the server's peak {before >> 20} MiB before them, {peak >> 20} MiB with them")
        found = [] if peak <= MEMORY else [f"its peak is above {MEMORY >> 20} MiB"]
        return found + ([] if beside <= FACTOR * alone + 1 else [f"the sync took more than {FACTOR} times as long, and a second"])
    finally:
        server.end()


def many(program, file):
    return beside_the_worst(program, file, "--at-once", str(WORST))


def usual(program, file):
    return beside_the_worst(program, file)


# ---- seats

def seats(program, file):
    server, found = Server(program, file, "--at-once", "2"), []
    try:
        first, second, third = (server.peer() for _ in range(3))
        found += [] if is_answered(first) and is_answered(second) else ["two are not answered"]
        third.sendall(THEIR_VERSION)
        third.settimeout(2)
        try:
            found += ["a third is answered beside two"] if third.recv(1) else ["a third is closed beside two"]
        except socket.timeout:
            pass
        first.close()
        found += [] if third.recv(24, socket.MSG_WAITALL) else ["a third is not answered once one has gone"]
        second.close()
        third.close()
        silent, later = server.peer(), server.peer()
        last = server.peer()
        start = time.monotonic()
        found += [] if is_answered(last) else ["one is not answered beside two silent ones"]
        print(f"    beside two silent ones a third was answered after {time.monotonic() - start:.1f} s")
        found += [] if is_closed(silent, 1) and not is_closed(later) else ["another than the oldest silent one was cut"]
        return found
    finally:
        server.end()


def fair(program, file):
    server, found = Server(program, file, "--at-once", "8"), []
    try:
        crowd = [server.peer("127.0.0.2") for _ in range(20)]
        answered = sum(is_answered(peer, 1) for peer in crowd[:8])
        found += [] if answered == 8 else [f"{answered} of 8 are answered"]
        start = time.monotonic()
        found += [] if is_answered(server.peer("127.0.0.3")) else ["another address is not answered"]
        print(f"    another address was answered after {time.monotonic() - start:.1f} s")
        return found
    finally:
        server.end()


def endless(program, file):
    server = Server(program, file, "--endless")
    try:
        answered = 0
        for _ in range(100):
            with server.peer() as peer:
                answered += is_answered(peer)
        return ([] if answered == 100 else [f"{answered} of 100 are answered"]) + (["it has ended"] if server.is_over() else [])
    finally:
        server.end()


# ---- times

def ended_after(server, peer, own, most, read):
    """After how many seconds the server's thread for it has ended, at most so many, or None. Each 20 seconds so many bytes are read. (What the peer sees of
    it comes behind what it hasn't read.)"""
    start = time.monotonic()
    peer.settimeout(0.5)
    for second in range(1, most):
        time.sleep(max(0, start + second - time.monotonic()))
        if server.threads() <= own:
            return second
        if read and second % 20 == 0:
            try:
                peer.recv(read)
            except OSError:
                pass
    return None


def times(program, file):
    found, threads = [], []

    def case(name, asks, limit, read=0):
        server = Server(program, file)
        try:
            own = server.threads()
            peer = server.peer(small=asks)
            asked = THEIR_VERSION + frame("getcfilters", struct.pack("<BI", 0, BLOCKS - 999) + tip_of(server.told())) * 200
            peer.sendall(asked if asks else b"" if asks is None else THEIR_VERSION + frame("ping", bytes(8))[:-1])
            comes(lambda: server.threads() > own, 100)
            after = ended_after(server, peer, own, limit + LATE, read)
            print(f"    {name}: " + ("stays" if after is None else f"ended after {after} s"), flush=True)
            if after is None or after < 55:
                found.append(f"{name}: it does not end in time")
        finally:
            server.end()

    for row in (
        ("no version", None, 60),
        ("half a message", False, 60),
        ("an answer that nobody reads", True, 60),
        ("an answer of which 2 KB are read each 20 seconds", True, SLOW, 2048),
    ):
        threads.append(threading.Thread(target=case, args=row))
        threads[-1].start()
    for thread in threads:
        thread.join()
    return found


def busy(program, file):
    taken, found = socket.socket(), []
    taken.bind(("127.0.0.1", 0))
    taken.listen()
    for address, line in (
        ("127.0.0.1:%d" % taken.getsockname()[1], "Address already in use"),
        ("::1:0", "it is not HOST:PORT"),
        ("127.0.0.1:+0", "it is not HOST:PORT"),
        ("127.0.0.1", "it is not HOST:PORT"),
    ):
        start = time.monotonic()
        run = subprocess.run([program, "serve", file, address], stdout=subprocess.PIPE, stderr=subprocess.PIPE, text=True, timeout=WAIT)
        print(f"    {address}: status {run.returncode} after {time.monotonic() - start:.2f} s: {run.stderr.splitlines()[:1]}")
        found += [] if run.returncode == STATUS and f"cf: {address}: {line}" in run.stderr else [f"{address}: {run.stderr}"]
    return found


CASES = {"seats": seats, "fair": fair, "endless": endless, "busy": busy, "many": many, "usual": usual, "times": times}


def main():
    program = os.path.abspath(sys.argv[1]) if len(sys.argv) > 1 else os.path.join(ROOT, ".build", "cf")
    names, failed = sys.argv[2:] or list(CASES), False
    hard = resource.getrlimit(resource.RLIMIT_NOFILE)[1]
    resource.setrlimit(resource.RLIMIT_NOFILE, (hard, hard))
    with tempfile.TemporaryDirectory() as folder:
        file = os.path.join(folder, "blocks.dat")
        subprocess.run([program, "make", "7", str(BLOCKS), file], check=True)
        for name in names:
            print(name, flush=True)
            found = CASES[name](program, file)
            failed = failed or bool(found)
            for line in found:
                print("    WRONG: " + line, flush=True)
    return int(failed)


if __name__ == "__main__":
    sys.exit(main())
