#!/usr/bin/env python3
"""What names that nobody looks up cost `sync`, and peers that send without end: `paced.py [PROGRAM]`, where PROGRAM is `.build/cf` unless it is named.

Peers are played here, over loopback; one that is honest serves the chain of data/blocks.dat. The cases run one after another, each with a line at its end:

    names     seven names stand behind an honest peer, which hangs up after a minute without a word; both name servers are dead
    second    the first name server is dead, and the second one knows the honest peer
    pings     a peer pings without end, and reads the answers, beside an honest one that takes SECONDS for its headers
    bytes     a peer sends byte by byte beside an honest one that takes SECONDS for its headers, and the run may take TURNS deliveries

A peer that sends without end answers nothing that it is asked, and is closed for it after a minute. The first two are played in a network of their own (`unshare`). The status is 1 where a bound is broken, or a `sync` tells another text than that of a scan.
"""
import os
import re
import socket
import struct
import subprocess
import sys
import tempfile
import threading
import time

from conversation import MAGIC, frame, version
from network import CHAIN, ROOT, TEXT, WATCHED, Peer, Run, comes, listener, name_of

SECONDS = 20
# The most deliveries of the run beside single bytes, of which a thousand a second at most may come for a minute.
TURNS = 80_000
# The most seconds until an honest peer is asked for headers, where no name is looked up.
ASKED = 18
# The most pongs in a second, the most kilobytes, and the most seconds of a processor beside pings.
PONGS, KILOBYTES, PROCESSOR = 300, 60_000, 5
NAMES = [f"peer{n}.example:18444" for n in range(2, 9)]


class Servers(threading.Thread):
    """Two name servers: one says nothing; the other says nothing either, or knows every name as 127.0.0.1."""

    def __init__(self, knows):
        super().__init__(daemon=True)
        self.knows, self.dead, self.other = knows, self.place("127.0.0.1"), self.place("127.0.0.2")
        self.start()

    @staticmethod
    def place(host):
        place = socket.socket(socket.AF_INET, socket.SOCK_DGRAM)
        place.bind((host, 53))
        return place

    def run(self):
        while True:
            question, asker = self.other.recvfrom(512)
            if not self.knows:
                continue
            end = question.index(b"\0", 12) + 5
            is_old = question[end - 4:end - 2] == b"\0\1"
            answer = b"\xc0\x0c" + struct.pack(">HHIH", 1, 1, 60, 4) + bytes((127, 0, 0, 1)) if is_old else b""
            self.other.sendto(question[:2] + struct.pack(">HHHHH", 0x8180, 1, is_old, 0, 0) + question[12:end] + answer, asker)


class Timed(Peer):
    """A peer that tells when it is first asked for headers, and hangs up where nothing comes for a minute."""

    def __init__(self, before=lambda command: True):
        self.asked, self.begun = None, time.monotonic()
        super().__init__(before)

    def serve(self, connection):
        connection.settimeout(60)
        super().serve(connection)

    def answer(self, command, payload):
        if command == "getheaders" and self.asked is None:
            self.asked = time.monotonic() - self.begun
        return super().answer(command, payload)


class Flood(threading.Thread):
    """A peer that greets, and then sends the same bytes without end, so many at a time. It reads what it is sent."""

    def __init__(self, data, size):
        super().__init__(daemon=True)
        self.place, self.data, self.size, self.read, self.sent = listener(), data, size, 0, 0
        self.name = name_of(self.place)
        self.start()

    def reads(self, connection):
        while True:
            piece = connection.recv(65536)
            if not piece:
                return
            self.read += len(piece)

    def run(self):
        connection, _ = self.place.accept()
        connection.setsockopt(socket.IPPROTO_TCP, socket.TCP_NODELAY, 1)
        threading.Thread(target=self.reads, args=(connection,), daemon=True).start()
        try:
            connection.sendall(version(65, 0, 0, b"/network/", CHAIN.tip, b"\0") + frame("verack"))
            while True:
                for at in range(0, len(self.data), self.size):
                    connection.sendall(self.data[at:at + self.size])
                    self.sent += self.size
        except OSError:
            pass


def held(seconds):
    """What an honest peer calls before it answers: it takes so many seconds for the first headers."""
    def before(command):
        if command == "getheaders":
            time.sleep(seconds)
        return True

    return before


class Costs(threading.Thread):
    """The most memory of a process, and its seconds of a processor, as far as they were looked at."""

    def __init__(self, run):
        super().__init__(daemon=True)
        self.run_of, self.kilobytes, self.processor, self.seconds = run, 0, 0.0, 0.0
        self.start()

    def run(self):
        pid, tick = self.run_of.process.pid, os.sysconf("SC_CLK_TCK")
        while not self.run_of.is_over():
            try:
                status, stat = open(f"/proc/{pid}/status").read(), open(f"/proc/{pid}/stat").read()
                self.kilobytes = int(re.search(r"VmHWM:\s*(\d+)", status).group(1))
                self.processor = sum(map(int, stat.rsplit(")", 1)[1].split()[11:13])) / tick
            except (OSError, AttributeError):
                return
            time.sleep(0.1)


def beside(program, watch, flood, *options):
    """A `sync` beside such a peer: its costs, and what is otherwise than it should be."""
    run = Run(program, "sync", *options, watch, flood.name, Timed(held(SECONDS)).name)
    costs, start = Costs(run), time.monotonic()
    try:
        found = run.faults(0, TEXT, "cf: peer 2: connected to the end")
        costs.seconds = time.monotonic() - start
        return costs, found
    finally:
        run.end()


def told_of(costs):
    return f"{costs.kilobytes} KB, {costs.processor:.1f} s of a processor in {costs.seconds:.0f} s"


def pings(program, watch):
    flood = Flood(frame("ping", bytes(range(8))) * 1000, 32_000)
    costs, found = beside(program, watch, flood)
    pongs = flood.read / 32 / costs.seconds
    if pongs > PONGS or costs.kilobytes > KILOBYTES or costs.processor > PROCESSOR:
        found.append("it is more than that")
    return f"{pongs:.0f} pongs a second, {told_of(costs)}", found


def single(program, watch):
    empty = b"\0" * 1_000_000
    flood = Flood(frame("nothing", empty), 1)
    costs, found = beside(program, watch, flood, "--turns", str(TURNS))
    return f"{flood.sent} bytes, {told_of(costs)}", found


def names(program, watch, knows):
    Servers(knows)
    peer = Timed()
    words = [peer.name] + NAMES if not knows else ["honest.example:" + peer.name.rsplit(":", 1)[1]]
    run = Run(program, "sync", watch, *words)
    try:
        found = run.faults(0, TEXT, "cf: peer 1: connected to the end")
        if peer.asked is None or peer.asked > ASKED:
            found.append(f"it was to be asked within {ASKED} seconds")
        return f"asked for headers after {peer.asked or 0:.1f} seconds", found
    finally:
        run.end()


def alone(case, program):
    """Runs a case in a network of its own, with name servers of its own."""
    with tempfile.NamedTemporaryFile("w", suffix=".conf") as servers:
        servers.write("nameserver 127.0.0.1\nnameserver 127.0.0.2\n")
        servers.flush()
        script = 'ip link set lo up && mount --bind "$1" "$(readlink -f /etc/resolv.conf)" && exec "$2" "$3" "$4" "$5"'
        words = ["unshare", "-rnm", "sh", "-c", script, "sh", servers.name, sys.executable, os.path.abspath(__file__), program, case]
        return subprocess.run(words).returncode


def show(what, case, *words):
    try:
        told, found = case(*words)
    except Exception as e:
        told, found = "", [repr(e)]
    line = f"{what}: {'otherwise' if found else 'as it should be'}; {told}"
    print("\n    ".join([line] + "\n".join(found).splitlines()), flush=True)
    return 1 if found else 0


def main():
    program = os.path.abspath(sys.argv[1]) if len(sys.argv) > 1 else os.path.join(ROOT, ".build", "cf")
    with tempfile.TemporaryDirectory() as folder:
        watch = os.path.join(folder, "watch")
        with open(watch, "w") as file:
            file.write(WATCHED.hex() + "\n")
        if len(sys.argv) > 2:
            return show(sys.argv[2], names, program, watch, sys.argv[2] == "second")
        bad = [alone("names", program), alone("second", program)]
        bad += [show("pings", pings, program, watch), show("bytes", single, program, watch)]
    return 1 if any(bad) else 0


if __name__ == "__main__":
    sys.exit(main())
