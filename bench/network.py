#!/usr/bin/env python3
"""What a network does, and `sync` and `serve` in spite of it: `network.py [PROGRAM]`, where PROGRAM is `.build/cf` unless it is named.

Peers are played here, over loopback; one that is honest serves the chain of data/blocks.dat. All cases run side by side, each with a line at its end:

    dead       an address that drops what is sent to it stands before an honest peer, or behind it
    stopped    the process is stopped for longer than a request may be open, and goes on; the answer came meanwhile, or comes soon after
    unread     a peer pings without end and reads nothing, beside an honest one: it holds nobody up, and is closed for what it doesn't answer
    idle       a server with few descriptors has more idle connections than these, which it tells once, and a `sync` comes before they go
    silent     a peer answers up to a request, and then is silent: what it was asked for is told
    liar       a peer whose filter of a block leaves out a script stands before an honest one, or behind it: the block is told

What is waited for is looked at, LOOKS times at most with a tenth of a second between; no time is taken. The status is 1 where a case ends otherwise than it
says, and a `sync` tells another text than that of a scan.
"""
import os
import re
import resource
import signal
import socket
import struct
import subprocess
import sys
import tempfile
import threading
import time

from conversation import MAGIC, compact, frame, version
from sessions import Chain, script

BENCH = os.path.dirname(os.path.abspath(__file__))
ROOT = os.path.dirname(BENCH)
# The most looks at what is waited for, and the looks for which a process is stopped: longer than the 60 seconds for which a request may be open.
LOOKS, STOPPED = 2000, 700
# The most looks at what is to come while an answer is owed: fewer than these 60 seconds.
OWED = 400
# A server's descriptors, and the idle connections to it.
DESCRIPTORS, IDLE = 64, 100
WATCHED = script(8)
CHAIN = Chain((7, 3))
# The same chain with a false filter, which leaves out a script that the block at this height pays.
FALSE = 2
LIE = CHAIN.without(FALSE, script(14))
TEXT = CHAIN.history([WATCHED]).encode()
REQUESTS = {
    "verack": "the handshake",
    "getheaders": "headers",
    "getcfheaders": "filter hashes",
    "getcfilters": "filters",
    "getdata": "a block",
}


def comes(is_so, looks=LOOKS):
    """Whether something comes to be so at one of so many looks."""
    for _ in range(looks):
        if is_so():
            return True
        time.sleep(0.1)
    return is_so()


class Run:
    """A process, and what it has told once it has ended."""

    def __init__(self, *words, **how):
        self.out, self.err = tempfile.TemporaryFile(), tempfile.TemporaryFile()
        self.process = subprocess.Popen(words, stdin=subprocess.DEVNULL, stdout=self.out, stderr=self.err, **how)

    def is_over(self):
        return self.process.poll() is not None

    def told(self):
        return os.pread(self.err.fileno(), 1_000_000, 0).decode()

    def text(self):
        return os.pread(self.out.fileno(), 1_000_000, 0)

    def faults(self, status=0, text=TEXT, *lines):
        """What is otherwise than wanted at its end, for which it waits: its status, its text, and lines on standard error."""
        if not comes(self.is_over):
            return ["it has not ended"]
        found = [] if self.process.returncode == status else [f"status {self.process.returncode}"]
        found += [] if self.text() == text else [f"text {self.text()!r}"]
        found += [f"no line {line!r}" for line in lines if line not in self.told().splitlines()]
        return found + [self.told()] * bool(found)

    def end(self):
        if not self.is_over():
            self.process.kill()
        self.process.wait()


def listener(waiting=8):
    place = socket.socket()
    place.bind(("127.0.0.1", 0))
    place.listen(waiting)
    return place


def name_of(place):
    return "%s:%d" % place.getsockname()


class Dead:
    """An address that drops what is sent to it: its queue has one place, which is taken."""

    def __init__(self):
        self.place = listener(0)
        self.name = name_of(self.place)
        self.first = socket.create_connection(self.place.getsockname())


class Peer(threading.Thread):
    """A peer that serves a chain to one connection. Before it answers a request it calls `before` with its command, and answers where that is so."""

    def __init__(self, before=lambda command: True, chain=CHAIN):
        super().__init__(daemon=True)
        self.place, self.before, self.chain = listener(), before, chain
        self.name = name_of(self.place)
        self.start()

    def run(self):
        connection, _ = self.place.accept()
        connection.setsockopt(socket.IPPROTO_TCP, socket.TCP_NODELAY, 1)
        try:
            self.serve(connection)
        except OSError:
            pass

    def serve(self, connection):
        data = b""
        while True:
            piece = connection.recv(4096)
            if not piece:
                return
            data += piece
            while len(data) >= 24 and len(data) >= 24 + struct.unpack("<I", data[16:20])[0]:
                size = 24 + struct.unpack("<I", data[16:20])[0]
                command = data[4:16].rstrip(b"\0").decode()
                answer = self.answer(command, data[24:size])
                data = data[size:]
                if answer and self.before(command):
                    connection.sendall(answer)

    def answer(self, command, payload):
        chain = self.chain
        heights = {name: height for height, name in enumerate(chain.hashes)}
        if command == "version":
            return version(65, 0, 0, b"/network/", chain.tip, b"\0")
        if command == "verack":
            return frame("verack")
        if command == "getheaders":
            return chain.headers(heights[payload[5:37]] + 1, chain.tip)
        if command in ("getcfheaders", "getcfilters"):
            first, last = struct.unpack("<I", payload[1:5])[0], heights[payload[5:]]
            if command == "getcfheaders":
                return chain.cfheaders(first, last)
            return b"".join(chain.cfilter(height) for height in range(first, last + 1))
        if command == "getdata":
            return chain.block(heights[payload[5:]])
        return b""


class Pinging(threading.Thread):
    """A peer that greets, and pings without end, and reads nothing."""

    def __init__(self):
        super().__init__(daemon=True)
        self.place = socket.socket()
        self.place.setsockopt(socket.SOL_SOCKET, socket.SO_RCVBUF, 4096)
        self.place.bind(("127.0.0.1", 0))
        self.place.listen(1)
        self.name = name_of(self.place)
        self.start()

    def run(self):
        connection, _ = self.place.accept()
        pings = frame("ping", bytes(range(8))) * 1000
        data = version(65, 0, 0, b"/network/", CHAIN.tip, b"\0") + frame("verack") + pings
        connection.settimeout(0.1)
        while True:
            try:
                data = data[connection.send(data):] or pings
            except TimeoutError:
                pass
            except OSError:
                return


def is_stopped(run):
    with open(f"/proc/{run.process.pid}/stat") as file:
        return file.read().rsplit(")", 1)[1].split()[0] == "T"


class Cases:
    def __init__(self, program, folder):
        self.program, self.watch, self.blocks = program, os.path.join(folder, "watch"), os.path.join(ROOT, "data", "blocks.dat")
        with open(self.watch, "w") as file:
            file.write(WATCHED.hex() + "\n")

    def sync(self, *peers):
        return Run(self.program, "sync", self.watch, *(peer.name for peer in peers))

    def dead(self, is_first):
        peers = [Dead(), Peer()] if is_first else [Peer(), Dead()]
        run = self.sync(*peers)
        try:
            ends = ["not dialled", "connected to the end"][::1 if is_first else -1]
            return run.faults(0, TEXT, *(f"cf: peer {p}: {end}" for p, end in enumerate(ends, 1)))
        finally:
            run.end()

    def stopped(self, is_late):
        asked, may_answer = threading.Event(), threading.Event()

        def before(command):
            if command == "getcfilters":
                asked.set()
                may_answer.wait()
            return True

        run = self.sync(Peer(before))
        try:
            if not comes(asked.is_set):
                return ["nothing was asked"]
            run.process.send_signal(signal.SIGSTOP)
            if not comes(lambda: is_stopped(run)):
                return ["it was not stopped"]
            if not is_late:
                may_answer.set()
            comes(run.is_over, STOPPED)
            run.process.send_signal(signal.SIGCONT)
            if is_late:
                comes(run.is_over, 20)
                may_answer.set()
            return run.faults(0, TEXT, "cf: peer 1: connected to the end")
        finally:
            run.end()

    def unread(self):
        answered = threading.Event()

        def before(command):
            if command == "getcfilters":
                answered.set()
            return True

        pinging = Pinging()
        run = self.sync(pinging, Peer(before))
        try:
            if not comes(answered.is_set, OWED):
                return ["the honest peer is held up"]
            found = run.faults(0, TEXT, "cf: peer 2: connected to the end")
            return found + ["the peer that reads nothing was not closed"] * (not re.search("^cf: peer 1: closed", run.told(), re.M))
        finally:
            run.end()

    def idle(self):
        def few():
            resource.setrlimit(resource.RLIMIT_NOFILE, (DESCRIPTORS, DESCRIPTORS))

        server = Run(self.program, "serve", self.blocks, "127.0.0.1:0", preexec_fn=few)
        connections = []
        try:
            if not comes(lambda: "cf: serving" in server.told() or server.is_over()):
                return ["it does not serve"]
            place = re.search(r"listening on (\S+):(\d+)", server.told())
            name = (place.group(1), int(place.group(2)))
            for _ in range(IDLE):
                connections.append(socket.create_connection(name, timeout=60))
            is_full = lambda: server.is_over() or len(os.listdir(f"/proc/{server.process.pid}/fd")) >= DESCRIPTORS
            if not comes(is_full):
                return ["its descriptors do not run out"]
            sync = Run(self.program, "sync", self.watch, "%s:%d" % name)
            try:
                comes(lambda: server.is_over() or sync.is_over(), 30)
                found = ["the server has ended: " + server.told()] if server.is_over() else []
                if server.told().count("cf: the next connection waits: Too many open files") != 1:
                    found.append("it is not told once: " + server.told())
                for connection in connections:
                    connection.close()
                return found + sync.faults(0, TEXT, "cf: peer 1: connected to the end")
            finally:
                sync.end()
        finally:
            server.end()
            for connection in connections:
                connection.close()

    def silent(self, command, is_alone):
        peers = [Peer(lambda asked: asked != command)] + [Peer()] * (not is_alone)
        run = self.sync(*peers)
        try:
            line = f"cf: peer 1: closed: Overdue, waiting for {REQUESTS[command]}"
            return run.faults(6, b"", line) if is_alone else run.faults(0, TEXT, line, "cf: peer 2: connected to the end")
        finally:
            run.end()

    def liar(self, is_first):
        peers = [Peer(chain=LIE), Peer()] if is_first else [Peer(), Peer(chain=LIE)]
        run = self.sync(*peers)
        try:
            ends = [f"closed: Omits, block {CHAIN.hashes[FALSE][::-1].hex()} at height {FALSE}", "connected to the end"][::1 if is_first else -1]
            return run.faults(0, TEXT, *(f"cf: peer {p}: {end}" for p, end in enumerate(ends, 1)))
        finally:
            run.end()

    def all(self):
        yield "dead, before an honest peer", self.dead, (True,)
        yield "dead, behind an honest peer", self.dead, (False,)
        yield "stopped, and the answer came meanwhile", self.stopped, (False,)
        yield "stopped, and the answer comes soon after", self.stopped, (True,)
        yield "unread", self.unread, ()
        yield "idle", self.idle, ()
        for command, what in REQUESTS.items():
            yield f"silent, asked for {what}", self.silent, (command, True)
        yield "silent, asked for headers, beside an honest peer", self.silent, ("getheaders", False)
        yield "liar, before an honest peer", self.liar, (True,)
        yield "liar, behind an honest peer", self.liar, (False,)


def main():
    program = os.path.abspath(sys.argv[1]) if len(sys.argv) > 1 else os.path.join(ROOT, ".build", "cf")
    bad = []
    with tempfile.TemporaryDirectory() as folder:
        def show(what, case, words):
            try:
                found = case(*words)
            except Exception as e:
                found = [repr(e)]
            bad.extend(found)
            print("\n    ".join([f"{what}: {'otherwise' if found else 'as it should be'}"] + "\n".join(found).splitlines()), flush=True)

        threads = [threading.Thread(target=show, args=case) for case in Cases(program, folder).all()]
        for thread in threads:
            thread.start()
        for thread in threads:
            thread.join()
    return 1 if bad else 0


if __name__ == "__main__":
    sys.exit(main())
