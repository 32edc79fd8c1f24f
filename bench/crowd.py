#!/usr/bin/env python3
"""Many connections to `serve`, over loopback: `crowd.py [PROGRAM]`, where PROGRAM is `.build/cf` unless it is named. Five cases, one after another:

    threads    a server that may have few threads has more silent peers than these; all leave but the one that found no thread, and then a peer comes
    ended      one connection stays, and many come and go; the server's memory and its maps may not grow with these
    memory     one connection stays, and for a second no memory is found; a peer comes then, and one comes afterwards
    deaf       nobody reads standard error, and many connections come and go; then it is read, and one line tells how many were not written
    joins      the same of a server whose chain grows, by blocks that join

A peer that comes is to be answered: its version by the server's. From where each connection comes is to be told in their order, and once how it has ended.
The figures are printed, and the status is 1 where one is above its bound, or a case ends otherwise than it says.

A limit of threads is that of a user. As root the server runs as one that has no other process, USER; the program is copied to where that one may read it.
"""
import os
import re
import resource
import shutil
import socket
import subprocess
import sys
import tempfile
import time

from conversation import THEIR_VERSION, frame
from grow import Stream, records
from network import BENCH, ROOT, Run, comes

# A user that has no process.
USER = 54321
# The threads that a server may have, and the silent peers.
THREADS, SILENT = 20, 25
# The connections that come and go, and how much the server may grow by them.
SHORT, MAPS, BYTES = 5000, 100, 16 << 20
# The connections that come and go, and the blocks that join, while nobody reads standard error: more than a pipe has room for.
DEAF, BLOCKS = 4000, 3000
# For how long no memory is found, in seconds, and how long a peer waits for its answer at most.
WANT, WAIT = 1, 20


def threads_of(user):
    """How many threads a user has."""
    found = 0
    for name in filter(str.isdigit, os.listdir("/proc")):
        try:
            if os.stat("/proc/" + name).st_uid == user:
                found += len(os.listdir(f"/proc/{name}/task"))
        except OSError:
            pass
    return found


class Server(Run):
    """A server of a file of blocks, at a port of its own."""

    def __init__(self, program, blocks, connections, **how):
        super().__init__(program, "serve", "--connections", str(connections), blocks, "127.0.0.1:0", **how)
        if not comes(lambda: "cf: serving" in self.told() or self.is_over()) or self.is_over():
            raise SystemExit("it does not serve: " + self.told())
        place = re.search(r"listening on (\S+):(\d+)", self.told())
        self.place = (place.group(1), int(place.group(2)))

    def peer(self):
        return socket.create_connection(self.place, timeout=WAIT)

    def is_answered(self, peer):
        """Whether a peer's version is answered by the server's."""
        try:
            peer.sendall(THEIR_VERSION)
            return len(peer.recv(24, socket.MSG_WAITALL)) == 24
        except OSError:
            return False

    def threads(self):
        return len(os.listdir(f"/proc/{self.process.pid}/task"))

    def size(self):
        """Its memory in bytes, and how many maps it has."""
        with open(f"/proc/{self.process.pid}/statm") as file:
            pages = int(file.read().split()[1])
        with open(f"/proc/{self.process.pid}/maps") as file:
            return pages * resource.getpagesize(), len(file.readlines())

    def comings(self):
        """The numbers of the connections that were told to have come, as they were told."""
        return [int(number) for number in re.findall(r"^cf: connection (\d+): from 127\.0\.0\.1:\d+$", self.told(), re.M)]

    def ends(self):
        """The numbers of the connections that were told to have ended, in their order."""
        return sorted(int(number) for number in re.findall(r"^cf: connection (\d+): (?!from )", self.told(), re.M))

    def faults_at_end(self, count):
        """What is otherwise than wanted once that many connections were accepted, and all have gone."""
        if not comes(self.is_over, WAIT * 10):
            return ["it has not ended"]
        found = [] if self.process.returncode == 0 else [f"status {self.process.returncode}"]
        every = list(range(1, count + 1))
        found += [] if self.comings() == every else ["the connections that came are told in another order, or not all of them"]
        return found + ([] if self.ends() == every else ["not each end is told once"])


def threads(program, blocks, folder):
    limit = {"preexec_fn": lambda: resource.setrlimit(resource.RLIMIT_NPROC, (most, most))}
    user = os.getuid()
    if user == 0:
        user = USER
        limit.update(user=USER, group=USER, extra_groups=[])
    most = threads_of(user) + THREADS
    server, peers = Server(program, blocks, SILENT + 1, **limit), []
    try:
        own = server.threads()
        for _ in range(SILENT):
            peers.append(server.peer())
        comes(lambda: server.threads() >= THREADS, 50)
        # The first that found no thread, if all before it have one.
        lacking = peers[server.threads() - own]
        for peer in peers:
            if peer is not lacking:
                peer.close()
        start = time.monotonic()
        last = server.peer()
        found = [] if server.is_answered(last) else [f"a peer that came was not answered within {WAIT} seconds"]
        print(f"    {own} threads of its own, {server.threads()} with one silent peer and one that came, which was answered after {time.monotonic() - start:.1f} s")
        lacking.close()
        last.close()
        return found + ([] if found else server.faults_at_end(SILENT + 1))
    finally:
        server.end()


def ended(program, blocks, folder):
    server = Server(program, blocks, SHORT + 2)
    try:
        stays = server.peer()
        if not server.is_answered(stays):
            return ["the first peer was not answered"]
        bytes_before, maps_before = server.size()
        start, answered = time.monotonic(), 0
        for _ in range(SHORT):
            with server.peer() as peer:
                answered += server.is_answered(peer)
        seconds = time.monotonic() - start
        bytes_after, maps_after = server.size()
        print(f"    {SHORT} connections in {seconds:.1f} s: {bytes_before >> 10} KiB and {maps_before} maps before, {bytes_after >> 10} KiB and {maps_after} maps after")
        found = [] if answered == SHORT else [f"{SHORT - answered} peers were not answered"]
        found += [] if bytes_after - bytes_before <= BYTES else [f"its memory grew by {bytes_after - bytes_before} bytes, more than {BYTES}"]
        found += [] if maps_after - maps_before <= MAPS else [f"its maps grew by {maps_after - maps_before}, more than {MAPS}"]
        found += [] if comes(lambda: server.ends() == list(range(2, SHORT + 2))) else ["not each end is told while the first connection stays"]
        stays.close()
        server.peer().close()
        return found + server.faults_at_end(SHORT + 2)
    finally:
        server.end()


def memory(program, blocks, folder):
    refusing, want = os.path.join(folder, "refuse.so"), os.path.join(folder, "want")
    subprocess.run(["cc", "-O2", "-shared", "-fPIC", "-o", refusing, os.path.join(BENCH, "refuse.c")], check=True)
    server = Server(program, blocks, 3, env=os.environ | {"LD_PRELOAD": refusing, "WHILE": want})
    try:
        stays = server.peer()
        if not server.is_answered(stays):
            return ["the first peer was not answered"]
        open(want, "w").close()
        server.peer().close()
        time.sleep(WANT)
        os.remove(want)
        if server.is_over():
            return ["the server has ended: " + server.told()]
        start = time.monotonic()
        last = server.peer()
        found = [] if server.is_answered(last) else [f"a peer that came was not answered within {WAIT} seconds"]
        print(f"    no memory for {WANT} s; a peer that came then was answered after {time.monotonic() - start:.1f} s")
        stays.close()
        last.close()
        return found + server.faults_at_end(3)
    finally:
        server.end()


def read_now(pipe):
    """What stands in a pipe now."""
    os.set_blocking(pipe.fileno(), False)
    found = b""
    while part := pipe.read(1 << 16):
        found += part
    os.set_blocking(pipe.fileno(), True)
    return found.decode()


class Deaf:
    """A server whose standard error is a pipe that nobody reads, once it has told where it listens."""

    def __init__(self, program, *words):
        self.process = subprocess.Popen([program, *words, "127.0.0.1:0"], stdin=subprocess.DEVNULL, stdout=subprocess.DEVNULL, stderr=subprocess.PIPE, bufsize=0)
        self.first = ""
        while "cf: serving" not in self.first:
            line = self.process.stderr.readline().decode()
            if not line:
                raise SystemExit("it does not serve: " + self.first)
            self.first += line
        place = re.search(r"listening on (\S+):(\d+)", self.first)
        self.place = (place.group(1), int(place.group(2)))

    peer, is_answered = Server.peer, Server.is_answered

    def faults(self, line, wanted):
        """What is otherwise than wanted of the lines that it tells: what stands in the pipe is read, a peer comes, and the server ends."""
        before = read_now(self.process.stderr)
        with self.peer() as last:
            found = [] if self.is_answered(last) else [f"a peer that came was not answered within {WAIT} seconds"]
        try:
            after = self.process.communicate(timeout=WAIT * 10)[1].decode()
        except subprocess.TimeoutExpired:
            return found + ["it has not ended"]
        written, unwritten = len(re.findall(line, before + after, re.M)), re.findall(r"^cf: (\d+) lines? w\w+ not written$", after, re.M)
        print(f"    {written} lines were written; told as not written: {', '.join(unwritten) or 'none'}")
        found += [] if self.process.returncode == 0 else [f"status {self.process.returncode}"]
        found += [] if unwritten else ["no line tells how many were not written"]
        found += [] if written + sum(map(int, unwritten)) == wanted else [f"{wanted} lines were to be written or counted"]
        return found + ([] if after.startswith("cf: ") and "not written" in after.split("\n")[0] else ["that is not the first line after the pipe was read"])


def come_and_go(server, count):
    """How many of so many peers, one after another, are answered."""
    for answered in range(count):
        try:
            with server.peer() as peer:
                if not server.is_answered(peer):
                    return answered
        except OSError:
            return answered
    return count


def deaf(program, blocks, folder):
    server = Deaf(program, "serve", "--connections", str(DEAF + 1), blocks)
    try:
        start, answered = time.monotonic(), come_and_go(server, DEAF)
        print(f"    {answered} of {DEAF} connections were answered, in {time.monotonic() - start:.1f} s")
        return ["a peer was not answered"] if answered < DEAF else server.faults(r"^cf: connection \d+: ", 2 * (DEAF + 1))
    finally:
        server.process.kill()


def joins(program, blocks, folder):
    file, made = os.path.join(folder, "base"), list(records((7, BLOCKS + 2)))
    with open(file, "wb") as base:
        base.writelines(made[:2])
    server = Deaf(program, "serve", "--grow", "--connections", "2", file)
    try:
        start, stream = time.monotonic(), Stream(f"{server.place[0]}:{server.place[1]}")
        stream.socket.settimeout(WAIT)
        try:
            stream.says(b"".join(frame("block", record[8:]) for record in made[2:]))
        except OSError:
            return ["the blocks were not taken"]
        print(f"    {BLOCKS} blocks were taken in {time.monotonic() - start:.1f} s")
        stream.socket.close()
        return server.faults(r"^cf: block \d+ has joined$|^cf: connection \d+: ", BLOCKS + 4)
    finally:
        server.process.kill()


def main():
    program = os.path.abspath(sys.argv[1]) if len(sys.argv) > 1 else os.path.join(ROOT, ".build", "cf")
    bad = False
    with tempfile.TemporaryDirectory() as folder:
        os.chmod(folder, 0o755)
        copy, blocks = os.path.join(folder, "cf"), os.path.join(folder, "blocks.dat")
        shutil.copy(program, copy)
        os.chmod(copy, 0o755)
        shutil.copy(os.path.join(ROOT, "data", "blocks.dat"), blocks)
        os.chmod(blocks, 0o644)
        for case in (threads, ended, memory, deaf, joins):
            found = case(copy, blocks, folder)
            bad = bad or bool(found)
            print("\n    ".join([f"{case.__name__}: {'otherwise' if found else 'as it should be'}"] + found), flush=True)
    return 1 if bad else 0


if __name__ == "__main__":
    sys.exit(main())
