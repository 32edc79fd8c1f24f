#!/usr/bin/env python3
"""`follow --redial` over loopback, beside nodes that stop, start again, lag and change their minds:
`redial.py [--program PROGRAM] [CASE..]`, where PROGRAM is `.build/cf` unless it is named, and all cases run unless some
are.

    start       no peer is there as it starts, and one comes
    restarts    the only node ends and starts again, RESTARTS times: as it was, and with more blocks each second time
    burst       a node tells of a burst of blocks at once, whose filters come behind: what isn't answered is overdue
    parts       a node gives up its tip for another branch, and hangs up at a request for what it gave up
    silent      the same, but the node is silent where it is asked for a block that it gave up
    network     a peer is a node of another network, which standard error says
    filters     a peer offers no filters, which standard error says
    turns       the number of deliveries is counted over all runs
    refused     words that --redial doesn't go with
    without     without the option it ends as it did

A node is played here. Each text has to be that of a scan, in Python, of one of the chains, and none may be written
twice in a row. What is waited for is looked at for PATIENCE seconds at most, and where a request has to be overdue for
OVERDUE. After all restarts the program may have no more threads than after the first. The status is 1 where a case ends
otherwise.
"""
import argparse
import contextlib
import os
import signal
import socket
import struct
import sys
import threading
import time

from conversation import compact, frame, version
from follow import Around, Follower, comes, ended, fails, texts_in
from grow import wanted
from load import PAID, ROOT, Run
from sessions import Chain

WATCHED = [bytes.fromhex(PAID)]
SEED, OTHER, BELOW, NEW = 7, 8, 30, 20
RESTARTS = 8
OVERDUE = 100
MAINNET = bytes.fromhex("f9beb4d9")
FILTERS = 65
AGAIN = "cf: all peers are dialled again in 1 seconds\n"


class Node:
    """A node at an address that stays the same. It serves a chain up to `tip`, and filters up to `indexed`. It is
    silent where it is asked for a filter that isn't there yet, and where it is asked for a block that it doesn't have;
    at a request for a filter of such a block it hangs up."""

    def __init__(self, chain, tip=None, services=FILTERS, magic=None):
        self.chain, self.tip = chain, chain.tip if tip is None else tip
        self.indexed, self.services, self.magic = self.tip, services, magic
        self.port, self.place, self.connections, self.greeted = 0, None, [], 0
        self.turn, self.lock = None, threading.Lock()
        self.starts()

    def turns_to(self, chain, command):
        """Gives up its chain for this one at the next such request."""
        self.turn = chain, command

    def starts(self):
        self.place = socket.socket()
        self.place.setsockopt(socket.SOL_SOCKET, socket.SO_REUSEADDR, 1)
        self.place.bind(("127.0.0.1", self.port))
        self.place.listen(8)
        self.port = self.place.getsockname()[1]
        self.name = f"127.0.0.1:{self.port}"
        threading.Thread(target=self.accepts, args=(self.place,), daemon=True).start()
        return self

    def ends(self):
        with contextlib.suppress(OSError):
            self.place.shutdown(socket.SHUT_RDWR)
        self.place.close()
        with self.lock:
            connections, self.connections = self.connections, []
        for connection in connections:
            with contextlib.suppress(OSError):
                connection.shutdown(socket.SHUT_RDWR)
            connection.close()

    def accepts(self, place):
        with contextlib.suppress(OSError):
            while True:
                connection, _ = place.accept()
                with self.lock:
                    self.connections.append(connection)
                threading.Thread(target=self.serves, args=(connection,), daemon=True).start()

    def framed(self, data):
        return (self.magic or data[:4]) + data[4:]

    def serves(self, connection):
        data = b""
        with contextlib.suppress(OSError, ValueError):
            while piece := connection.recv(1 << 16):
                data += piece
                while len(data) >= 24 and len(data) >= 24 + struct.unpack("<I", data[16:20])[0]:
                    size = 24 + struct.unpack("<I", data[16:20])[0]
                    answer = self.answer(data[4:16].rstrip(b"\0").decode(), data[24:size])
                    data = data[size:]
                    if answer is None:
                        connection.shutdown(socket.SHUT_RDWR)
                        return
                    connection.sendall(self.framed(answer) if answer else b"")

    def answer(self, command, payload):
        """What is answered; `None` where it hangs up."""
        if self.turn and self.turn[1] == command:
            self.chain, self.turn = self.turn[0], None
            self.tip = self.indexed = self.chain.tip
        chain = self.chain
        heights = {name: height for height, name in enumerate(chain.hashes[:self.tip + 1])}
        if command == "version":
            return version(self.services, 0, 0, b"/node/", self.tip, b"\0")
        if command == "verack":
            self.greeted += 1
            return frame("verack")
        if command == "ping":
            return frame("pong", payload)
        if command == "getheaders":
            asked = [payload[5 + 32 * i:37 + 32 * i] for i in range(payload[4])]
            first = next((heights[name] for name in asked if name in heights), 0)
            return chain.headers(first + 1, self.tip)
        if command in ("getcfheaders", "getcfilters"):
            first, last = struct.unpack("<I", payload[1:5])[0], heights.get(payload[5:])
            if last is None:
                return None
            if last > self.indexed:
                return b""
            if command == "getcfheaders":
                return chain.cfheaders(first, last)
            return b"".join(chain.cfilter(height) for height in range(first, last + 1))
        if command == "getdata":
            return chain.block(heights[payload[5:]]) if payload[5:] in heights else b""
        return b""

    def tells(self):
        """Tells of its tip."""
        news = frame("inv", compact(1) + struct.pack("<I", 2) + self.chain.hashes[self.tip])
        with self.lock:
            connections = list(self.connections)
        for connection in connections:
            with contextlib.suppress(OSError):
                connection.sendall(news)

    def last_line(self):
        return b"synced %d %s\n" % (self.tip, self.chain.hashes[self.tip][::-1].hex().encode())


def part_of(chain, tip):
    """What a scan tells of a chain up to a height."""
    found = chain.copy()
    found.blocks, found.hashes, found.tip = chain.blocks[:tip + 1], chain.hashes[:tip + 1], tip
    return found.history(WATCHED).encode()


def checked(run, *chains):
    """The texts of a run, each of which is that of one of these chains at some height, and none of which comes twice in
    a row."""
    texts, rest = texts_in(run.text())
    heights = sorted({int(text.split()[-2]) for text in texts})
    known = {part_of(chain, height) for chain in chains for height in heights if height <= chain.tip}
    wanted(not rest, "the last text is cut off:", rest)
    wanted(all(text in known for text in texts), "a text is of no such chain")
    wanted(all(text != later for text, later in zip(texts, texts[1:])), "a text is written twice")
    return texts


def redialled(run, times):
    comes(lambda: run.told().count(AGAIN) >= times, f"all are dialled again for the time {times}", run)


def threads_of(run):
    return len(os.listdir(f"/proc/{run.process.pid}/task"))


def again(around, *names):
    return Follower(around, *names, words=["--redial", "1"])


def start(around):
    chain = Chain((SEED, BELOW))
    node = Node(chain)
    node.ends()
    run = again(around, node.name)
    redialled(run, 2)
    wanted(run.size() == 0, "something is written without a peer")
    node.starts()
    run.comes_to(node.last_line())
    ended(run)
    texts = checked(run, chain)
    wanted(len(texts) == 1, "there are", len(texts), "texts")
    return "it told twice that all are dialled again, and the text came once the node was there"


def restarts(around):
    chain = Chain((SEED, BELOW + RESTARTS))
    node = Node(chain, BELOW)
    run = again(around, node.name)
    run.comes_to(node.last_line())
    first, lines = None, 1
    for number in range(RESTARTS):
        node.ends()
        redialled(run, number + 1)
        greeted = node.greeted
        if number % 2:
            node.tip = node.indexed = node.tip + 1
            lines += 1
        node.starts()
        comes(lambda: node.greeted > greeted, "it is greeted again", run)
        run.comes_to(node.last_line())
        time.sleep(0.5)
        first = first or threads_of(run)
    threads = threads_of(run)
    ended(run)
    texts = checked(run, chain)
    wanted(len(texts) == lines, "there are", len(texts), "texts, and not", lines)
    wanted(threads <= first, "of threads there are", threads, "and after the first restart there were", first)
    return f"{RESTARTS} restarts, {lines} texts, and {threads} threads at the end as after the first"


def burst(around):
    chain = Chain((SEED, BELOW + NEW))
    node = Node(chain, BELOW)
    run = again(around, node.name)
    run.comes_to(node.last_line())
    node.tip = chain.tip
    node.tells()
    comes(lambda: AGAIN in run.told(), "it is closed for what is overdue, and dialled again", run, OVERDUE)
    node.indexed = node.tip
    # The first dial came before the index was there, or behind it.
    comes(lambda: run.has_told(node.last_line()), "the last text comes", run, OVERDUE)
    ended(run)
    wanted("Overdue" in run.told(), "standard error doesn't tell that it was overdue", run.told())
    texts = checked(run, chain)
    return f"{NEW} blocks without filters were overdue, and the next run found these; {len(texts)} texts"


def parting(around, command):
    """A node that gives up its tip for a longer branch just as it is asked so about the new blocks."""
    first, second = Chain((SEED, BELOW + NEW)), Chain((SEED, BELOW), (OTHER, NEW + 1))
    node = Node(first, BELOW)
    run = again(around, node.name)
    run.comes_to(node.last_line())
    node.turns_to(second, command)
    node.tip = node.indexed = first.tip
    node.tells()
    line = b"synced %d %s\n" % (second.tip, second.hashes[-1][::-1].hex().encode())
    comes(lambda: run.has_told(line), "the text of the branch comes", run, OVERDUE)
    ended(run)
    wanted(AGAIN in run.told(), "all are dialled again", run.told())
    return checked(run, first, second), run.told()


def parts(around):
    texts, told = parting(around, "getcfilters")
    wanted("gone" in told and "Overdue" not in told, "it says", told)
    return f"it hung up, and the text of the other branch came with the next run; {len(texts)} texts"


def silent(around):
    texts, told = parting(around, "getdata")
    wanted("Overdue" in told, "it says", told)
    return f"what the node was silent to was overdue, and the text of the other branch came; {len(texts)} texts"


def network(around):
    node = Node(Chain((SEED, BELOW)), magic=MAINNET)
    run = again(around, node.name)
    redialled(run, 2)
    ended(run)
    wanted("cf: peer 1 is a node of mainnet, and not of regtest\n" in run.told(), "it says", run.told())
    node.magic = b"HTTP"
    run = again(around, node.name)
    redialled(run, 1)
    ended(run)
    wanted("cf: peer 1 is of another network, or no Bitcoin node\n" in run.told(), "it says", run.told())
    return "standard error says so"


def filters(around):
    node = Node(Chain((SEED, BELOW)), services=1)
    run = again(around, node.name)
    redialled(run, 1)
    node.services = FILTERS
    run.comes_to(node.last_line())
    ended(run)
    wanted("-blockfilterindex=1 -peerblockfilters=1" in run.told(), "it says", run.told())
    return "standard error says so, and once it offers them the text comes"


def turns(around):
    node = Node(Chain((SEED, BELOW)), services=1)
    run = Follower(around, node.name, words=["--redial", "1", "--turns=5"])
    run.ends(6, 7)
    times = run.told().count(AGAIN)
    wanted(1 <= times <= 5 and node.greeted <= 5, "it dialled again", times, "times")
    return f"5 deliveries were taken in {times + 1} runs"


def refused(around):
    number = "error: SECONDS of --redial is a number from 1 to 3600\n"
    rows = (
        (["--redial", "0"], number),
        (["--redial", "3601"], number),
        (["--redial=x"], number),
        (["--redial="], number),
        (["--redial", "5", "--redial", "6"], "error: --redial stands there twice\n"),
        (["--redial", "5", "--record", "r"], "error: --redial doesn't go with --record\n"),
    )
    watch = around.watch["paid"]
    for words, text in rows:
        run = Run([around.program, "follow", *words, watch, "127.0.0.1:1"]).join()
        wanted((run.status, run.text(), run.told()) == (2, b"", text), words, run.status, run.told())
    run = Run([around.program, "follow", watch, "127.0.0.1:1", "--redial"]).join()
    wanted((run.status, run.told()) == (2, number), run.status, run.told())
    run = Run([around.program, "sync", "--redial", "5", watch, "127.0.0.1:1"]).join()
    wanted(run.status == 2 and "--redial" in run.told(), run.status, run.told())
    run = Run([around.program, "follow", "--redial", "5", watch]).join()
    wanted(run.status == 2 and "peer" in run.told(), run.status, run.told())
    run = Run([around.program, "follow", "--redial", "5", watch + "-none", "127.0.0.1:1"]).join()
    wanted(run.status == 4, run.status, run.told())
    return f"{len(rows) + 4} calls"


def without(around):
    node = Node(Chain((SEED, BELOW)))
    run = Follower(around, node.name)
    run.comes_to(node.last_line())
    node.ends()
    run.ends(6)
    wanted("again" not in run.told(), "it says", run.told())
    return "status 6"


CASES = (start, restarts, burst, parts, silent, network, filters, turns, refused, without)


def main():
    words = argparse.ArgumentParser()
    words.add_argument("--program", default=os.path.join(ROOT, ".build", "cf"))
    words.add_argument("cases", nargs="*")
    given = words.parse_args()
    signal.signal(signal.SIGINT, signal.default_int_handler)
    bad = [fails(given.program, case) for case in CASES if not given.cases or case.__name__ in given.cases]
    return 1 if any(bad) else 0


if __name__ == "__main__":
    sys.exit(main())
