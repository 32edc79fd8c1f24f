#!/usr/bin/env python3
"""`serve --grow` over loopback: `grow.py [--program PROGRAM] [CASE..]`, where PROGRAM is `.build/cf` unless it is named, and all cases run unless some are.

    readers   eight peers ask all kinds of things while one brings 1,000 blocks, one by one
    same      eight bring the same block at once, again and again
    refused   eight bring blocks that break one rule each, at once
    large     eight bring 1,000,000 bytes at once: blocks that may not stand there, one that may, bytes that are no block
    entries   eight send an `inv` of 50,000 blocks at once
    cut       peers send the first half of a block, and no more; one goes on later, and one leaves
    unread    peers ask for more than they read, one of which brings blocks too; the others are answered meanwhile
    closed    each of eight brings a block and is gone
    cost      what a block costs that joins a chain of 100,000 blocks, beside what `scan` takes to check it; and what one costs that spends wrongly

Each answer is compared with that of the server in growing.py by the chain as it stood at some moment: the moments of a connection go forward, and none is
before the last one that anybody had seen when the message was sent. After each case the chain is read whole, and standard error has told each block
that joined once, and a second server of the same file serves the chain of the file. No peer waits for longer than PATIENCE seconds.

Of `cost` the processor's time counts, the least of TRIES runs that take turns. The status is 1 where a case ends otherwise, or where a block that joins costs more
than MOST times what its check costs.
"""
import argparse
import functools
import os
import random
import socket
import struct
import sys
import tempfile
import threading
import time

from conversation import MAGIC, THEIR_VERSION, double, frame, getheaders, of_range, version
from growing import answer_of, bad_blocks, entries, entry, large_block, listed, made, mined, news, paying, up_to, with_block
from load import ROOT, Run, address_of, connected
from made_chain import coinbase, records

SEED, BELOW, JOINED = 7, 40, 1_000
SIDE_BY_SIDE = 8
PATIENCE = 30
TRIES, MOST = 9, 2
HIGH, MORE = 100_000, 20_000
OUTPUTS = 10


class Otherwise(Exception):
    """What is otherwise than wanted."""


def wanted(is_so, *what):
    if not is_so:
        raise Otherwise(" ".join(str(each) for each in what))


class Growth:
    """All that a chain may grow to, beginning at a height; and how high it was brought and seen."""

    def __init__(self, chain, base):
        self.chain, self.base, self.seen, self.brought = chain, base, base, base
        self.heights = {name: height for height, name in enumerate(chain.hashes)}
        self.at = functools.cache(functools.partial(up_to, chain))


# ---- peers

class Peer:
    """A peer of a server, and the height of the tip that it was told of. What it is answered is compared with what may be answered."""

    def __init__(self, address, growth, window=0):
        self.growth, self.waiting, self.number = growth, b"", 0
        host, port = address.rsplit(":", 1)
        self.socket = socket.socket()
        if window:
            self.socket.setsockopt(socket.SOL_SOCKET, socket.SO_RCVBUF, window)
        self.socket.settimeout(PATIENCE)
        self.socket.connect((host, int(port)))
        self.socket.setsockopt(socket.IPPROTO_TCP, socket.TCP_NODELAY, 1)
        floor = growth.seen
        self.send(THEIR_VERSION)
        told = self.frame()
        moment, nonce, height = struct.unpack("<q", told[36:44])[0], struct.unpack("<Q", told[96:104])[0], struct.unpack("<i", told[-5:-1])[0]
        wanted(told == version(65, moment, nonce, b"/cf:1/", height, b"\0"), "another version:", told.hex())
        wanted(self.frame() == frame("verack"), "no verack")
        wanted(floor <= height <= growth.brought, "the version tells", height, "and not", floor, "to", growth.brought)
        self.mark = height

    def __enter__(self):
        return self

    def __exit__(self, *_):
        self.socket.close()

    def send(self, data):
        self.socket.sendall(data)

    def frame(self):
        """The next frame."""
        while len(self.waiting) < 24 or len(self.waiting) < 24 + int.from_bytes(self.waiting[16:20], "little"):
            piece = self.socket.recv(1 << 20)
            wanted(piece, "the connection is closed, and an answer is owed")
            self.waiting += piece
        size = 24 + int.from_bytes(self.waiting[16:20], "little")
        found, self.waiting = self.waiting[:size], self.waiting[size:]
        return found

    def ask(self, *messages, sent=0):
        """Sends messages, of which so many bytes were sent before, and a ping behind them."""
        self.number += 1
        self.asked = [*messages, frame("ping", struct.pack("<Q", self.number))]
        self.floor = self.growth.seen
        self.send(b"".join(self.asked)[sent:])

    def hear(self):
        """Reads up to the last answer, and finds the moments at which each message may have been answered so."""
        last, found = frame("pong", struct.pack("<Q", self.number)), [self.frame()]
        while found[-1] != last:
            found.append(self.frame())
        written, growth = b"".join(found), self.growth
        states = {(self.mark, 0)}
        for place, message in enumerate(self.asked):
            command, payload = message[4:16].rstrip(b"\0").decode(), message[24:]
            states = {state for before in states for state in self.answered(command, payload, written, *before)}
            if place == 0:
                states = {state for state in states if state[0] >= self.floor}
        states = {mark for mark, at in states if at == len(written) and mark <= growth.brought}
        wanted(states, "at", self.mark, "with", self.floor, "seen and", growth.brought, "brought,", b"".join(self.asked)[:2000].hex(), "is answered by", written[:2000].hex())
        self.mark = min(states)
        growth.seen = max(growth.seen, self.mark)
        return written

    def answered(self, command, payload, written, mark, at):
        """The marks that this message may leave, and the places behind its answer."""
        growth, heights = self.growth, [mark]
        told = growth.heights.get(written[at + 29:at + 61])
        if told is not None and told > mark and written.startswith(news(growth.at(told), mark), at):
            heights.append(told)
        for height in heights:
            answer = news(growth.at(height), mark) + answer_of(growth.at(height), command, payload)
            if written.startswith(answer, at):
                yield height, at + len(answer)

    def says(self, *messages, sent=0):
        self.ask(*messages, sent=sent)
        return self.hear()

    def is_closed(self):
        """Whether the server closes the connection, by and by."""
        try:
            while self.socket.recv(1 << 20):
                pass
            return True
        except ConnectionError:
            return True
        except TimeoutError:
            return False

    def brings(self, height):
        """Brings the block of this height, and is told of it."""
        self.growth.brought = max(self.growth.brought, height)
        self.says(frame("block", self.growth.chain.blocks[height]))
        wanted(self.mark >= height, "block", height, "is brought, and the tip told is", self.mark)


def side_by_side(*calls):
    """Calls in threads. What is otherwise in one of them is so in all."""
    found = []

    def call(what):
        try:
            what()
        except Exception as e:
            found.append(e)

    threads = [threading.Thread(target=call, args=(what,)) for what in calls]
    for thread in threads:
        thread.start()
    for thread in threads:
        thread.join()
    if found:
        raise found[0]


def timed(times, what, *words):
    """A call, whose seconds are put to the others."""
    before = time.monotonic()
    what(*words)
    times.append(time.monotonic() - before)


def questions(some, peer):
    """What a peer may ask: about its own chain, and about what may come."""
    growth, top = peer.growth, peer.mark
    hashes = growth.chain.hashes
    height = some.randint(0, top)
    unknown = some.randbytes(32)
    last = min(top, height + some.randint(0, 20))
    ahead = hashes[min(len(hashes) - 1, top + some.randint(1, 3))]
    return some.choice([
        [],
        [getheaders([hashes[height]], bytes(32))],
        [getheaders([unknown, hashes[top]], bytes(32))],
        [getheaders([], ahead)],
        [of_range("getcfheaders", 0, height, hashes[top])],
        [of_range("getcfilters", 0, height, hashes[last])],
        [of_range("getcfilters", 0, height, ahead)],
        [frame("getcfcheckpt", b"\0" + hashes[top])],
        [listed("getdata", [entry(hashes[height]), entry(ahead), entry(hashes[last])])],
        [listed("inv", [entry(hashes[height]), entry(unknown), entry(ahead)])],
        [frame("verack"), getheaders([hashes[top]], bytes(32)), listed("getdata", [entry(ahead)])],
    ])


# ---- servers

class Serving:
    """A server of the first blocks of a chain that grows."""

    def __init__(self, program, folder, chain, tip):
        self.program, self.growth = program, Growth(chain, tip)
        self.file = os.path.join(folder, "blocks")
        with open(self.file, "wb") as file:
            file.writelines(MAGIC + struct.pack("<I", len(block)) + block for block in chain.blocks[1:tip + 1])
        self.start()

    def start(self):
        self.run = Run([self.program, "serve", "--grow", self.file, "127.0.0.1:0"])
        self.address = address_of(self.run)

    def peer(self, **how):
        return Peer(self.address, self.growth, **how)

    def stop(self):
        self.run.stop()
        self.run.join()

    def check(self):
        """The chain is read whole, and what was told on standard error is compared; then the file is served once more."""
        growth = self.growth
        with self.peer() as peer:
            hashes, tip = growth.chain.hashes, growth.seen
            wanted(peer.mark == tip, "the tip is", peer.mark, "and not", tip)
            for first in range(0, tip + 1, 500):
                last = hashes[min(tip, first + 499)]
                peer.says(getheaders([hashes[first]], bytes(32)), of_range("getcfheaders", 0, first, last), of_range("getcfilters", 0, first, last))
                peer.says(listed("getdata", [entry(name) for name in hashes[first:first + 500]]))
        joined = [line for line in self.run.told().splitlines() if line.endswith("has joined")]
        lines = ["cf: block %d has joined" % height for height in range(growth.base + 1, growth.seen + 1)]
        wanted(sorted(joined) == sorted(lines), "standard error tells", joined[-5:], "and not", lines[-5:])
        self.stop()
        self.start()
        line = "cf: serving %d %s" % (growth.base, growth.chain.hashes[growth.base][::-1].hex())
        wanted(line in self.run.told().splitlines(), "a second start tells", self.run.told(), "and not", line)
        self.stop()


# ---- cases

def readers(serving):
    growth, is_over = serving.growth, threading.Event()
    rounds = [0] * SIDE_BY_SIDE

    def write():
        try:
            with serving.peer() as peer:
                for height in range(growth.base + 1, growth.chain.tip + 1):
                    peer.brings(height)
        finally:
            is_over.set()

    def read(number):
        some = random.Random(number)
        with serving.peer() as peer:
            while not is_over.is_set():
                peer.says(*questions(some, peer))
                rounds[number] += 1
            peer.says()
            wanted(peer.mark == growth.seen, "a reader is told", peer.mark, "and not", growth.seen)

    side_by_side(write, *(functools.partial(read, number) for number in range(SIDE_BY_SIDE)))
    return f"{growth.chain.tip - growth.base} blocks were brought, and {sum(rounds)} questions asked meanwhile, at least {min(rounds)} by each of {SIDE_BY_SIDE}"


def same(serving):
    growth, together = serving.growth, threading.Barrier(SIDE_BY_SIDE)

    def bring():
        with serving.peer() as peer:
            for height in range(growth.base + 1, growth.chain.tip + 1):
                together.wait(PATIENCE)
                growth.brought = height
                peer.says(frame("block", growth.chain.blocks[height]))
                wanted(peer.mark == height, "the tip told is", peer.mark, "and not", height)

    side_by_side(*[bring] * SIDE_BY_SIDE)
    return f"each of {growth.chain.tip - growth.base} blocks was brought by {SIDE_BY_SIDE} at once"


def refused(serving):
    growth = serving.growth
    bad = list(bad_blocks(growth.at(growth.base), made((9, 5))))

    def bring(number):
        some = random.Random(number)
        with serving.peer() as peer:
            for what, block in some.sample(bad, len(bad)):
                name = double(block[:80])
                written = peer.says(frame("block", block), listed("getdata", [entry(name)] * (name not in growth.heights)))
                wanted(len(written) == 32, what, "is answered by", written.hex())
            peer.says(*(frame("block", block) for _, block in bad))

    side_by_side(*(functools.partial(bring, number) for number in range(SIDE_BY_SIDE)))
    with serving.peer() as peer:
        for height in range(growth.base + 1, growth.chain.tip + 1):
            peer.brings(height)
    return f"{len(bad)} bad blocks, twice by each of {SIDE_BY_SIDE}, and then {growth.chain.tip - growth.base} good ones"


def whole(parts):
    return b"".join(part * times for part, times in parts)


def large(serving):
    growth = serving.growth
    below, good = whole(large_block(growth.chain.blocks[growth.base - 1])), growth.chain.blocks[-1]
    peers, watching = [serving.peer() for _ in range(SIDE_BY_SIDE)], serving.peer()

    def all_say(data):
        is_over = threading.Event()

        def say():
            try:
                side_by_side(*(functools.partial(peer.says, frame("block", data)) for peer in peers))
            finally:
                is_over.set()

        def watch():
            while not is_over.is_set():
                watching.says(getheaders([growth.chain.hashes[0]], bytes(32)))

        side_by_side(say, watch)

    all_say(below)
    growth.brought = growth.chain.tip
    all_say(good)
    wanted(all(peer.mark == growth.chain.tip for peer in peers), "the tips told are", [peer.mark for peer in peers])
    for peer in peers:
        peer.says(listed("getdata", [entry(growth.chain.hashes[-1])]), of_range("getcfilters", 0, 0, growth.chain.hashes[-1]))
        peer.send(frame("block", bytes(1_000_000)))
    wanted(all(peer.is_closed() for peer in peers), "a peer isn't closed that sends bytes that are no block")
    watching.says()
    return f"{SIDE_BY_SIDE} times 1000000 bytes each: a block that may not stand there, one that may, and bytes that are no block"


def many_entries(serving):
    growth = serving.growth
    unknown = entry(bytes(range(32)))
    half = entries(unknown, entry(growth.chain.hashes[3]), times=25_000).whole()
    all_unknown = entries(unknown, times=50_000).whole()

    took = []

    def flood():
        with serving.peer() as peer:
            for data in (all_unknown, half, all_unknown):
                wanted(len(peer.says(data)) > 900_000, "not all are asked for")

    def bring():
        with serving.peer() as peer:
            for height in range(growth.base + 1, growth.chain.tip + 1):
                timed(took, peer.brings, height)

    side_by_side(bring, *[flood] * SIDE_BY_SIDE)
    return f"an `inv` of 50000 entries three times by each of {SIDE_BY_SIDE}, beside {growth.chain.tip - growth.base} blocks, of which the slowest took {max(took):.3f} s"


def cut(serving):
    growth, top = serving.growth, serving.growth.base + 1
    block, half = frame("block", growth.chain.blocks[top]), 80
    later, gone = serving.peer(), serving.peer()
    for peer in later, gone:
        peer.send(block[:half])
    with serving.peer() as peer:
        peer.says()
        gone.socket.close()
        peer.says()
        peer.brings(top)
        later.says(block, sent=half)
        wanted(later.mark == top, "the tip told is", later.mark, "and not", top)
        # One that stays so to the end.
        later.send(frame("block", growth.chain.blocks[top + 1])[:half])
        peer.brings(top + 1)
    return "one went on once the block had come from another peer, one had gone, and one stayed"


def unread(serving):
    growth = serving.growth
    hashes, base, top = growth.chain.hashes, growth.base, growth.chain.tip
    asked = listed("getdata", [entry(name) for name in hashes[1:base + 1]] * 10) * 200
    silent = [serving.peer(window=4096) for _ in range(3)]
    # The first one brings a block before it asks on.
    growth.brought = base + 1
    silent[0].send(frame("block", growth.chain.blocks[base + 1]))
    sent = [0] * len(silent)
    for number, peer in enumerate(silent):
        peer.socket.settimeout(2)
        try:
            while sent[number] < 50 * len(asked):
                sent[number] += peer.socket.send(asked)
        except TimeoutError:
            pass
    took, began = [], time.monotonic()

    def read():
        with serving.peer() as peer:
            for _ in range(50):
                timed(took, peer.says, getheaders([hashes[base]], bytes(32)))

    def bring():
        with serving.peer() as peer:
            for height in range(base + 2, top + 1):
                timed(took, peer.brings, height)

    side_by_side(bring, *[read] * SIDE_BY_SIDE)
    seconds = time.monotonic() - began
    wanted(seconds < PATIENCE, "it took", seconds, "seconds")
    for peer in silent:
        peer.socket.close()
    return f"{top - base - 1} blocks in {seconds:.2f} s, beside three that had asked by {min(sent)} bytes and more; the slowest of {len(took)} answers took {max(took):.3f} s"


def closed(serving):
    growth = serving.growth
    for height in range(growth.base + 1, growth.chain.tip + 1):
        growth.brought = height
        with serving.peer() as peer:
            peer.send(frame("block", growth.chain.blocks[height]))
            peer.socket.shutdown(socket.SHUT_WR)
            wanted(peer.is_closed(), "the connection isn't closed")
        growth.seen = height
    return f"{growth.chain.tip - growth.base} blocks, each by a peer that was gone with it"


# ---- what a block costs

def seconds_of(run):
    """The processor's time that a process has taken so far, user and system."""
    return time.clock_gettime(~run.process.pid << 3 | 2)


class Stream:
    """A connection that sends blocks, and reads up to a pong what comes."""

    def __init__(self, address):
        self.socket, self.number, self.rest = connected(address), 0, b""
        self.socket.setsockopt(socket.IPPROTO_TCP, socket.TCP_NODELAY, 1)
        self.says(THEIR_VERSION)

    def says(self, data):
        self.number += 1
        number = struct.pack("<Q", self.number)
        thread = threading.Thread(target=self.socket.sendall, args=(data + frame("ping", number),))
        thread.start()
        last = frame("pong", number)
        while not self.rest.endswith(last):
            piece = self.socket.recv(1 << 20)
            wanted(piece, "the connection is closed")
            self.rest = self.rest[-len(last):] + piece
        thread.join()


def joins(program, file, first, more, bad):
    """The processor's time that a server takes: for the first block that joins, for all later ones, and for one that spends wrongly."""
    server = Run([program, "serve", "--grow", "--connections", "1", file, "127.0.0.1:0"])
    stream, times = Stream(address_of(server)), []
    for data in (first, more, bad):
        before = seconds_of(server)
        stream.says(data)
        times.append(seconds_of(server) - before)
    stream.socket.close()
    server.join()
    wanted("cf: block %d has joined" % (HIGH + MORE) in server.told(), "not all blocks have joined:", server.told()[-500:])
    return times


def cost(program, folder, outputs):
    """Tells what a block costs, with so many outputs more, and whether that is more than is wanted."""
    low, high, watch = (os.path.join(folder, name) for name in ("low", "high", "watch"))
    all_records = list(records((SEED, HIGH + MORE), others=outputs))
    for name, count in ((low, HIGH), (high, HIGH + MORE)):
        with open(name, "wb") as file:
            file.writelines(all_records[:count])
    with open(watch, "w") as file:
        file.write("01107551\n")
    blocks = [frame("block", record[8:]) for record in all_records[HIGH:]]
    below = all_records[-1][8:]
    bad = frame("block", mined(below, [coinbase(SEED, HIGH + MORE + 1), paying(bytes(32), 0)]))
    scans, runs = [], []
    for _ in range(TRIES):
        scans.append([Run([program, "scan", file, watch]).join().processor for file in (low, high)])
        runs.append(joins(program, low, blocks[0], b"".join(blocks[1:]), bad))
    few, many = (min(each) for each in zip(*scans))
    first, later, wrong = (min(each) for each in zip(*runs))
    check, join = (many - few) / MORE, later / (MORE - 1)
    size = len(all_records[-1]) - 8
    print(
        f"cost, blocks of {size} bytes: {check * 1e6:.1f} microseconds a block for its check by scan ({few / HIGH * 1e6:.1f} from the first one on), "
        f"{join * 1e6:.1f} for one that joins, {join / check:.2f} times; {MOST} is the most that is wanted. "
        f"The first one that joins {first:.3f} s, and one that spends wrongly {wrong:.3f} s; scan {few:.2f} s",
        flush=True,
    )
    return join > MOST * check


# ---- all of it

def a_chain(tip, base):
    return lambda: (made((SEED, tip)), base)


def a_large_block():
    chain = made((SEED, BELOW))
    return with_block(chain, whole(large_block(chain.blocks[-1]))), BELOW


CASES = {
    "readers": (readers, a_chain(BELOW + JOINED, BELOW)),
    "same": (same, a_chain(BELOW + 200, BELOW)),
    "refused": (refused, a_chain(12, 4)),
    "large": (large, a_large_block),
    "entries": (many_entries, a_chain(BELOW + 20, BELOW)),
    "cut": (cut, a_chain(BELOW + 2, BELOW)),
    "unread": (unread, a_chain(BELOW + 50, BELOW)),
    "closed": (closed, a_chain(BELOW + SIDE_BY_SIDE, BELOW)),
}


def shown(program, name):
    """Runs a case, and tells whether it ends otherwise than wanted."""
    case, chain_and_base = CASES[name]
    with tempfile.TemporaryDirectory() as folder:
        serving = Serving(program, folder, *chain_and_base())
        try:
            text = case(serving)
            serving.check()
            print(f"{name}: as it should be: {text}", flush=True)
            return False
        except Exception as e:
            print(f"{name}: otherwise: {e!r}\n{serving.run.told()[-2000:]}", flush=True)
            return True
        finally:
            serving.stop()


def main():
    words = argparse.ArgumentParser()
    words.add_argument("--program", default=os.path.join(ROOT, ".build", "cf"))
    words.add_argument("cases", nargs="*")
    given = words.parse_args()
    bad = [shown(given.program, name) for name in CASES if not given.cases or name in given.cases]
    if not given.cases or "cost" in given.cases:
        with tempfile.TemporaryDirectory() as folder:
            bad += [cost(given.program, folder, outputs) for outputs in (0, OUTPUTS)]
    return 1 if any(bad) else 0


if __name__ == "__main__":
    sys.exit(main())
