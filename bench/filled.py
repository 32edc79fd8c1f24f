#!/usr/bin/env python3
"""What `serve` holds of its peers, over loopback: `filled.py [--program PROGRAM] [CASE..]`, where PROGRAM is `.build/cf` unless it is named, and all cases
run unless some are:

    unread    peers ask for 50,000 blocks in one message, or for the filters of 1,000 blocks, and read nothing, over a chain that stands still and over
              one that grows: what is held of each
    askers    40 peers ask for 1,000 filters again and again, and read them, of a chain that grows; how long a ping waits beside them
    blocks    60 blocks of 1,000,000 bytes are brought to a chain that grows: what is held then
    bad       four bring the same bad block of 990,000 bytes over and over: what a block costs, and how long a ping waits beside them
    judged    four bring bad blocks of thousands of transactions, each another, and one of them good ones between them: the same

The figures are printed, and the status is 1 where one is above its bound: EACH bytes for a peer that reads nothing, WAIT seconds for a ping.
"""
import argparse
import functools
import os
import resource
import socket
import struct
import sys
import tempfile
import threading
import time
from hashlib import sha256

from conversation import MAGIC, THEIR_VERSION, compact, double, frame, of_range
from growing import entry, listed, made, mined
from load import ROOT, Run, address_of, connected
from made_chain import coinbase

# A chain's blocks, and the outputs of each, to a script of its own.
BLOCKS, OUTPUTS = 1_000, 1_200
# The peers that read nothing, and what may be held of each.
SILENT, EACH = 20, 1_000_000
# By these the C library gives back at once what is freed. Else it keeps some megabytes for each of its heaps, of which there are eight for a processor.
GIVING_BACK = {"MALLOC_MMAP_THRESHOLD_": "131072", "MALLOC_TRIM_THRESHOLD_": "131072"}
# The peers that ask, for how long, and how long a ping may wait beside them, in seconds.
ASKERS, SECONDS, WAIT = 40, 8, 1.5
LARGE, SIZE = 60, 1_000_000
BRINGERS, TIMES, BAD = 4, 25, 990_000


def wide_blocks():
    """The blocks of a chain, of which each pays many scripts."""
    below = made((7, 1)).blocks[0]
    for height in range(1, BLOCKS + 1):
        front = coinbase(7, height)[:-(1 + 8 + 5 + 4)]
        scripts = (sha256(struct.pack("<II", height, place)).digest()[:7] for place in range(OUTPUTS))
        tx = front + compact(OUTPUTS) + b"".join(bytes(8) + b"\x07" + script for script in scripts) + bytes(4)
        below = mined(below, [tx])
        yield below


class Server:
    """A server of a file, at a port of its own."""

    def __init__(self, program, file, *options):
        self.run = Run([program, "serve", *options, file, "127.0.0.1:0"])
        self.address = address_of(self.run)

    def size(self):
        """Its memory in bytes, once that stays for half a second, or after ten."""
        before = -1
        for _ in range(20):
            with open(f"/proc/{self.run.process.pid}/statm") as file:
                size = int(file.read().split()[1]) * resource.getpagesize()
            if abs(size - before) < 65_536:
                break
            before = size
            time.sleep(0.5)
        return size

    def seconds(self):
        """The processor's time that it took."""
        with open(f"/proc/{self.run.process.pid}/stat") as file:
            fields = file.read().rsplit(")", 1)[1].split()
        return (int(fields[11]) + int(fields[12])) / os.sysconf("SC_CLK_TCK")

    def peer(self, window=0):
        """A connection whose version was answered."""
        host, port = self.address.rsplit(":", 1)
        peer = socket.socket()
        if window:
            peer.setsockopt(socket.SOL_SOCKET, socket.SO_RCVBUF, window)
        peer.settimeout(60)
        peer.connect((host, int(port)))
        peer.setsockopt(socket.IPPROTO_TCP, socket.TCP_NODELAY, 1)
        peer.sendall(THEIR_VERSION)
        take(peer, 2)
        return peer

    def stop(self):
        self.run.stop()
        self.run.join()


def some_bytes(peer, count):
    data = bytearray()
    while len(data) < count:
        piece = peer.recv(min(1 << 20, count - len(data)))
        if not piece:
            raise SystemExit("the connection is closed, and an answer is owed")
        data += piece
    return bytes(data)


def take(peer, count):
    """Reads so many frames, and gives the last one."""
    for _ in range(count):
        head = some_bytes(peer, 24)
        last = head + some_bytes(peer, int.from_bytes(head[16:20], "little"))
    return last


def pings(server, is_over):
    """How long each ping waits until the others are over."""
    waits, number = [], 0
    with server.peer() as peer:
        while not is_over.is_set():
            number += 1
            ping, before = struct.pack("<Q", number), time.monotonic()
            peer.sendall(frame("ping", ping))
            # What is told of a new tip may come before.
            while take(peer, 1) != frame("pong", ping):
                pass
            waits.append(time.monotonic() - before)
            time.sleep(0.02)
    return waits


def beside(server, *calls):
    """Calls in threads, and how long each ping waits beside them."""
    is_over = threading.Event()
    threads = [threading.Thread(target=call) for call in calls]
    for thread in threads:
        thread.start()

    def end():
        for thread in threads:
            thread.join()
        is_over.set()

    ending = threading.Thread(target=end)
    ending.start()
    waits = pings(server, is_over)
    ending.join()
    return waits


# ---- cases

def unread_peer(server, message):
    """A peer whose answer has begun to come."""
    peer = server.peer(4096)
    peer.sendall(message)
    peer.recv(1, socket.MSG_PEEK)
    return peer


def held_of_each(program, file, options, message):
    """How much memory a server takes for each peer that sends a message and reads nothing."""
    server = Server(program, file, *options)
    try:
        # What a first peer leaves behind isn't counted.
        peers = [unread_peer(server, message)]
        before = server.size()
        peers += [unread_peer(server, message) for _ in range(SILENT)]
        return (server.size() - before) // SILENT
    finally:
        server.stop()


def unread(program, file, names):
    found = []
    asked = {
        "50,000 blocks": listed("getdata", [entry(names[1 + place % BLOCKS]) for place in range(50_000)]),
        "1,000 filters": of_range("getcfilters", 0, 1, names[BLOCKS]),
    }
    for options in ((), ("--grow",)):
        for what, message in asked.items():
            usual = held_of_each(program, file, options, message)
            os.environ.update(GIVING_BACK)
            held = held_of_each(program, file, options, message)
            for name in GIVING_BACK:
                del os.environ[name]
            print(f"    {' '.join(('serve', *options))}: {what}, of which nothing is read: {held:,} bytes each; {usual:,} with what the C library keeps")
            found += [f"more than {EACH:,} bytes each"] if held > EACH else []
    return found


def askers(program, file, names):
    server, message = Server(program, file, "--grow"), of_range("getcfilters", 0, 1, names[BLOCKS])
    end, rounds = time.monotonic() + SECONDS, []

    def ask():
        with server.peer() as peer:
            while time.monotonic() < end:
                peer.sendall(message)
                take(peer, BLOCKS)
                rounds.append(1)

    try:
        before = server.size()
        waits = beside(server, *[ask] * ASKERS)
        print(f"    {ASKERS} peers were answered {len(rounds)} times; the longest of {len(waits)} pings waited {max(waits):.3f} s; {server.size() - before:,} bytes more are held")
    finally:
        server.stop()
    return [f"a ping waited more than {WAIT} s"] if max(waits) > WAIT else []


def large_block(below, height):
    """A block of SIZE bytes, most of them in one script."""
    front = coinbase(7, height)[:-(1 + 8 + 5 + 4)] + b"\1" + bytes(8)
    zeros = SIZE - 81 - len(front) - 5 - 4
    return mined(below, [front + compact(zeros) + bytes(zeros) + bytes(4)])


def blocks(program, file, names, top):
    server = Server(program, file, "--grow")
    try:
        before, began = server.size(), time.monotonic()
        with server.peer() as peer:
            for number in range(1, LARGE + 1):
                top = large_block(top, BLOCKS + number)
                ping = struct.pack("<Q", number)
                peer.sendall(frame("block", top) + frame("ping", ping))
                while take(peer, 1) != frame("pong", ping):
                    pass
        held = server.size() - before
        joined = server.run.told().count("has joined")
        print(f"    {joined} blocks of {SIZE:,} bytes joined in {time.monotonic() - began:.1f} s; {held:,} bytes are held, {held / SIZE / LARGE:.1f} times what was sent")
    finally:
        server.stop()
    return [] if joined == LARGE else ["not all blocks joined"]


def bad(program, file, names, top):
    # It spends what no block has made.
    server, spends = Server(program, file, "--grow"), b"\1\0\0\0\1" + bytes([9]) * 32 + bytes(5) + b"\xff\xff\xff\xff"
    pays = (BAD - 400) // 16
    tx = spends + compact(pays) + (bytes(8) + b"\x07" + bytes(7)) * pays + bytes(4)
    message, took = frame("block", mined(top, [coinbase(7, BLOCKS + 1), tx])), []

    def bring():
        with server.peer() as peer:
            for number in range(TIMES):
                ping = struct.pack("<Q", number)
                peer.sendall(message + frame("ping", ping))
                take(peer, 1)
                took.append(1)

    try:
        before = server.seconds()
        waits = beside(server, *[bring] * BRINGERS)
        seconds = server.seconds() - before
        print(f"    {len(took)} bad blocks of {len(message):,} bytes took {seconds:.1f} s of a processor, {1000 * seconds / len(took):.0f} ms each; the longest of {len(waits)} pings waited {max(waits):.3f} s")
    finally:
        server.stop()
    return [f"a ping waited more than {WAIT} s"] if max(waits) > WAIT else []


def in_a_line(coin, count):
    """So many transactions, of which each spends the one before, the first one this coin."""
    for _ in range(count):
        tx = b"\1\0\0\0\1" + coin + bytes(5) + b"\xff\xff\xff\xff\1" + bytes(8) + b"\x07" + bytes(7) + bytes(4)
        coin = double(tx)
        yield tx


def judged(program, file, names, top):
    count, good, bad, below = BAD // 76 - 4, [], [], top
    for height in range(BLOCKS + 1, BLOCKS + 1 + TIMES):
        # These spend what no block has made, which is found once all is hashed.
        seeds = range(8, 8 + BRINGERS)
        bad.append([frame("block", mined(below, [coinbase(seed, height), *in_a_line(bytes([9]) * 32, count)])) for seed in seeds])
        first = coinbase(7, height)
        below = mined(below, [first, *in_a_line(double(first), count)])
        good.append(frame("block", below))
    server, took, meeting = Server(program, file, "--grow"), [], threading.Barrier(BRINGERS)

    def bring(place):
        with server.peer() as peer:
            for number in range(TIMES):
                meeting.wait()
                messages = [bad[number][place]] + ([good[number]] if place == 0 else [])
                ping = struct.pack("<Q", number)
                peer.sendall(b"".join(messages) + frame("ping", ping))
                while take(peer, 1) != frame("pong", ping):
                    pass
                took.extend(messages)

    try:
        before = server.seconds()
        waits = beside(server, *[functools.partial(bring, place) for place in range(BRINGERS)])
        seconds, joined = server.seconds() - before, server.run.told().count("has joined")
        print(f"    {len(took)} blocks of {len(good[0]):,} bytes took {seconds:.1f} s of a processor, {1000 * seconds / len(took):.0f} ms each, and {joined} of them joined; "
              f"the longest of {len(waits)} pings waited {max(waits):.3f} s, and one in ten {sorted(waits)[-len(waits) // 10]:.3f} s or more")
    finally:
        server.stop()
    found = [] if joined == len(good) else ["not all good blocks joined"]
    return found + ([f"a ping waited more than {WAIT} s"] if max(waits) > WAIT else [])


CASES = {"unread": unread, "askers": askers, "blocks": blocks, "bad": bad, "judged": judged}


def main():
    parser = argparse.ArgumentParser()
    parser.add_argument("--program", default=os.path.join(ROOT, ".build", "cf"))
    parser.add_argument("cases", nargs="*", choices=[*CASES, []], default=[])
    words = parser.parse_args()
    is_fine = True
    with tempfile.TemporaryDirectory() as folder:
        file, names, top = os.path.join(folder, "blocks"), [None], b""
        with open(file, "wb") as out:
            for top in wide_blocks():
                names.append(double(top[:80]))
                out.write(MAGIC + struct.pack("<I", len(top)) + top)
        for name in words.cases or CASES:
            print(name, flush=True)
            more = (top,) if name in ("blocks", "bad", "judged") else ()
            for fault in CASES[name](words.program, file, names, *more):
                print("    FAULT:", fault)
                is_fine = False
    sys.exit(0 if is_fine else 1)


if __name__ == "__main__":
    main()
