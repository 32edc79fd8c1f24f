#!/usr/bin/env python3
"""Prints rows `played` of cf_cases, each with what it comes to: what peers in memory give, as a client of filters asks them.

The frames are written out from the layouts of the Bitcoin developer reference, BIP 157 and BIP 158.
"""
import os
import struct
import sys

sys.path.insert(0, os.path.dirname(os.path.abspath(__file__)))
from conversation import NUMBER, THEIR_VERSION, basic_filter, compact, double, frame, getheaders, of_range, transactions, version
from sessions import Chain, script

PIECE = 4096


class Peer:
    """A peer that serves a made chain, honestly, but for filters without some scripts, or to `version` and `getheaders` alone."""

    def __init__(self, kind, seed, blocks, left=()):
        self.name = (":".join([kind, *(text.hex() for text in left)]) if left else kind) + "=%dx%d" % (seed, blocks)
        self.silent, self.chain, self.waits = kind == "silent", Chain((seed, blocks)), b""
        for height in range(len(self.chain.blocks) if left else 0):
            self.chain.filters[height] = self.filter_without(height, set(left))

    def filter_without(self, height, left):
        found = set()
        for place, (_, names, paid) in enumerate(transactions(self.chain.blocks[height])):
            found.update(text for text in paid if text and text[0] != 0x6A)
            found.update(self.chain.paid(name) for name in names if place)
        text = basic_filter(self.chain.hashes[height], found - left)
        before = self.chain.filters[height - 1][2] if height else bytes(32)
        return text, double(text), double(double(text) + before)


class Row:
    """A row, as it grows: what is sent, what waits, and what is taken."""

    def __init__(self, *peers):
        self.peers, self.last = peers, 0
        self.steps, self.given = [], []

    def send(self, p, sent, *answers, always=False):
        self.steps.append("%d:%s" % (p, sent.hex()))
        if p <= len(self.peers) and (always or not self.peers[p - 1].silent):
            self.peers[p - 1].waits += b"".join(answers)

    def take(self):
        self.steps.append(".")
        for i in range(len(self.peers)):
            p = (self.last + i) % len(self.peers)
            peer = self.peers[p]
            if peer.waits:
                self.given.append("%d %s" % (p + 1, peer.waits[:PIECE].hex()))
                peer.waits, self.last = peer.waits[PIECE:], p + 1
                return
        self.given.append("tick 60")

    def show(self):
        print("played %s %s" % (",".join(peer.name for peer in self.peers), " ".join(self.steps)))
        print(" " + " ".join(self.given))


def greet(row, p):
    """Its version has time 0 and number 0."""
    tip = row.peers[p - 1].chain.tip
    row.send(p, THEIR_VERSION, version(65, 0, 0, b"/cf:1/", tip, b"\0") + frame("verack"), always=True)


def ask(row, p):
    """Headers, claims, filters, checkpoints and a block."""
    c = row.peers[p - 1].chain
    row.send(p, getheaders([c.hashes[0]], bytes(32)), c.headers(1, c.tip), always=True)
    row.send(p, of_range("getcfheaders", 0, 1, c.hashes[-1]), c.cfheaders(1, c.tip))
    row.send(p, of_range("getcfilters", 0, 0, c.hashes[-1]), *(c.cfilter(h) for h in range(c.tip + 1)))
    row.send(p, frame("getcfcheckpt", b"\0" + c.hashes[-1]), c.cfcheckpt(c.tip))
    row.send(p, frame("getdata", compact(1) + struct.pack("<I", 2) + c.hashes[2]), c.block(2))
    row.send(p, frame("ping", NUMBER), frame("pong", NUMBER))


def main():
    # Each answers at once; they are taken in turn, and where nothing waits time passes. Before a version nothing is answered, and what is no frame of a message never is.
    row = Row(Peer("honest", 7, 3), Peer("silent", 8, 2))
    row.take()
    row.send(1, getheaders([row.peers[0].chain.hashes[0]], bytes(32)))
    row.take()
    greet(row, 1), greet(row, 2)
    row.send(3, THEIR_VERSION)
    row.send(0, THEIR_VERSION)
    row.take(), row.take(), row.take()
    ask(row, 2), ask(row, 1)
    row.send(1, frame("ping", NUMBER) + b"\0"), row.send(1, frame("ping", NUMBER)[:-1]), row.send(1, frame("ping", NUMBER[:7])), row.send(1, b"")
    row.take(), row.take(), row.take()
    row.show()
    # One that leaves two scripts out of its filters, beside an honest one of the same chain.
    row = Row(Peer("omits", 7, 3, [script(8), script(9)]), Peer("honest", 7, 3))
    greet(row, 1), greet(row, 2), ask(row, 1), ask(row, 2)
    row.take(), row.take(), row.take()
    row.show()
    # A thousand checkpoints' worth: the pieces of a long answer have 4,096 bytes.
    row = Row(Peer("honest", 7, 60), Peer("omits", 7, 60, [script(0), script(1)]))
    greet(row, 1), row.take()
    c = row.peers[0].chain
    row.send(1, getheaders([c.hashes[0]], bytes(32)), c.headers(1, c.tip))
    greet(row, 2)
    row.take(), row.take(), row.take(), row.take()
    row.show()


if __name__ == "__main__":
    main()
