#!/usr/bin/env python3
"""Prints rows of cf_cases over three peers that are played, each with what it comes to: those of `demo`, by `run` and by themselves, and those of a session.

The entries, the balance and the tip are those of a scan of every block. A block is fetched where its two filters differ, that with the watched scripts and that
without them, or where one of them has a watched script's number. The silent peer is closed, since it owes an answer once its longer chain was shown, and so is
the one that leaves scripts out, where a block pays one of them.
"""
import os
import sys

sys.path.insert(0, os.path.dirname(os.path.abspath(__file__)))
from conversation import siphash, transactions
from played import Peer
from sessions import script

WATCHED = [script(0), script(1)]


def has_one(chain, height, text):
    """Whether a filter's code has the number of a watched script. No filter of a made block has more than 252 items."""
    count, bits = text[0], "".join(format(b, "08b") for b in text[1:])
    found, value, at = set(), 0, 0
    for _ in range(count):
        zero = bits.index("0", at)
        value += ((zero - at) << 19) + int(bits[zero + 1:zero + 20], 2)
        found.add(value)
        at = zero + 20
    k0, k1 = (int.from_bytes(chain.hashes[height][i:i + 8], "little") for i in (0, 8))
    return any(siphash(k0, k1, item) * (count * 784931) >> 64 in found for item in WATCHED)


def text_of(seed, blocks):
    honest, other = Peer("honest", seed, blocks).chain, Peer("omits", seed, blocks, WATCHED).chain
    *lines, last = honest.history(WATCHED).splitlines()
    pairs = [(height, honest.filters[height][0], other.filters[height][0]) for height in range(1, blocks + 1)]
    fetched = sum(one != two or has_one(honest, height, one) or has_one(honest, height, two) for height, one, two in pairs)
    balance = lines[-1].split()[-1] if lines else "0"
    closed = 2 if any(text in WATCHED for block in honest.blocks[1:] for _, _, paid in transactions(block) for text in paid) else 1
    return "blocks %d\npeers 3\nentries %d\nbalance %s\nfetched %d\nclosed %d\ntip %s\n" % (blocks, len(lines), balance, fetched, closed, last.split()[-1])


def called(seed, blocks, status, text, room=5000):
    print("run %d -|cf demo %d %d|||-" % (room, seed, blocks))
    print(status)
    print(text[:room])


def main():
    print("# The client on three played peers, of which one leaves the watched scripts out of its filters and one is silent on a longer chain. These and the rows `demo` and `recorded` are")
    print("# told by bench/demo.py.")
    for seed, blocks in ((7, 500), (4294967295, 3)):
        called(seed, blocks, "0 Done", text_of(seed, blocks))
    called(7, 0, "2 Usage: the words are no command", "")
    called(7, 3, "5 OutFault: the text could not be written", text_of(7, 3), 10)
    print("# demo WORKERS SEED BLOCKS: the text of a demo whose filters are judged in so many threads, and again over new peers.")
    for workers, seed, blocks in ((1, 7, 500), (4, 7, 500), (1, 7, 1), (4, 4294967295, 3)):
        print("demo %d %d %d" % (workers, seed, blocks))
        print(text_of(seed, blocks) * 2)
    print("# recorded SEED BLOCKS WATCH: what `replay` makes of the session of one honest peer that is played, where `;` ends a line of the watch file.")
    for seed, blocks in ((7, 3), (4294967295, 3)):
        print("recorded %d %d %s" % (seed, blocks, "".join(text.hex() + ";" for text in WATCHED)))
        print("0 Done")
        print(Peer("honest", seed, blocks).chain.history(WATCHED))


if __name__ == "__main__":
    main()
