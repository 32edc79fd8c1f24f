#!/usr/bin/env python3
"""What reorganisations cost beside their blocks: `reorganisations.py [PROGRAM]`, where PROGRAM is `.build/cf` unless it is named.

Sessions are replayed in which one peer serves a made chain of BASE blocks, and then shows TIMES times some blocks more, each time as many. In one of
them they take the place of its last DEPTH blocks, and in the other they stand above it. All else is the same: so many headers, claims, filters, and
the blocks that match, an eighth. A second peer says nothing until all is done, so that the run goes on. What each takes beyond the chain alone, of the
processor, the least of TRIES runs, is compared: the reorganisations are to take at most MOST times what the blocks above take. The history is that
of a scan.
"""
import os
import sys
import tempfile

from conversation import Served, basic_filter, double, transactions
from made_chain import block_after
from sync import PROGRAM, WATCHED, has_watched, least, said

BASE, DEPTH, TIMES, TRIES, MOST = 50_000, 10, 1000, 5, 1.5


class Growing(Served):
    """A made chain that is made on, and of which the last blocks can be left."""

    def __init__(self):
        super().__init__(b"")
        self.coins = [None]

    def add(self, seed):
        height = self.tip + 1
        block, coin = block_after(self.hashes[-1], self.coins[-1], seed, height)
        name = double(block[:80])
        (_, _, paid), *others = transactions(block)
        items = set(paid).union(*(scripts for _, _, scripts in others))
        if others:
            items.add(self.paid)
        text = basic_filter(name, items)
        self.blocks.append(block)
        self.hashes.append(name)
        self.filters.append((text, double(text), double(double(text) + self.filters[-1][2])))
        self.coins.append(coin)
        self.tip, self.paid = height, paid[0]

    def leave(self, count):
        for each in (self.blocks, self.hashes, self.filters, self.coins):
            del each[-count:]
        self.tip -= count
        self.paid = transactions(self.blocks[-1])[0][2][0]


def shown_more(chain, first):
    """What a peer sends of the blocks from a height on, which it shows unasked."""
    yield chain.headers(first, chain.tip)
    yield chain.cfheaders(first, chain.tip)
    heights = range(first, chain.tip + 1)
    yield from (chain.cfilter(height) for height in heights)
    yield from (chain.block(height) for height in heights if has_watched(chain.blocks[height], chain.filters[height][0]))


def write_session(path, start, depth, times):
    """Writes a session, and gives the chain at its end. `start` has the lines of the chain alone."""
    chain = Growing()
    for _ in range(BASE):
        chain.add(7)
    with open(path, "w") as file:
        file.write("dial a\ndial b\n")
        file.writelines(start or [line_of(message) for _, message in said([chain], has_watched)])
        for number in range(times):
            if depth:
                chain.leave(depth)
            first = chain.tip + 1
            for _ in range(DEPTH + 1):
                chain.add(8 + number)
            file.writelines(line_of(message) for message in shown_more(chain, first))
        file.write("gone 2\n")
    return chain


def line_of(message):
    return "got 1 %s\n" % message.hex()


def main():
    program = sys.argv[1] if len(sys.argv) > 1 else PROGRAM
    found = []
    with tempfile.TemporaryDirectory() as folder:
        watch, session, file = (os.path.join(folder, name) for name in ("watch", "session", "chain"))
        with open(watch, "w") as text:
            text.write(WATCHED.hex() + "\n")
        start = None
        for what, depth, times in (("the chain", 0, 0), ("blocks above it", 0, TIMES), ("reorganisations", DEPTH, TIMES)):
            chain = write_session(session, start, depth, times)
            if start is None:
                with open(session) as lines:
                    start = lines.readlines()[2:-1]
            with open(file, "wb") as blocks:
                blocks.writelines(b"\xfa\xbf\xb5\xda" + len(block).to_bytes(4, "little") + block for block in chain.blocks[1:])
            text, seconds = least([program, "replay", watch, session], chain.tip, TRIES)
            if least([program, "scan", file, watch], chain.tip, 1)[0] != text:
                raise SystemExit("a scan gives another history")
            found.append(seconds)
            print("%-18s %6d blocks at the end %8.3f s" % (what, chain.tip, seconds), flush=True)
    alone, above, replaced = found
    ratio = (replaced - alone) / (above - alone)
    print("%d reorganisations of %d blocks take %.2f times what their blocks take; %s is the most that is wanted" % (TIMES, DEPTH, ratio, MOST))
    return 1 if ratio > MOST else 0


if __name__ == "__main__":
    sys.exit(main())
