#!/usr/bin/env python3
"""Prints rows `run` of cf_cases, each with what it comes to: sessions in which peers serve made chains with their filters, some of them falsely. With
`stores` as its argument it prints rows `stores`: sessions that are followed over each of the two stores of headers.

The frames are written out from the layouts of the Bitcoin developer reference, BIP 157 and BIP 158. The histories are those of a scan of every
block of the best chain. What is sent is told by hand, from the rules by which a wallet asks: headers, then filter headers, then filters, and last
the blocks whose filters match or are in dispute; each peer that has nothing else to answer, for what nobody is asked for yet. Where the peers
differ on the filter of a block that was fetched, each is asked last for the filter that it claims, and who claims one that lacks what the block
pays is closed. The client of client.py has to send the same, and to end in the same way.
"""
import os
import struct
import subprocess
import sys
import tempfile

sys.path.insert(0, os.path.dirname(os.path.abspath(__file__)))
from client import Run
from conversation import Served, basic_filter, compact, double, frame, transactions, valued, version

BENCH = os.path.dirname(os.path.abspath(__file__))
VERSION = version(65, 0, 0, b"/cf:1/", 0, b"\0")
GENESIS_FILTER_HEADER = Served(b"").filters[0][2]
COUNT, PREVIOUS, OTHER = "WrongCount", "WrongPrevious", "OtherFilter"


def script(k):
    return bytes([1, k, 0x75, 0x51])


class Chain(Served):
    """A made chain, by the seeds and numbers of blocks of its parts."""

    def __init__(self, *parts):
        with tempfile.TemporaryDirectory() as folder:
            name = os.path.join(folder, "blocks")
            words = [str(n) for part in parts for n in part]
            subprocess.run([os.path.join(BENCH, "made_chain.py"), *words, name], check=True)
            with open(name, "rb") as f:
                super().__init__(f.read())

    def items(self, height):
        """The scripts of a block's filter: those that it pays, and those that it spends."""
        block = self.blocks[height]
        items = {s for _, _, paid in transactions(block) for s in paid if s and s[0] != 0x6A}
        for _, names, _ in transactions(block)[1:]:
            items.update(self.paid(name) for name in names)
        return items

    def without(self, height, left):
        """The same chain, but for the filter at a height, which leaves a script out."""
        items = self.items(height)
        assert left in items and basic_filter(self.hashes[height], items) == self.filters[height][0]
        return self.replaced(height, basic_filter(self.hashes[height], items - {left}))

    def with_more(self, height, more):
        """The same chain, but for the filter at a height, which has a script that the block doesn't have."""
        items = self.items(height)
        assert more not in items
        return self.replaced(height, basic_filter(self.hashes[height], items | {more}))

    def copy(self):
        found = Chain.__new__(Chain)
        found.blocks, found.hashes, found.filters, found.tip = self.blocks, self.hashes, list(self.filters), self.tip
        return found

    def replaced(self, height, text):
        """The same chain with another filter at a height, and the filter headers that follow from it."""
        found = self.copy()
        for h in range(height, self.tip + 1):
            code = text if h == height else found.filters[h][0]
            found.filters[h] = (code, double(code), double(double(code) + found.filters[h - 1][2]))
        return found

    def paid(self, name):
        for block in self.blocks[1:]:
            for txid, _, scripts in transactions(block):
                if txid == name[0]:
                    return scripts[name[1]]
        raise KeyError(name)

    def history(self, watched):
        """What a scan of every block above genesis tells of these scripts."""
        coins, lines = {}, ""
        for height, block in enumerate(self.blocks[1:], 1):
            for place, (txid, names, outputs) in enumerate(valued(block)):
                spent = [coins.pop(name) for name in (names if place else []) if name in coins]
                won = [(i, value) for i, (value, paid) in enumerate(outputs) if paid in watched]
                coins.update(((txid, i), value) for i, value in won)
                if spent or won:
                    got = sum(value for _, value in won)
                    lines += "%d %s +%d -%d %d\n" % (height, txid[::-1].hex(), got, sum(spent), sum(coins.values()))
        return lines + "synced %d %s\n" % (self.tip, self.hashes[-1][::-1].hex())


class Session:
    """The lines of a session, with what is sent and closed as it goes on."""

    def __init__(self, peers):
        self.lines = ["dial %s" % name for name in "abcdefgh"[:peers]]
        self.trace = ["> %d version" % (p + 1) for p in range(peers)]

    def got(self, p, message, *sent):
        self.lines.append("got %d %s" % (p, message.hex()))
        self.trace += sent
        return self

    def tick(self, seconds, *sent):
        self.lines.append("tick %d" % seconds)
        self.trace += sent
        return self

    def gone(self, p, *sent):
        self.lines.append("gone %d" % p)
        self.trace += sent
        return self

    def greet(self, p):
        return self.got(p, VERSION, "> %d verack" % p).got(p, frame("verack"), "> %d getheaders" % p)

    def shows(self, p, chain, *sent):
        """The peer greets and shows its whole chain."""
        return self.greet(p).got(p, chain.headers(1, chain.tip), *sent)

    def shows_both(self, first, second):
        """Two peers show their chains and claim their filters, the second one only what is asked of it then."""
        self.shows(1, first, *asks(1, "getcfheaders")).shows(2, second, *asks(2, "getcfheaders"))
        return self.got(1, first.cfheaders(1, first.tip), *asks(1, "getcfilters"))

    def filters(self, p, chain, first, last, *sent):
        """The filters of these heights, after the last of which this is sent."""
        for height in range(first, last):
            self.got(p, chain.cfilter(height))
        return self.got(p, chain.cfilter(last), *sent)

    def followed(self, watched):
        """The run of the client of client.py over these lines."""
        return Run(self.lines, [script(k) for k in watched], GENESIS_FILTER_HEADER)

    def row(self, status, text, watched):
        run, traced = self.followed(watched), "".join(line + "\n" for line in self.trace) + text
        assert (run.status(), run.traced()) == (status, traced), (status, traced, run.status(), run.traced())
        words = "cf replay --trace w s"
        watch = "".join(script(k).hex() + ";" for k in watched)
        print("run 4000 -|%s|%s|%s;|-" % (words, watch, ";".join(self.lines)))
        print(status)
        print(traced)

    def stores(self, end, text, watched, shown, claims, filters, verdicts, extracts):
        """A row `stores`. The chains are those that the connected peers have shown; a claim is a chain and a height."""
        run = self.followed(watched)
        assert (run.end.replace("Done", "Synced"), len(run.client.verdicts), len(run.client.blocks)) == (end, verdicts, extracts), run.end
        watch = "".join(script(k).hex() + ";" for k in watched)
        print("stores %s|%s;" % (watch, ";".join(self.lines)))
        each = sum(chain.tip for chain in shown)
        once = len({tuple(chain.hashes[1:height + 1]) for chain in shown for height in range(1, chain.tip + 1)})
        rows = len({(chain.hashes[h], chain.filters[h][1], chain.filters[h][2]) for chain, h in claims})
        for store, headers in (("lists", each), ("tree", once)):
            print("%s %s %d %d %d %d %d\n%s" % (store, end, headers, rows, filters, verdicts, extracts, text), end="")
        print()


def asks(p, *commands):
    return ["> %d %s" % (p, command) for command in commands]


def two_blocks(chain):
    """Two peers of one chain, of which the first has brought the filters, and each is asked for one of the two blocks that hit."""
    s = Session(2).shows_both(chain, chain).got(2, chain.cfheaders(1, chain.tip))
    return s.filters(1, chain, 1, chain.tip, *asks(1, "getdata"), *asks(2, "getdata"))


def cut_short(block):
    """A block of two transactions without the second one."""
    return block[:80] + b"\1" + block[81:81 + 78]


ENDED = "8 Ended: nothing more came, and an answer was still to come"
DONE = "0 Done"


def stores():
    a = Chain((7, 3))
    liar = a.without(2, script(14))
    longer = Chain((7, 1), (8, 3))

    def text(chain, ks):
        return chain.history([script(k) for k in ks])

    def all_of(*chains):
        return [(chain, h) for chain in chains for h in range(1, chain.tip + 1)]

    genesis = "synced 0 %s\n" % a.hashes[0][::-1].hex()

    print("# stores WATCH|SESSION: what comes of a session over a store of lists, and over a tree: how it ends, how many headers, claims, filters, verdicts")
    print("# and extracts the client keeps then, and the history and the tip. The rows and answers are those of bench/sessions.py stores.")
    print("# Two peers that differ on a filter, of which the first is closed for what its filter omits; or the second one, which was asked for the block, is gone;")
    print("# or the first one is, and the second has still to answer.")
    for gone in (0, 2, 1):
        s = Session(2).shows(1, liar).shows(2, a).got(1, liar.cfheaders(1, 3)).got(2, a.cfheaders(1, 3))
        s.got(1, liar.cfilter(1)).got(1, liar.cfilter(2)).got(1, liar.cfilter(3))
        if gone == 2:
            s.gone(2).stores("Synced", text(a, []), [14], [liar], all_of(liar), 0, 3, 0)
        elif gone == 1:
            s.gone(1).stores("Ended", text(a, []), [14], [a], all_of(a), 0, 3, 0)
        else:
            s.got(2, a.block(2)).got(1, liar.cfilter(2)).got(2, a.cfilter(2))
            s.stores("Synced", text(a, [14]), [14], [a], all_of(a), 0, 3, 1)

    print("# They differ on a script that the block only spends: both stay. A filter that is asked for once the block was fetched gives no verdict.")
    spends = a.without(2, script(8))
    s = Session(2).shows(1, spends).shows(2, a).got(1, spends.cfheaders(1, 3)).got(2, a.cfheaders(1, 3)).filters(1, spends, 1, 3)
    s.got(2, a.block(2)).got(1, spends.cfilter(2)).got(2, a.cfilter(2))
    s.stores("Synced", text(a, [14]), [14], [spends, a], all_of(spends, a), 0, 3, 1)

    print("# A longer chain takes the place of one that is settled; or its peer is gone while a block is still to come.")
    for gone in (False, True):
        s = Session(2).shows(1, a).got(1, a.cfheaders(1, 3))
        s.got(1, a.cfilter(1)).got(1, a.cfilter(2)).got(1, a.cfilter(3)).got(1, a.block(1)).got(1, a.block(2))
        s.shows(2, longer).got(2, longer.cfheaders(1, 4)).got(2, longer.cfilter(2)).got(2, longer.cfilter(3)).got(2, longer.cfilter(4))
        s.got(2, longer.block(3))
        if gone:
            s.gone(2).stores("Synced", text(a, [8, 11]), [8, 11], [a], all_of(a), 0, 6, 3)
        else:
            s.got(2, longer.block(4)).stores("Synced", text(longer, [8, 11]), [8, 11], [a, longer], all_of(a, longer), 0, 6, 4)

    print("# Eight peers show one chain; all but one are gone; and the last one is.")
    for left in (8, 1, 0):
        s = Session(8)
        for p in range(1, 9):
            s.shows(p, a)
        s.lines += ["gone %d" % p for p in range(8, left, -1)]
        s.stores("Ended" if left else "NoPeers", text(a, []) if left else genesis, [8], [a] * left, [], 0, 0, 0)

    print("# Filters that have come of a question that is open; and a peer whose last header is another one.")
    other = Chain((7, 2), (9, 1))
    s = Session(2).shows(1, a).shows(2, other).got(1, a.cfheaders(1, 3)).got(1, a.cfilter(1)).got(1, a.cfilter(2))
    s.stores("Ended", text(a, []), [8], [a, other], all_of(a), 2, 0, 0)


def main():
    a = Chain((7, 3))
    liar = a.without(2, script(14))
    nonsense = a.replaced(2, bytes.fromhex("01000001"))
    watched = [14]

    def text(chain, ks):
        return chain.history([script(k) for k in ks])

    print("# A peer whose filters hit: two of three blocks are fetched, and one is cleared.")
    s = Session(1).shows(1, a, *asks(1, "getcfheaders")).got(1, a.cfheaders(1, 3), *asks(1, "getcfilters"))
    s.got(1, a.cfilter(1)).got(1, a.cfilter(2)).got(1, a.cfilter(3), *asks(1, "getdata")).got(1, a.block(1), *asks(1, "getdata")).got(1, a.block(2))
    s.row(DONE, text(a, [8]), [8])

    print("# The same, where the last block isn't there whole.")
    s = Session(1).shows(1, a, *asks(1, "getcfheaders")).got(1, a.cfheaders(1, 3), *asks(1, "getcfilters"))
    s.got(1, a.cfilter(1)).got(1, a.cfilter(2)).got(1, a.cfilter(3), *asks(1, "getdata")).got(1, a.block(1), *asks(1, "getdata")).got(1, a.block(2)[:30])
    s.row(ENDED, "", [8])

    print("# A script that no block has: nothing is fetched. And no script at all.")
    for ks in ([3], []):
        s = Session(1).shows(1, a, *asks(1, "getcfheaders")).got(1, a.cfheaders(1, 3), *asks(1, "getcfilters"))
        s.got(1, a.cfilter(1)).got(1, a.cfilter(2)).got(1, a.cfilter(3))
        s.row(DONE, text(a, ks), ks)

    both_asked = asks(1, "getcfilters") + asks(2, "getcfilters")
    print("# Two peers, of which the first leaves a script out of its filter at height 2: that block is in dispute, and is fetched from the other one, while")
    print("# the first one's filters are still to come. Then each is asked for its filter again, and the first one is closed for what that omits.")
    s = Session(2).shows_both(liar, a).got(2, a.cfheaders(1, 3), *asks(2, "getdata"))
    s.filters(1, liar, 1, 3).got(2, a.block(2), *both_asked).got(1, liar.cfilter(2), "x 1 Omits").got(2, a.cfilter(2))
    s.row(DONE, text(a, watched), watched)

    print("# The same, where the other one claims first: it is asked for its filters, and the first one for the block. And it answers first.")
    s = Session(2).shows(1, liar, *asks(1, "getcfheaders")).shows(2, a, *asks(2, "getcfheaders"))
    s.got(2, a.cfheaders(1, 3), *asks(2, "getcfilters")).got(1, liar.cfheaders(1, 3), *asks(1, "getdata"))
    s.filters(2, a, 1, 3).got(1, a.block(2), *both_asked).got(2, a.cfilter(2)).got(1, liar.cfilter(2), "x 1 Omits")
    s.row(DONE, text(a, watched), watched)

    print("# A longer chain whose peer answers no more is left after a minute, and not before.")
    b = Chain((9, 5))
    s = Session(2).shows(2, b, *asks(2, "getcfheaders")).shows(1, a)
    s.tick(60, "x 2 Overdue", *asks(1, "getcfheaders")).got(1, a.cfheaders(1, 3), *asks(1, "getcfilters"))
    s.got(1, a.cfilter(1)).got(1, a.cfilter(2)).got(1, a.cfilter(3), *asks(1, "getdata")).got(1, a.block(1), *asks(1, "getdata")).got(1, a.block(2))
    s.row(DONE, text(a, [8]), [8])
    s = Session(2).shows(2, b, *asks(2, "getcfheaders")).shows(1, a)
    s.tick(59)
    s.row(ENDED, "", [8])

    print("# A longer chain takes the place of one that is settled: what they share is neither asked for nor fetched again.")
    longer = Chain((7, 1), (8, 3))
    s = Session(2).shows(1, a, *asks(1, "getcfheaders")).got(1, a.cfheaders(1, 3), *asks(1, "getcfilters"))
    s.got(1, a.cfilter(1)).got(1, a.cfilter(2)).got(1, a.cfilter(3), *asks(1, "getdata")).got(1, a.block(1), *asks(1, "getdata")).got(1, a.block(2))
    s.shows(2, longer, *asks(2, "getcfheaders")).got(2, longer.cfheaders(1, 4), *asks(2, "getcfilters"))
    s.got(2, longer.cfilter(2)).got(2, longer.cfilter(3)).got(2, longer.cfilter(4), *asks(2, "getdata")).got(2, longer.block(3), *asks(2, "getdata"))
    s.got(2, longer.block(4))
    s.row(DONE, text(longer, [8, 11]), [8, 11])

    print("# A filter that is no spelling is a hit.")
    s = Session(1).shows(1, a, *asks(1, "getcfheaders")).got(1, nonsense.cfheaders(1, 3), *asks(1, "getcfilters"))
    s.got(1, nonsense.cfilter(1)).got(1, nonsense.cfilter(2)).got(1, nonsense.cfilter(3), *asks(1, "getdata")).got(1, a.block(2))
    s.row(DONE, text(a, watched), watched)

    print("# Two peers leave the same script out; a third one's claim, after the miss, puts the block into dispute. The answer of either closes both, the lower")
    print("# number first, and what the other one still answers is read over.")
    for first, second in ((1, 2), (2, 1)):
        s = Session(3).shows(1, liar, *asks(1, "getcfheaders")).got(1, liar.cfheaders(1, 3), *asks(1, "getcfilters"))
        s.shows(2, liar, *asks(2, "getcfheaders")).got(2, liar.cfheaders(1, 3))
        s.got(1, liar.cfilter(1)).got(1, liar.cfilter(2)).got(1, liar.cfilter(3))
        s.shows(3, a, *asks(3, "getcfheaders")).got(3, a.cfheaders(1, 3), *asks(1, "getdata"))
        s.got(1, a.block(2), *both_asked, *asks(3, "getcfilters"))
        s.got(first, liar.cfilter(2), "x 1 Omits", "x 2 Omits").got(second, liar.cfilter(2)).got(3, a.cfilter(2))
        s.row(DONE, text(a, watched), watched)

    print("# A wrong count, a wrong previous filter header, and a filter that isn't the one that was claimed: that peer is closed, and nothing of the other is lost.")
    short = frame("cfheaders", b"\0" + a.hashes[3] + a.filters[0][2] + compact(2) + a.filters[1][1] + a.filters[2][1])
    wrong = frame("cfheaders", b"\0" + a.hashes[3] + bytes(32) + compact(3) + b"".join(f[1] for f in a.filters[1:4]))
    both = frame("cfheaders", b"\0" + a.hashes[3] + bytes(32) + compact(2) + b"".join(f[1] for f in a.filters[1:3]))
    for answer, cause in ((short, COUNT), (both, COUNT), (wrong, PREVIOUS)):
        s = Session(1).shows(1, a, *asks(1, "getcfheaders")).got(1, answer, "x 1 " + cause)
        s.row("6 NoPeers { ends: [Closed(%s)] }: no peer is left" % cause, "", watched)
    for answer, cause in ((short, COUNT), (wrong, PREVIOUS)):
        s = Session(2).shows(1, a, *asks(1, "getcfheaders")).shows(2, a, *asks(2, "getcfheaders"))
        s.got(1, answer, "x 1 " + cause).got(2, a.cfheaders(1, 3), *asks(2, "getcfilters"))
        s.got(2, a.cfilter(1)).got(2, a.cfilter(2)).got(2, a.cfilter(3), *asks(2, "getdata")).got(2, a.block(2))
        s.row(DONE, text(a, watched), watched)
    s = Session(2).shows(1, a, *asks(1, "getcfheaders")).shows(2, a, *asks(2, "getcfheaders"))
    s.got(1, a.cfheaders(1, 3), *asks(1, "getcfilters")).got(2, a.cfheaders(1, 3))
    s.got(1, a.cfilter(1)).got(1, liar.cfilter(2), "x 1 " + OTHER, *asks(2, "getcfilters"))
    s.got(2, a.cfilter(1)).got(2, a.cfilter(2)).got(2, a.cfilter(3), *asks(2, "getdata")).got(2, a.block(2))
    s.row(DONE, text(a, watched), watched)

    print("# What was asked of a peer that is closed is asked of the other one, once that one has answered: the filters below the block that it was asked for,")
    print("# and then those above.")
    s = Session(2).shows_both(liar, a).got(2, a.cfheaders(1, 3), *asks(2, "getdata"))
    s.got(1, liar.cfilter(1)).got(1, a.cfilter(2), "x 1 " + OTHER).got(2, a.block(2), *asks(2, "getcfilters"))
    s.got(2, a.cfilter(1), *asks(2, "getcfilters")).got(2, a.cfilter(3))
    s.row(DONE, text(a, watched), watched)

    print("# The claims of a peer that is closed count no more: of the block that was in dispute, and that it was asked for, the filter that the other claims counts.")
    s = Session(2).shows(1, liar, *asks(1, "getcfheaders")).shows(2, a, *asks(2, "getcfheaders"))
    s.got(2, a.cfheaders(1, 3), *asks(2, "getcfilters")).got(1, liar.cfheaders(1, 3), *asks(1, "getdata"))
    s.got(2, a.cfilter(1)).got(1, frame("block", cut_short(a.blocks[2])), "x 1 BadBlock")
    s.filters(2, a, 2, 3)
    s.row(DONE, text(a, [3]), [3])

    print("# Answers of another type, for another stop, out of order, or to no question are read over.")
    other_type = frame("cfheaders", b"\1" + a.cfheaders(1, 3)[25:])
    text_1 = a.filters[1][0]
    other_filter = frame("cfilter", b"\1" + a.hashes[1] + compact(len(text_1)) + text_1)
    s = Session(1).greet(1).got(1, a.cfheaders(1, 3)).got(1, a.cfilter(1)).got(1, a.block(1)).got(1, a.headers(1, 3), *asks(1, "getcfheaders"))
    s.got(1, other_type).got(1, a.cfheaders(1, 2)).got(1, a.cfilter(1)).got(1, a.cfheaders(1, 3), *asks(1, "getcfilters")).got(1, a.cfheaders(1, 3))
    s.got(1, a.cfilter(2)).got(1, a.cfilter(3)).got(1, other_filter).got(1, a.block(2)).got(1, a.cfilter(1)).got(1, a.cfilter(1)).got(1, a.cfilter(2))
    s.got(1, a.cfilter(3), *asks(1, "getdata")).got(1, a.block(1)).got(1, a.block(2))
    s.row(DONE, text(a, watched), watched)

    two = [8, 9]
    print("# Two peers that claim the same: the filters are asked of the first one alone, and then of the two blocks that hit the lower one of the first, and the")
    print("# other one of the second. Their answers may come in any order; what was asked of one and comes from the other is read over.")
    for answers in ([(1, 1), (2, 2)], [(2, 2), (1, 1)], [(2, 1), (1, 2), (1, 1), (2, 2)]):
        s = two_blocks(a)
        for p, height in answers:
            s.got(p, a.block(height))
        s.row(DONE, text(a, two), two)
    s = Session(2).shows_both(a, a).got(2, a.cfheaders(1, 3))
    for height in (1, 2, 3):
        s.got(2, a.cfilter(height))
    s.filters(1, a, 1, 3, *asks(1, "getdata"), *asks(2, "getdata")).got(1, a.block(1)).got(2, a.block(2))
    s.row(DONE, text(a, two), two)

    print("# A peer that never answers its part is closed after a minute, and its part is asked of the other one in the same step: a block; all filters, also")
    print("# where some of them have come. What the other one has answered is asked of nobody again.")
    s = two_blocks(a).got(2, a.block(2)).tick(60, "x 1 Overdue", *asks(2, "getdata")).got(2, a.block(1))
    s.row(DONE, text(a, two), two)
    s = two_blocks(a).tick(59).got(2, a.block(2)).tick(1, "x 1 Overdue", *asks(2, "getdata")).got(2, a.block(1))
    s.row(DONE, text(a, two), two)
    s = Session(2).shows_both(a, a).got(2, a.cfheaders(1, 3)).got(1, a.cfilter(1)).got(1, a.cfilter(2)).tick(60, "x 1 Overdue", *asks(2, "getcfilters"))
    s.filters(2, a, 1, 3, *asks(2, "getdata")).got(2, a.block(1), *asks(2, "getdata")).got(2, a.block(2))
    s.row(DONE, text(a, two), two)

    print("# A peer goes with a block open to it, and one is closed for the block that it sent: a third one, which has nothing to answer, is asked in the same step.")
    s = Session(3)
    for p in (1, 2, 3):
        s.shows(p, a, *asks(p, "getcfheaders"))
    s.got(1, a.cfheaders(1, 3), *asks(1, "getcfilters")).got(2, a.cfheaders(1, 3)).got(3, a.cfheaders(1, 3))
    s.filters(1, a, 1, 3, *asks(1, "getdata"), *asks(2, "getdata")).gone(1, *asks(3, "getdata")).got(3, a.block(1))
    s.got(2, frame("block", cut_short(a.blocks[2])), "x 2 BadBlock", *asks(3, "getdata")).got(3, a.block(2))
    s.row(DONE, text(a, two), two)

    print("# Claims come to differ while filters are open, of which the first has come: the block is fetched from the other one before the last of them comes.")
    print("# Nobody is closed for a filter that was asked for before the block came: it is asked for again.")
    s = Session(2).shows_both(liar, a).got(1, liar.cfilter(1)).got(2, a.cfheaders(1, 3), *asks(2, "getdata"))
    s.got(2, a.block(2), *asks(2, "getcfilters")).filters(1, liar, 2, 3, *asks(1, "getcfilters"))
    s.got(2, a.cfilter(2)).got(1, liar.cfilter(2), "x 1 Omits")
    s.row(DONE, text(a, watched), watched)

    print("# They come to differ on a block that is open to one who claims that it hits: it is fetched once.")
    s = Session(2).shows(2, liar, *asks(2, "getcfheaders")).shows(1, a, *asks(1, "getcfheaders"))
    s.got(1, a.cfheaders(1, 3), *asks(1, "getcfilters")).filters(1, a, 1, 3, *asks(1, "getdata")).got(2, liar.cfheaders(1, 3))
    s.got(1, a.block(2), *both_asked).got(1, a.cfilter(2)).got(2, liar.cfilter(2), "x 2 Omits")
    s.row(DONE, text(a, watched), watched)

    ours = [8, 9, 11]
    print("# A longer chain takes the place of one of whose blocks filters are open, and then a block: the peer of the longer one is asked for what is open to nobody,")
    print("# and what the other one then answers of the blocks that both chains have isn't asked for again.")
    s = Session(2).shows(1, a, *asks(1, "getcfheaders")).got(1, a.cfheaders(1, 3), *asks(1, "getcfilters")).got(1, a.cfilter(1))
    s.shows(2, longer, *asks(2, "getcfheaders")).got(2, longer.cfheaders(1, 4), *asks(2, "getcfilters"))
    s.filters(2, longer, 2, 3).filters(1, a, 2, 3, *asks(1, "getdata")).got(2, longer.cfilter(4), *asks(2, "getdata"))
    s.got(2, longer.block(3), *asks(2, "getdata")).got(1, a.block(1)).got(2, longer.block(4))
    s.row(DONE, text(longer, ours), ours)

    print("# The first peer itself shows the longer chain while a block of each peer is open. The second block, of the chain that is left, is taken, and is no part of")
    print("# the history.")
    s = two_blocks(a).got(1, longer.headers(2, 4)).got(2, a.block(2)).got(1, a.block(1), *asks(1, "getcfheaders"))
    s.got(1, longer.cfheaders(2, 4), *asks(1, "getcfilters")).filters(1, longer, 2, 4, *asks(1, "getdata"))
    s.got(1, longer.block(3), *asks(1, "getdata")).got(1, longer.block(4))
    s.row(DONE, text(longer, ours), ours)

    print("# A longer chain takes the place of one that is settled, and then the first one, which has grown, takes it back: no block is asked for twice, and a coin")
    print("# that was spent on the first one stands again on the second.")
    grown, both_ways = Chain((7, 5)), [8, 11]
    s = Session(3).shows(1, a, *asks(1, "getcfheaders")).got(1, a.cfheaders(1, 3), *asks(1, "getcfilters"))
    s.filters(1, a, 1, 3, *asks(1, "getdata")).got(1, a.block(1), *asks(1, "getdata")).got(1, a.block(2))
    s.shows(2, longer, *asks(2, "getcfheaders")).got(2, longer.cfheaders(1, 4), *asks(2, "getcfilters"))
    s.filters(2, longer, 2, 4, *asks(2, "getdata")).got(2, longer.block(3), *asks(2, "getdata")).got(2, longer.block(4))
    s.shows(3, grown, *asks(3, "getcfheaders")).got(3, grown.cfheaders(1, 5), *asks(3, "getcfilters"))
    s.filters(3, grown, 4, 5, *asks(3, "getdata")).got(3, grown.block(4), *asks(3, "getdata")).got(3, grown.block(5))
    s.row(DONE, text(grown, both_ways), both_ways)

    print("# The age of a question for filters isn't set back by a part of the answer, nor is that of one for claims by anything else.")
    s = Session(1).shows(1, a, *asks(1, "getcfheaders")).tick(59).got(1, a.cfheaders(1, 3), *asks(1, "getcfilters")).tick(30)
    s.got(1, a.cfilter(1)).tick(30, "x 1 Overdue")
    s.row("6 NoPeers { ends: [Closed(Overdue)] }: no peer is left", "", watched)
    omissions(a, liar)


def omissions(a, liar):
    """Rows on who is closed for what its filter omits, and who isn't."""
    both_asked = asks(1, "getcfilters") + asks(2, "getcfilters")

    def text(ks):
        return a.history([script(k) for k in ks])

    def differ(chain):
        """Two peers that differ on the filter at height 2 alone, which was fetched: both are asked for theirs."""
        s = Session(2).shows_both(chain, a).got(2, a.cfheaders(1, 3), *asks(2, "getdata"))
        return s.filters(1, chain, 1, 3).got(2, a.block(2), *both_asked)

    print("# A peer leaves out the script that block 1 pays and block 2 spends: both are in dispute, and are fetched. It is closed for block 1; where block 2 comes first,")
    print("# it is asked for the filter of that one first.")
    both = a.without(1, script(8)).without(2, script(8))
    for is_later in (False, True):
        s = Session(2).shows_both(both, a).got(2, a.cfheaders(1, 3), *asks(2, "getdata")).filters(1, both, 1, 3, *asks(1, "getdata"))
        if is_later:
            s.got(1, a.block(2), *asks(1, "getcfilters")).got(2, a.block(1), *asks(2, "getcfilters")).got(1, both.cfilter(2), *asks(1, "getcfilters"))
        else:
            s.got(2, a.block(1), *asks(2, "getcfilters")).got(1, a.block(2), *asks(1, "getcfilters"))
        s.got(1, both.cfilter(1), "x 1 Omits").got(2, a.cfilter(1)).row(DONE, text([8]), [8])

    print("# The same, where the other one is still to bring block 2, which is in dispute no more then. It comes, or that peer goes.")
    for is_gone in (False, True):
        s = Session(2).shows_both(both, a).got(2, a.cfheaders(1, 3), *asks(2, "getdata")).got(2, a.block(1), *asks(2, "getdata"))
        s.filters(1, both, 1, 3, *asks(1, "getcfilters")).got(1, both.cfilter(1), "x 1 Omits")
        if is_gone:
            s.gone(2).row("6 NoPeers { ends: [Closed(Omits), Gone] }: no peer is left", "", [8])
        else:
            s.got(2, a.block(2)).row(DONE, text([8]), [8])

    print("# Of two peers that leave out the same, one was asked for block 1 when both are closed for what the other one sends of block 2: the third one is asked for the")
    print("# filter of block 1 that counts now, which clears it.")
    two = a.without(1, script(8)).without(2, script(14))
    s = Session(3).shows_both(two, two).got(2, two.cfheaders(1, 3)).filters(1, two, 1, 3).shows(3, a, *asks(3, "getcfheaders"))
    s.got(3, a.cfheaders(1, 3), *asks(1, "getdata"), *asks(2, "getdata")).got(2, a.block(2), *asks(2, "getcfilters"), *asks(3, "getcfilters"))
    s.got(2, two.cfilter(2), "x 1 Omits", "x 2 Omits").got(3, a.cfilter(2), *asks(3, "getcfilters"))
    s.got(3, a.cfilter(1)).row(DONE, text([14]), [14])

    print("# It leaves that script out at height 2 alone, where it is only spent: its filter lacks nothing that the block pays, and nobody is closed for it. Nor for a")
    print("# filter that has a script more than the block.")
    spends = a.without(2, script(8))
    for chain, ks in ((spends, [14]), (a.with_more(2, script(3)), [14])):
        differ(chain).got(1, chain.cfilter(2)).got(2, a.cfilter(2)).row(DONE, text(ks), ks)
    s = Session(2).shows_both(spends, a).got(2, a.cfheaders(1, 3), *asks(2, "getdata")).filters(1, spends, 1, 3, *asks(1, "getdata"))
    s.got(2, a.block(2), *asks(2, "getcfilters")).got(1, a.block(1), *asks(1, "getcfilters")).got(2, a.cfilter(2)).got(1, spends.cfilter(2))
    s.row(DONE, text([8]), [8])

    print("# Two blocks in dispute, of which the lower one only spends what a filter leaves out: the filters of that one are asked for first, and the peer is closed for")
    print("# the other one.")
    later = spends.without(3, script(10))
    s = Session(2).shows_both(later, a).got(2, a.cfheaders(1, 3), *asks(2, "getdata")).filters(1, later, 1, 3, *asks(1, "getdata"))
    s.got(2, a.block(2), *asks(2, "getcfilters")).got(1, a.block(3), *asks(1, "getcfilters"))
    s.got(1, later.cfilter(2), *asks(1, "getcfilters")).got(2, a.cfilter(2), *asks(2, "getcfilters"))
    s.got(2, a.cfilter(3)).got(1, later.cfilter(3), "x 1 Omits")
    s.row(DONE, text([14]), [14])

    print("# A filter that is no spelling, and one of no bytes.")
    for code in ("01000001", ""):
        nonsense = a.replaced(2, bytes.fromhex(code))
        differ(nonsense).got(1, nonsense.cfilter(2), "x 1 Omits").got(2, a.cfilter(2)).row(DONE, text([14]), [14])

    print("# What comes in one piece behind the filter by which a peer is closed is read over, and what comes before it is not.")
    ping = frame("ping", bytes(range(1, 9)))
    differ(liar).got(1, liar.cfilter(2) + ping + bytes(24), "x 1 Omits").got(2, a.cfilter(2)).row(DONE, text([14]), [14])
    differ(liar).got(1, ping + liar.cfilter(2) + ping, "> 1 pong", "x 1 Omits").got(2, a.cfilter(2)).row(DONE, text([14]), [14])

    print("# Asked for the filter that it claims, a peer sends another one, or none within a minute, or goes. The other one's is read over then, or comes before.")
    differ(liar).got(1, a.cfilter(2), "x 1 OtherFilter").got(2, a.cfilter(2)).row(DONE, text([14]), [14])
    differ(liar).tick(59).got(2, a.cfilter(2)).tick(1, "x 1 Overdue").row(DONE, text([14]), [14])
    differ(liar).gone(1).got(2, a.cfilter(2)).row(DONE, text([14]), [14])

    print("# A third peer claims a filter that others were asked for: for the one that omits a script it is closed at once, and for the one that doesn't it isn't asked.")
    for chain, causes in ((liar, ["x 1 Omits"]), (spends, [])):
        s = Session(3).shows_both(chain, a).got(2, a.cfheaders(1, 3), *asks(2, "getdata")).filters(1, chain, 1, 3)
        s.got(2, a.block(2), *both_asked).got(1, chain.cfilter(2), *causes).got(2, a.cfilter(2))
        s.shows(3, chain, *asks(3, "getcfheaders")).got(3, chain.cfheaders(1, 3), *(["x 3 Omits"] if causes else []))
        s.row(DONE, text([14]), [14])

    print("# The peers come to differ on a block that was fetched for its filter, and is told already: both are asked then.")
    s = Session(2).shows(1, a, *asks(1, "getcfheaders")).got(1, a.cfheaders(1, 3), *asks(1, "getcfilters"))
    s.filters(1, a, 1, 3, *asks(1, "getdata")).got(1, a.block(2)).shows(2, liar, *asks(2, "getcfheaders"))
    s.got(2, liar.cfheaders(1, 3), *both_asked).got(2, liar.cfilter(2), "x 2 Omits").got(1, a.cfilter(2))
    s.row(DONE, text([14]), [14])

    print("# A longer chain takes the place of the one whose block is in dispute, before the first peer is asked for its filter: it isn't asked any more, and stays.")
    longer = Chain((7, 1), (8, 3))
    s = Session(3).shows_both(liar, a).got(2, a.cfheaders(1, 3), *asks(2, "getdata")).got(2, a.block(2), *asks(2, "getcfilters"))
    s.shows(3, longer, *asks(3, "getcfheaders")).got(3, longer.cfheaders(1, 4), *asks(3, "getcfilters"))
    s.filters(1, liar, 1, 3).got(2, a.cfilter(2)).filters(3, longer, 2, 4)
    s.row(DONE, longer.history([script(3)]), [3])


if __name__ == "__main__":
    stores() if sys.argv[1:] == ["stores"] else main()
