#!/usr/bin/env python3
"""Prints rows of cf_cases on the times of headers, each with what it comes to: `times.py KIND`, of the kinds `blocks`, `stores` and `run`.

A header's time is above the median of the times of the last 11 headers up to its parent, genesis among them (Bitcoin developer reference, "Block
Headers"). The rows are made chains of which some blocks have other times: as files of blocks, and as sessions over each of the two stores of headers.
"""
import os
import struct
import sys

sys.path.insert(0, os.path.dirname(os.path.abspath(__file__)))
from conversation import Served
from made_chain import made_time, records
from sessions import DONE, Session, asks

REFUSED = "no header here: the time isn't above the median of those before it"
LATEST = 2 ** 32 - 1


class Timed(Served):
    """The made chain of seed 7, of so many blocks, of which some have other times."""

    def __init__(self, tip, times):
        self.records = list(records((7, tip), time_of=lambda height: times.get(height, made_time(height))))
        super().__init__(b"".join(self.records))

    def late(self):
        """The first height at which the time isn't above the median."""
        times = [struct.unpack("<I", block[68:72])[0] for block in self.blocks]
        for height in range(1, self.tip + 1):
            past = sorted(times[max(0, height - 11):height])
            if times[height] <= past[len(past) // 2]:
                return height
        return None


def shown(bytes_):
    return bytes_[::-1].hex()


def block_row(tip, times):
    """A row `blocks`."""
    chain = Timed(tip, times)
    print("blocks " + " ".join(record.hex() for record in chain.records))
    late = chain.late()
    if late:
        print("record %d: %s" % (late, REFUSED))
        return
    print("%d %s %d" % (tip, shown(chain.hashes[-1]), tip))
    for height, block in enumerate(chain.blocks):
        text, name, header = chain.filters[height]
        print("%d %s %s %s %s 207fffff %d" % (height, shown(chain.hashes[height]), text.hex(), shown(name), shown(header), block[80]))


def both(row, tip, times, least):
    """A row whose last block's time is the median, and one whose last block's time is a second later."""
    for time in (least, least + 1):
        row(tip, {**times, tip: time})


def each(row):
    print("# The first block's time is that of genesis, or a second later.")
    both(row, 1, {}, made_time(0))
    print("# The second one's is the first one's; the third one's may be the first one's and a second, as genesis counts.")
    both(row, 2, {}, made_time(1))
    both(row, 3, {}, made_time(1))
    print("# Of eleven times the sixth counts.")
    both(row, 12, {}, made_time(6))
    print("# Genesis counts no more, nor does a twelfth time: the one at height 6, the latest that a header can have.")
    both(row, 18, {6: LATEST}, made_time(12))


def blocks():
    print("# Times: one is above the median of the eleven before it. The rows and answers up to the next kind are those of bench/times.py blocks.")
    each(block_row)


def synced(chain):
    return "synced %d %s\n" % (chain.tip, shown(chain.hashes[-1]))


def stores(session, left, text):
    session.stores("Ended" if left else "NoPeers", text, [8], left, [], 0, 0, 0)


def session_rows(tip, times):
    """Rows `stores`: a peer shows all headers in one list; or the last one in a list of its own; or a first peer has shown all below it."""
    chain, below = Timed(tip, times), Timed(tip - 1, {k: t for k, t in times.items() if k < tip})
    left, text = ([], synced(Timed(0, {}))) if chain.late() else ([chain], synced(chain))
    stores(Session(1).shows(1, chain), left, text)
    if below.tip:
        stores(Session(1).shows(1, below).got(1, chain.headers(tip, tip)), left, text)
        stores(Session(2).shows(1, below).shows(2, chain), [below] + left, synced(below) if chain.late() else text)


def sessions():
    print("# Times: those of a list count for its later headers. Each chain is shown in one list; with its last header in a list of its own; and by a second peer,")
    print("# after one that shows all but its last. The rows and answers up to the next kind are those of bench/times.py stores.")
    each(session_rows)


def runs():
    print("# Times: a peer one of whose times isn't above the median of the eleven before it is closed. These rows are those of bench/times.py run.")
    for time in (made_time(6), made_time(6) + 1):
        chain, s = Timed(12, {12: time}), Session(1)
        if chain.late():
            s.shows(1, chain, "x 1 InvalidHeader").row("6 NoPeers { ends: [Closed(InvalidHeader)] }: no peer is left", "", [])
        else:
            s.shows(1, chain, *asks(1, "getcfheaders")).got(1, chain.cfheaders(1, 12), *asks(1, "getcfilters"))
            for height in range(1, 13):
                s.got(1, chain.cfilter(height))
            s.row(DONE, synced(chain), [])
    print("# A file with such a time.")
    for time in (made_time(6), made_time(6) + 1):
        chain = Timed(12, {12: time})
        print("run 4000 -|cf scan f w|||" + b"".join(chain.records).hex())
        print(DONE if not chain.late() else "3 BadFile { which: Blocks, place: 12, cause: Blocks(Header(Time)) }: the block file, record 12: " + REFUSED)
        print("" if chain.late() else synced(chain))


if __name__ == "__main__":
    {"blocks": blocks, "stores": sessions, "run": runs}[sys.argv[1]]()
