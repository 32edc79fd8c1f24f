#!/usr/bin/env python3
"""Replays of sessions in which peers serve a made chain of 1,000, 10,000 and 100,000 blocks with its filters: the time for each block.
`sync.py [PROGRAM]`, where PROGRAM is `.build/cf` unless it is named.

One script is watched, which one block in sixteen pays and another spends. A session holds the handshakes of one peer or of eight, their headers and
filter headers, 2000 in a message, and then the filters and the blocks that match, each from whom it is asked of: the peers answer in turn, and a peer
that has answered is asked for the lowest that nobody is asked for. The time of a block may not grow with the height: that of a chain is to be within
MOST times that of each shorter one, from one peer and from eight. The least of several runs counts, of the processor, without what a run takes that
has no block.

Then the greatest of the sessions of one peer beside one over the same chain in which every block is fetched, since the filters are no filters: the
bytes of the peer's messages, and the time.

Last one honest peer of 20,000 blocks beside seven that leave a script each out of their filters, of which all are closed, and beside seven honest ones:
with the liars a run may take MOST_BESIDE_LIARS times as long.
"""
import os
import sys
import tempfile

from conversation import Served, double, siphash
from liars import said, scripts_of, without
from made_chain import records
from runs import best, run

BENCH = os.path.dirname(os.path.abspath(__file__))
ROOT = os.path.dirname(BENCH)
PROGRAM = os.path.join(ROOT, ".build", "cf")
WATCHED = bytes.fromhex("01087551")
NO_FILTER = bytes.fromhex("01000001")
# What seven peers leave out; the first of them the script that is watched.
OMITTED = [bytes([1, k, 0x75, 0x51]) for k in range(8, 15)]
MOST, MOST_BESIDE_LIARS = 1.3, 1.5
# How many runs there are of a chain of so many blocks.
TRIES = {0: 20, 1000: 20, 10_000: 10, 100_000: 4}


def has_watched(block, text):
    """Whether the filter of a block has the watched script's value, or is no filter."""
    if text is NO_FILTER:
        return True
    name = double(block[:80])
    count, bits, place, value = text[0], "".join(format(b, "08b") for b in text[1:]), 0, 0
    wanted = siphash(*(int.from_bytes(name[i:i + 8], "little") for i in (0, 8)), WATCHED) * (count * 784931) >> 64
    for _ in range(count):
        ones = bits.index("0", place) - place
        value += (ones << 19) + int(bits[place + ones + 1:place + ones + 20], 2)
        place += ones + 20
        if value == wanted:
            return True
    return False


def write_session(path, peers, messages):
    """Writes the session, and gives the number of bytes that the peers send."""
    count = 0
    with open(path, "w") as file:
        file.write("".join("dial %d\n" % p for p in range(1, peers + 1)))
        for p, message in messages:
            file.write("got %d %s\n" % (p, message.hex()))
            count += len(message)
    return count


def without_filters(chain):
    """The same chain, whose filters are no filters."""
    found = Served.__new__(Served)
    found.blocks, found.hashes, found.tip, found.filters = chain.blocks, chain.hashes, chain.tip, chain.filters[:1]
    for _ in range(chain.tip):
        hashed = double(NO_FILTER)
        found.filters.append((NO_FILTER, hashed, double(hashed + found.filters[-1][2])))
    return found


def least(words, tip, tries):
    """The history and the processor seconds of the least of some replays."""
    found = [run(words) for _ in range(tries)]
    text = found[0][0]
    if not text.splitlines()[-1].startswith(b"synced %d " % tip):
        raise SystemExit("%d blocks: %r" % (tip, text[-200:]))
    return text, min(seconds for _, seconds, _ in found)


def beside_liars(program, folder, watch):
    """How many times as long a run takes beside seven liars as beside as many honest peers."""
    chain = Served(b"".join(records((7, 20_000))))
    scripts = scripts_of(chain)
    liars = [without(chain, scripts, script) for script in OMITTED]
    calls, bytes_sent = [], []
    for name, others in (("honest", [chain] * 7), ("liars", liars)):
        session = os.path.join(folder, name)
        bytes_sent.append(write_session(session, 8, said(others + [chain], has_watched)))
        calls.append([program, "replay", watch, session])
    traced = run([program, "replay", "--trace", *calls[1][2:]])[0].splitlines()
    closed = sorted(line for line in traced if line.startswith(b"x "))
    if closed != [b"x %d Omits" % p for p in range(1, 8)]:
        raise SystemExit("other peers are closed than the liars: %r" % closed)
    (history, seconds, _), (same, slower, _) = best(*calls)
    if same != history or not history.splitlines()[-1].startswith(b"synced %d " % chain.tip):
        raise SystemExit("the histories differ")
    print("%-24s %12s %9s" % ("one peer and seven", "bytes", "seconds"))
    print("%-24s %12d %8.3fs" % ("honest ones", bytes_sent[0], seconds))
    print("%-24s %12d %8.3fs" % ("liars", bytes_sent[1], slower), flush=True)
    return slower / seconds


def main():
    program = sys.argv[1] if len(sys.argv) > 1 else PROGRAM
    costs, bad = {1: [], 8: []}, False
    with tempfile.TemporaryDirectory() as folder:
        watch, file, session = (os.path.join(folder, name) for name in ("watch", "chain", "session"))
        replay = [program, "replay", watch, session]
        with open(watch, "w") as text:
            text.write(WATCHED.hex() + "\n")
        print("%-12s %6s %9s %14s" % ("blocks", "peers", "seconds", "us for a block"))
        none = Served(b"")
        empty = {}
        for peers in costs:
            write_session(session, peers, said([none] * peers, has_watched))
            empty[peers] = least(replay, 0, TRIES[0])[1]
        for count in (1000, 10_000, 100_000):
            data = b"".join(records((7, count)))
            chain = Served(data)
            for peers in sorted(costs, reverse=True):
                size = write_session(session, peers, said([chain] * peers, has_watched))
                history, seconds = least(replay, count, TRIES[count])
                costs[peers].append((seconds - empty[peers]) / count)
                print("%-12s %6d %8.3fs %14.1f" % (count, peers, seconds, 1e6 * costs[peers][-1]), flush=True)
        with open(file, "wb") as blocks:
            blocks.write(data)
        every = write_session(session, 1, said([without_filters(chain)], has_watched))
        same, slower = least(replay, count, TRIES[count])
        if same != history:
            raise SystemExit("the histories differ")
        if run([program, "scan", file, watch])[0] != history:
            raise SystemExit("a scan gives another history")
        times = beside_liars(program, folder, watch)
    for peers, each in costs.items():
        growth = max(later / cost for place, cost in enumerate(each) for later in each[place + 1:])
        bad |= growth > MOST
        print("%d peers: a block of a longer chain takes %.2f times as long; %s is the most that is wanted" % (peers, growth, MOST))
    print("%-24s %12s %9s" % ("one peer", "bytes", "seconds"))
    print("%-24s %12d %8.3fs" % ("by filters", size, seconds))
    print("%-24s %12d %8.3fs" % ("every block fetched", every, slower))
    bad |= times > MOST_BESIDE_LIARS
    print("beside seven liars a run takes %.2f times as long; %s is the most that is wanted" % (times, MOST_BESIDE_LIARS))
    return 1 if bad else 0


if __name__ == "__main__":
    sys.exit(main())
