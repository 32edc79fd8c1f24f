#!/usr/bin/env python3
"""Prints rows of cf_cases on a server whose chain grows, each with what it comes to: `growing.py KIND`, of the kinds `grow` and `serving`.

What is written comes from a server in Python, by the layouts of the Bitcoin developer reference and BIP 157. It answers each message by the chain as
it stands. Where the chain's tip is above the one that a connection was told of, it tells the tip first, by an `inv`. An `inv` of blocks that it doesn't
have is answered by one `getdata` of them. A `block` that may stand on the tip joins the chain once it was answered. What comes before a `version` is
neither answered nor joins. `grow.py` and `changes.py` compare the program with it.
"""
import functools
import os
import re
import struct
import sys

sys.path.insert(0, os.path.dirname(os.path.abspath(__file__)))
from client import READERS, Bad, meets, read_block, read_frames, root_of
from conversation import GENESIS_TX, MAGIC, NUMBER, THEIR_VERSION, Served, compact, double, filters, frame, getheaders, greeting, of_range, shown
from made_chain import coinbase, made_time, output, spending
from readers import CLOSED as READ_TO_ITS_END
from readers import answer_to, is_next, message_in
from sessions import Chain

BITS = 0x207FFFFF
MOST = len(THEIR_VERSION)
MOST_BLOCK, MOST_ENTRIES = 1_000_000, 50_000
CLOSED = "Served(Closed)"
PING, PONG = frame("ping", NUMBER), frame("pong", NUMBER)


@functools.cache
def made(*parts):
    """The made chain of these parts."""
    return Chain(*parts)


# ---- the server

def entry(name, kind=2):
    return struct.pack("<I", kind) + name


def listed(command, entries):
    return frame(command, compact(len(entries)) + b"".join(entries))


def chain_of(blocks, hashes, found):
    """A chain of these blocks, which have these hashes and filters."""
    chain = Served.__new__(Served)
    chain.blocks, chain.hashes, chain.filters, chain.tip = blocks, hashes, found, len(blocks) - 1
    return chain


def with_block(chain, block):
    """A chain and one block more."""
    blocks = chain.blocks + [block]
    return chain_of(blocks, chain.hashes + [double(block[:80])], filters(blocks))


def up_to(chain, height):
    """A chain as far as this height."""
    return chain_of(*(part[:height + 1] for part in (chain.blocks, chain.hashes, chain.filters)))


def news(chain, mark):
    """What a connection is told first that was told of the tip at this height."""
    return listed("inv", [entry(chain.hashes[-1])]) if mark < chain.tip else b""


def answer_of(chain, command, payload):
    """What is written to a message of a connection that has told its version, behind the tip."""
    message = message_in(command, payload) if command in READERS else None
    if command == "inv":
        wanted = [each for each in message if each[:4] == b"\2\0\0\0" and each[4:] not in chain.hashes]
        return listed("getdata", wanted) if wanted else b""
    return answer_to(chain, command, payload, message)


class Server:
    """A chain that grows while it is served."""

    def __init__(self, chain):
        self.chain, self.coins = chain, {}
        for height in range(1, chain.tip + 1):
            assert is_next(chain.blocks[height], chain.blocks[:height], self.coins)

    def puts(self, block):
        coins = dict(self.coins)
        if is_next(block, self.chain.blocks, coins):
            self.chain, self.coins = with_block(self.chain, block), coins


class Connection:
    """A connection to such a server: the height of the tip that it was told of, what is written to it, and how it has ended."""

    def __init__(self, server):
        self.server, self.mark, self.waiting, self.written, self.end = server, None, b"", b"", ""

    def hears(self, piece):
        self.waiting += piece
        found, size = read_frames(self.waiting)
        self.waiting = self.waiting[size:]
        for each in found:
            self.end = self.end or self.takes(each)

    def takes(self, found):
        """Takes a frame, and tells whether the connection ends with it."""
        if found is None:
            return "frame"
        command, payload = found
        try:
            answer = answer_of(self.server.chain, command, payload)
        except Bad:
            return "message"
        chain = self.server.chain
        if self.mark is None:
            if command == "version":
                self.mark, self.written = chain.tip, greeting(chain.tip)
            return ""
        self.written += news(chain, self.mark) + answer
        self.mark = chain.tip
        if command == "block":
            self.server.puts(payload)
        return ""


ENDS = {"": READ_TO_ITS_END, "frame": "connection 1: what came is no frame", "message": "connection 1: a message could not be read"}


def grown(data):
    """What `serve --grow` of the made chain of three blocks writes to a peer that sends these bytes and then is silent."""
    connection = Connection(Server(made((7, 3))))
    connection.hears(data)
    return 0, connection.written, ENDS[connection.end]


def bringing():
    """What a peer says that brings three blocks, one of them too early, and asks about them."""
    c = made((7, 6))
    early, told = c.block(6) + c.block(5), listed("inv", [entry(name) for name in c.hashes])
    asked = listed("getdata", [entry(name) for name in c.hashes[4:]]) + of_range("getcfheaders", 0, 0, c.hashes[6])
    asked += of_range("getcfilters", 0, 3, c.hashes[6]) + getheaders([c.hashes[3]], bytes(32)) + PING
    return THEIR_VERSION + told + c.block(4) + early + told + asked + c.block(6) + asked + told


# ---- what is sent

def runs_of(data):
    """Bytes in hexadecimal, of which sixteen equal ones and more are told by their number."""
    parts = re.split(rb"((?s:(.)\2{15,}))", data)
    texts = [part.hex() if place % 3 == 0 else f"{part[:1].hex()}*{len(part)}" for place, part in enumerate(parts) if place % 3 < 2]
    return [text for text in texts if text]


class Sent:
    """Bytes that a peer sends, and how a row tells them: parts that are joined by `+`, each in hexadecimal, or `HEX*N` where it comes so often."""

    def __init__(self, *parts):
        self.parts = list(parts)

    def __add__(self, other):
        return Sent(*self.parts, *(other.parts if isinstance(other, Sent) else [(other, 1)]))

    def whole(self):
        return b"".join(part * times for part, times in self.parts)

    def told(self):
        texts, plain = [], b""
        for part, times in self.parts + [(b"", 0)]:
            if times == 1:
                plain += part
                continue
            texts += runs_of(plain) + [f"{part.hex()}*{times}"] * bool(times)
            plain = b""
        return "+".join(texts) or "-"


MET = Sent((THEIR_VERSION, 1))


def framed(command, *parts):
    """The frame of a payload of such parts."""
    return Sent((frame(command, Sent(*parts).whole())[:24], 1), *parts)


def brought(*blocks):
    return Sent(*((frame("block", block), 1) for block in blocks))


def entries(*some, times):
    """An `inv` of these entries, so many times."""
    return framed("inv", (compact(len(some) * times), 1), (b"".join(some), times))


# ---- blocks

def mined(below, txs, time=None, bits=BITS, root=None, is_good=True):
    """A block on another one, whose hash meets the target or doesn't."""
    root = root or root_of([double(tx) for tx in txs])[0]
    time = time or int.from_bytes(below[68:72], "little") + 600
    front = struct.pack("<i", 4) + double(below[:80]) + root + struct.pack("<II", time, bits)
    for nonce in range(65_536):
        header = front + struct.pack("<I", nonce)
        if meets(double(header)) == is_good:
            return header + compact(len(txs)) + b"".join(txs)
    raise SystemExit("no nonce")


def paying(name, place, script=output(0, 1)[9:]):
    """A transaction that spends an output, and pays nothing to a script."""
    start = struct.pack("<i", 1) + b"\1" + name + struct.pack("<I", place) + b"\0" + b"\xff" * 4
    return start + b"\1" + bytes(8) + compact(len(script)) + script + bytes(4)


def bad_blocks(chain, other):
    """Blocks that may not stand on the made chain of seed 7 at height 4, one for each rule. The other chain is one of another seed."""
    tip, height = chain.blocks[-1], chain.tip + 1
    txs = [read_block(block)[1] for block in chain.blocks]
    names = [[double(tx) for tx in each] for each in txs]
    first, coin = coinbase(7, height), names[4][0]
    spends = spending(7, height, coin)
    more = paying(double(spends), 0)
    yield "one that is there", tip
    yield "one on the block below the tip", mined(chain.blocks[-2], [first])
    yield "one on a block that isn't there", other.blocks[height]
    yield "other bits", mined(tip, [first], bits=BITS - 1)
    yield "a hash above the target", mined(tip, [first], is_good=False)
    yield "a time that is the median of those before it", mined(tip, [first], time=made_time(2))
    yield "another root", mined(tip, [first, spends], root=double(first))
    yield "a pair of equal hashes", mined(tip, [first, spends, more, more])
    yield "a transaction of 64 bytes", mined(tip, [first, paying(coin, 0, bytes(4))])
    yield "no coinbase", mined(tip, [spends])
    yield "two coinbases", mined(tip, [first, coinbase(8, height)])
    yield "a coin that nobody has made", mined(tip, [first, spends, paying(bytes(32), 0)])
    yield "an output that isn't there", mined(tip, [first, paying(coin, 1)])
    yield "a coin that is spent", mined(tip, [first, paying(names[1][0], 0)])
    yield "one coin twice", mined(tip, [first, spends, paying(coin, 0)])
    yield "the coin of a later transaction", mined(tip, [first, more, spends])
    yield "the coin of genesis", mined(tip, [first, paying(double(GENESIS_TX), 0)])
    yield "a coin that stands", mined(tip, [txs[3][0]])


def large_block(below, size=MOST_BLOCK):
    """The parts of a block of so many bytes, that may stand on this one."""
    front = coinbase(7, 0)[:-(1 + 8 + 5 + 4)] + b"\1" + bytes(8)
    zeros = size - 81 - len(front) - 5 - 4
    front, back = front + compact(zeros), bytes(4)
    tx = front + bytes(zeros) + back
    return (mined(below, [tx])[:81] + front, 1), (b"\0", zeros), (back, 1)


# ---- rows `grow`

def ended(connection, how):
    return "%s %s" % (how, shown(connection.written) or "-")


def growth(base, reads, first, second, how=(CLOSED, CLOSED), told=None):
    """Prints a row over a made chain of seed 7: the first connection is served whole once the second was read so often. `told` is what has to come
    to be written, where that is known from elsewhere."""
    server = Server(made((7, base)))
    one, two, data = Connection(server), Connection(server), second.whole()
    for number, at in enumerate(range(0, len(data) + MOST, MOST)):
        if number == reads:
            one.hears(first.whole())
        two.hears(data[at:at + MOST])
    assert told in (None, (one.written, two.written)), (base, one.written.hex(), two.written.hex())
    assert [bool(one.end), bool(two.end)] == [text != CLOSED for text in how], (one.end, two.end)
    print("grow 7x%d %d %d %s %s" % (base, MOST, reads, first.told(), second.told()))
    print("\n".join(ended(connection, text) for connection, text in zip((one, two), how)))


def refusal(command, cause):
    """How a connection ends with a message that can't be read, whose first field is refused."""
    name = list(command.encode().ljust(12, b"\0"))
    return "Served(Malformed(Malformed { command: %s, place: 0, cause: %s }))" % (name, cause)


def two_connections():
    c = made((7, 6))
    old, new, before = c.block(3), c.block(4), greeting(3)
    inv = listed("inv", [entry(c.hashes[4])])
    asked = listed("getdata", [entry(c.hashes[4])])
    print("# grow CHAIN MOST READS HEX HEX: how two connections to a server end whose chain grows, and what is written. Their peers send these bytes, at most MOST at a")
    print("# time. The first connection is served whole once the second was read so often. Behind what a peer sends may stand, each after a `/`, the reads and the")
    print("# writes of its connection that fail, counted from 1 (`-`: none). The rows and answers are those of bench/growing.py grow.")
    print("# The second is told of the block that the first has brought, before its next answer.")
    growth(3, 1, MET + new, MET + PING, told=(before, before + inv + PONG))
    print("# Each is told once, whoever has brought it.")
    growth(3, 1, MET + new + PING + PING, MET + PING + PING, told=(before + inv + PONG + PONG,) * 2)
    print("# The second comes later, and its `version` tells the height.")
    growth(3, 0, MET + new, MET + PING, told=(before, greeting(4) + PONG))
    print("# What comes before a `version` joins nothing.")
    growth(3, 1, Sent((new, 1)), MET + PING, told=(b"", before + PONG))
    print("# It is asked for while it isn't there.")
    headers = c.headers(4, 4)
    growth(3, 1, MET + inv + new + inv, MET + getheaders([c.hashes[3]], bytes(32)), told=(before + asked + inv, before + inv + headers))
    print("# One that is there, and one that is there once it has come.")
    growth(3, 1, MET + old + new + new + PING, MET + PING, told=(before + inv + PONG, before + inv + PONG))
    print("# Both bring it; and each brings another one on the same block.")
    growth(3, 1, MET + new + PING, MET + new + PING, told=(before + inv + PONG, before + inv + PONG))
    growth(3, 1, MET + new + PING, MET + made((7, 3), (8, 1)).block(4) + PING, told=(before + inv + PONG, before + inv + PONG))
    print("# Three join: of several that it wasn't told of, a connection is told the highest. One that comes before the one below it has to come again.")
    growth(3, 1, MET + brought(*c.blocks[4:7]) + PING, MET + PING)
    growth(3, 1, MET + brought(c.blocks[5], c.blocks[4]) + PING, MET + brought(c.blocks[5], c.blocks[6]) + PING)
    print("# The joined block, its filter, filter header and header; and a command that isn't known.")
    filter_of, header_of = of_range("getcfilters", 0, 3, c.hashes[5]), of_range("getcfheaders", 0, 0, c.hashes[5])
    fetched = listed("getdata", [entry(c.hashes[5])])
    growth(4, 1, MET + brought(c.blocks[5]), MET + frame("sendcmpct") + fetched + filter_of + header_of + getheaders([], bytes(32)))
    print("# The thousandth block gives a checkpoint.")
    thousand = made((7, 1000))
    asked = frame("getcfcheckpt", b"\0" + thousand.hashes[1000])
    growth(999, 1, MET + asked + brought(thousand.blocks[1000]) + asked, MET + frame("getcfcheckpt", b"\0" + thousand.hashes[999]))
    print("# What it has brought stays, where a connection ends by what it sends next; a block that is cut off joins nothing.")
    growth(3, 1, MET + new + bytes(24), MET + PING, ("Served(BadFrame(Magic))", CLOSED), (before, before + inv + PONG))
    growth(3, 1, MET + new[:-1], MET + PING, told=(before, before + PONG))


def refused():
    c = made((7, 6))
    print("# Blocks that break one rule each: one that is there, one on the block below the tip, one on a block that isn't there, other bits, a hash above the")
    print("# target, a time that is the median, another root, a pair of equal hashes, a transaction of 64 bytes, no coinbase, two, and coins that nobody has made,")
    print("# that a transaction doesn't pay, that are spent, spent twice, made later, of genesis, and that stand already. Then good ones, which spend.")
    bad = [block for _, block in bad_blocks(made((7, 4)), made((9, 5)))]
    asked = listed("getdata", [entry(double(block[:80])) for block in bad[1:]])
    growth(4, 1, MET + brought(*bad) + PING, MET + asked + brought(*c.blocks[5:7]) + PING)
    print("# Coins that are kept from a block that has joined: blocks that break their rules alone, and then good ones.")
    growth(3, 1, MET + brought(c.blocks[4], *bad[-7:-5]) + PING, MET + brought(c.blocks[5], bad[-1], c.blocks[6]) + PING)
    print("# Times: the first two are a second above the median of the eleven before them, and the third is that median.")
    t = made((7, 12))
    for block_time in (made_time(7) + 1, made_time(8) + 1, made_time(9)):
        t = with_block(t, mined(t.blocks[-1], [coinbase(7, t.tip + 1)], time=block_time))
    growth(12, 1, MET + brought(*t.blocks[13:]) + PING, MET + PING)


def large():
    c = made((7, 4))
    print("# `*N` stands for so many times, and `+` joins. A block of 1,000,000 bytes joins, and is sent; one of a byte more can't be read.")
    good, name = framed("block", *large_block(c.blocks[3])), double(large_block(c.blocks[3])[0][0][:80])
    fetched = listed("getdata", [entry(name)]) + of_range("getcfilters", 0, 4, name)
    growth(3, 1, MET + good + PING, MET + fetched)
    more = framed("block", *large_block(c.blocks[3], MOST_BLOCK + 1))
    growth(3, 1, MET + more + PING, MET + c.block(4) + PING, (refusal("block", "Block(TooLong)"), CLOSED))
    print("# An `inv` of 50,000 entries: blocks that aren't there, each asked for as often as it is named; every other one is there; and one entry more.")
    unknown, known = entry(c.hashes[4]), entry(c.hashes[3])
    growth(3, 1, MET + entries(unknown, times=MOST_ENTRIES) + PING, MET + PING)
    growth(3, 1, MET + entries(known, unknown, times=MOST_ENTRIES // 2) + c.block(4) + PING, MET + PING)
    more = framed("inv", (compact(MOST_ENTRIES + 1), 1), (unknown, MOST_ENTRIES + 1))
    growth(3, 1, MET + more + PING, MET + PING, (refusal("inv", "TooMany"), CLOSED))
    print("# Of a transaction, of a block with its witnesses, and of a block that is there, none is asked for.")
    other = [entry(c.hashes[4], 1), entry(c.hashes[4], 0x40000002), known]
    growth(3, 1, MET + listed("inv", other) + PING, MET + listed("inv", [*other, unknown, *other, unknown]) + PING)


# ---- rows `serving`

def call(way, base, *sent):
    """Prints a call of `serve --grow` over a made chain of seed 7, to these peers, one after another."""
    chain = made((7, base))
    file = Sent(*((MAGIC + struct.pack("<I", len(block)) + block, 1) for block in chain.blocks[1:]))
    server, ends = Server(chain), []
    for each in sent:
        connection = Connection(server)
        connection.hears(each.whole())
        ends.append("%d %s" % (["", "frame", "message"].index(connection.end), connection.written.hex() or "-"))
    texts = " ".join(each.told() for each in sent)
    print("serving %s -|cf serve --grow --connections %d f a|%s|%s" % (way, len(sent), file.told(), texts))
    print("\n".join(["0 Done", *ends]))


def calls():
    c = made((7, 5))
    print("# `serve --grow`: each comes once the one before it has ended. The rows and answers up to the next remark but one are those of bench/growing.py serving.")
    call("place", 3, MET + c.block(4) + bytes(24), MET + c.block(4) + PING, Sent((c.block(5), 1)), MET + c.block(5), MET + getheaders([c.hashes[3]], bytes(32)))
    print("# Eight bring 1,000,000 bytes each, side by side: a block that may not stand there.")
    call("threads", 3, *[MET + framed("block", *large_block(c.blocks[2])) + PING] * 8)


def main():
    kind = sys.argv[1]
    for rows in {"grow": (two_connections, refused, large), "serving": (calls,)}[kind]:
        rows()


if __name__ == "__main__":
    main()
