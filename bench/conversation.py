#!/usr/bin/env python3
"""Prints conversations with a serving machine over a block file, in hexadecimal: `conversation.py [--ranges|--calls] FILE`.

The first line is what a peer sends: each request that a server of filters knows, some that aren't answered, and last a ping that is cut
short. The second is what is sent back, written out from the layouts of the Bitcoin developer reference, BIP 157 and BIP 158. With
`--ranges` the file has more than 2000 blocks, and there are two such lines for each of several connections, on which the greatest ranges
are asked for, and longer ones; of more than 10,000 bytes their number and their hash are printed. The rows `serve` of cf_cases hold both.

With `--calls` it prints the rows `serving` of cf_cases, and after each what it comes to: calls of `serve` over this file, and over genesis
alone, to peers that greet and ping, to silent ones, and to one that sends a bad frame.
"""
import struct
import sys
from hashlib import sha256

MASK = 2 ** 64 - 1
MAGIC = bytes.fromhex("fabfb5da")
GENESIS_TX = bytes.fromhex(
    "01000000010000000000000000000000000000000000000000000000000000000000000000ffffffff4d04ffff001d0104455468652054696d65732030332f4a61"
    "6e2f32303039204368616e63656c6c6f72206f6e206272696e6b206f66207365636f6e64206261696c6f757420666f722062616e6b73ffffffff0100f2052a0100"
    "0000434104678afdb0fe5548271967f1a67130b7105cd6a828e03909a67962e0ea1f61deb649f6bc3f4cef38c4f35504e51ec112de5c384df7ba0b8d578a4c702b"
    "6bf11d5fac00000000"
)
GENESIS_HEADER = (
    struct.pack("<i", 1) + bytes(32) + bytes.fromhex("3ba3edfd7a7b12b27ac72c3e67768f617fc81bc3888a51323a9fb8aa4b1e5e4a")
    + bytes.fromhex("dae5494d") + bytes.fromhex("ffff7f20") + struct.pack("<I", 2)
)


def double(data):
    return sha256(sha256(data).digest()).digest()


def compact(n):
    if n < 253:
        return bytes([n])
    if n < 2 ** 16:
        return b"\xfd" + struct.pack("<H", n)
    return b"\xfe" + struct.pack("<I", n)


# ---- blocks

class Reader:
    def __init__(self, data):
        self.data, self.place = data, 0

    def take(self, n):
        part = self.data[self.place:self.place + n]
        self.place += n
        return part

    def number(self, n):
        return int.from_bytes(self.take(n), "little")

    def count(self):
        first = self.number(1)
        return first if first < 253 else self.number({253: 2, 254: 4, 255: 8}[first])


def valued(block):
    """Of each transaction its txid, the outpoints that it names, and the values and scripts of its outputs."""
    r = Reader(block)
    r.take(80)
    for _ in range(r.count()):
        start = r.place
        r.take(4)
        names = []
        for _ in range(r.count()):
            names.append((r.take(32), r.number(4)))
            r.take(r.count())
            r.take(4)
        outputs = []
        for _ in range(r.count()):
            value = r.number(8)
            outputs.append((value, r.take(r.count())))
        r.take(4)
        yield double(block[start:r.place]), names, outputs


def transactions(block):
    """The same with the scripts of its outputs alone."""
    return [(txid, names, [paid for _, paid in outputs]) for txid, names, outputs in valued(block)]


def records(data):
    r = Reader(data)
    while r.place < len(data):
        assert r.take(4) == MAGIC
        yield r.take(r.number(4))


# ---- filters

def rotl(x, b):
    return ((x << b) | (x >> (64 - b))) & MASK


def siphash(k0, k1, data):
    v = [k0 ^ 0x736F6D6570736575, k1 ^ 0x646F72616E646F6D, k0 ^ 0x6C7967656E657261, k1 ^ 0x7465646279746573]

    def rounds(n):
        for _ in range(n):
            v[0] = (v[0] + v[1]) & MASK
            v[1] = rotl(v[1], 13) ^ v[0]
            v[0] = rotl(v[0], 32)
            v[2] = (v[2] + v[3]) & MASK
            v[3] = rotl(v[3], 16) ^ v[2]
            v[0] = (v[0] + v[3]) & MASK
            v[3] = rotl(v[3], 21) ^ v[0]
            v[2] = (v[2] + v[1]) & MASK
            v[1] = rotl(v[1], 17) ^ v[2]
            v[2] = rotl(v[2], 32)

    whole = len(data) // 8 * 8
    words = [data[i:i + 8] for i in range(0, whole, 8)]
    words.append(data[whole:] + bytes(7 - len(data) % 8) + bytes([len(data) % 256]))
    for word in words:
        m = int.from_bytes(word, "little")
        v[3] ^= m
        rounds(2)
        v[0] ^= m
    v[2] ^= 0xFF
    rounds(4)
    return v[0] ^ v[1] ^ v[2] ^ v[3]


def basic_filter(block_hash, items):
    n = len(items)
    k0, k1 = (int.from_bytes(block_hash[i:i + 8], "little") for i in (0, 8))
    values = sorted(siphash(k0, k1, item) * (n * 784931) >> 64 for item in items)
    bits, before = "", 0
    for value in values:
        d = value - before
        bits += "1" * (d >> 19) + "0" + format(d % 2 ** 19, "019b")
        before = value
    bits += "0" * (-len(bits) % 8)
    return compact(n) + bytes(int(bits[i:i + 8], 2) for i in range(0, len(bits), 8))


def filters(blocks):
    coins, previous, found = {}, bytes(32), []
    for height, block in enumerate(blocks):
        items = set()
        for place, (txid, names, scripts) in enumerate(transactions(block)):
            for script in scripts:
                if script and script[0] != 0x6A:
                    items.add(script)
            if place > 0:
                items.update(s for s in (coins.pop(name) for name in names) if s)
            if height > 0:
                coins.update(((txid, i), script) for i, script in enumerate(scripts))
        text = basic_filter(double(block[:80]), items)
        previous = double(double(text) + previous)
        found.append((text, double(text), previous))
    return found


# ---- messages

def frame(command, payload=b""):
    name = command.encode()
    return MAGIC + name + bytes(12 - len(name)) + struct.pack("<I", len(payload)) + double(payload)[:4] + payload


def version(services, time, nonce, agent, height, relay):
    no_address = bytes(26)
    return frame("version", struct.pack("<iQq", 70016, services, time) + no_address + no_address
                 + struct.pack("<Q", nonce) + compact(len(agent)) + agent + struct.pack("<i", height) + relay)


NUMBER = bytes(range(1, 9))
THEIR_VERSION = version(0, 5, 6, b"/other:2/", 9, b"")


def greeting(tip):
    return version(65, 1_700_000_000, 0x1122334455667788, b"/cf:1/", tip, b"\0") + frame("verack")


class Served:
    """A chain, and what is told of it."""

    def __init__(self, data):
        self.blocks = [GENESIS_HEADER + b"\x01" + GENESIS_TX] + list(records(data))
        self.hashes = [double(b[:80]) for b in self.blocks]
        self.filters = filters(self.blocks)
        self.tip = len(self.blocks) - 1

    def headers(self, first, last):
        chosen = self.blocks[first:last + 1]
        return frame("headers", compact(len(chosen)) + b"".join(b[:80] + b"\0" for b in chosen))

    def block(self, height):
        return frame("block", self.blocks[height])

    def cfilter(self, height):
        text = self.filters[height][0]
        return frame("cfilter", b"\0" + self.hashes[height] + compact(len(text)) + text)

    def cfheaders(self, first, last):
        before = self.filters[first - 1][2] if first else bytes(32)
        told = b"".join(f[1] for f in self.filters[first:last + 1])
        return frame("cfheaders", b"\0" + self.hashes[last] + before + compact(last + 1 - first) + told)

    def cfcheckpt(self, last):
        told = [self.filters[height][2] for height in range(1000, last + 1, 1000)]
        return frame("cfcheckpt", b"\0" + self.hashes[last] + compact(len(told)) + b"".join(told))


def getheaders(locator, stop):
    return frame("getheaders", struct.pack("<I", 70016) + compact(len(locator)) + b"".join(locator) + stop)


def of_range(command, kind, start, stop):
    return frame(command, bytes([kind]) + struct.pack("<I", start) + stop)


def whole(c):
    """The whole conversation: what is asked, and what is answered."""
    hashes, tip, unknown = c.hashes, c.tip, bytes([7]) * 32
    ask, told = b"", b""

    def say(sent, *answers):
        nonlocal ask, told
        ask += sent
        told += b"".join(answers)

    # Nothing is answered before a version, and no second version is.
    say(getheaders([hashes[0]], bytes(32)))
    say(frame("ping", NUMBER))
    say(THEIR_VERSION, greeting(tip))
    say(frame("ping", NUMBER), frame("pong", NUMBER))
    say(version(0, 5, 6, b"", 9, b"\x01"))
    say(frame("verack"))
    say(frame("pong", NUMBER))
    say(frame("inv", compact(1) + struct.pack("<I", 2) + unknown))
    # A command that isn't known.
    say(frame("sendcmpct", b"\0" + struct.pack("<Q", 1)))
    # Headers.
    say(getheaders([unknown], bytes(32)), c.headers(1, tip))
    say(getheaders([hashes[tip]], bytes(32)), c.headers(1, 0))
    say(getheaders([hashes[0]], hashes[2]), c.headers(1, 2))
    say(getheaders([unknown, hashes[1], hashes[0]], hashes[1]), c.headers(2, tip))
    say(getheaders([], hashes[2]), c.headers(2, 2))
    say(getheaders([], unknown))
    # Blocks, genesis among them; a transaction, a block with its witness, and an unknown one get nothing.
    entries = [(2, hashes[2]), (1, hashes[1]), (2, unknown), (0x40000002, hashes[1]), (2, hashes[0])]
    say(frame("getdata", compact(len(entries)) + b"".join(struct.pack("<I", kind) + name for kind, name in entries)), c.block(2), c.block(0))
    # Filters, their hashes, and checkpoints.
    say(of_range("getcfilters", 0, 0, hashes[tip]), *(c.cfilter(h) for h in range(tip + 1)))
    say(of_range("getcfilters", 0, 2, hashes[2]), c.cfilter(2))
    say(of_range("getcfilters", 1, 0, hashes[tip]))
    say(of_range("getcfilters", 0, 0, unknown))
    say(of_range("getcfilters", 0, 3, hashes[2]))
    say(of_range("getcfheaders", 0, 0, hashes[tip]), c.cfheaders(0, tip))
    say(of_range("getcfheaders", 0, 2, hashes[tip]), c.cfheaders(2, tip))
    say(of_range("getcfheaders", 1, 2, hashes[tip]))
    say(of_range("getcfheaders", 0, tip + 1, hashes[tip]))
    say(frame("getcfcheckpt", b"\0" + hashes[tip]), c.cfcheckpt(tip))
    say(frame("getcfcheckpt", b"\x01" + hashes[tip]))
    say(frame("getcfcheckpt", b"\0" + unknown))
    # A payload that is too short.
    say(frame("ping", NUMBER[:7]))
    return ask, told


def ranges(c):
    """One request on each connection, and its answer."""
    hashes = c.hashes
    yield of_range("getcfheaders", 0, 1, hashes[2000]), c.cfheaders(1, 2000)
    yield of_range("getcfheaders", 0, 1, hashes[2001]), b""
    yield of_range("getcfilters", 0, 1, hashes[1000]), b"".join(c.cfilter(h) for h in range(1, 1001))
    yield of_range("getcfilters", 0, 1, hashes[1001]), b""
    yield of_range("getcfilters", 0, 5, hashes[4]), b""
    for last in (999, 1000, 2001):
        yield frame("getcfcheckpt", b"\0" + hashes[last]), c.cfcheckpt(last)
    yield frame("getcfcheckpt", b"\x01" + hashes[1000]), b""


DONE = "0 Done"
LINK_FAULT = "9 LinkFault: the address can't be listened at, or no connection could be accepted"


def calls(data):
    """Calls that serve, as rows, and the lines that each comes to."""
    pinged = frame("ping", NUMBER)
    asks = (pinged + THEIR_VERSION + pinged).hex()
    bare = "0 " + (greeting(0) + frame("pong", NUMBER)).hex()
    served = "0 " + (greeting(Served(data).tip) + frame("pong", NUMBER)).hex()

    def row(limits, words, blocks, *asked):
        return "serving %s|cf serve %s|%s|%s" % (limits, words, blocks.hex() or "-", " ".join(asked))

    yield row("refused -", "--connections 1 f a", b"", asks), [DONE, bare]
    # One that sends nothing, and one whose frame doesn't begin as one.
    yield row("threads -", "--connections 3 f a", data, asks, "-", bytes(24).hex()), [DONE, served, "0 -", "1 -"]
    yield row("place -", "--connections 2 f a", b"", asks, asks), [DONE, bare, bare]
    # The first call of the link is to listen; then each is to accept.
    yield row("place 1", "f a", b"", asks), [LINK_FAULT]
    yield row("threads 3", "--connections 2 f a", b"", asks, asks), [LINK_FAULT, bare]
    # Without a number there are more connections to come than the link has.
    yield row("refused -", "f a", b"", asks), [LINK_FAULT, bare]
    cut = "3 BadFile { which: Blocks, place: 1, cause: Blocks(Cut) }: the block file, record 1: the record is cut off"
    yield row("place -", "f a", data[:3], asks), [cut]
    yield row("place -", "g a", b"", asks), ["4 FileFault: a file could not be read"]
    yield row("place -", "--connections 0 f a", b"", asks), ["2 Usage: the words are no command"]


def shown(data):
    return data.hex() if len(data) <= 10_000 else "%d bytes %s" % (len(data), double(data)[::-1].hex())


def main():
    with open(sys.argv[-1], "rb") as file:
        data = file.read()
    if sys.argv[1] == "--calls":
        for row, lines in calls(data):
            print("\n".join([row] + lines))
        return
    c = Served(data)
    if sys.argv[1] != "--ranges":
        for text in whole(c):
            print(text.hex())
        return
    for asked, told in ranges(c):
        print((THEIR_VERSION + asked).hex())
        print(shown(greeting(c.tip) + told))


if __name__ == "__main__":
    main()
