#!/usr/bin/env python3
"""Writes a made chain as a block file: `made_chain.py SEED BLOCKS FILE`, or `made_chain.py SEED BLOCKS SEED BLOCKS FILE`, whose later blocks
are those of another seed.

Every block pays 50 coins to one of sixteen scripts, `01 k 75 51`. Where seed and height add up to a multiple of 3, a second transaction spends the
block before's coin and pays two other scripts. Genesis is left out.
"""
import struct
import sys
from hashlib import sha256

MAGIC = bytes.fromhex("fabfb5da")
GENESIS_HASH = bytes.fromhex("06226e46111a0b59caaf126043eb5bbf28c34f3a5e332a1fc7b2b73cf188910f")


def double(data):
    return sha256(sha256(data).digest()).digest()


def output(value, k):
    return struct.pack("<q", value) + bytes([4, 1, k % 16, 0x75, 0x51])


def other_outputs(height, count):
    """So many outputs of nothing, each to a script of its own, as long as one that pays the hash of a key."""
    names = (sha256(struct.pack("<II", height, place)).digest()[:20] for place in range(count))
    return b"".join(bytes(8) + b"\x19\x76\xa9\x14" + name + b"\x88\xac" for name in names)


def coinbase(seed, height, others=0):
    script = b"\x04" + struct.pack("<I", height) + b"\x08" + struct.pack("<Q", seed)
    start = struct.pack("<i", 1) + b"\x01" + bytes(32) + b"\xff\xff\xff\xff" + bytes([len(script)]) + script + b"\xff\xff\xff\xff"
    return start + bytes([1 + others]) + output(5_000_000_000, seed + height) + other_outputs(height, others) + bytes(4)


def spending(seed, height, coin):
    t = seed + height
    start = struct.pack("<i", 1) + b"\x01" + coin + bytes(4) + b"\x00" + b"\xff\xff\xff\xff"
    return start + b"\x02" + output(2_000_000_000, t + 5) + output(3_000_000_000, t + 11) + bytes(4)


def meets_target(block_hash):
    return block_hash[::-1] <= b"\x7f\xff\xff" + bytes(29)


def mined(fields):
    for nonce in range(65_536):
        header = fields + struct.pack("<I", nonce)
        if meets_target(double(header)):
            return header
    raise SystemExit("no nonce")


def made_time(height):
    return 1_296_688_602 + 600 * height


def block_after(previous, coin, seed, height, others=0, time=None):
    """A block on one with this hash and this hash of its coinbase, and the hash of its own coinbase."""
    txs = [coinbase(seed, height, others)]
    if height > 1 and (seed + height) % 3 == 0:
        txs.append(spending(seed, height, coin))
    txids = [double(tx) for tx in txs]
    root = double(b"".join(txids)) if len(txids) == 2 else txids[0]
    time = made_time(height) if time is None else time
    header = mined(struct.pack("<i", 4) + previous + root + struct.pack("<II", time, 0x207FFFFF))
    return header + bytes([len(txs)]) + b"".join(txs), txids[0]


def records(*parts, others=0, time_of=made_time):
    """The records of the parts of a chain, each of which is a seed and a number of blocks. Each coinbase has so many outputs more, at most 251."""
    previous = GENESIS_HASH
    coin = None
    seeds = [seed for seed, blocks in parts for _ in range(blocks)]
    for height, seed in enumerate(seeds, 1):
        block, coin = block_after(previous, coin, seed, height, others, time_of(height))
        previous = double(block[:80])
        yield MAGIC + struct.pack("<I", len(block)) + block


def main():
    numbers = [int(word) for word in sys.argv[1:-1]]
    with open(sys.argv[-1], "wb") as file:
        for record in records(*zip(numbers[::2], numbers[1::2])):
            file.write(record)


if __name__ == "__main__":
    main()
