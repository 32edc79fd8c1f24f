#!/usr/bin/env python3
"""What memory it takes to read a large message: `taken.py [PROGRAM]`, where PROGRAM is `.build/cf` unless it is named.

Two sessions of one peer are replayed: a made chain of 2,000 blocks, whose headers come in one message of 162,003 bytes,
and a chain of one block of 1,000,000 bytes, which pays the watched script and is fetched. Each comes whole in one
piece, and then in pieces of 65,536 bytes. `taken.c` is compiled with `cc` and loaded with the program: it counts what
the program asks for. A second peer says nothing, so that each session is read to its end. It is replayed whole, with the
first peer gone before that message, whose pieces are then read over, and with the peer gone before the message's last
byte. What the whole session takes beyond the first of these is what reading the message takes; and beyond the second,
what is kept of it.

It prints both sums, and the sizes of 16,384 bytes and more by which a message is read. Reading may take the room in which a frame waits until it is
whole, once, and beyond that no more than is kept: of a block one entry, of headers their nodes, in lists that grow.
"""
import collections
import os
import struct
import subprocess
import sys
import tempfile

from conversation import Served, frame, version
from growing import mined
from made_chain import output, records

BENCH = os.path.dirname(os.path.abspath(__file__))
PROGRAM = os.path.join(os.path.dirname(BENCH), ".build", "cf")
WATCHED = bytes.fromhex("01087551")
LEAST, PIECE = 16_384, 65_536


def large():
    """A chain whose one block has 1,000,000 bytes: its coinbase pays the watched script, and an output of zeros."""
    start = struct.pack("<i", 1) + b"\1" + bytes(32) + b"\xff" * 4 + b"\x02\x51\x51" + b"\xff" * 4 + b"\2"
    front = start + output(5_000_000_000, 8) + bytes(8) + b"\xfe"
    zeros = 1_000_000 - 81 - len(front) - 4 - 4
    below = Served(b"")
    block = mined(below.blocks[0], [front + struct.pack("<I", zeros) + bytes(zeros) + bytes(4)])
    assert len(block) == 1_000_000 and output(0, 8).endswith(WATCHED)
    return Served(b"\xfa\xbf\xb5\xda" + struct.pack("<I", len(block)) + block)


def messages(chain):
    """What the peer says, and the place of the message that is measured."""
    told = [version(65, 0, 0, b"/cf:1/", 0, b"\0"), frame("verack"), chain.headers(1, chain.tip)]
    if chain.tip > 1:
        return told, 2
    return told + [chain.headers(2, 1), chain.cfheaders(1, 1), chain.cfilter(1), chain.block(1)], 6


def lines_of(message, piece):
    return ["got 1 %s" % message[i:i + piece].hex() for i in range(0, len(message), piece)]


def taken(program, folder, lines):
    """The sizes that a replay of these lines asks for, and their sum, without the session's text."""
    path, counted = os.path.join(folder, "s"), os.path.join(folder, "taken")
    with open(path, "w") as file:
        file.writelines(line + "\n" for line in lines)
    env = dict(os.environ, LD_PRELOAD=os.path.join(folder, "taken.so"), LEAST=str(LEAST), TAKEN=counted)
    words = [program, "replay", os.path.join(folder, "w"), path]
    subprocess.run(words, env=env, stdout=subprocess.DEVNULL, stderr=subprocess.DEVNULL)
    with open(counted) as file:
        *sizes, total = map(int, file)
    # The session's own text, which differs by a few bytes.
    sizes.remove(os.path.getsize(path))
    return collections.Counter(sizes), total - os.path.getsize(path)


def show(name, whole, over, cut):
    sizes = ", ".join("%d times %d" % (n, size) for size, n in sorted((whole[0] - over[0]).items())) or "none"
    print("%-27s reading %9d bytes, kept %9d; read by: %s" % (name, whole[1] - over[1], whole[1] - cut[1], sizes))


def main():
    program = sys.argv[1] if len(sys.argv) > 1 else PROGRAM
    with tempfile.TemporaryDirectory() as folder:
        cc = ["cc", "-O2", "-shared", "-fPIC", "-o", os.path.join(folder, "taken.so"), os.path.join(BENCH, "taken.c")]
        subprocess.run(cc, check=True)
        with open(os.path.join(folder, "w"), "w") as file:
            file.write(WATCHED.hex() + "\n")
        for name, chain in (("headers", Served(b"".join(records((7, 2000))))), ("block", large())):
            told, place = messages(chain)
            for way, piece in (("one piece", len(told[place])), ("pieces of 65,536", PIECE)):
                before = [line for message in told[:place] for line in lines_of(message, len(message))]
                measured = lines_of(told[place], piece)
                rest = [line for message in told[place + 1:] for line in lines_of(message, len(message))]
                whole = ["dial a", "dial b"] + before + measured + rest
                cut = whole[:2 + len(before)] + measured[:-1] + [measured[-1][:-2], "gone 1", "got 1 00"] + rest
                gone = whole[:2 + len(before)] + ["gone 1"] + measured + rest
                show("%s in %s" % (name, way), *(taken(program, folder, lines) for lines in (whole, gone, cut)))


if __name__ == "__main__":
    main()
