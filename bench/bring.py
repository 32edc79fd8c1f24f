#!/usr/bin/env python3
"""Brings a file's blocks to a server that grows, as one of its peers: `bring.py ADDRESS FILE`, where FILE is as `make` writes it.

The blocks are sent in their order, after a `version`. Those that the server's chain has already change nothing. It ends
once the server has taken them all, with status 0; the server says of each that joined its chain.
"""
import struct
import sys

from conversation import THEIR_VERSION, frame
from grow import Stream


def blocks(data):
    """The blocks of a file's records: four bytes of the network, the length in four bytes, and the block."""
    at = 0
    while at < len(data):
        size, = struct.unpack_from("<I", data, at + 4)
        yield data[at + 8:at + 8 + size]
        at += 8 + size


def main():
    if len(sys.argv) != 3:
        sys.exit(__doc__)
    with open(sys.argv[2], "rb") as file:
        data = file.read()
    server = Stream(sys.argv[1])
    for block in blocks(data):
        server.says(frame("block", block))


if __name__ == "__main__":
    main()
