#!/usr/bin/env python3
"""Rows for `cf_library`, the callers that docs/LIBRARY.md shows, over the second block of a file as data/blocks.dat, and what each comes to.

    bench/library.py FILE

Filters are those of vectors.py, proofs those of proofs.py, and addresses those of addresses.py.
"""
import sys

from addresses import read
from proofs import blocks_of, double, parts, spelled
from vectors import basic_filter

ADDRESSES = ("bcrt1qw508d6qejxtdg4y5r3zarvary0c5xw7kygt080", "bcrt1p0xlxvlhemja6c4dqv22uapctqupfhlxm9h8z3k2e72q4k9hcz7vqc8gma6")


def row(words, comes):
    print(words)
    print(comes)


def scripts_of(tx):
    """The scripts that a transaction pays."""
    at = 4 + 1
    for _ in range(tx[4]):
        at += 36
        at += 1 + tx[at] + 4
    count, at = tx[at], at + 1
    for _ in range(count):
        at += 8
        yield tx[at + 1:at + 1 + tx[at]]
        at += 1 + tx[at]


def main():
    with open(sys.argv[1], "rb") as file:
        blocks = list(blocks_of(file.read()))
    header, txs = blocks[1]
    block = header + bytes([len(txs)]) + b"".join(txs)
    ids = [double(tx) for tx in txs]
    name = double(header)
    # (its one input beside the coinbase's spends the coinbase of the first block)
    spent = list(scripts_of(blocks[0][1][0]))
    paid = [script for tx in txs for script in scripts_of(tx)]
    code = basic_filter(name, {*paid, *spent})
    row(f"block {block.hex()}", "\n".join(it[::-1].hex() for it in (name, *ids)))
    row(f"filter {block.hex()} {spent[0].hex()}", code.hex())
    row(f"holds {block.hex()} {code.hex()} {paid[1].hex()}", "true")
    row(f"holds {block.hex()} {code.hex()} 6a00,51{bytes(19).hex()}", "false")
    proof = spelled(header, len(ids), *parts(ids, 1))
    row(f"proof {block.hex()} 1", proof.hex())
    row(f"proven {proof.hex()} {txs[1].hex()}", name[::-1].hex())
    for text in ADDRESSES:
        version, program = read("bcrt", text)
        row(f"address {text}", bytes([version + 0x50 if version else 0, len(program), *program]).hex())


if __name__ == "__main__":
    main()
