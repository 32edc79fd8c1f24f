#!/usr/bin/env python3
"""Prints rows of cf_cases on blocks with witnesses in files, each with what it comes to: `witness.py KIND`, of the kinds `blocks`, `stored` and
`run`.

In a file a transaction may stand in the form with witnesses (BIP 144, "Serialization"): the version, the bytes 00 01, the inputs, the outputs, a stack
for each input and the lock time. Its hash is that of the form without witnesses, and so is all that follows from it: the root, the block's hash, the
filter. The rows are made chains in which some transactions stand in that form.
"""
import os
import struct
import sys

sys.path.insert(0, os.path.dirname(os.path.abspath(__file__)))
from client import Bad, Cut, read_block, read_body, read_tx
from conversation import MAGIC, compact, double
from sessions import DONE, Chain, script

RESERVED = bytes(32)
TEXTS = {
    "Short": "a field is cut off",
    "NotShortest": "a number isn't in its shortest form",
    "TooMany": "a number is above the limit",
    "NoInput": "a transaction has no input",
    "Rest": "bytes stand after the block",
    "EmptyWitness": "a transaction's witnesses are all empty",
}


# ---- the form with witnesses

def stack(*items):
    return compact(len(items)) + b"".join(compact(len(item)) + item for item in items)


def extended(tx, *stacks):
    """The form with witnesses of a transaction, by its form without them."""
    return tx[:4] + b"\0\1" + tx[4:-4] + b"".join(stacks) + tx[-4:]


class Placed(Cut):
    """A reader that stands, once it has refused a field, where that field begins."""

    def count(self, *words):
        self.counted = self.place
        try:
            return super().count(*words)
        except Bad:
            self.place = self.counted
            raise


def read_stack(r):
    """Reads a stack, and tells whether it has an item."""
    items = r.count()
    for _ in range(items):
        r.var_bytes()
    return items > 0


def read_stored_tx(r):
    """The form without witnesses of a transaction that stands in either form."""
    if r.data[r.place + 4:r.place + 6] != b"\0\1":
        return read_tx(r)
    start, _ = r.take(4), r.take(2)
    place = r.place
    inputs = read_body(r)
    body = r.data[place:r.place]
    place = r.place
    if not any([read_stack(r) for _ in range(inputs)]):
        r.place = place
        raise Bad("EmptyWitness")
    return start + body + r.take(4)


def read_stored_by(r):
    """The same of a block."""
    header, count = r.take(80), r.count()
    if count == 0:
        raise Bad("NoTx")
    block = header + compact(count) + b"".join(read_stored_tx(r) for _ in range(count))
    if len(block) > 1_000_000:
        r.place = 0
        raise Bad("TooLong")
    r.end()
    return block


def read_stored(data):
    return read_stored_by(Cut(data))


def placed_fault(data):
    """Why bytes store no block, and where the refused field begins; or None."""
    r = Placed(data)
    try:
        read_stored_by(r)
    except Bad as bad:
        kind = {"TooMany": "TooLarge"}.get(str(bad), str(bad))
        return kind, r.counted if kind.startswith("No") and kind != "NotShortest" else r.place
    return None


# ---- chains

CHAIN = Chain((7, 3))
BLOCKS = [read_block(block) for block in CHAIN.blocks]


def record(text):
    return MAGIC + struct.pack("<I", len(text)) + text


def joined(header, *txs):
    return header + compact(len(txs)) + b"".join(txs)


def plain(height):
    return record(CHAIN.blocks[height])


def with_coinbase(height, *stacks):
    """A record whose coinbase has these stacks."""
    header, (coinbase, *others) = BLOCKS[height]
    return record(joined(header, extended(coinbase, *stacks), *others))


def made():
    """What `make --witness 7 3` writes."""
    return [with_coinbase(height, stack(RESERVED)) for height in range(1, 4)]


def spent(*stacks, coinbase=b""):
    """The record of the block at height 2, whose second transaction has these stacks."""
    header, (first, second) = BLOCKS[2]
    return record(joined(header, extended(first, coinbase) if coinbase else first, extended(second, *stacks)))


def first_with(change):
    """The record at height 1, its coinbase in the form with witnesses and then changed."""
    header, (coinbase,) = BLOCKS[1]
    return record(joined(header, change(extended(coinbase, stack(RESERVED)))))


def judged(records):
    """The number of the first record that is no block, and why, or None."""
    for number, text in enumerate(records, 1):
        try:
            read_stored(text[8:])
        except Bad as bad:
            return number, str(bad)
    return None


# ---- rows

def shown(bytes_):
    return bytes_[::-1].hex()


def block_row(*records):
    """A row `blocks` of the first records of the chain, genesis's among them or not."""
    print("blocks " + " ".join(text.hex() for text in records))
    bad = judged(records)
    if bad:
        print("record %d: no block: %s" % (bad[0], TEXTS[bad[1]]))
        return
    blocks = [read_stored(text[8:]) for text in records]
    blocks = blocks if blocks[0] == CHAIN.blocks[0] else [CHAIN.blocks[0]] + blocks
    assert blocks == CHAIN.blocks[:len(blocks)]
    tip = len(blocks) - 1
    print("%d %s %d" % (tip, shown(CHAIN.hashes[tip]), tip))
    for height, block in enumerate(blocks):
        text, name, header = CHAIN.filters[height]
        print("%d %s %s %s %s 207fffff %d" % (height, shown(CHAIN.hashes[height]), text.hex(), shown(name), shown(header), block[80]))


def each(row):
    """Rows of records."""
    print("# Behind genesis's record; some transactions with witnesses and some without; an input with several items; items of no bytes.")
    row(plain(0), plain(1), spent(stack(bytes(72), bytes(33))), plain(3))
    row(with_coinbase(0, stack(RESERVED)), plain(1))
    row(with_coinbase(1, stack(b"")), spent(stack(b"", b"", bytes(300)), coinbase=stack(RESERVED)))
    print("# A stack that is empty, also where a lock time is missing; two stacks for one input; a stack that isn't there.")
    row(with_coinbase(1, stack()))
    row(first_with(lambda tx: tx[:-38] + b"\0"))
    row(with_coinbase(1, stack(), stack(RESERVED)))
    row(with_coinbase(1, stack(RESERVED), stack(RESERVED)))
    row(with_coinbase(1))
    print("# Items that are cut off; counts of items, and of an item's bytes, that are cut off, too long, or above the limit, or that no bytes follow.")
    row(first_with(lambda tx: tx[:-5]))
    for count in ("fd00", "fd0100", "fe01000002", "fe00000002", "ff0000000001000000"):
        count = bytes.fromhex(count)
        row(first_with(lambda tx: tx[:-38] + count))
        row(first_with(lambda tx: tx[:-37] + count))
    print("# No input behind 00 01; another byte than 01 behind 00; nothing behind 00 01.")
    row(first_with(lambda tx: tx[:6] + b"\0" + tx[7:]))
    row(first_with(lambda tx: tx[:5] + b"\0" + tx[6:]))
    row(first_with(lambda tx: tx[:5] + b"\2" + tx[6:]))
    row(first_with(lambda tx: tx[:6]))
    print("# A lock time that is cut off, and a byte behind the last transaction.")
    row(first_with(lambda tx: tx[:-1]))
    row(record(made()[0][8:] + b"\0"))


def blocks():
    print("# Witnesses: they change nothing of what the blocks come to. The rows and answers up to the next kind are those of bench/witness.py blocks.")
    block_row(*made())
    each(block_row)


def stored_row(*records):
    """Rows `stored` of the first record that stores no block, or else of all."""
    bad = judged(records)
    for text in records[bad[0] - 1:bad[0]] if bad else records:
        print("stored " + text[8:].hex())
        fault = placed_fault(text[8:])
        if fault:
            print("No(BlockFault { kind: %s, place: %d })" % fault)
            continue
        header, txs = read_block(read_stored(text[8:]))
        print("Ok(()) " + " ".join(map(shown, [double(header)] + [double(tx) for tx in txs])))


def stored_rows():
    print("# stored HEX: the same of a block as a file keeps it, with witnesses or without; the hashes are those of the forms without. The rows and answers up to the")
    print("# next kind are those of bench/witness.py stored.")
    stored_row(*made())
    each(stored_row)


def file_row(words, status, text, records):
    print("run 1000 -|cf %s|01087551;||%s" % (words, b"".join(records).hex()))
    print("%s\n%s" % (status, text))


def runs():
    print("# Made chains whose coinbases have witnesses. These rows are those of bench/witness.py run.")
    file = b"".join(made())
    assert len(file) == 686 and file[:8].hex() == "fabfb5dac3000000"
    print("run 0 -|cf make --witness 7 3 b|||-")
    print("0 Done\n%s" % file.hex())
    print("# Such a file tells what the one without witnesses tells.")
    file_row("scan f w", DONE, CHAIN.history([script(8)]), made())
    for height in range(4):
        text, _, header = CHAIN.filters[height]
        told = shown(CHAIN.hashes[height]), text.hex(), shown(header)
        file_row("filter f %d" % height, DONE, "block %s\nfilter %s\nheader %s\n" % told, made())
    print("# Its first coinbase with an empty stack.")
    records = [with_coinbase(1, stack())] + made()[1:]
    assert len(records[0]) == 8 + 162 and judged(records) == (1, "EmptyWitness")
    words = "3 BadFile { which: Blocks, place: 1, cause: Blocks(Block(EmptyWitness)) }: the block file, record 1: no block: "
    for command in ("scan f w", "filter f 0"):
        file_row(command, words + TEXTS["EmptyWitness"], "", records)


if __name__ == "__main__":
    {"blocks": blocks, "stored": stored_rows, "run": runs}[sys.argv[1]]()
