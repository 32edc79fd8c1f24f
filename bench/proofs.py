#!/usr/bin/env python3
"""Makes proofs of transactions by BIP 37, "Constructing a partial merkle tree object", and prints rows of the kinds `proof` and `prove` and
what each comes to: `proofs.py [--made | --called] FILE`, over a file of blocks such as data/blocks.dat.

A row `proof` has the bytes of a proof and of a transaction. Where the proof is whole it comes to the hash of the header, in wire order; else
to the fault that the row was made for. With `--made` the rows are `prove`: the bytes of a block and a place come to the proof of that place.
With `--called` they are `run`: whole calls of the commands `prove`, over the file, and `check`, over files of proofs.
"""
import struct
import sys
from hashlib import sha256


def double(data):
    return sha256(sha256(data).digest()).digest()


class Cut:
    def __init__(self, data):
        self.data, self.at = data, 0

    def take(self, n):
        self.at += n
        return self.data[self.at - n:self.at]

    def compact(self):
        first = self.take(1)[0]
        return first if first < 253 else int.from_bytes(self.take(2 << (first - 253)), "little")

    def tx(self):
        start = self.at
        self.take(4)
        for _ in range(self.compact()):
            self.take(36)
            self.take(self.compact())
            self.take(4)
        for _ in range(self.compact()):
            self.take(8)
            self.take(self.compact())
        self.take(4)
        return self.data[start:self.at]


def blocks_of(data):
    cut = Cut(data)
    while cut.at < len(data):
        cut.take(8)
        header = cut.take(80)
        yield header, [cut.tx() for _ in range(cut.compact())]


def width(total, height):
    return (total + (1 << height) - 1) >> height


def node(ids, height, place):
    if height == 0:
        return ids[place]
    left = node(ids, height - 1, 2 * place)
    there = 2 * place + 1 < width(len(ids), height - 1)
    return double(left + (node(ids, height - 1, 2 * place + 1) if there else left))


def build(ids, matched, height, place, bits, hashes):
    parent = any(matched[i] for i in range(place << height, min((place + 1) << height, len(ids))))
    bits.append(parent)
    if height == 0 or not parent:
        hashes.append(node(ids, height, place))
        return
    build(ids, matched, height - 1, 2 * place, bits, hashes)
    if 2 * place + 1 < width(len(ids), height - 1):
        build(ids, matched, height - 1, 2 * place + 1, bits, hashes)


def packed(bits):
    return bytes(sum(bit << i for i, bit in enumerate(bits[at:at + 8])) for at in range(0, len(bits), 8))


def spelled(header, total, hashes, flags):
    return header + struct.pack("<I", total) + bytes([len(hashes)]) + b"".join(hashes) + bytes([len(flags)]) + flags


def parts(ids, place):
    height = 0
    while width(len(ids), height) > 1:
        height += 1
    bits, hashes = [], []
    build(ids, [i == place for i in range(len(ids))], height, 0, bits, hashes)
    return hashes, packed(bits)


def row(proof, tx, comes):
    print("proof", proof.hex(), tx.hex())
    print(comes)


def trees(blocks):
    """Blocks of several transactions, each under a header of its root, and a place of each."""
    base = blocks[0][0]
    kinds = [blocks[1][1][0][:-4] + struct.pack("<I", i) for i in range(9)]
    for total, place in ((3, 2), (5, 4), (7, 6), (9, 8), (7, 4)):
        ids = [double(t) for t in kinds[:total]]
        height = 0
        while width(total, height) > 1:
            height += 1
        yield base[:36] + node(ids, height, 0) + base[68:], kinds[:total], place


def made(blocks):
    places = [(header, txs, place) for header, txs in blocks for place in range(len(txs))]
    for header, txs, place in places + list(trees(blocks)):
        ids = [double(tx) for tx in txs]
        print("prove", (header + bytes([len(txs)]) + b"".join(txs)).hex(), place)
        print(spelled(header, len(ids), *parts(ids, place)).hex())


def called_row(words, watch, file, comes, room=5000):
    print(f"run {room} -|cf {words}|{watch}||{file.hex() or '-'}")
    print(comes)


def refused(place, cause, words):
    return f"3 BadFile {{ which: Proof, place: {place}, cause: {cause} }}: the proof file, line {place}: {words}\n"


def met(header):
    return int.from_bytes(double(header), "little") <= 0x7fffff << 232


def called(data, blocks):
    print("# Proofs of the transactions of a file, told for their hashes and checked. Each is checked as it was written.")
    texts = []
    for header, txs in blocks:
        ids = [double(tx) for tx in txs]
        for place, tx in enumerate(txs):
            proof = spelled(header, len(ids), *parts(ids, place))
            line = f"in {double(header)[::-1].hex()} {ids[place][::-1].hex()}\n"
            text = f"tx {tx.hex()};proof {proof.hex()};"
            texts.append((header, tx, proof, text, line))
            called_row(f"prove f {ids[place][::-1].hex()}", "", data, "0 Done\n" + text.replace(";", "\n"))
            called_row("check w", text, b"", "0 Done\n" + line)
    header, tx, proof, text, line = texts[1]
    txid = double(tx)[::-1].hex()
    print("# Digits of either case, and a last line without its end.")
    called_row(f"prove f {txid.upper()}", "", data, "0 Done\n" + text.replace(";", "\n"))
    called_row("check w", f"tx {tx.hex().upper()};proof {proof.hex().upper()}", b"", "0 Done\n" + line)
    print("# A hash that no block above genesis has, genesis's transaction among them; a missing file; one that is refused; a word that is no hash.")
    first = "3ba3edfd7a7b12b27ac72c3e67768f617fc81bc3888a51323a9fb8aa4b1e5e4a"
    for missing in (bytes(32), bytes.fromhex(first)):
        numbers = ", ".join(str(byte) for byte in missing)
        called_row(f"prove f {missing[::-1].hex()}", "", data, f"12 NotThere {{ txid: Hash32([{numbers}]) }}: no block of the file has a transaction with this hash\n")
    called_row(f"prove x {txid}", "", data, "4 FileFault: a file could not be read\n")
    called_row(f"prove f {txid}", "", data[:7], "3 BadFile { which: Blocks, place: 1, cause: Blocks(Cut) }: the block file, record 1: the record is cut off\n")
    for word in (txid[1:], txid[1:] + "g"):
        called_row(f"prove f {word}", "", data, "2 Usage: the words are no command\n")
    called_row("check x", text, b"", "4 FileFault: a file could not be read\n")
    print("# Sinks without room.")
    called_row(f"prove f {txid}", "", data, "5 OutFault: the text could not be written\n" + text[:10], 10)
    called_row("check w", text, b"", "5 OutFault: the text could not be written\n" + line[:10], 10)
    print("# Files of proofs that are refused: no line; no second line; bytes after it; other forms of each line.")
    form = "the file has two lines: `tx HEX` and `proof HEX`"
    line1, line2 = text.split(";")[:2]
    for place, bad in ((1, ""), (1, ";" + line2), (2, line1), (2, line1 + ";"), (2, text + ";"), (2, text + "x"), (1, line1[1:] + ";" + line2), (1, "tx" + line1[3:] + ";" + line2),
                       (1, line1 + "0;" + line2), (1, line2 + ";" + line1), (2, line1 + ";" + line2[:-1]), (2, line1 + ";" + line2 + " "), (2, line1 + ";" + line2.replace(" ", "  "))):
        called_row("check w", bad, b"", refused(place, "Proof(BadLine)", form))
    print("# Bytes that are no transaction: cut off, with a byte more, with witnesses. The first line is judged before the second.")
    for bad, kind, words in ((tx[:-1], "Short", "a field is cut off"), (tx + b"\x00", "Rest", "bytes stand after the block"), (tx[:4] + b"\x00\x01" + tx[4:], "Witness", "a transaction has witnesses"), (b"", "Short", "a field is cut off")):
        called_row("check w", f"tx {bad.hex()};;", b"", refused(1, f"Proof(Tx({kind}))", f"no transaction: {words}"))
    print("# Proofs that are refused: cut off; of another transaction; one of a transaction of 64 bytes, which is a node of the tree.")
    called_row("check w", f"tx {tx.hex()};proof {proof[:-1].hex()};", b"", refused(2, "Proof(Proof(Short))", "no proof of the transaction: fewer bytes are left than a field has"))
    coinbase = texts[0]
    for bad in (coinbase[2][:-1] + b"\x00", coinbase[2][:-1] + b"\x01"):
        fault = "3 BadFile" if bad[-1] == 0 else "0 Done"
        comes = refused(2, "Proof(Proof(Absent))", "no proof of the transaction: the proof is of another transaction") if bad[-1] == 0 else fault + "\n" + coinbase[4]
        called_row("check w", f"tx {coinbase[1].hex()};proof {bad.hex()};", b"", comes)
    called_row("check w", f"tx {texts[2][1].hex()};proof {proof.hex()};", b"", refused(2, "Proof(Proof(Absent))", "no proof of the transaction: the proof is of another transaction"))
    small = bytes.fromhex("0100000001") + double(coinbase[1]) + bytes.fromhex("0000000000ffffffff0100f2052a01000000040108755100000000")
    ids = [double(t) for t in blocks[1][1]]
    called_row("check w", f"tx {small.hex()};proof {spelled(blocks[1][0], 1, [node(ids, 1, 0)], bytes([1])).hex()};", b"", refused(2, "Proof(Proof(Tx64))", "no proof of the transaction: the transaction has 64 bytes"))
    print("# A header without work: its nonce is another one.")
    worked = [header[:76] + struct.pack("<I", nonce) for nonce in range(100)]
    idle = next(h for h in worked if not met(h))
    called_row("check w", f"tx {tx.hex()};proof {(idle + proof[80:]).hex()};", b"", refused(2, "Proof(Work)", "no block: the hash of the header is above the target"))
    other = next(h for h in worked if met(h) and h != header)
    called_row("check w", f"tx {tx.hex()};proof {(other + proof[80:]).hex()};", b"", f"0 Done\nin {double(other)[::-1].hex()} {txid}\n")
    print("# The height of the proof's block in the chain of a file; the other form of the transaction, with a witness, which is asked for.")
    witness = bytes([1, 1, 0xaa])
    for height, (header, txs) in enumerate(blocks, 1):
        for place, tx in enumerate(txs):
            header, tx, proof, text, line = texts[sum(len(txs) for _, txs in blocks[:height - 1]) + place]
            extended = tx[:4] + b"\x00\x01" + tx[4:-4] + witness * tx[4] + tx[-4:]
            called_row("check w f", text, data, f"0 Done\n{line[:-1]} at {height}\n")
            called_row("check --witness w", f"tx {extended.hex()};proof {proof.hex()};", b"", "0 Done\n" + line)
            called_row("check --witness w f", f"tx {extended.hex()};proof {proof.hex()};", data, f"0 Done\n{line[:-1]} at {height}\n")
    called_row("check --witness w", text, b"", "0 Done\n" + line)
    print("# A block that the chain hasn't got: it is higher, or another one of that height; a chain that is refused, or isn't there; the proof is judged first.")
    shown = ", ".join(str(byte) for byte in double(header))
    cut = data[:len(data) - 8 - len(header) - 1 - sum(map(len, blocks[-1][1]))]
    missing = f"12 NotInChain {{ block: Hash32([{shown}]) }}: the block of the proof is not in the chain of the file\n"
    called_row("check w f", text, cut, missing)
    header, tx, proof, text, line = texts[1]
    shown = ", ".join(str(byte) for byte in double(other))
    missing = f"12 NotInChain {{ block: Hash32([{shown}]) }}: the block of the proof is not in the chain of the file\n"
    called_row("check w f", f"tx {tx.hex()};proof {(other + proof[80:]).hex()};", data, missing)
    called_row("check w f", text, data[:7], "3 BadFile { which: Blocks, place: 1, cause: Blocks(Cut) }: the block file, record 1: the record is cut off\n")
    called_row("check w x", text, data, "4 FileFault: a file could not be read\n")
    called_row("check w f", "tx ;", data[:7], refused(1, "Proof(Tx(Short))", "no transaction: a field is cut off"))
    called_row("check w f", text, data, "5 OutFault: the text could not be written\n" + line[:10], 10)
    print("# A transaction with witnesses that are all empty, or cut off, and one without where none is asked for.")
    empty = tx[:4] + b"\x00\x01" + tx[4:-4] + bytes(tx[4]) + tx[-4:]
    called_row("check --witness w", f"tx {empty.hex()};proof {proof.hex()};", b"", refused(1, "Proof(Tx(EmptyWitness))", "no transaction: a transaction's witnesses are all empty"))
    extended = tx[:4] + b"\x00\x01" + tx[4:-4] + witness * tx[4] + tx[-4:]
    called_row("check --witness w", f"tx {extended[:-5].hex()};proof {proof.hex()};", b"", refused(1, "Proof(Tx(Short))", "no transaction: a field is cut off"))
    called_row("check w", f"tx {extended.hex()};proof {proof.hex()};", b"", refused(1, "Proof(Tx(Witness))", "no transaction: a transaction has witnesses"))


def main():
    data = open(sys.argv[-1], "rb").read()
    blocks = list(blocks_of(data))
    if sys.argv[1] == "--made":
        made(blocks)
        return
    if sys.argv[1] == "--called":
        called(data, blocks)
        return
    print("# Each transaction of three blocks.")
    for header, txs in blocks:
        ids = [double(tx) for tx in txs]
        for place, tx in enumerate(txs):
            row(spelled(header, len(ids), *parts(ids, place)), tx, double(header).hex())
    print("# Trees over 3, 5, 7 and 9 transactions, with the last one proved, and the fifth of seven, under headers of their roots.")
    for header, txs, place in trees(blocks):
        ids = [double(t) for t in txs]
        row(spelled(header, len(ids), *parts(ids, place)), txs[place], double(header).hex())
    print("# Faults, in their order.")
    header, txs = blocks[1]
    tx = txs[1]
    ids = [double(t) for t in txs]
    hashes, flags = parts(ids, 1)
    whole = spelled(header, 2, hashes, flags)
    row(whole[:40], tx, "Short")
    row(whole[:84] + b"\xfd\x02\x00" + whole[85:], tx, "NotShortest")
    row(whole[:84] + b"\xfe\x01\x00\x00\x02" + whole[85:], tx, "TooLarge")
    row(whole + b"\x00", tx, "Rest")
    row(spelled(header, 0, hashes, flags), tx, "Total")
    row(spelled(header, 16667, hashes, flags), tx, "Total")
    row(spelled(header, 2, hashes + hashes[:1], flags), tx, "Hashes")
    coinbase = blocks[0][1][0]
    small = bytes.fromhex("0100000001") + double(coinbase) + bytes.fromhex("0000000000ffffffff0100f2052a01000000040108755100000000")
    assert len(small) == 64
    row(spelled(header, 1, [node(ids, 1, 0)], b"\x01"), small, "Tx64")
    row(spelled(header, 2, hashes, b""), tx, "Bits")
    row(spelled(header, 9, hashes, b"\xff"), tx, "Ends")
    row(spelled(header, 2, [hashes[0], hashes[0]], b"\x07"), tx, "Same")
    row(spelled(header, 2, hashes, flags + b"\x00"), tx, "Left")
    row(spelled(header, 3, hashes + hashes[:1], b"\x01"), tx, "Left")
    row(spelled(header, 2, hashes[::-1], b"\x03"), tx, "Root")
    row(spelled(header, 2, hashes, b"\x03"), tx, "Absent")
    row(spelled(blocks[0][0], 1, [double(coinbase)], b"\x00"), coinbase, "Absent")
    print("# Bits that the walk doesn't use may be anything.")
    row(spelled(header, 2, hashes, bytes([flags[0] | 0xf8])), tx, double(header).hex())


if __name__ == "__main__":
    main()
