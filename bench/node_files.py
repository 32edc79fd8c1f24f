#!/usr/bin/python3
"""Files of blocks as another program spells them, python-bitcoinlib (Debian's python3-bitcoinlib): `node_files.py [PROGRAM]`, where PROGRAM is
`.build/cf` unless it is named.

The chain is one as nodes of today make it: each coinbase commits to the block's witnesses and has a witness of 32 zero bytes (BIP 141, "Commitment
structure"). Its transactions pay and spend outputs of each kind: a key's hash without witness; a key's hash and a script's hash, each with its witness
and within a script's hash (BIP 141); and a taproot output by its key, by a script, and with an annex (BIP 341). Some have inputs of several kinds, so that
some of their stacks are empty. Scripts and signatures are of the right form and lengths, and no more: no script is run.

The program reads that file, and the one of the same blocks without witnesses. Both must come to what that program's own objects tell: of `scan` the txids,
the amounts and the tip, of `filter` each block's hash and the filter and filter header of its scripts' bytes, of `serve` the bytes of a conversation, in which
its blocks are those that it writes without witnesses. Then come files at the limits: a record of 4,000,000 bytes and one byte more, and a block of 1,000,000
bytes without its witness and one byte more. It prints how many answers were compared, and stops at the first that is another one.
"""
import io
import os
import random
import struct
import subprocess
import sys
import tempfile

import bitcoin
from bitcoin.core import (
    CBlock, CBlockHeader, CMutableTransaction, CMutableTxIn, CMutableTxOut, COutPoint, CTransaction, CTxInWitness, CTxWitness, Hash, b2lx,
)
from bitcoin.core.script import CScript, CScriptWitness, OP_CHECKSIG, OP_DUP, OP_EQUAL, OP_EQUALVERIFY, OP_HASH160, OP_RETURN

sys.path.insert(0, os.path.dirname(os.path.abspath(__file__)))
from conversation import GENESIS_HEADER, MAGIC, Served, basic_filter, double, frame, greeting, whole
from load import Run, address_of, connected
from made_chain import meets_target

ROOT = os.path.dirname(os.path.dirname(os.path.abspath(__file__)))
BLOCKS, SEED = 120, 7
RESERVED = bytes(32)
SUBSIDY = 5_000_000_000
MOST_RECORD, MOST_BLOCK = 4_000_000, 1_000_000

bitcoin.SelectParams("regtest")
some = random.Random(SEED)


# ---- outputs, and what spends them: the script of the input and its stack

def key():
    return b"\2" + some.randbytes(32)


def signature():
    return b"\x30" + some.randbytes(70 + some.randrange(2))


def key_hash():
    return CScript([OP_DUP, OP_HASH160, some.randbytes(20), OP_EQUALVERIFY, OP_CHECKSIG]), lambda: (CScript([signature(), key()]), [])


def witness_key_hash():
    return CScript([0, some.randbytes(20)]), lambda: (CScript(), [signature(), key()])


def nested_key_hash():
    return CScript([OP_HASH160, some.randbytes(20), OP_EQUAL]), lambda: (CScript([bytes(CScript([0, some.randbytes(20)]))]), [signature(), key()])


def shares():
    """What spends two keys of three: an item of no bytes, two signatures and the script."""
    return [b"", signature(), signature(), b"\x52" + b"".join(b"\x21" + key() for _ in range(3)) + b"\x53\xae"]


def witness_script_hash():
    return CScript([0, some.randbytes(32)]), lambda: (CScript(), shares())


def nested_script_hash():
    return CScript([OP_HASH160, some.randbytes(20), OP_EQUAL]), lambda: (CScript([bytes(CScript([0, some.randbytes(32)]))]), shares())


def taproot(*items):
    return CScript(bytes([0x51, 32]) + some.randbytes(32)), lambda: (CScript(), [some.randbytes(n) for n in items])


def taproot_script():
    return taproot(64, 34, 33 + 32 * some.randrange(5))


def taproot_large():
    return taproot(64, 520, 20_000, 33)


def taproot_annex():
    made, _ = taproot()
    return made, lambda: (CScript(), [some.randbytes(64), b"\x50" + some.randbytes(9)])


KINDS = 8 * [key_hash] + [
    witness_key_hash, nested_key_hash, witness_script_hash, nested_script_hash, lambda: taproot(64), lambda: taproot(65), taproot_script, taproot_annex,
    taproot_large,
]


# ---- transactions and blocks

def spending(coins, made):
    """A transaction of these coins, each with what spends it, to these outputs."""
    ways = [way() for _, way in coins]
    vin = [CMutableTxIn(point, script) for (point, _), (script, _) in zip(coins, ways)]
    witness = CTxWitness([CTxInWitness(CScriptWitness(stack)) for _, stack in ways])
    return CTransaction.from_tx(CMutableTransaction(vin, made, some.randrange(3), 2, witness))


def coinbase(height, output, txs):
    """The coinbase over these transactions, which commits to their witnesses."""
    root = CBlock.build_merkle_tree_from_txids([bytes(32)] + [tx.GetHash() for tx in txs])[-1]
    commitment = CScript([OP_RETURN, b"\xaa\x21\xa9\xed" + Hash(root + RESERVED)])
    vin = [CMutableTxIn(COutPoint(), CScript([struct.pack("<I", height), b"node"]))]
    vout = [CMutableTxOut(SUBSIDY, output), CMutableTxOut(0, commitment)]
    return CTransaction.from_tx(CMutableTransaction(vin, vout, 0, 2, CTxWitness([CTxInWitness(CScriptWitness([RESERVED]))])))


def mined(previous, height, txs):
    root = CBlock.build_merkle_tree_from_txs(txs)[-1]
    for nonce in range(65_536):
        header = CBlockHeader(0x20000000, previous, root, 1_296_688_602 + 600 * height, 0x207FFFFF, nonce)
        if meets_target(header.GetHash()):
            return CBlock(0x20000000, previous, root, header.nTime, header.nBits, nonce, txs)
    raise SystemExit("no nonce")


def paid(tx, ways):
    """The coins of a transaction's outputs that can be spent, with what spends them."""
    return [(COutPoint(tx.GetTxid(), i), way) for i, way in enumerate(ways)]


def chain():
    """The blocks above genesis, the lowest first."""
    previous, coins, made = double(GENESIS_HEADER), [], []
    for height in range(1, BLOCKS + 1):
        txs, fresh = [], []
        while coins and len(txs) < height % 6:
            taken = [coins.pop(some.randrange(len(coins))) for _ in range(min(len(coins), some.choice((1, 1, 1, 2, 3, 4))))]
            outputs = [some.choice(KINDS)() for _ in range(1 + some.randrange(5))]
            tx = spending(taken, [CMutableTxOut(some.randrange(1, 10 ** 8), script) for script, _ in outputs])
            txs.append(tx)
            fresh += paid(tx, [way for _, way in outputs])
        script, way = some.choice(KINDS)()
        first = coinbase(height, script, txs)
        block = mined(previous, height, [first] + txs)
        assert block.calc_merkle_root() == block.hashMerkleRoot and block.get_witness_commitment_index() == 1
        coins += fresh + paid(first, [way])
        previous = block.GetHash()
        made.append(block)
    assert {tx.has_witness() for block in made for tx in block.vtx} == {True, False}
    return made


def record(text):
    return MAGIC + struct.pack("<I", len(text)) + text


def stored(blocks):
    return b"".join(record(block.serialize()) for block in blocks)


def plain(blocks):
    return b"".join(record(block.serialize({"include_witness": False})) for block in blocks)


# ---- what they come to

class Told:
    """What that program's objects tell of a chain."""

    def __init__(self, blocks):
        self.blocks, self.spent = blocks, {}
        for block in blocks:
            for tx in block.vtx:
                self.spent.update((COutPoint(tx.GetTxid(), i), out) for i, out in enumerate(tx.vout))
        self.tip = "synced %d %s\n" % (len(blocks), b2lx(blocks[-1].GetHash()))

    def sums(self, tx, script):
        received = sum(out.nValue for out in tx.vout if out.scriptPubKey == script)
        coins = [] if tx.is_coinbase() else [self.spent[i.prevout] for i in tx.vin]
        return received, sum(out.nValue for out in coins if out.scriptPubKey == script)

    def history(self, script):
        text, balance = "", 0
        for height, block in enumerate(self.blocks, 1):
            for tx in block.vtx:
                received, gone = self.sums(tx, script)
                if received or gone:
                    balance += received - gone
                    text += "%d %s +%d -%d %d\n" % (height, b2lx(tx.GetTxid()), received, gone, balance)
        return text + self.tip

    def filters(self):
        """Of each block its height and what `filter` writes."""
        previous = Served(b"").filters[0][2]
        for height, block in enumerate(self.blocks, 1):
            items = {bytes(out.scriptPubKey) for tx in block.vtx for out in tx.vout if out.scriptPubKey[0] != OP_RETURN}
            items |= {bytes(self.spent[i.prevout].scriptPubKey) for tx in block.vtx[1:] for i in tx.vin}
            code = basic_filter(block.GetHash(), items)
            previous = double(double(code) + previous)
            yield height, "block %s\nfilter %s\nheader %s\n" % (b2lx(block.GetHash()), code.hex(), b2lx(previous))


class Compared:
    def __init__(self, program, folder):
        self.program, self.folder, self.count = program, folder, 0

    def written(self, name, data):
        path = os.path.join(self.folder, name)
        with open(path, "wb") as file:
            file.write(data)
        return path

    def same(self, what, found, wanted):
        if found != wanted:
            raise SystemExit("%s: %s, and not %s" % (what, repr(found)[:200], repr(wanted)[:200]))
        self.count += 1

    def ran(self, *words):
        done = subprocess.run([self.program, *words], capture_output=True, check=False)
        return done.returncode, done.stdout.decode(), done.stderr.decode()

    def texts(self, file, told):
        scripts = sorted({bytes(out.scriptPubKey) for out in told.spent.values() if out.scriptPubKey[0] != OP_RETURN})
        for script in some.sample(scripts, 20):
            watch = self.written("watch", script.hex().encode() + b"\n")
            self.same("scan", self.ran("scan", file, watch)[:2], (0, told.history(script)))
        for height, text in told.filters():
            self.same("filter %d" % height, self.ran("filter", file, str(height))[:2], (0, text))

    def conversation(self, file, blocks):
        asked, wanted = whole(Served(plain(blocks)))
        server = Run([self.program, "serve", "--connections", "1", file, "127.0.0.1:0"])
        peer = connected(address_of(server))
        peer.sendall(asked)
        found = b""
        while len(found) < len(wanted):
            piece = peer.recv(65_536)
            if not piece:
                break
            found += piece
        peer.close()
        self.same("serve", server.join().status, 0)
        # The server's own version has a time and a number that no one knows beforehand.
        first = len(greeting(0)) - len(frame("verack"))
        self.same("serve", len(found), len(wanted))
        at = next((i for i in range(first, len(wanted)) if found[i] != wanted[i]), len(wanted))
        self.same("serve, from byte %d" % at, found[at:], wanted[at:])

    def refused(self, data, words):
        status, _, told = self.ran("filter", self.written("limit", data), "1")
        self.same("a limit", (status, words in told), (3, True) if words else (0, True))


def at_limit(stored_size=None, plain_size=None):
    """A first block, whose record, or whose form without witnesses, has so many bytes."""
    def made(more, item):
        script, way = key_hash()
        first = coinbase(1, script, [])
        vout = list(first.vout) + [CMutableTxOut(0, CScript(b"\x6a" + bytes(more)))]
        return CTransaction.from_tx(CMutableTransaction(list(first.vin), vout, 0, 2, CTxWitness([CTxInWitness(CScriptWitness([bytes(item)]))])))

    more, item = 70_000, 70_000
    block = mined(double(GENESIS_HEADER), 1, [made(more, item)])
    if stored_size:
        item += stored_size - len(block.serialize())
    else:
        more += plain_size - len(block.serialize({"include_witness": False}))
    block = mined(double(GENESIS_HEADER), 1, [made(more, item)])
    assert len(block.serialize()) == stored_size or len(block.serialize({"include_witness": False})) == plain_size
    return record(block.serialize())


def main():
    program = sys.argv[1] if sys.argv[1:] else os.path.join(ROOT, ".build", "cf")
    if not sys.argv[1:]:
        subprocess.run([os.path.join(ROOT, "dev"), "build"], check=True)
    blocks = chain()
    for block in blocks:
        assert CBlock.stream_deserialize(io.BytesIO(block.serialize())).GetHash() == block.GetHash()
    told = Told(blocks)
    with tempfile.TemporaryDirectory() as folder:
        compared = Compared(program, folder)
        for name, data in (("stored", stored(blocks)), ("plain", plain(blocks))):
            file = compared.written(name, data)
            compared.texts(file, told)
            compared.conversation(file, blocks)
        compared.refused(at_limit(stored_size=MOST_RECORD), "")
        compared.refused(at_limit(stored_size=MOST_RECORD + 1), "the record is too long")
        compared.refused(at_limit(plain_size=MOST_BLOCK), "")
        compared.refused(at_limit(plain_size=MOST_BLOCK + 1), "a block is too long")
        print("%d answers are the same, over %d blocks of %d bytes, without witnesses %d" % (
            compared.count, len(blocks), len(stored(blocks)), len(plain(blocks))))


if __name__ == "__main__":
    main()
