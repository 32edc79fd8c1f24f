#!/usr/bin/python3
"""Prints messages as another program spells them, python-bitcoinlib (Debian's python3-bitcoinlib): each as a row of cf_cases, `payload
COMMAND HEX`, and after it the message that was given to that program, written as cf_cases writes one.

No number, address, port or hash reads the same from both ends, so that the order of bytes shows. That program's `headers` leave out the
zero that stands after each header (Bitcoin developer reference, "Headers"); it is put in here.
"""
import socket

import bitcoin
from bitcoin.core import CBlock, CBlockHeader, CMutableTransaction, CMutableTxIn, CMutableTxOut, COutPoint, x
from bitcoin.core.script import CScript
from bitcoin.messages import msg_block, msg_getdata, msg_getheaders, msg_headers, msg_inv, msg_version
from bitcoin.net import CAddress, CInv

bitcoin.SelectParams("regtest")


# ---- texts as cf_cases writes them

def numbers(data):
    return "[" + ", ".join(str(b) for b in data) + "]"


def hash_text(data):
    return f"Hash32({numbers(data)})"


def list_text(texts):
    return "Listed { items: [" + ", ".join(texts) + "] }"


def address_text(address):
    packed = socket.inet_pton(socket.AF_INET6, address.ip if ":" in address.ip else "::ffff:" + address.ip)
    return f"NetAddress {{ services: {address.nServices}, ip: {numbers(packed)}, port: {address.port} }}"


def header_text(header):
    return (f"Header {{ version: {header.nVersion}, previous: {hash_text(header.hashPrevBlock)}, root: {hash_text(header.hashMerkleRoot)}, "
            f"time: {header.nTime}, bits: {header.nBits}, nonce: {header.nNonce} }}")


def script_text(script):
    return f"Script {{ bytes: {numbers(bytes(script))} }}"


def input_text(txin):
    prev = f"OutPoint {{ txid: {hash_text(txin.prevout.hash)}, index: {txin.prevout.n} }}"
    return f"TxIn {{ prev: {prev}, script: {script_text(txin.scriptSig)}, sequence: {txin.nSequence} }}"


def output_text(txout):
    return f"TxOut {{ value: {txout.nValue}, script: {script_text(txout.scriptPubKey)} }}"


def tx_text(tx):
    return (f"Tx {{ version: {tx.nVersion}, inputs: {list_text(map(input_text, tx.vin))}, outputs: {list_text(map(output_text, tx.vout))}, "
            f"lock_time: {tx.nLockTime} }}")


def entries_text(entries):
    return list_text(f"Inventory {{ kind: {e.type}, hash: {hash_text(e.hash)} }}" for e in entries)


# ---- the messages

def count_up(start, n=32):
    return bytes((start + i) % 256 for i in range(n))


def address(services, ip, port):
    made = CAddress()
    made.nServices, made.ip, made.port = services, ip, port
    return made


def entry(kind, block):
    made = CInv()
    made.type, made.hash = kind, block
    return made


def header(start):
    return CBlockHeader(0x20000001 + start, count_up(start), count_up(start + 40), 0x65010203 + start, 0x207FFFFF, 0x01020304 + start)


def version():
    made = msg_version(70015)
    made.nServices, made.nTime, made.nNonce = 0x0000000000000409, 0x65040302, 0x0807060504030201
    made.addrTo = address(0x0000000000000441, "203.0.113.7", 18444)
    made.addrFrom = address(0x0000000000000809, "2001:db8:85a3::8a2e:370:7334", 8333)
    made.strSubVer, made.nStartingHeight, made.fRelay = b"/another:0.21.1/", 0x000A0B0C, True
    return made, (
        f"Version {{ version: {made.nVersion}, services: {made.nServices}, time: {made.nTime}, to: {address_text(made.addrTo)}, "
        f"from: {address_text(made.addrFrom)}, nonce: {made.nNonce}, agent: Listed {{ items: {numbers(made.strSubVer)} }}, "
        f"height: {made.nStartingHeight}, relay: Some({int(made.fRelay)}) }}"
    )


def getheaders():
    made = msg_getheaders()
    made.locator.nVersion, made.locator.vHave, made.hashstop = 70015, [count_up(1), count_up(101)], count_up(201)
    return made, (
        f"GetHeaders {{ version: {made.locator.nVersion}, locator: {list_text(map(hash_text, made.locator.vHave))}, "
        f"stop: {hash_text(made.hashstop)} }}"
    )


def headers():
    made = msg_headers()
    made.headers = [header(3), header(7)]
    return made, f"Headers({list_text(map(header_text, made.headers))})"


def inv():
    made = msg_inv()
    made.inv = [entry(1, count_up(9)), entry(2, count_up(19))]
    return made, f"Inv({entries_text(made.inv)})"


def getdata():
    made = msg_getdata()
    made.inv = [entry(2, count_up(29))]
    return made, f"GetData({entries_text(made.inv)})"


def block():
    first = CMutableTransaction(
        [CMutableTxIn(COutPoint(bytes(32), 0xFFFFFFFF), CScript(x("0403020100")), 0xFFFFFFFE)],
        [CMutableTxOut(5_000_001_234, CScript(x("76a9"))), CMutableTxOut(0, CScript(x("6a0102")))], 0, 1)
    second = CMutableTransaction(
        [CMutableTxIn(COutPoint(count_up(50), 0x01020304), CScript(x("51")), 0x05060708), CMutableTxIn(COutPoint(count_up(90), 7), CScript(), 9)],
        [CMutableTxOut(2_100_000_000_000_000, CScript(count_up(0, 300)))], 0x0A0B0C0D, 2)
    made = msg_block()
    made.block = CBlock(2, count_up(60), nTime=0x65010203, nBits=0x207FFFFF, nNonce=0x0D0E0F10, vtx=[first, second])
    return made, f"Block(Block {{ header: {header_text(made.block)}, txs: {list_text(map(tx_text, made.block.vtx))} }})"


def payload(message):
    spelled = message.to_bytes()[24:]
    if message.command != b"headers":
        return spelled
    count, items = spelled[:1], spelled[1:]
    return count + b"".join(items[i:i + 80] + b"\0" for i in range(0, len(items), 80))


if __name__ == "__main__":
    for make in (version, getheaders, headers, inv, getdata, block):
        message, text = make()
        print(f"payload {message.command.decode()} {payload(message).hex()}")
        print(text)
