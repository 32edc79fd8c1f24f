"""Plain readers of the program's files, written from docs/USER.md: what `replay`, `scan`, `filter`, `prove` and
`check` have to come to; and what `serve` has to write to a peer, by BIP 157 and the Bitcoin developer reference.

Each gives the status, the text, and the words in which the place of what is refused is told, or how a connection ended.
`changes.py` compares the program with them.
"""
import re

from addresses import read
from client import READERS, Bad, Cut, Run, is_committed, is_timely, meets, read_block, read_frames, read_tx, time_of
from conversation import MAGIC, double, filters, frame, greeting, valued
from proofs import parts, spelled, width
from sessions import Chain
from witness import read_stored

CHAIN = Chain((7, 3))
CLOSED = "connection 1: the peer has closed it"
HEX = "([0-9a-fA-F]{2})"
MOST_SCRIPTS, MOST_BYTES, MOST_TXS = 1000, 10_000, 16_666


def split(data):
    """The lines of a text, whose last one may lack its end."""
    lines = data.decode("latin-1").split("\n")
    return lines[:-1] if lines[-1] == "" else lines


# ---- sessions

def lines_of(data):
    """The lines of a session, and the number of the first one that is refused, or 0."""
    lines, dials = split(data), 0
    while dials < len(lines) and re.fullmatch("(no)?dial [!-~]{1,255}", lines[dials]):
        dials += 1
    if not 1 <= dials <= 8:
        return lines, min(dials, 8) + 1
    form = "got [1-%d] %s+|gone [1-%d]|tick ([1-9][0-9]{0,4})" % (dials, HEX, dials)
    for number, line in enumerate(lines[dials:], dials + 1):
        found = re.fullmatch(form, line)
        if not found or int(found.group(2) or 1) > 86_400:
            return lines, number
    return lines, 0


def replayed(watch, data):
    """What `replay --trace` of a good watch file and a session comes to."""
    lines, place = lines_of(data)
    if place:
        return 3, "", "session file, line %d:" % place
    run = Run(lines, watched(watch)[0], CHAIN.filters[0][2])
    return int(run.status().split(" ")[0]), run.traced(), ""


# ---- scripts and blocks

def script_in(line):
    """The script of a line, or None."""
    if line[:5] in ("bcrt1", "BCRT1"):
        found = read("bcrt", line)
        return None if isinstance(found, str) else bytes([found[0] and 0x50 + found[0], len(found[1]), *found[1]])
    return bytes.fromhex(line) if re.fullmatch(HEX + "*", line) else None


def watched(data):
    """The scripts of a watch file, and the number of the first line that is refused, or 0."""
    scripts = []
    for number, line in enumerate(split(data), 1):
        script = script_in(line)
        if not script or script[0] == 0x6A or len(script) > MOST_BYTES:
            return scripts, number
        if len(scripts) == MOST_SCRIPTS or script in scripts:
            return scripts, number
        scripts.append(script)
    return scripts, 0


def blocks_in(data):
    """The records of a file, each as its block's bytes, or None where it is cut off or has another head."""
    at = 0
    while at < len(data) and any(data[at:]):
        size = int.from_bytes(data[at + 4:at + 8], "little")
        is_whole = len(data) - at >= 8 and len(data) - at - 8 >= size
        is_good = is_whole and data[at:at + 4] == MAGIC and size <= 4_000_000
        yield data[at + 8:at + 8 + size] if is_good else None
        at += 8 + size


def without_witnesses(stored):
    """A record's block in its form without witnesses, or None."""
    try:
        return stored and read_stored(stored)
    except Bad:
        return None


def is_next(block, chain, coins):
    """Whether a block may stand on a chain. The coins become those after it, as far as it is good."""
    try:
        header, _ = read_block(block)
    except Bad:
        return False
    if header[4:36] != double(chain[-1][:80]) or header[72:76] != b"\xff\xff\x7f\x20" or not meets(double(header)):
        return False
    if not is_timely([time_of(below) for below in chain[-11:]], header) or not is_committed(block):
        return False
    txs = list(valued(block))
    if [names == [(bytes(32), 0xFFFFFFFF)] for _, names, _ in txs] != [True] + [False] * (len(txs) - 1):
        return False
    for place, (txid, names, outputs) in enumerate(txs):
        for name in names if place else []:
            if coins.pop(name, None) is None:
                return False
        if any((txid, i) in coins for i in range(len(outputs))):
            return False
        coins.update(((txid, i), output) for i, output in enumerate(outputs))
    return True


def chain_in(data):
    """The chain of a file of blocks, and the words in which the place of the first record that is refused is told."""
    coins, good = {}, [CHAIN.blocks[0]]
    for number, block in enumerate(blocks_in(data), 1):
        if number == 1 and block == CHAIN.blocks[0]:
            continue
        block = without_witnesses(block)
        if block is None or not is_next(block, good, coins):
            return None, "block file, record %d:" % number
        good.append(block)
    chain = CHAIN.copy()
    chain.blocks, chain.hashes, chain.tip = good, [double(block[:80]) for block in good], len(good) - 1
    return chain, ""


def scanned(watch, data):
    """What `scan` of a file of blocks and a watch file comes to."""
    scripts, place = watched(watch)
    if place:
        return 3, "", "watch file, line %d:" % place
    chain, place = chain_in(data)
    return (0, chain.history(scripts), "") if chain else (3, "", place)


def filtered(data, height=2):
    """What `filter` of a file of blocks comes to."""
    chain, place = chain_in(data)
    if not chain:
        return 3, "", place
    if chain.tip < height:
        return 11, "", "which is at %d" % chain.tip
    code, _, header = filters(chain.blocks)[height]
    told = chain.hashes[height][::-1].hex(), code.hex(), header[::-1].hex()
    return 0, "block %s\nfilter %s\nheader %s\n" % told, ""


# ---- proofs

def proof_of(data, name):
    """What `prove` of a file of blocks comes to, of the transaction with this hash."""
    chain, place = chain_in(data)
    if not chain:
        return 3, "", place
    for block in chain.blocks[1:]:
        header, txs = read_block(block)
        names = [double(tx) for tx in txs]
        if name in names:
            at = names.index(name)
            proof = spelled(header, len(names), *parts(names, at))
            return 0, "tx %s\nproof %s\n" % (txs[at].hex(), proof.hex()), ""
    return 12, "", "no block"


class Tree:
    """The walk through a partial tree (BIP 37, "Parsing a partial merkle tree object")."""

    def __init__(self, total, hashes, flags):
        self.total, self.hashes, self.found = total, list(hashes), []
        self.bits = [byte >> i & 1 for byte in flags for i in range(8)]
        height = 0
        while width(total, height) > 1:
            height += 1
        self.root = self.walk(height, 0)
        if self.hashes or len(self.bits) >= 8:
            raise Bad("Left")

    def walk(self, height, place):
        if not self.bits:
            raise Bad("Ends")
        is_parent = self.bits.pop(0)
        if not is_parent or height == 0:
            if not self.hashes:
                raise Bad("Ends")
            name = self.hashes.pop(0)
            self.found += [name] * is_parent
            return name
        left = right = self.walk(height - 1, 2 * place)
        if 2 * place + 1 < width(self.total, height - 1):
            right = self.walk(height - 1, 2 * place + 1)
            if right == left:
                raise Bad("Same")
        return double(left + right)


def proved(tx, data):
    """The hash of the header of a proof of a transaction."""
    r = Cut(data)
    header, total, hashes, flags = r.take(80), r.number(4), r.hashes(), r.var_bytes()
    r.end()
    if not 1 <= total <= MOST_TXS or len(hashes) > total or len(tx) == 64 or 8 * len(flags) < len(hashes):
        raise Bad("Total")
    tree = Tree(total, hashes, flags)
    if tree.root != header[36:68] or double(tx) not in tree.found or not meets(double(header)):
        raise Bad("Root")
    return double(header)


def checked(data):
    """What `check` of a file of a proof comes to."""
    first, _, rest = data.decode("latin-1").partition("\n")
    second, end, more = rest.partition("\n")
    try:
        if not re.fullmatch("tx %s*" % HEX, first):
            raise Bad("BadLine")
        r = Cut(bytes.fromhex(first[3:]))
        tx = read_tx(r)
        r.end()
    except Bad:
        return 3, "", "proof file, line 1:"
    try:
        if not re.fullmatch("proof %s*" % HEX, second) or more:
            raise Bad("BadLine")
        name = proved(tx, bytes.fromhex(second[6:]))
    except Bad:
        return 3, "", "proof file, line 2:"
    return 0, "in %s %s\n" % (name[::-1].hex(), double(tx)[::-1].hex()), ""


# ---- a server

def range_of(chain, payload, most):
    """The first and the last height of a range that is asked for, or None where it is not answered."""
    r = Cut(payload)
    kind, start, stop = r.number(1), r.number(4), r.take(32)
    if kind or stop not in chain.hashes:
        return None
    last = chain.hashes.index(stop)
    return (start, last) if start <= last < start + most else None


def headers_after(chain, locator, stop):
    if not locator:
        return chain.headers(*[chain.hashes.index(stop)] * 2) if stop in chain.hashes else b""
    first = next((chain.hashes.index(name) for name in locator if name in chain.hashes), 0) + 1
    last = chain.hashes.index(stop) if stop in chain.hashes[first:] else chain.tip
    return chain.headers(first, min(last, first + 1999))


def blocks_of(chain, entries):
    wanted = [entry[4:] for entry in entries if entry[:4] == b"\2\0\0\0"]
    return b"".join(chain.block(chain.hashes.index(name)) for name in wanted if name in chain.hashes)


def answer_to(chain, command, payload, message):
    """What is written to a message of a peer that has told its version, by a server of this chain."""
    if command == "ping":
        return frame("pong", message)
    if command == "getheaders":
        return headers_after(chain, *message[1:])
    if command == "getdata":
        return blocks_of(chain, message)
    if command == "getcfilters":
        found = range_of(chain, payload, 1000)
        return b"".join(chain.cfilter(height) for height in range(found[0], found[1] + 1)) if found else b""
    if command == "getcfheaders":
        found = range_of(chain, payload, 2000)
        return chain.cfheaders(*found) if found else b""
    if command == "getcfcheckpt" and payload[:1] == b"\0" and payload[1:] in chain.hashes:
        return chain.cfcheckpt(chain.hashes.index(payload[1:]))
    return b""


def message_in(command, payload):
    """The message of a frame of a known command. `Bad` is raised where it can't be read."""
    r = Cut(payload)
    message = READERS[command](r)
    r.end()
    return message


def served(data):
    """What `serve` writes to a peer that sends these bytes and then is silent."""
    has_version, written = False, b""
    for found in read_frames(data)[0]:
        if found is None:
            return 0, written, "connection 1: what came is no frame"
        command, payload = found
        if command not in READERS:
            continue
        try:
            message = message_in(command, payload)
        except Bad:
            return 0, written, "connection 1: a message could not be read"
        if has_version:
            written += answer_to(CHAIN, command, payload, message)
        elif command == "version":
            has_version, written = True, greeting(CHAIN.tip)
    return 0, written, CLOSED
