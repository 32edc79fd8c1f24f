"""A client of filters, written in Python from BIP 157, BIP 158 and the Bitcoin developer reference: what it sends and
whom it closes where peers deliver these bytes, how its run ends, and what it writes. `hostile.py`, `faults.py`,
`following.py` and `changes.py` compare the program with it.

docs/ARCHITECTURE.md has the rules in words: headers, then claims of filters, then filters, and last the blocks whose
filters match or are in dispute; and nobody is asked for what is open to another. Of a block that was fetched, and on
whose filter the peers differ, each is asked last for the filter that it claims; who claims one that lacks a script that
the block pays is closed. It is plain, and made for few blocks.

One that follows goes on once nothing is open. With each tick it sends a `ping`, with the numbers 1, 2 and so on, to each
peer to which nothing is open, which is open until its `pong`. A peer that tells of a block which isn't on its own chain is
asked for headers anew. Whenever nothing is open and a peer is connected it writes a text, unless that is the last one.
"""
import struct

from conversation import GENESIS_HEADER, Reader, double, frame, siphash, transactions, valued, version

MAGIC = bytes.fromhex("fabfb5da")
TARGET = b"\x7f\xff\xff" + bytes(29)
MOST_HEIGHT, MOST_COMPACT, MOST_VALUE = 500_000, 33_554_432, 2_100_000_000_000_000
TEXTS = {
    "Done": "0 Done",
    "Tired": "7 Tired: the greatest number of deliveries was taken, and an answer was still to come",
    "Ended": "8 Ended: nothing more came, and an answer was still to come",
}


def meets(block_hash):
    """Whether a header's hash is at most the target."""
    return block_hash[::-1] <= TARGET


def time_of(header):
    return int.from_bytes(header[68:72], "little")


def is_timely(times, header):
    """Whether a header's time is above the median of the last eleven of these."""
    past = sorted(times[-11:])
    return time_of(header) > past[len(past) // 2]


class Bad(Exception):
    """Bytes that are no spelling, or a peer that is to be closed for this cause."""


class Exposed(Exception):
    """Of this block a filter with this hash was found to lack a script that the block pays."""


# ---- payloads

class Cut(Reader):
    """A reader that refuses what isn't there."""

    def take(self, n):
        if self.place + n > len(self.data):
            raise Bad("Short")
        return super().take(n)

    def count(self, most=MOST_COMPACT):
        first = self.number(1)
        if first < 253:
            n = first
        else:
            size = {253: 2, 254: 4, 255: 8}[first]
            n = self.number(size)
            if n < (253 if size == 2 else 1 << (4 * size)):
                raise Bad("NotShortest")
        if n > min(most, MOST_COMPACT):
            raise Bad("TooMany")
        return n

    def var_bytes(self):
        return self.take(self.count())

    def hashes(self, most=MOST_COMPACT):
        return [self.take(32) for _ in range(self.count(most))]

    def end(self):
        if self.place != len(self.data):
            raise Bad("Rest")


def read_body(r):
    """Reads the inputs and outputs of a transaction, and tells how many inputs there are."""
    inputs = r.count()
    if inputs == 0:
        raise Bad("NoInput")
    for _ in range(inputs):
        r.take(36)
        r.var_bytes()
        r.take(4)
    outputs = r.count()
    if outputs == 0:
        raise Bad("NoOutput")
    for _ in range(outputs):
        if not 0 <= struct.unpack("<q", r.take(8))[0] <= MOST_VALUE:
            raise Bad("Value")
        r.var_bytes()
    return inputs


def read_tx(r):
    """The transaction's bytes."""
    start = r.place
    r.take(4)
    read_body(r)
    r.take(4)
    return r.data[start:r.place]


def read_block(data):
    """The header and the transactions' bytes."""
    if len(data) > 1_000_000:
        raise Bad("TooLong")
    r = Cut(data)
    header = r.take(80)
    count = r.count()
    if count == 0:
        raise Bad("NoTx")
    txs = [read_tx(r) for _ in range(count)]
    r.end()
    return header, txs


def read_version(r):
    r.take(4)
    services = r.number(8)
    r.take(8 + 26 + 26 + 8)
    r.var_bytes()
    r.take(4)
    if r.place < len(r.data):
        r.take(1)
    return services


def read_headers(r):
    found = []
    for _ in range(r.count(2000)):
        found.append(r.take(80))
        if r.number(1):
            raise Bad("NotZero")
    return found


def read_block_message(r):
    read_block(r.data)
    return r.take(len(r.data))


READERS = {
    "version": read_version,
    "verack": lambda r: None,
    "ping": lambda r: r.take(8),
    "pong": lambda r: r.take(8),
    "getheaders": lambda r: (r.take(4), r.hashes(101), r.take(32)),
    "headers": read_headers,
    "getdata": lambda r: [r.take(36) for _ in range(r.count(50_000))],
    "inv": lambda r: [r.take(36) for _ in range(r.count(50_000))],
    "block": read_block_message,
    "getcfilters": lambda r: r.take(37),
    "getcfheaders": lambda r: r.take(37),
    "cfilter": lambda r: (r.number(1), r.take(32), r.var_bytes()),
    "cfheaders": lambda r: (r.number(1), r.take(32), r.take(32), r.hashes(2000)),
    "getcfcheckpt": lambda r: r.take(33),
    "cfcheckpt": lambda r: (r.number(1), r.take(32), r.hashes(2000)),
}


def read_frames(waiting):
    """The whole frames at the front of these bytes, and how many bytes they have. A bad frame is None, and the last."""
    frames, at = [], 0
    while len(waiting) - at >= 24:
        head = waiting[at:at + 24]
        name = head[4:16].rstrip(b"\0")
        size = int.from_bytes(head[16:20], "little")
        if head[:4] != MAGIC or not all(0x20 <= b <= 0x7E for b in name) or size > 4_000_000:
            return frames + [None], at
        if len(waiting) - at - 24 < size:
            break
        payload = waiting[at + 24:at + 24 + size]
        if double(payload)[:4] != head[20:24]:
            return frames + [None], at
        frames.append((name.decode(), payload))
        at += 24 + size
    return frames, at


# ---- blocks and filters

def root_of(hashes):
    """The Merkle root, and whether a pair of equal hashes stands in the tree."""
    is_doubled = False
    while len(hashes) > 1:
        is_doubled |= any(hashes[i] == hashes[i + 1] for i in range(0, len(hashes) - 1, 2))
        hashes = hashes + hashes[-1:] * (len(hashes) % 2)
        hashes = [double(hashes[i] + hashes[i + 1]) for i in range(0, len(hashes), 2)]
    return hashes[0], is_doubled


def is_committed(block):
    header, txs = read_block(block)
    root, is_doubled = root_of([double(tx) for tx in txs])
    return root == header[36:68] and not is_doubled and all(len(tx) != 64 for tx in txs)


def values_of(code):
    """The values of a Golomb code, or None where it is no spelling."""
    r = Cut(code)
    try:
        count = r.count()
    except Bad:
        return None
    rest = code[r.place:]
    bits = "".join(format(b, "08b") for b in rest)
    if count * 20 > len(bits):
        return None
    values, at, value = [], 0, 0
    for _ in range(count):
        end = bits.find("0", at)
        if end < 0 or end + 20 > len(bits):
            return None
        value += ((end - at) << 19) + int(bits[end + 1:end + 20], 2)
        if value >= count * 784931:
            return None
        values.append(value)
        at = end + 20
    return values if "1" not in bits[at:] and len(bits) - at < 8 else None


def is_in(block_hash, values, script):
    """Whether a script's number is among the values of the filter of a block with this hash."""
    k0, k1 = (int.from_bytes(block_hash[i:i + 8], "little") for i in (0, 8))
    return siphash(k0, k1, script) * (len(values) * 784931) >> 64 in values


def is_miss(block_hash, code, scripts):
    values = values_of(code)
    return values is not None and not any(is_in(block_hash, values, s) for s in scripts)


def lacks(block, code):
    """Whether a filter of a block is no spelling, or lacks a script of its outputs."""
    values, block_hash = values_of(code), double(block[:80])
    scripts = {s for _, _, paid in transactions(block) for s in paid if s and s[0] != 0x6A}
    return values is None or not all(is_in(block_hash, values, s) for s in scripts)


# ---- the client

ANSWERS = {"getcfheaders": "cfheaders", "getcfilters": "cfilter", "getdata": "block"}


class Peer:
    def __init__(self):
        self.waiting, self.has_version, self.is_ready, self.is_heard = b"", False, False, False
        self.asked, self.age, self.is_test, self.pings = ("handshake", None), 0, False, 0
        self.chain, self.times, self.claims = [double(GENESIS_HEADER)], [time_of(GENESIS_HEADER)], {}

    def ask(self, what, data, is_test=False):
        self.asked, self.age, self.is_test = (what, data), 0, is_test


class Client:
    """What it keeps of its peers. A call gives acts: `(p, "> COMMAND")`, or `(p, "x CAUSE")`."""

    def __init__(self, scripts, genesis_filter_header, follows=False):
        self.scripts, self.before_first, self.follows = scripts, genesis_filter_header, follows
        self.peers, self.verdicts, self.blocks, self.tests = {}, {}, {}, {}

    def dialled(self, p):
        self.peers[p] = Peer()
        return [(p, "> version")]

    def is_working(self):
        return any(peer.asked for peer in self.peers.values())

    def best(self):
        ready = [(-len(peer.chain), p) for p, peer in self.peers.items() if peer.is_ready]
        return min(ready)[1] if ready else None

    def got(self, p, piece):
        acts, peer = [], self.peers.get(p)
        if peer:
            frames, at = read_frames(peer.waiting + piece)
            peer.waiting = (peer.waiting + piece)[at:]
            try:
                for frame in frames:
                    self.hear(p, peer, frame, acts)
            except Bad as cause:
                self.lose(p, acts, str(cause))
            except Exposed as found:
                for q in [q for q in sorted(self.peers) if self.claimed(q, found.args[0]) == found.args[1]]:
                    self.lose(q, acts, "Omits")
        return acts + self.asks()

    def gone(self, p):
        self.peers.pop(p, None)
        return self.asks()

    def tick(self, seconds):
        acts = []
        for peer in self.peers.values():
            peer.age += seconds
        for p in sorted(self.peers):
            if self.peers[p].asked and self.peers[p].age >= 60:
                self.lose(p, acts, "Overdue")
        if self.follows:
            self.ping_all(acts)
        return acts + self.asks()

    def ping_all(self, acts):
        for p in sorted(self.peers):
            peer = self.peers[p]
            if peer.is_ready and not peer.asked:
                peer.pings += 1
                peer.ask("ping", peer.pings)
                acts.append((p, "> ping"))

    def send_failed(self, p):
        acts = [(p, "x SendFailed")]
        self.peers.pop(p, None)
        return acts + self.asks()

    def lose(self, p, acts, cause):
        acts.append((p, "x " + cause))
        del self.peers[p]

    def hear(self, p, peer, frame, acts):
        if frame is None:
            raise Bad("BadFrame")
        command, payload = frame
        if command not in READERS:
            return
        try:
            r = Cut(payload)
            message = READERS[command](r)
            r.end()
        except Bad:
            raise Bad("Malformed")
        if not peer.has_version:
            if command == "version":
                if message & 65 != 65:
                    raise Bad("NoFilters")
                peer.has_version = True
                acts.append((p, "> verack"))
        elif command == "ping":
            acts.append((p, "> pong"))
        elif not peer.is_ready:
            if command == "verack":
                peer.is_ready, peer.asked = True, None
        elif command == "headers":
            self.accept(peer, message)
        elif command == "pong":
            if peer.asked == ("ping", int.from_bytes(message, "little")):
                peer.asked = None
        elif command == "inv":
            if self.follows and any(each[:4] == b"\2\0\0\0" and each[4:] not in peer.chain for each in message):
                peer.is_heard = False
        elif peer.asked and command == ANSWERS.get(peer.asked[0]):
            getattr(self, "answer_" + command)(peer, message)

    def accept(self, peer, headers):
        chain = peer.chain
        is_longer = False
        if headers:
            if headers[0][4:36] not in chain:
                raise Bad("Unlinked")
            k = chain.index(headers[0][4:36])
            before, times = chain[k], peer.times[:k + 1]
            for header in headers:
                is_linked = header[4:36] == before and header[72:76] == b"\xff\xff\x7f\x20"
                if not is_linked or not meets(double(header)) or not is_timely(times, header):
                    raise Bad("InvalidHeader")
                before = double(header)
                times.append(time_of(header))
            if k + len(headers) > MOST_HEIGHT:
                raise Bad("TooHigh")
            is_longer = k + len(headers) >= len(chain)
            if is_longer:
                peer.chain, peer.times = chain[:k + 1] + [double(header) for header in headers], times
        if peer.asked and peer.asked[0] == "getheaders":
            peer.asked = None
        peer.is_heard |= not is_longer or len(headers) < 2000

    def answer_cfheaders(self, peer, message):
        kind, stop, previous, hashes = message
        before, blocks = peer.asked[1]
        if kind or stop != blocks[-1]:
            return
        if len(hashes) != len(blocks):
            raise Bad("WrongCount")
        if previous != before:
            raise Bad("WrongPrevious")
        for block, told in zip(blocks, hashes):
            before = double(told + before)
            peer.claims[block] = (told, before)
        peer.asked = None
        for block, told in zip(blocks, hashes):
            self.expose(block, told)

    def answer_cfilter(self, peer, message):
        kind, block, code = message
        blocks, codes = peer.asked[1]
        if kind or block != blocks[len(codes)]:
            return
        if double(code) != peer.claims[block][0]:
            raise Bad("OtherFilter")
        codes.append(code)
        if len(codes) < len(blocks):
            return
        peer.asked = None
        if peer.is_test:
            self.tests[block, double(code)] = lacks(self.blocks[block], code)
            self.expose(block, double(code))
            return
        for block, code in zip(blocks, codes):
            self.verdicts.setdefault((block, double(code)), "Miss" if is_miss(block, code, self.scripts) else "Hit")

    def expose(self, block, told):
        if self.tests.get((block, told)):
            raise Exposed(block, told)

    def answer_block(self, peer, block):
        if double(block[:80]) != peer.asked[1]:
            return
        if not is_committed(block):
            raise Bad("BadBlock")
        self.blocks.setdefault(peer.asked[1], block)
        peer.asked = None

    def claimed(self, p, block):
        """The filter hash that a peer claims of a block, or None."""
        return self.peers[p].claims.get(block, (None, None))[0]

    def filter_of(self, block):
        """The one filter hash that all claim of a block, or None where none does, or `Differ`."""
        told = {peer.claims[block][0] for peer in self.peers.values() if block in peer.claims}
        return "Differ" if len(told) > 1 else next(iter(told), None)

    def is_open(self, block, command):
        """Whether somebody was asked by this command for a block's filter, or for the block, and hasn't answered yet."""
        asked = [peer.asked[1] for peer in self.peers.values() if peer.asked and peer.asked[0] == command]
        return any(block in (data[0] if command == "getcfilters" else [data]) for data in asked)

    def is_to_judge(self, block):
        told = self.filter_of(block)
        is_wanted = block not in self.blocks and told not in (None, "Differ") and (block, told) not in self.verdicts
        return is_wanted and not self.is_open(block, "getcfilters")

    def is_to_test(self, p, block):
        """Whether a block was fetched, its filter is in dispute, and the one that a peer claims wasn't tested."""
        is_untested = (block, self.claimed(p, block)) not in self.tests
        return block in self.blocks and self.filter_of(block) == "Differ" and is_untested

    def is_to_fetch(self, block):
        told = self.filter_of(block)
        is_wanted = block not in self.blocks and (told == "Differ" or self.verdicts.get((block, told)) == "Hit")
        return is_wanted and not self.is_open(block, "getdata")

    def asks(self):
        acts = []
        for p in sorted(self.peers):
            if self.peers[p].is_ready and not self.peers[p].asked:
                self.ask_next(p, self.peers[p], acts)
        return acts

    def ask_next(self, p, peer, acts):
        if not peer.is_heard:
            peer.ask("getheaders", None)
            acts.append((p, "> getheaders"))
            return
        best = self.peers[self.best()].chain
        shared = [mine for mine, other in zip(peer.chain, best) if mine == other]
        unclaimed = [height for height in range(1, len(shared)) if shared[height] not in peer.claims]
        if unclaimed:
            first = unclaimed[0]
            last = first
            while last + 1 in unclaimed and last + 1 < first + 2000:
                last += 1
            before = peer.claims[shared[first - 1]][1] if first > 1 else self.before_first
            peer.ask("getcfheaders", (before, shared[first:last + 1]))
        elif any(self.is_to_judge(block) for block in shared[1:]):
            first = next(height for height in range(1, len(shared)) if self.is_to_judge(shared[height]))
            last = first
            while last + 1 < len(shared) and last + 1 < first + 1000 and self.is_to_judge(shared[last + 1]):
                last += 1
            peer.ask("getcfilters", (shared[first:last + 1], []))
        elif any(self.is_to_fetch(block) for block in shared[1:]):
            peer.ask("getdata", next(block for block in shared[1:] if self.is_to_fetch(block)))
        elif any(self.is_to_test(p, block) for block in shared[1:]):
            block = next(block for block in shared[1:] if self.is_to_test(p, block))
            peer.ask("getcfilters", ([block], []), is_test=True)
        else:
            return
        acts.append((p, "> " + peer.asked[0]))

    def history(self):
        """The history over the blocks that were fetched of the best chain, and the tip."""
        coins, lines = {}, ""
        chain = self.peers[self.best()].chain
        for height, name in enumerate(chain[1:], 1):
            for txid, names, outputs in valued(self.blocks[name]) if name in self.blocks else ():
                spent = [coins.pop(coin) for coin in names if coin in coins]
                won = [(i, value) for i, (value, paid) in enumerate(outputs) if paid in self.scripts]
                coins.update(((txid, i), value) for i, value in won)
                if spent or won:
                    got = sum(value for _, value in won)
                    lines += "%d %s +%d -%d %d\n" % (height, txid[::-1].hex(), got, sum(spent), sum(coins.values()))
        return lines + "synced %d %s\n" % (len(chain) - 1, chain[-1][::-1].hex())


class Run:
    """A run over wires that give the lines of a session, and of whose dials and sends these fail, counted from 1."""

    def __init__(self, lines, scripts, genesis_filter_header, failing=(), turns=10_000_000, follows=False):
        self.client, self.texts = Client(scripts, genesis_filter_header, follows), []
        self.failing, self.calls, self.untold, self.trace, self.log, self.ends = failing, 0, [], [], [], {}
        dials = [line.split(" ") for line in lines if line.split(" ")[0] in ("dial", "nodial")]
        for p, (word, name) in enumerate(dials, 1):
            is_answered = self.works() and word == "dial"
            self.log.append(("dial " if is_answered else "nodial ") + name)
            self.ends[p] = "Ready" if is_answered else "NotDialled"
            if is_answered:
                self.do(self.client.dialled(p))
        self.end = self.follow(lines[len(dials):], turns)

    def works(self):
        self.calls += 1
        return self.calls not in self.failing

    def follow(self, lines, turns):
        taken = 0
        while self.goes_on():
            if taken in (turns, len(lines)):
                return "Done" if not self.client.is_working() else "Tired" if taken == turns else "Ended"
            self.log.append(lines[taken])
            self.do(self.step(*lines[taken].split(" ")))
            taken += 1
        return "Done" if self.client.best() else "NoPeers"

    def goes_on(self):
        """Whether one more delivery is wanted. Where nothing is open and a peer is connected, the text is written."""
        if self.client.is_working() or not self.client.best():
            return self.client.is_working()
        text = self.client.history()
        if self.texts[-1:] != [text]:
            self.texts.append(text)
        return self.client.follows

    def step(self, word, number, digits=""):
        number = int(number)
        if word == "tick":
            return self.client.tick(number)
        if self.ends[number] == "Ready" and word == "gone":
            self.ends[number] = "Gone"
        return self.client.gone(number) if word == "gone" else self.client.got(number, bytes.fromhex(digits))

    def do(self, acts):
        self.act(acts)
        while self.untold:
            p = min(self.untold)
            self.untold.remove(p)
            self.act(self.client.send_failed(p))

    def act(self, acts):
        """Does the acts of a call in order. Those on a peer to which a send has failed are dropped."""
        for p, act in acts:
            if p in self.untold:
                continue
            if act[0] == ">" and not self.works():
                self.log.append("gone %d" % p)
                self.untold.append(p)
                continue
            self.trace.append("%s %d %s" % (act[0], p, act[2:]))
            if act[0] == "x":
                self.ends[p] = "Closed(%s)" % act[2:]

    def status(self):
        if self.end == "NoPeers":
            return "6 NoPeers { ends: [%s] }: no peer is left" % ", ".join(self.ends[p] for p in sorted(self.ends))
        return TEXTS[self.end]

    def text(self):
        return "".join(self.texts)

    def traced(self):
        return "".join(line + "\n" for line in self.trace) + self.text()

    def record(self):
        """The session's lines, those of the dials first."""
        lines = sorted(self.log, key=lambda line: line.split(" ")[0] not in ("dial", "nodial"))
        return "".join(line + "\n" for line in lines)


class Play:
    """The lines of a session, as they come: each peer in turn answers what it is asked, over a made chain."""

    def __init__(self, chain, peers, scripts, failing=()):
        self.chain, self.scripts, self.failing = chain, scripts, failing
        self.lines = ["dial %s" % name for name in "abcdefgh"[:peers]]
        self.said = {p: [] for p in range(1, peers + 1)}
        heights = range(1, chain.tip + 1)
        self.honest = {
            "version": [version(65, 0, 0, b"/cf:1/", chain.tip, b"\0")],
            "verack": [frame("verack")],
            "getheaders": [chain.headers(1, chain.tip)],
            "getcfheaders": [chain.cfheaders(1, chain.tip)],
            "getcfilters": [chain.cfilter(height) for height in heights],
            "getdata": [chain.block(height) for height in heights],
        }

    def played(self):
        self.run = self.follow()
        while self.run.client.is_working():
            if not any([self.speak(p) for p in self.said]):
                self.silence()
        return self

    def follow(self):
        return Run(self.lines, self.scripts, self.chain.filters[0][2], self.failing)

    def say(self, line):
        self.lines.append(line)
        self.run = self.follow()

    def frames_at(self, p, moment):
        return self.honest[moment]

    def silence(self):
        raise SystemExit("nobody has anything to say")

    def speak(self, p):
        """Whether the peer has said something more."""
        peer = self.run.client.peers.get(p)
        moment = self.moment_of(peer)
        frames = moment and self.frames_at(p, moment)
        if not frames:
            return False
        place = self.said[p].count(moment) if moment != "getdata" else self.chain.hashes.index(peer.asked[1]) - 1
        self.said[p].append(moment)
        self.say("got %d %s" % (p, frames[place].hex()))
        return True

    def moment_of(self, peer):
        if peer is None or peer.asked is None:
            return None
        if peer.asked[0] != "handshake":
            return peer.asked[0]
        return "verack" if peer.has_version else "version"
