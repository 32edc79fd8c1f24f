#!/usr/bin/env python3
"""Prints rows of cf_cases in which calls fail, each with what it comes to: files that are not there, or that can't be read to
their end or written, sinks without room, dials and sends, listening and accepting, reads and writes of a connection, threads
that can't be started; and block files that are cut off. `faults.py KIND` prints the rows of a kind: `run`, `traced`, `serve`,
`serving` or `grow`.

What is sent is laid out from the layouts of the standards; what a client sends and how its run ends is that of
client.py; a server answers what it has read before it reads on, and writes the answer to a message in pieces of as many
bytes as one write takes: it is that of growing.py where its chain grows. A file of blocks is read in pieces of 65,536
bytes, up to two reads that find nothing.
"""
import os
import struct
import sys

sys.path.insert(0, os.path.dirname(os.path.abspath(__file__)))
from client import TEXTS, Play, Run, read_block, read_frames
from conversation import MAGIC, NUMBER, THEIR_VERSION, compact, double, frame, greeting, version
from demo import text_of as demo_text
from growing import MOST, Connection, Sent, Server, large_block, made, mined, up_to, with_block
from made_chain import coinbase
from proofs import parts, spelled
from sessions import Chain, script

NONE, ONE, THREE = Chain((7, 0)), Chain((7, 1)), Chain((7, 3))
RECORDS = [MAGIC + struct.pack("<I", len(block)) + block for block in THREE.blocks[1:]]
WATCH = script(8)
OUT = "5 OutFault: the text could not be written"
FILE = "4 FileFault: a file could not be read"
LINK = "9 LinkFault: the address can't be listened at, or no connection could be accepted"
CUT = "3 BadFile { which: Blocks, place: %d, cause: Blocks(Cut) }: the block file, record %d: the record is cut off"
PING, PONG, BAD = frame("ping", NUMBER), frame("pong", NUMBER), bytes(24)
GENESIS_TEXT = "synced 0 %s\n" % ONE.hashes[0][::-1].hex()


def version_of(tip):
    return version(65, 0, 0, b"/cf:1/", tip, b"\0")


def row(room, failing, words, status, text="", behind="", watch="", session="", blocks=b""):
    """A row `run`. What stands behind the text has to be there whether that could be written or not. The blocks are bytes,
    or as a row tells them."""
    blocks = blocks if isinstance(blocks, str) else blocks.hex() or "-"
    print("run %d %s|cf %s|%s|%s|%s" % (room, failing, words, watch, session, blocks))
    if len(text) > room:
        status, text = OUT, text[:room]
    print("%s\n%s%s" % (status, text, behind))


def rooms(words, text, *which, status="0 Done", **fields):
    """Rows with room for so many bytes of the text, of which the last ones are counted from its end."""
    for room in which:
        room = room if room >= 0 else len(text) + 1 + room
        row(room, "-", words, status, text, **fields)


# ---- what peers say

def greets(p, tip=0):
    return ["got %d %s" % (p, version_of(tip).hex()), "got %d %s" % (p, frame("verack").hex())]


def shows_nothing(p):
    return greets(p) + ["got %d %s" % (p, frame("headers", b"\0").hex())]


def got(p, *frames):
    return ["got %d %s" % (p, text.hex()) for text in frames]


def sync(failing, words, peers=1, chain=ONE, watch=WATCH, lines=None):
    """A row of a `sync` over wires of which these calls fail, to peers that serve a chain, or over these lines. One
    more line would come."""
    if lines is None:
        scripts = [watch] if watch else []
        lines = Play(chain, peers, scripts, failing).played().lines
    run = Run(lines + ["tick 1"], [watch] if watch else [], ONE.filters[0][2], failing)
    behind = run.record() if "--record" in words else ""
    watch = watch.hex() + ";" if watch else ""
    session = ";".join(lines + ["tick 1"]) + ";"
    row(1000, ",".join(map(str, failing)), words, run.status(), run.text(), behind, watch, session)
    assert "tick 1" not in run.log, "nothing is taken once the run is over"
    return run


# ---- the rows `run`

def files():
    print("# Calls that fail. These rows are those of bench/faults.py. Files that are not there: nothing is written.")
    row(1000, "-", "scan f x", FILE)
    row(1000, "-", "scan x w", FILE)
    row(1000, "-", "sync x a", FILE, session="dial a")
    row(1000, "-", "replay x y", FILE)


def fails(words, *calls, **fields):
    """Rows of which each of these calls of the files fails, and a last one of which none does: how it ends, its text, and
    what stands behind."""
    behind = fields.pop("behind", "")
    text = fields.pop("text", "")
    for number in calls:
        row(1000, "-/%d" % number, words, FILE, **fields)
    # Two reads come after the command, which show the files that stand behind the text.
    row(1000, "-/%d" % (calls[-1] + 3 if behind else calls[-1] + 1), words, "0 Done", text, behind, **fields)


def long_chain():
    """A chain of three blocks, whose second one has more bytes than two reads give."""
    large = b"".join(part * times for part, times in large_block(THREE.blocks[1], 140_000))
    return with_block(with_block(up_to(made((7, 3)), 1), large), mined(large, [coinbase(7, 3)]))


def stored(chain):
    """The file of a chain, as a row tells it, and how often it is read."""
    found = [MAGIC + struct.pack("<I", len(block)) + block for block in chain.blocks[1:]]
    return Sent(*((each, 1) for each in found)).told(), -(-sum(map(len, found)) // 65_536) + 2


def text_of_filter(chain, height):
    code, _, header = chain.filters[height]
    return "block %s\nfilter %s\nheader %s\n" % (chain.hashes[height][::-1].hex(), code.hex(), header[::-1].hex())


def text_of_proof(block):
    """What `prove` tells of a block's one transaction."""
    header, (tx,) = read_block(block)
    return "tx %s\nproof %s\n" % (tx.hex(), spelled(header, 1, *parts([double(tx)], 0)).hex())


def told_of_proof(block):
    """What `check` tells of it."""
    return "in %s %s\n" % (double(block[:80])[::-1].hex(), double(block[81:])[::-1].hex())


def reads():
    print("# Calls of the files that fail: the read of the watch file, the opening of the block file, and each read of that, of")
    print("# which the last two find that nothing is left. None fails of the last row.")
    fails("scan f w", *range(4, 9), text="synced 3 %s\n" % THREE.hashes[3][::-1].hex(), blocks=b"".join(RECORDS))
    print("# The same of a file that is read in three pieces, of which the second one lies within its second block.")
    print("# `filter` and `prove` read no other file.")
    chain = long_chain()
    blocks, count = stored(chain)
    assert count == 5
    fails("scan f w", *range(4, 11), text="synced 3 %s\n" % chain.hashes[3][::-1].hex(), blocks=blocks)
    fails("filter f 3", *range(4, 10), text=text_of_filter(chain, 3), blocks=blocks)
    txid = double(chain.blocks[3][81:])[::-1].hex()
    fails("prove f " + txid, *range(4, 10), text=text_of_proof(chain.blocks[3]), blocks=blocks)
    print("# The read of a proof, of a watch file, and of a session.")
    block = ONE.blocks[1]
    fails("check w", 4, text=told_of_proof(block), watch=text_of_proof(block).replace("\n", ";"))
    first = ";".join(["dial a"] + shows_nothing(1)) + ";"
    fails("replay w s", 4, 5, text=GENESIS_TEXT, session=first)
    fails("replay --trace w s", 4, 5, text="> 1 version\n> 1 verack\n> 1 getheaders\n" + GENESIS_TEXT, session=first)
    fails("sync w a", 4, text=GENESIS_TEXT, session=first)
    print("# The read of the watch file, and the writing of the record, which then isn't there: nothing is written, however")
    print("# the run has ended.")
    fails("sync --record r w a", 4, 5, text=GENESIS_TEXT, behind=first.replace(";", "\n"), session=first)
    row(1000, "-/5", "sync --record r w a", FILE, session="nodial a")
    row(1000, "-/5", "sync --record r w a", FILE, session="dial a;gone 1")
    row(1000, "-/5", "sync --record r w a", FILE, session="dial a")
    row(1000, "-/5", "sync --record r --turns 1 w a", FILE, session=first)
    print("# The writing of a made chain.")
    fails("make 7 3 b", 4, behind=b"".join(RECORDS).hex())
    row(1000, "-/4", "make --witness 7 3 b", FILE)


def sinks():
    print("# A sink with room for each number of bytes of a text, up to all of them: what it has is a beginning.")
    rooms("scan f w", GENESIS_TEXT, *range(len(GENESIS_TEXT) + 1))
    print("# The same of a replay.")
    first = ";".join(["dial a"] + shows_nothing(1)) + ";"
    rooms("replay w s", GENESIS_TEXT, *range(len(GENESIS_TEXT) + 1), session=first)
    print("# The same of other commands: no room, at a piece's end, for all but one byte, for all.")
    rooms("sync w a", GENESIS_TEXT, 0, -2, session=first)
    rooms("sync --record r w a", GENESIS_TEXT, 0, -2, session=first, behind=first.replace(";", "\n"))
    text = text_of_filter(THREE, 0)
    rooms("filter f 0", text, 0, text.index("\n"), text.index("\n") + 1, -2, -1)
    text, told = text_of_proof(ONE.blocks[1]), told_of_proof(ONE.blocks[1])
    rooms("prove f " + told.split()[2], text, 0, -2, -1, blocks=RECORDS[0])
    rooms("check w", told, 0, -2, -1, watch=text.replace("\n", ";"))
    told = "0014751e76e8199196d454941c45d1b3a323f1433bd6\n"
    rooms("address bcrt1qw508d6qejxtdg4y5r3zarvary0c5xw7kygt080", told, 0, -2, -1)
    rooms("demo 7 3", demo_text(7, 3), 0, -2, -1)
    print("# A trace that can't be written stands in the place of how the run ended. No room is asked for no text.")
    lost, ended = "6 NoPeers { ends: [Gone] }: no peer is left", TEXTS["Ended"]
    rooms("replay --trace w s", "> 1 version\n", 0, -2, -1, session="dial a;gone 1", status=lost)
    rooms("replay --trace w s", "> 1 version\n", 0, -2, -1, session="dial a", status=ended)
    rooms("replay w s", "", 0, session="dial a;gone 1", status=lost)
    rooms("replay w s", "", 0, session="dial a", status=ended)
    lost = lost.replace("Gone", "NotDialled")
    rooms("replay --trace w s", "", 0, session="nodial a", status=lost)
    rooms("sync --record r w a", "", 0, session="nodial a", status=lost, behind="nodial a\n")


def wires():
    print("# Each dial and send of the only peer, of one block that is fetched; with a record of what came until then.")
    for failing in range(1, 9):
        run = sync([failing], "sync --record r w a")
        assert run.end == ("NoPeers" if failing < 8 else "Done")
    print("# Without a record.")
    for failing in range(1, 9):
        sync([failing], "sync w a")
    print("# The answer to a ping.")
    for words in ("sync w a", "sync --record r w a"):
        run = sync([5], words, lines=["dial a"] + greets(1) + got(1, PING))
        assert run.ends == {1: "Closed(SendFailed)"}
    print("# Each dial and send of one of two peers of genesis alone: the other one is heard out.")
    for words, calls in (("sync w a b", range(1, 9)), ("sync --record r w a b", range(1, 9))):
        for failing in calls:
            assert sync([failing], words, 2, NONE, None).end == "Done"
    print("# The same of a chain of one block: each one's claims, the filter, the block.")
    for failing in range(9, 13):
        run = sync([failing], "sync --record r w a b", 2)
        assert run.end == "Done" and run.text() == ONE.history([WATCH]) and "Closed(SendFailed)" in run.ends.values()
    print("# Both dials, both first sends; and a send to one, while the other one goes.")
    for failing, words, lines, ends in (
        ([1, 2], "sync --record r w a b", [], ["NotDialled", "NotDialled"]),
        ([2, 4], "sync --record r w a b", [], ["Closed(SendFailed)", "Closed(SendFailed)"]),
        ([2], "sync w a b", ["gone 2"], ["Closed(SendFailed)", "Gone"]),
    ):
        run = sync(failing, words, watch=None, lines=["dial a", "dial b"] + lines)
        assert list(run.ends.values()) == ends


def threads():
    print("# Threads that can't be started: the filters are judged by the caller.")
    played = Play(THREE, 1, [WATCH]).played()
    watch, session = WATCH.hex() + ";", ";".join(played.lines) + ";"
    row(1000, "-/-/refused", "sync --workers 4 w a", "0 Done", THREE.history([WATCH]), watch=watch, session=session)
    row(1000, "-/-/refused", "demo 7 3", "0 Done", demo_text(7, 3))


def prefixes():
    print("# A made file that is cut off at each of its bytes. At the ends of its records it is whole.")
    ends = [sum(map(len, RECORDS[:n])) for n in range(4)]
    assert ends == [0, 167, 411, 578]
    for length in range(ends[3] + 1):
        place = sum(1 for end in ends if end < length)
        status, text = CUT % (place, place), ""
        if length in ends:
            status, text = "0 Done", "synced %d %s\n" % (place, THREE.hashes[place][::-1].hex())
        row(1000, "-", "scan f w", status, text, blocks="7x3<%d" % length)


# ---- the rows `traced`

def traces():
    print("# traced FAILING|WATCH|SESSION: how a run over a session ends of whose dials and sends these fail, counted from 1,")
    print("# with its trace, and the history and the tip where it is synced. `;` ends a line. These are rows of bench/faults.py.")
    of_one = "# Each dial and send of the only peer, of one block that is fetched."
    of_two = "# The same of one of two peers: the other one is heard out."
    for peers, calls, remark in ((1, 8, of_one), (2, 12, of_two)):
        print(remark)
        for failing in range(1, calls + 1):
            lines = Play(ONE, peers, [WATCH], [failing]).played().lines
            run = Run(lines, [WATCH], ONE.filters[0][2], [failing])
            if peers == 2:
                assert run.text() == ONE.history([WATCH])
            elif 1 < failing < 8:
                assert run.end == "NoPeers" and run.trace[-1] == "x 1 SendFailed"
            print("traced %d|%s;|%s;" % (failing, WATCH.hex(), ";".join(lines)))
            print("%s\n%s" % (run.end.replace("Done", "Synced"), run.traced()))


# ---- the rows `serve`, `serving` and `grow`

def served(asked, failing_read, failing_write, most=24):
    """How a connection ends on which these bytes come in such pieces, and what is written."""
    written, writes, waiting = b"", 0, b""
    for read in range(len(asked) // most + 2):
        if read + 1 == failing_read:
            return "ReadFault", written
        waiting += asked[read * most:(read + 1) * most]
        while len(waiting) >= 24 and len(waiting) >= 24 + int.from_bytes(waiting[16:20], "little"):
            size = 24 + int.from_bytes(waiting[16:20], "little")
            answer = greeting(1) if waiting[4:11] == b"version" else PONG
            waiting = waiting[size:]
            while answer:
                writes += 1
                if writes == failing_write:
                    return "WriteFault", written
                written, answer = written + answer[:most], answer[most:]
    return "Closed", written


def connections():
    print("# Each read and each write of a connection fails, in pieces of 24 bytes. These are rows of bench/faults.py.")
    asked = THEIR_VERSION + PING
    reads = -(-len(asked) // 24) + 1
    writes = -(-len(greeting(1)) // 24) + -(-len(PONG) // 24)
    for read in range(1, reads + 2):
        how, text = served(asked, read, 0)
        assert (how == "ReadFault") == (read <= reads)
        print("serve 7x1 24 1000 %d - %s\n%s %s" % (read, asked.hex(), how, text.hex() or "-"))
    for write in range(1, writes + 2):
        how, text = served(asked, 0, write)
        assert (how == "WriteFault") == (write <= writes)
        print("serve 7x1 24 1000 - %d %s\n%s %s" % (write, asked.hex(), how, text.hex() or "-"))


def calls(limits, words, asked, *lines, blocks="-"):
    print("serving %s|cf %s --connections %d f a|%s|%s" % (limits, words, len(asked), blocks, " ".join(asked)))
    print("\n".join(lines))


def links():
    print("# Calls that fail. The rows up to the next kind are those of bench/faults.py.")
    silent, bad, asks, answered = "-", BAD.hex(), THEIR_VERSION.hex(), "0 " + greeting(0).hex()
    for words in ("serve", "serve --grow"):
        print("# Listening, and the first accept, the second and the third: those before are served.")
        calls("threads 1", words, [silent], LINK)
        for way in ("threads", "place", "refused"):
            calls(way + " 2", words, [silent, silent], LINK)
            calls(way + " 3", words, [asks, silent], LINK, answered)
            calls(way + " 4", words, [asks, bad, silent], LINK, answered, "1 -")
        print("# Tasks that are refused run in their place: each connection is served.")
        calls("refused -", words, [asks, bad, silent], "0 Done", answered, "1 -", "0 -")
        print("# A connection of which a read or a write fails, and the next one, which is served.")
        more = asks + PING.hex()
        whole, first = (greeting(0) + PONG).hex(), greeting(0).hex()
        for failing, end in (("1/-", "3 -"), ("2/-", "3 " + whole), ("-/1", "4 -"), ("-/2", "4 " + first)):
            calls("place -", words, [more + "/" + failing, asks], "0 Done", end, answered)
        calls("threads -", words, [more + "/1/-", more + "/-/1", more], "0 Done", "3 -", "4 -", "0 " + whole)
        print("# One that takes no more of what is written, and the next one, which is served.")
        entries = compact(33) + 33 * (struct.pack("<I", 2) + ONE.hashes[0])
        many = greeting(0) + 33 * frame("block", ONE.blocks[0])
        assert len(many) > 10_000
        asked = [THEIR_VERSION.hex() + frame("getdata", entries).hex(), asks]
        calls("place -", words, asked, "0 Done", "4 " + many[:10_000].hex(), answered)
        print("# The opening of a block file that is read in three pieces, and each read of it, of which the last two find")
        print("# that nothing is left: nobody is served. None fails of the last row.")
        chain = long_chain()
        blocks, count = stored(chain)
        for number in range(2, count + 4):
            lines = [FILE] if number < count + 3 else ["0 Done", "0 " + greeting(3).hex()]
            calls("place -/%d" % number, words, [asks], *lines, blocks=blocks)


class Failing:
    """A connection to a server whose chain grows, of which this read and this write fail, counted from 1 (0: none)."""

    def __init__(self, server, data, read=0, write=0):
        self.connection, self.data, self.read, self.write = Connection(server), data, read, write
        self.reads, self.writes, self.written, self.end = 0, 0, b"", ""

    def step(self):
        """One read, and the answers to the frames that are whole then."""
        self.reads += 1
        piece, self.data = self.data[:MOST], self.data[MOST:]
        if self.reads == self.read or not piece:
            self.end = "ReadFault" if self.reads == self.read else "Closed"
            return
        waiting = self.connection.waiting + piece
        found, size = read_frames(waiting)
        self.connection.waiting = waiting[size:]
        for each in found:
            before = len(self.connection.written)
            assert not self.connection.takes(each)
            self.send(self.connection.written[before:])
            if self.end:
                return

    def send(self, answer):
        for at in range(0, len(answer), MOST):
            self.writes += 1
            if self.writes == self.write:
                self.end = "WriteFault"
                return
            self.written += answer[at:at + MOST]

    def ended(self):
        how = "Served(%s)" % self.end if self.reads else "unserved"
        return "%s %s" % (how, self.written.hex() or "-")


def growth(texts, failing):
    """Prints a row of two connections of which these calls fail, and tells how each ends. The first one is served whole
    once the second one was read once."""
    server = Server(made((7, 3)))
    one, two = both = [Failing(server, data, *numbers) for data, numbers in zip(texts, failing)]
    while not two.end:
        while two.reads == 1 and not one.end:
            one.step()
        two.step()
    told = ["".join("/%s" % (n or "-") for n in numbers if any(numbers)) for numbers in failing]
    fields = [data.hex() + text for data, text in zip(texts, told)]
    print("grow 7x3 %d 1 %s\n%s\n%s" % (MOST, " ".join(fields), one.ended(), two.ended()))
    return [each.end for each in both]


def growths():
    print("# Each read and each write of a connection fails: of the first one, which brings a block, and of the second one.")
    print("# These are rows of bench/faults.py.")
    texts = [THEIR_VERSION + made((7, 4)).block(4) + PING, THEIR_VERSION + PING]
    for which, what in ((0, 0), (0, 1), (1, 0), (1, 1)):
        end, number = "", 0
        while end != "Closed":
            number += 1
            failing = [[0, 0], [0, 0]]
            failing[which][what] = number
            end = growth(texts, failing)[which]


def main():
    run = (files, reads, sinks, wires, threads, prefixes)
    kinds = {"run": run, "traced": (traces,), "serve": (connections,), "serving": (links,), "grow": (growths,)}
    if len(sys.argv) != 2 or sys.argv[1] not in kinds:
        raise SystemExit(__doc__)
    for rows in kinds[sys.argv[1]]:
        rows()


if __name__ == "__main__":
    main()
