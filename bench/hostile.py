#!/usr/bin/env python3
"""Prints rows `run` of cf_cases, each with what it comes to: forty sessions in which one frame of a peer is another one
than an honest peer's, or one more, and the same forty with an honest peer beside.

What the peers send is laid out here; how each of the forty ends is told by the list below; and the trace is that of the
client in client.py, which must end as the list says. With the honest peer beside nothing may be lost: each run has to
end with what a scan of every block tells.
"""
import os
import struct
import sys

sys.path.insert(0, os.path.dirname(os.path.abspath(__file__)))
from client import Play
from conversation import THEIR_VERSION, compact, double, frame, getheaders, of_range, version
from made_chain import meets_target
from sessions import Chain, script

CHAIN = Chain((7, 3))
# With these each of the three blocks is fetched. Beside an honest peer they are those of the second block alone, which
# keeps the rows short.
WATCHED, BESIDE = (4, 8, 9, 10, 14), (4, 9, 14)
VERSION, VERACK = version(65, 0, 0, b"/cf:1/", 3, b"\0"), frame("verack")
NUMBER = bytes(range(1, 9))
UNKNOWN = bytes([7]) * 32
GENESIS, FIRST, TIP = CHAIN.hashes[0], CHAIN.hashes[1], CHAIN.hashes[3]
ENTRY = compact(1) + struct.pack("<I", 2) + FIRST
# A message of each command. What is no question is true of the chain.
MESSAGES = {
    "version": THEIR_VERSION,
    "verack": VERACK,
    "ping": frame("ping", NUMBER),
    "pong": frame("pong", NUMBER),
    "getheaders": getheaders([GENESIS], bytes(32)),
    "headers": CHAIN.headers(1, 1),
    "getdata": frame("getdata", ENTRY),
    "inv": frame("inv", ENTRY),
    "block": CHAIN.block(1),
    "getcfilters": of_range("getcfilters", 0, 1, TIP),
    "getcfheaders": of_range("getcfheaders", 0, 1, TIP),
    "cfilter": CHAIN.cfilter(1),
    "cfheaders": CHAIN.cfheaders(1, 3),
    "getcfcheckpt": frame("getcfcheckpt", b"\0" + TIP),
    "cfcheckpt": CHAIN.cfcheckpt(3),
}


def headers_of(*headers):
    return frame("headers", compact(len(headers)) + b"".join(header + b"\0" for header in headers))


def above_target(header):
    """The header with the least nonce by which its hash is above the target."""
    nonces = (header[:76] + struct.pack("<I", nonce) for nonce in range(65_536))
    return next(other for other in nonces if not meets_target(double(other)))


def changed():
    """The last twelve: a remark, at which question, the frames in place of the honest ones (None: the ticks), and why
    the peer is closed, or None."""
    one, two, three = (block[:80] for block in CHAIN.blocks[1:])
    told = [f[1] for f in CHAIN.filters]
    before = CHAIN.filters[0][2]
    cut = CHAIN.blocks[2]
    cut = frame("block", cut[:80] + b"\x01" + cut[81:81 + 78])

    def claims(previous, hashes, kind=b"\0"):
        return frame("cfheaders", kind + TIP + previous + compact(len(hashes)) + b"".join(hashes))

    def cfilter(height, text):
        return frame("cfilter", b"\0" + CHAIN.hashes[height] + compact(len(text)) + text)

    other_bits = two[:72] + struct.pack("<I", 0x207FFFFE) + two[76:]
    not_zero = frame("headers", compact(3) + one + b"\1" + two + b"\0" + three + b"\0")
    first, second, third = (CHAIN.cfilter(height) for height in (1, 2, 3))
    blocks = [CHAIN.block(height) for height in (1, 2, 3)]
    yield "headers on a block that is not known", "getheaders", [headers_of(two, three)], "Unlinked"
    yield "a header of other bits", "getheaders", [headers_of(one, other_bits, three)], "InvalidHeader"
    idle = headers_of(above_target(one), two, three)
    yield "a header whose hash is above the target", "getheaders", [idle], "InvalidHeader"
    yield "a count of headers above 2000", "getheaders", [frame("headers", compact(2001))], "Malformed"
    yield "a byte after a header that is not zero", "getheaders", [not_zero], "Malformed"
    yield "two claims for three blocks", "getcfheaders", [claims(before, told[1:3])], "WrongCount"
    yield "claims on another filter header", "getcfheaders", [claims(UNKNOWN, told[1:])], "WrongPrevious"
    other_type = claims(before, told[1:], b"\1")
    right = CHAIN.cfheaders(1, 3)
    yield "claims of another filter type before the right ones", "getcfheaders", [other_type, right], None
    other_filter = [cfilter(1, b"\0"), second, third]
    yield "another filter than the one that was claimed", "getcfilters", other_filter, "OtherFilter"
    yield "the second block's filter before the first one's", "getcfilters", [second, first, second, third], None
    yield "a block without its second transaction", "getdata", [blocks[0], cut, blocks[2]], "BadBlock"
    yield "no headers within a minute, and a ping at each second", "getheaders", None, "Overdue"


def forty():
    """Remarks, at which moment the frames of the first peer are others, these frames, and why it is closed, or None."""
    for command in MESSAGES:
        if command != "version":
            yield command + " before the version", "version", [MESSAGES[command], VERSION], None
    for command in MESSAGES:
        if command != "verack":
            yield command + " before the verack", "verack", [MESSAGES[command], VERACK], None
    yield from changed()


class Hostile(Play):
    """A session in which the first peer's frames at one moment are these."""

    def __init__(self, peers, moment, frames):
        super().__init__(CHAIN, peers, [script(k) for k in (BESIDE if peers == 2 else WATCHED)])
        self.moment, self.frames = moment, frames

    def frames_at(self, p, moment):
        return self.frames if p == 1 and moment == self.moment else super().frames_at(p, moment)

    def silence(self):
        """The sixty seconds of which all but the last have a ping."""
        for _ in range(59):
            self.say("tick 1")
            self.say("got 1 " + MESSAGES["ping"].hex())
        self.say("tick 1")

    def show(self):
        watch = "".join(text.hex() + ";" for text in self.scripts)
        print("run 4000 -|cf replay --trace w s|%s|%s;|-" % (watch, ";".join(self.lines)))
        print(self.run.status())
        print(self.run.traced())


def expect(is_so, remark):
    if not is_so:
        raise SystemExit("another end than the list tells: " + remark)


def main():
    text, beside = (CHAIN.history([script(k) for k in ks]) for ks in (WATCHED, BESIDE))
    assert (text.count("\n"), beside.count("\n")) == (5, 3), "what pays the scripts"
    print("# One frame of an honest peer is another one, or one more. These rows are those of bench/hostile.py.")
    for remark, moment, frames, cause in forty():
        played = Hostile(1, moment, frames).played()
        run = played.run
        if cause:
            expect(run.status().startswith("6 NoPeers { ends: [Closed(%s)] }" % cause), remark)
            expect(run.trace[-1] == "x 1 " + cause, remark)
        else:
            expect(run.end == "Done" and run.text() == text and not any(line[0] == "x" for line in run.trace), remark)
        expect(frames is not None or run.trace.count("> 1 pong") == 59, remark)
        print("# %s: %s." % (remark[0].upper() + remark[1:], cause or "read over"))
        played.show()
    print("# The same with an honest peer beside, of which nothing is lost.")
    for remark, moment, frames, cause in forty():
        played = Hostile(2, moment, frames).played()
        run = played.run
        expect(run.end == "Done" and run.text() == beside and ("x 1 %s" % cause in run.trace) == bool(cause), remark)
        expect(not any(line.startswith("x 2") for line in run.trace), remark)
        played.show()


if __name__ == "__main__":
    main()
