#!/usr/bin/env python3
"""Prints rows `run` of cf_cases, each with what it comes to: sessions of a client that follows, whose peers tell of new
blocks, answer its pings or don't, and go.

The frames are laid out as in sessions.py, and what is sent is told by hand, by the rules of a client that goes on once
nothing is open. With each tick it sends a `ping` to each peer to which nothing is open, which is open until the `pong`
with its number; and an `inv` of a block that isn't on the peer's own chain makes it ask for headers anew. Whenever
nothing is open and a peer is connected, its text is that of a plain scan of every block of the best chain, unless that
was the last one. The client of client.py has to send the same, to write the same texts, and to end in the same way.
Without `--follow` the same sessions end at the first such moment.
"""
import os
import struct
import sys

sys.path.insert(0, os.path.dirname(os.path.abspath(__file__)))
from client import TEXTS, Run
from conversation import frame
from growing import entry, listed
from sessions import GENESIS_FILTER_HEADER, VERSION, Chain, Session, asks, script

DONE, ENDED, TIRED = (TEXTS[end] for end in ("Done", "Ended", "Tired"))
OUT = "5 OutFault: the text could not be written"
FILE = "4 FileFault: a file could not be read"
ROOM = 8000

SHORT, FOUR, FIVE = (Chain((7, count)) for count in (3, 4, 5))
# It leaves the first chain after its first block, and is longer by one.
BRANCH = Chain((7, 1), (8, 3))
# The same, as long as the first chain.
LEVEL = Chain((7, 1), (8, 2))


def no_peers(*ends):
    return "6 NoPeers { ends: [%s] }: no peer is left" % ", ".join(ends)


def closed(cause):
    return "Closed(%s)" % cause


def inv(*names):
    return listed("inv", [entry(name) for name in names])


class Following(Session):
    """A session of a client that follows and watches these scripts, with the texts that it writes."""

    def __init__(self, peers, *watched):
        super().__init__(peers)
        self.watched, self.texts, self.first = [script(k) for k in watched], [], None

    def rests(self, chain):
        """Nothing is open, and the best chain is this one."""
        text = chain.history(self.watched)
        if self.texts[-1:] != [text]:
            self.texts.append(text)
        self.first = self.first or (len(self.trace), text)
        return self

    def tells(self, p, chain, *sent):
        """The peer tells of the tip of a chain."""
        return self.got(p, inv(chain.hashes[-1]), *sent)

    def news(self, p, chain):
        """The same, where it is asked for headers at once."""
        return self.tells(p, chain, *asks(p, "getheaders"))

    def shown(self, p, chain, first, *fetched):
        """The peer shows its chain from a height on, and is asked for the filters of its blocks, and then for these."""
        self.got(p, chain.headers(first, chain.tip), *asks(p, "getcfheaders"))
        self.got(p, chain.cfheaders(first, chain.tip), *asks(p, "getcfilters"))
        questions = [asks(p, "getdata")] * len(fetched) + [[]]
        self.filters(p, chain, first, chain.tip, *questions[0])
        for height, question in zip(fetched, questions[1:]):
            self.got(p, chain.block(height), *question)
        return self

    def starts(self, chain, *fetched):
        """The one peer shows its chain, and nothing is open then."""
        return self.greet(1).shown(1, chain, 1, *fetched).rests(chain)

    def both_start(self, chain, *fetched):
        """Two peers show one chain, and nothing is open then."""
        self.greet(1).shown(1, chain, 1, *fetched).shows(2, chain, *asks(2, "getcfheaders"))
        return self.got(2, chain.cfheaders(1, chain.tip)).rests(chain)

    def pings(self, *peers, seconds=1):
        """A tick, with which these peers are sent a `ping`."""
        return self.tick(seconds, *["> %d ping" % p for p in peers])

    def pongs(self, p, number, *sent):
        return self.got(p, frame("pong", struct.pack("<Q", number)), *sent)

    def run(self, failing=(), turns=10_000_000, follows=True):
        return Run(self.lines, self.watched, GENESIS_FILTER_HEADER, failing, turns, follows)

    def written(self, words):
        """What is written by a replay with these words."""
        return "".join(line + "\n" for line in self.trace if "--trace" in words) + "".join(self.texts)

    def show(self, words, status, text, room=ROOM, failing="-"):
        watch = "".join(each.hex() + ";" for each in self.watched)
        print("run %d %s|cf %s|%s|%s;|-" % (room, failing, words, watch, ";".join(self.lines)))
        print("%s\n%s" % (status, text))

    def row(self, status, words="--follow --trace"):
        run, traced = self.run(), self.written("--trace")
        assert (run.status(), run.traced()) == (status, traced), (status, traced, run.status(), run.traced())
        self.show("replay %s w s" % words, status, self.written(words))
        return self

    def once(self):
        """The same by a client that doesn't follow, which ends at the first moment with nothing open."""
        count, text = self.first
        run, traced = self.run(follows=False), "".join(line + "\n" for line in self.trace[:count]) + text
        assert (run.status(), run.traced()) == (DONE, traced), (traced, run.status(), run.traced())
        self.show("replay --trace w s", DONE, traced)
        return self

    def over_wires(self, words, status, failing=(), turns=10_000_000, room=ROOM, files=""):
        """A row of a `follow` over wires that give these lines. Of the wires these calls fail, of the files this."""
        run = self.run(failing, turns)
        text, behind = run.text(), run.record() * ("--record" in words and not files)
        if len(text) > room:
            status, text = OUT, text[:room]
        assert status in (run.status(), OUT, FILE), (status, run.status())
        self.show(words, status, text + behind, room, (",".join(map(str, failing)) or "-") + files)


# ---- rows

def one_block():
    """A peer of a chain of three blocks, which tells of the fourth once it was sent a `ping`."""
    s = Following(1, 11).starts(SHORT).pings(1).tells(1, FOUR).pongs(1, 1, *asks(1, "getheaders"))
    return s.shown(1, FOUR, 4, 4).rests(FOUR)


def one_peer():
    print("# A client that follows: `replay --follow` and `follow`. These rows are those of bench/following.py. A")
    print("# peer tells of a block that pays the watched script: without the trace, with it, and by a client that")
    print("# doesn't follow, which has ended then.")
    s = one_block()
    assert [text.count("\n") for text in s.texts] == [1, 2] and "+5000000000 -0 5000000000\nsynced 4 " in s.texts[1]
    s.row(DONE, "--follow").row(DONE, "--trace --follow").once()

    print("# The `inv` comes after the `pong`, and before any tick.")
    for is_pinged in (True, False):
        s = Following(1, 11).starts(SHORT)
        if is_pinged:
            s.pings(1).pongs(1, 1)
        s.news(1, FOUR).shown(1, FOUR, 4, 4).rests(FOUR).row(DONE)

    print("# Of its own tip, of all its blocks, of nothing, of an unknown transaction, and of an unknown block with")
    print("# its witnesses: nothing is asked, and no text is written again.")
    s = Following(1, 11).starts(SHORT).tells(1, SHORT).got(1, inv(*SHORT.hashes)).got(1, inv())
    s.got(1, listed("inv", [entry(FOUR.hashes[4], kind) for kind in (1, 0x40000002, 3)])).rests(SHORT).row(DONE)

    print("# Of two blocks, one of which is known, or none; and of one after the other: headers are asked for once.")
    s = Following(1, 11).starts(SHORT).got(1, inv(SHORT.hashes[2], FOUR.hashes[4]), *asks(1, "getheaders"))
    s.shown(1, FOUR, 4, 4).rests(FOUR).row(DONE)
    s = Following(1, 11, 12).starts(SHORT).got(1, inv(*FIVE.hashes[4:]), *asks(1, "getheaders"))
    s.shown(1, FIVE, 4, 4, 5).rests(FIVE).row(DONE)
    Following(1, 11, 12).starts(SHORT).news(1, FOUR).tells(1, FIVE).shown(1, FIVE, 4, 4, 5).rests(FIVE).row(DONE)

    print("# A block that isn't there when it is asked for: the headers are empty, and the text stays. The next `inv`")
    print("# asks again.")
    s = Following(1, 11).starts(SHORT).news(1, FOUR).got(1, SHORT.headers(4, 3)).rests(SHORT)
    s.news(1, FOUR).shown(1, FOUR, 4, 4).rests(FOUR).row(DONE)

    print("# While filters are open: headers are asked for next, before the blocks that match. A client that doesn't")
    print("# follow reads it over.")
    s = Following(1, 8, 11).shows(1, SHORT, *asks(1, "getcfheaders"))
    s.got(1, SHORT.cfheaders(1, 3), *asks(1, "getcfilters"))
    s.got(1, SHORT.cfilter(1) + inv(FOUR.hashes[4])).filters(1, SHORT, 2, 3, *asks(1, "getheaders"))
    s.got(1, FOUR.headers(4, 4), *asks(1, "getcfheaders")).got(1, FOUR.cfheaders(4, 4), *asks(1, "getcfilters"))
    s.got(1, FOUR.cfilter(4), *asks(1, "getdata")).got(1, FOUR.block(1), *asks(1, "getdata"))
    s.got(1, FOUR.block(2), *asks(1, "getdata")).got(1, FOUR.block(4)).rests(FOUR).row(DONE)
    s = Session(1).shows(1, SHORT, *asks(1, "getcfheaders"))
    s.got(1, SHORT.cfheaders(1, 3), *asks(1, "getcfilters"))
    s.got(1, SHORT.cfilter(1) + inv(FOUR.hashes[4])).filters(1, SHORT, 2, 3, *asks(1, "getdata"))
    s.got(1, SHORT.block(1), *asks(1, "getdata")).got(1, SHORT.block(2)).row(DONE, SHORT.history([script(8)]), [8])

    print("# While headers are open, of which those that come then have it. Before the `version`, and before the")
    print("# `verack`.")
    Following(1, 11).greet(1).tells(1, FOUR).shown(1, FOUR, 1, 4).rests(FOUR).row(DONE)
    s = Following(1, 11).tells(1, FOUR).got(1, VERSION, "> 1 verack").tells(1, FOUR)
    s.got(1, frame("verack"), *asks(1, "getheaders")).shown(1, FOUR, 1, 4).rests(FOUR).row(DONE)

    print("# Headers that come unasked, with no `inv`.")
    Following(1, 11).starts(SHORT).shown(1, FOUR, 4, 4).rests(FOUR).row(DONE)

    print("# A peer tells of two blocks, one after the other, and answers each ping, of which one waits for 59")
    print("# seconds; it pings, and is answered. It isn't closed.")
    s = Following(1, 8, 11, 12).starts(SHORT, 1, 2).pings(1).pongs(1, 1)
    s.news(1, FOUR).shown(1, FOUR, 4, 4).rests(FOUR)
    s.pings(1, seconds=59).tells(1, FIVE).tick(59).pongs(1, 2, *asks(1, "getheaders"))
    s.shown(1, FIVE, 5, 5).rests(FIVE)
    s.got(1, frame("ping", bytes(8)), "> 1 pong").pings(1).pongs(1, 3).row(DONE).once()


def branches():
    print("# Two peers of one chain, of which the second one tells of a longer one that leaves it after the first")
    print("# block: the next text is that of the longer one. That peer goes, and the text is the first one's again;")
    print("# then that one goes, and the texts of before stand.")
    s = Following(2, 10, 11).both_start(SHORT, 3).pings(1, 2).pongs(2, 1).news(2, BRANCH).pongs(1, 1)
    s.shown(2, BRANCH, 2, 2, 3, 4).rests(BRANCH).row(DONE).gone(2).rests(SHORT).row(DONE).once().gone(1)
    assert [text.count("\n") for text in s.texts] == [2, 4, 2]
    s.row(no_peers("Gone", "Gone"))

    print("# The same of the only peer, which then goes back to its first chain, that has grown: no block is fetched")
    print("# twice, and no filter asked for twice.")
    s = Following(1, 10, 11).starts(SHORT, 3).news(1, BRANCH).shown(1, BRANCH, 2, 2, 3, 4).rests(BRANCH).row(DONE)
    s.news(1, FIVE).got(1, FIVE.headers(2, 5), *asks(1, "getcfheaders"))
    s.got(1, FIVE.cfheaders(4, 5), *asks(1, "getcfilters")).filters(1, FIVE, 4, 5, *asks(1, "getdata"))
    s.got(1, FIVE.block(4), *asks(1, "getdata")).got(1, FIVE.block(5)).rests(FIVE).row(DONE)

    print("# A branch that is as long as the chain doesn't take its place, and the text stays. It is asked for as")
    print("# often as it is told of.")
    s = Following(1, 10, 11).starts(SHORT, 3)
    for _ in range(2):
        s.news(1, LEVEL).got(1, LEVEL.headers(2, 3)).rests(SHORT)
    s.row(DONE)

    print("# Both peers tell of a block on whose filter they differ: it is fetched, and the first one is closed for")
    print("# what its filter omits. The other one stays.")
    liar = FOUR.without(4, script(11))
    s = Following(2, 11).both_start(SHORT).pings(1, 2).pongs(1, 1).pongs(2, 1).news(1, FOUR).news(2, FOUR)
    s.got(1, liar.headers(4, 4), *asks(1, "getcfheaders")).got(2, FOUR.headers(4, 4), *asks(2, "getcfheaders"))
    s.got(1, liar.cfheaders(4, 4), *asks(1, "getcfilters")).got(2, FOUR.cfheaders(4, 4), *asks(2, "getdata"))
    s.got(1, liar.cfilter(4)).got(2, FOUR.block(4), *asks(1, "getcfilters"), *asks(2, "getcfilters"))
    s.got(1, liar.cfilter(4), "x 1 Omits").got(2, FOUR.cfilter(4)).rests(FOUR).pings(2).pongs(2, 2).row(DONE)


def pings():
    late = no_peers(closed("Overdue"))
    print("# A `ping` that is never answered: after a minute that peer is closed, whatever else it sends, and the")
    print("# text of before stands. So it is with a second in each tick.")
    s = Following(1, 11).starts(SHORT).pings(1).tick(59).row(ENDED)
    s.tells(1, SHORT).tick(1, "x 1 Overdue").row(late).once()
    s = Following(1, 11).starts(SHORT).pings(1)
    for _ in range(59):
        s.tick(1)
    s.tick(1, "x 1 Overdue").row(late)

    print("# One of two peers never answers it: the other one stays, and tells of a block.")
    s = Following(2, 11).both_start(SHORT).pings(1, 2).pongs(2, 1).pings(2, seconds=30).pongs(2, 2)
    s.tick(30, "x 1 Overdue", "> 2 ping").pongs(2, 3).news(2, FOUR).shown(2, FOUR, 4, 4).rests(FOUR).row(DONE)

    print("# It tells of that block while the first one's `ping` is open: the block is fetched, and the text waits.")
    s = Following(2, 11).both_start(SHORT).pings(1, 2).pongs(2, 1).news(2, FOUR).shown(2, FOUR, 4, 4).row(ENDED)
    s.pings(2, seconds=59).pongs(2, 2).row(ENDED).tick(1, "x 1 Overdue", "> 2 ping").pongs(2, 3).rests(FOUR).row(DONE)

    print("# A `pong` with another number, or with that of an earlier ping, or with nothing open, is read over. The")
    print("# session ends while a ping is open.")
    s = Following(1, 11).starts(SHORT).pongs(1, 1).pings(1).pongs(1, 0).pongs(1, 2).pongs(1, 1 << 56).row(ENDED)
    s.pongs(1, 1).row(DONE).pings(1).pongs(1, 1).row(ENDED).pongs(1, 2).pongs(1, 2).row(DONE)

    print("# While something is open, no `ping` is sent: the handshake, headers, claims, filters, a ping; of two")
    print("# peers, to the one to which nothing is open.")
    s = Following(1, 11).tick(1).got(1, VERSION, "> 1 verack").tick(1).got(1, frame("verack"), *asks(1, "getheaders"))
    s.tick(1).got(1, SHORT.headers(1, 3), *asks(1, "getcfheaders")).tick(1)
    s.got(1, SHORT.cfheaders(1, 3), *asks(1, "getcfilters")).got(1, SHORT.cfilter(1)).tick(1)
    s.filters(1, SHORT, 2, 3).rests(SHORT).pings(1).row(ENDED).tick(1).pongs(1, 1).row(DONE)
    s = Following(2, 11).greet(1).shown(1, SHORT, 1).pings(1).row(ENDED).shows(2, SHORT, *asks(2, "getcfheaders"))
    s.tick(1).pongs(1, 1).got(2, SHORT.cfheaders(1, 3)).rests(SHORT).pings(1, 2).row(ENDED)

    print("# A peer goes while nothing is open, and while its `ping` is: the other one stays.")
    Following(2, 11).both_start(SHORT).gone(1).pings(2).pongs(2, 1).row(DONE)
    Following(2, 11).both_start(SHORT).pings(1, 2).pongs(1, 1).gone(2).row(DONE)

    print("# A block is open to the second peer for a minute: with that tick the first one is sent a `ping`, and is")
    print("# asked for the block once it has answered.")
    s = Following(2, 9, 10).shows(1, SHORT, *asks(1, "getcfheaders")).shows(2, SHORT, *asks(2, "getcfheaders"))
    s.got(1, SHORT.cfheaders(1, 3), *asks(1, "getcfilters")).got(2, SHORT.cfheaders(1, 3))
    s.filters(1, SHORT, 1, 3, *asks(1, "getdata"), *asks(2, "getdata")).got(1, SHORT.block(2))
    s.tick(60, "x 2 Overdue", "> 1 ping").pongs(1, 1, *asks(1, "getdata")).got(1, SHORT.block(3))
    s.rests(SHORT).row(DONE)

    print("# With nothing open, a peer sends what is no frame, and an `inv` that can't be read.")
    for data, cause in ((bytes(24), "BadFrame"), (frame("inv", b"\1"), "Malformed")):
        Following(1, 11).starts(SHORT).got(1, data, "x 1 " + cause).row(no_peers(closed(cause)))


def wires():
    print("# `follow` over wires: the texts alone. It takes so many deliveries.")
    s, lost = one_block(), no_peers(closed("SendFailed"))
    s.over_wires("follow w a", DONE)
    for turns, status in ((6, TIRED), (7, DONE), (8, TIRED), (13, TIRED), (14, DONE), (15, DONE)):
        s.over_wires("follow --turns %d w a" % turns, status, turns=turns)
    print("# A record of what passed the wires, behind the texts. The sending of the `ping` fails, and that of the")
    print("# question for headers.")
    s.over_wires("follow --record r w a", DONE)
    s.over_wires("follow --workers 1 --record r --turns 8 w a", TIRED, turns=8)
    for number in (7, 8):
        s.over_wires("follow --record r w a", lost, [number])
    print("# The same of two peers: the sending of the first one's `ping` fails, or of both.")
    both = Following(2, 11).both_start(SHORT).pings(1, 2).pongs(2, 1).news(2, FOUR).shown(2, FOUR, 4, 4)
    both.over_wires("follow w a b", ENDED)
    both.over_wires("follow --record r w a b", DONE, [12])
    both.over_wires("follow --record r w a b", no_peers(*[closed("SendFailed")] * 2), [12, 13])
    print("# The watch file can't be read: nothing is written. The record can't be written: the texts stand.")
    none = Following(1, 11)
    none.over_wires("follow x a", FILE)
    s.over_wires("follow --record r w a", FILE, files="/5")
    print("# Nobody is dialled, and a peer goes before it has shown anything.")
    for lines, end in ((["nodial a"], "NotDialled"), (["dial a", "gone 1"], "Gone")):
        none.lines = lines
        none.over_wires("follow --record r w a", no_peers(end))
    print("# Sinks with room for a beginning of the texts: none, all but one byte of the first one, that one, a byte")
    print("# more, and all but the last byte.")
    first, whole = len(s.texts[0]), len("".join(s.texts))
    for room in (0, first - 1, first, first + 1, whole - 1, whole):
        s.over_wires("follow w a", DONE, room=room)
    print("# The same of a replay, with and without the trace.")
    for words in ("--follow", "--follow --trace"):
        text = s.written(words)
        for room in (0, len(text) - whole, len(text) - whole + first, len(text) - 1, len(text)):
            s.show("replay %s w s" % words, DONE if room == len(text) else OUT, text[:room], room)


def main():
    for rows in (one_peer, branches, pings, wires):
        rows()


if __name__ == "__main__":
    main()
