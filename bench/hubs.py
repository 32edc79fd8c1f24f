#!/usr/bin/env python3
"""What rows of crates/cf_hub_cases come to, by a model of a hub that has no threads; those over TCP are of loopback.py.

    bench/hubs.py        prints the rows of ROWS below and of loopback.py, and what each comes to: crates/cf_hub_cases/stdout
    bench/hubs.py rows   prints the rows alone: crates/cf_hub_cases/stdin

A row of the kind `hub` has the number of threads for readers, how many threads start, how many have to be at the gate before the pulse
answers, and steps. A peer is told by its name: WAY,WANTED,HEX,MOST. It gives the bytes HEX, at most MOST with one read and never more than
4096: at once (`free`, and `mute`, which fails what is sent to it), once WANTED have entered the gate (`gate`; the ticker enters it too), once
WANTED bytes were sent to it (`sent`), or once its connection is shut (`shut`). A peer `fault` gives its bytes at once, and its read of the number
WANTED fails. In HEX `z` stands for eight bytes that are zero. The model takes it that a door opens where its condition comes
to hold, and that all comes that is given; so each row says only what is so in whatever order the threads run.

A row of the kind `heard` has one peer, which tells its bytes to the contracts, and what is written to it; so does its pulse its seconds.

A row of the kind `run` has the same three numbers, a watch file `w`, the words of a call over such a hub, and maybe those of a second one,
over another hub that dials nobody. Each peer that is dialled greets and has no headers, as data/session.txt has it; so what is written is
the tip, and that is genesis.
"""

import os
import sys

sys.path.insert(0, os.path.dirname(os.path.abspath(__file__)))
import loopback
from conversation import GENESIS_HEADER, double, frame, version

CHUNK = 4096
PLACES = 64


def counting(first, count):
    return bytes((first + k) % 256 for k in range(count)).hex()


def dials(names):
    return " ".join("dial:" + name for name in names)


EIGHT = [f"gate,9,{counting(16 * p, 10)},3" for p in range(8)]
SEVEN = [f"gate,8,{counting(16 * p, 5)},2" for p in range(7)]
LONG = [f"free,0,{counting(16 * p, 120)},1" for p in range(8)]
SAID = version(65, 0, 0, b"/cf:1/", 0, b"\0") + frame("verack") + frame("headers", b"\0")
SYNC = [f"free,0,{SAID.hex().replace('00' * 8, 'z')},{most}" for most in (4096, 1, 2, 3, 7, 24, 50, 116)]

ROWS = [
    "# hub THREADS STARTS TICKS STEP..: what the steps come to over a hub. The answers are those of bench/hubs.py, which tells of the fields.",
    "# One peer alone, and one that does not answer.",
    "hub 2 3 500000 dial:nobody dial:free,0,0102030405,4 all pieces session recorded replay finish prompt joined all",
    "hub 1 2 500000 dial:free,0,,1 all pieces session finish prompt joined",
    f"hub 1 2 500000 dial:free,0,{counting(0, 4097)},9999 all firsts finish prompt joined",
    "# Eight readers and the ticker are at the gate at once; the pieces of each come once, in order, before the end.",
    f"hub 8 9 9 {dials(EIGHT)} all pieces recorded replay finish prompt joined",
    "# The ticks come in order too.",
    f"hub 8 9 8 {dials(SEVEN)} dial:sent,1,7f,1 tick send:8:00 all ticks pieces recorded replay finish prompt joined",
    "# Two at the gate, of one thread each.",
    "hub 2 3 3 dial:gate,3,0708,4 dial:gate,3,09,1 all pieces finish prompt joined",
    "# The first peer waits for what is sent to it, and keeps the second one from nothing.",
    "hub 2 3 500000 dial:sent,3,aabb,4 dial:free,0,cc,1 take:2 pieces send:1:010203 all pieces recorded finish prompt joined",
    "hub 2 3 500000 dial:free,0,010203,1 dial:sent,1,04,1 until:2 bytes send:2:00 all bytes recorded finish prompt joined",
    "# A read that fails ends its peer.",
    "hub 2 3 500000 dial:fault,3,0102030405,1 dial:free,0,06,1 all pieces recorded replay finish prompt joined",
    "# A send that fails; the session has its peer gone.",
    "hub 1 2 500000 dial:mute,0,01,1 send:1:ff all pieces session recorded replay finish prompt joined",
    "# A send to a peer that did not answer fails, and one to no peer.",
    "hub 1 2 500000 dial:nobody send:1:ff send:8:ff finish joined",
    "# A close ends a read that waits, and the finish those that are left.",
    "hub 2 3 500000 dial:shut,0,0a0b,1 dial:sent,1,0c,1 close:1 take:3 pieces send:2:00 all pieces finish prompt joined",
    f"hub 8 9 500000 {dials(['shut,0,0a0b,1'] * 8)} finish pieces prompt joined",
    "# A dial that finds no thread fails, and so does one without a ticker.",
    "hub 1 2 500000 dial:free,0,01,1 dial:free,0,02,1 all pieces session recorded replay finish prompt joined",
    "hub 2 2 500000 dial:free,0,01,1 all session finish prompt joined",
    "hub 2 0 500000 dial:free,0,01,1 dial:free,0,02,1 all session finish prompt joined",
    "# After the finish nothing comes but the end.",
    "hub 2 3 500000 dial:free,0,01,1 all finish all session prompt joined",
    "# Threads that get no task end.",
    "hub 8 9 500000 all finish joined all",
    "# The queue is full: 64 pieces wait, and each reader has one more. All of them come, or are let go at the finish.",
    f"hub 1 2 500000 dial:free,0,{counting(0, 250)},1 full:65 all firsts recorded finish prompt joined",
    f"hub 8 9 500000 {dials(LONG)} full:72 all firsts recorded replay finish prompt joined",
    f"hub 8 9 500000 {dials(LONG)} full:72 finish firsts prompt joined all",
    "# What came before the finish is a first part of what each holds.",
    f"hub 8 9 500000 {dials(LONG)} take:100 finish firsts recorded prompt joined",
    "# run THREADS STARTS TICKS|WATCH|WORDS: how a call of the program over a hub ends, and what it writes. Lines of WATCH end at `;`.",
    f"run 1 2 500000|01087551;|cf sync w {SYNC[0]}",
    f"run 2 3 500000|01087551;|cf sync --workers 1 w nobody {SYNC[1]}",
    "run 1 2 500000|01087551;|cf sync w nobody",
    f"run 1 0 500000|01087551;|cf sync w {SYNC[0]}",
    "# The same, and then what its record comes to.",
    f"run 1 2 500000|01087551;|cf sync --record r w {SYNC[0]}|cf replay w r",
    f"run 1 2 500000|01087551;|cf sync --record r w {SYNC[1]}|cf replay w r",
    f"run 8 9 500000|01087551;|cf sync --record r w {' '.join(SYNC)}|cf replay w r",
    "run 1 2 500000|01087551;|cf sync --record r w nobody nobody|cf replay w r",
    "# heard MOST TICKS SENT HEX: what comes over a hub of its pulse and of one peer, which gives the bytes HEX, at most MOST with one read, once SENT were sent to it, "
    "and that is after TICKS seconds: these, the bytes, whether the peer has gone, how many bytes were written to it (and 1000000 for its shut), and whether all were in time.",
    "heard 4 3 0a0b 0102030405060708090a",
    f"heard 1 0 ff {counting(0, 200)}",
    "heard 9999 100 000102 7f",
    "# queue COUNT: what comes out of a queue of 64 places into which two senders put so many each, and whether more is taken once it is gone.",
    "queue 0",
    "queue 3",
    "queue 32",
    "# dial NAME: why a dial over TCP fails. Nobody listens at port 1.",
    "dial localhost",
    "dial :80",
    "dial ::1:80",
    "dial localhost:",
    "dial localhost:+80",
    "dial 127.0.0.1: 80",
    "dial [::1]:99999",
    "dial 127.0.0.1:1",
]

# What the system says.
REASONS = {"[::1]:99999": "invalid port value", "127.0.0.1:1": "Connection refused (os error 111)"}


class Peer:
    def __init__(self, name, answers):
        self.name, self.answers, self.is_gone, self.came = name, answers, False, []
        self.written, self.is_shut = 0, False
        parts = name.split(",")
        self.is_told = len(parts) == 4
        if self.is_told:
            self.way, wanted, digits, most = parts
            self.wanted, self.bytes = int(wanted), bytes.fromhex(digits.replace("z", "00" * 8))
            most = min(int(most), CHUNK)
            self.pieces = [self.bytes[k : k + most] for k in range(0, len(self.bytes), most)]
            if self.way == "fault":
                self.pieces = self.pieces[: self.wanted - 1]


class Hub:
    def __init__(self, threads, starts, ticks):
        self.free = min(threads, starts)
        self.has_ticker = starts > threads
        self.ticks, self.peers, self.is_finished, self.lines = ticks, [], False, []

    def dial(self, name):
        answers = self.has_ticker and not self.is_finished and len(name.split(",")) == 4 and self.free > 0
        self.free -= answers
        self.peers.append(Peer(name, answers))
        return answers

    def inside(self):
        ticker = 1 if self.peers and self.has_ticker else 0
        return ticker + sum(peer.answers and peer.way == "gate" for peer in self.peers)

    def gives(self, peer):
        if not peer.answers:
            return False
        return {
            "free": True,
            "mute": True,
            "fault": True,
            "gate": self.inside() >= peer.wanted,
            "sent": peer.written >= peer.wanted,
            "shut": peer.is_shut,
        }[peer.way]

    def entries(self):
        """Which peers have entries to come, and how many."""
        return [(peer, len(peer.pieces) + 1) for peer in self.peers if self.gives(peer) and not peer.is_gone]

    def take_all(self):
        for p, peer in enumerate(self.peers, 1):
            if self.gives(peer) and not peer.is_gone:
                peer.came = list(peer.pieces)
                peer.is_gone = True
                self.lines += [f"got {p} {piece.hex()}" for piece in peer.pieces] + [f"gone {p}"]

    def send(self, p, data):
        peer = self.peers[p - 1] if p <= len(self.peers) else None
        if peer is None or not peer.answers or peer.way == "mute":
            self.lines.append(f"gone {p}")
            return False
        peer.written += len(data)
        return True

    def session(self):
        dials = [("dial " if peer.answers else "nodial ") + peer.name for peer in self.peers]
        return "".join(line + ";" for line in dials + self.lines)


def step(hub, text, out):
    verb, _, rest = text.partition(":")
    if verb == "dial":
        out.append("dialled" if hub.dial(rest) else "failed")
    elif verb == "send":
        p, _, digits = rest.partition(":")
        out.append("sent" if hub.send(int(p), bytes.fromhex(digits)) else "unsent")
    elif verb == "close":
        hub.peers[int(rest) - 1].is_shut = True
    elif verb == "all":
        if not hub.is_finished:
            hub.take_all()
            assert all(peer.is_gone for peer in hub.peers if peer.answers), "it would wait for ever"
        out.append("ended")
    elif verb == "take":
        left = sum(count for _, count in hub.entries())
        if int(rest) == left:
            hub.take_all()
        else:
            # Which they are is chance: but that they are the first pieces of each, and none of them an end, is not.
            assert int(rest) < min(count for _, count in hub.entries())
            hub.some = int(rest)
        out.append("taken")
    elif verb == "until":
        (peer,) = (peer for peer in hub.peers if hub.gives(peer))
        while sum(len(piece) for piece in peer.came) < int(rest):
            peer.came.append(peer.pieces[len(peer.came)])
        out.append("taken")
    elif verb == "tick":
        assert hub.inside() >= hub.ticks and any(peer.answers and not hub.gives(peer) for peer in hub.peers)
        hub.has_ticks = True
        hub.take_all()
        out.append("tick")
    elif verb == "ticks":
        out.append("ticks" if getattr(hub, "has_ticks", False) else "noticks")
    elif verb == "full":
        readers = sum(1 for peer in hub.peers if peer.answers)
        assert all(len(peer.pieces) > PLACES + 1 for peer in hub.peers)
        out.append("full" if int(rest) == PLACES + readers else "other")
    elif verb == "bytes":
        for p, peer in enumerate(hub.peers, 1):
            out.append(f"{p}:" + b"".join(peer.came).hex() + "gone" * peer.is_gone)
    elif verb == "pieces":
        for p, peer in enumerate(hub.peers, 1):
            sends = sum(line == f"gone {p}" for line in hub.lines) - peer.is_gone
            text = "".join(piece.hex() + "." for piece in peer.came)
            out.append(f"{p}:" + "gone" * sends + text + "gone" * peer.is_gone)
    elif verb == "firsts":
        out += ["first" for _ in hub.peers]
        out.append(str(getattr(hub, "some", sum(len(peer.came) for peer in hub.peers))))
    elif verb == "session":
        out.append(hub.session())
    elif verb == "recorded":
        out.append("recorded")
    elif verb == "replay":
        out.append("replayed")
    elif verb == "prompt":
        out.append("prompt")
    elif verb == "joined":
        out.append("joined" if hub.is_finished else "unjoined")
    elif verb == "finish":
        hub.is_finished = True
    else:
        raise ValueError(text)


def run(row):
    numbers, _, first, *second = row.split("|")
    hub = Hub(*map(int, numbers.split(" ")))
    words = first.split(" ")
    for name in words[words.index("w") + 1 :]:
        hub.dial(name)
    if any(peer.answers for peer in hub.peers):
        assert all(peer.bytes == SAID for peer in hub.peers if peer.answers)
        text = f"0 Done\nsynced 0 {double(GENESIS_HEADER)[::-1].hex()}\n"
    else:
        text = f"6 NoPeers {{ ends: [{', '.join('NotDialled' for _ in hub.peers)}] }}: no peer is left\n"
    assert second in ([], ["cf replay w r"]) and (not second or "--record" in words)
    return text + (text + "same") * len(second)


def answer(row):
    kind, rest = row.split(" ", 1)
    if kind == "run":
        return run(rest)
    if kind == "heard":
        _, ticks, sent, digits = rest.split(" ")
        seconds = "".join(f"{second} " for second in range(1, int(ticks) + 1))
        return f"{seconds}{digits} gone {1000000 + len(sent) // 2} prompt"
    if kind == "dial":
        return f"{rest}: {REASONS.get(rest, 'it is not HOST:PORT')}"
    if kind == "queue":
        count = int(rest)
        return " ".join([f"{p}:{k}" for p in range(2) for k in range(count)] + ["closed"])
    threads, starts, ticks, steps = rest.split(" ", 3)
    hub, out = Hub(int(threads), int(starts), int(ticks)), []
    for text in steps.split(" "):
        step(hub, text, out)
    return " ".join(out)


def main():
    own = ((row, None if row.startswith("#") else answer(row)) for row in ROWS)
    with_answers = sys.argv[1:] != ["rows"]
    loopback.show(own, with_answers)
    loopback.show(loopback.rows(), with_answers)


if __name__ == "__main__":
    main()
