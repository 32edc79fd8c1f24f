#!/usr/bin/env python3
"""Runs the program on good input that was changed at random, and looks for what no answer may be.

    changes.py [--program FILE] [--seed N] [--from N] [--runs N] [--seconds N] [--keep FOLDER]

FILE is `.build/cf` unless it is named. Of sessions, watch files, files of blocks, proofs, words and what a peer sends
to `serve` some bytes are turned, set to others, cut, doubled or left out, or lines are doubled, left out or changed for
one another; and in frames and in the records of a file also what stands under a checksum or a length, which is then
made right.
The first runs are over each beginning of the file of blocks. Each run has a number, and its change comes from the seed
and that number: so any of them can be made again, and with `--keep` FOLDER gets the files of those in which something
was found.

Looked for are:

    signal     the program is ended by a signal, or takes more than a minute
    status     a status that isn't in the table
    text       standard output has something with a status that writes none, or lines of another form
    memory     none is found within 512 MB; or it is ten times that of the unchanged run, and ten times the files
    time       it is ten times that of the unchanged run: the best of three runs, and more than a tenth of a second
    other      it ends otherwise than by client.py, or than by the plain readers of readers.py, or in another place

A line is printed for each of them, then one for each kind of input, with the statuses. The status is 1 where something
was found.
"""
import argparse
import collections
import os
import random
import re
import resource
import shutil
import signal
import socket
import struct
import subprocess
import sys
import tempfile
import time

import hostile
from client import Bad, Play, meets, read_block, read_frames, root_of
from conversation import GENESIS_HEADER, GENESIS_TX, MAGIC, double, whole
from faults import long_chain
from growing import bringing, grown
from memory import without_choice
from readers import CHAIN, CLOSED, checked, filtered, lines_of, proof_of, replayed, scanned, served
from sessions import script

BENCH = os.path.dirname(os.path.abspath(__file__))
ROOT = os.path.dirname(BENCH)
WATCHED = [script(k) for k in (8, 14)]
TXID = "72c9f9a6d21d37da3363854f04dd2a7294bcfdbec0b806dc789bf7c9d3aab8a7"
ADDRESS = "bcrt1qw508d6qejxtdg4y5r3zarvary0c5xw7kygt080"
MEMORY, SECONDS = 512 << 20, 60
# How often a run is of each kind.
SHARES = {"session": 8, "blocks": 5, "pieces": 1, "watch": 2, "proof": 2, "filter": 1, "prove": 1, "serve": 2, "grow": 2,
          "words": 4}
# Where `serve` listens.
ANY = "127.0.0.1:0"
STATUSES = range(14)
# Bytes that may be a count.
NUMBERS = [b"\0", b"\xff", b"\xfd", b"\xfe", b"\xfd\xff\xff", b"\xfe\0\0\0\2", b"\x80"]
HASH, NUMBER = "[0-9a-f]{64}", "[0-9]+"
CAUSES = ("BadFrame|Malformed|NoFilters|Unlinked|InvalidHeader|TooHigh|WrongCount|WrongPrevious|OtherFilter|BadBlock"
          "|SendFailed|Overdue|Omits")
TRACE = "> [1-8] (version|verack|pong|getheaders|getcfheaders|getcfilters|getdata)|x [1-8] (%s)" % CAUSES
HISTORY = "%s %s \\+%s -%s %s" % (NUMBER, HASH, NUMBER, NUMBER, NUMBER)
SYNCED = "synced %s %s" % (NUMBER, HASH)
DEMO = "".join("%s %s\n" % (word, NUMBER) for word in "blocks peers entries balance fetched closed".split())
TEXTS = {
    "scan": "(%s\n)*%s\n" % (HISTORY, SYNCED),
    "filter": "block %s\nfilter [0-9a-f]+\nheader %s\n" % (HASH, HASH),
    "replay": "((%s)\n)*(%s\n)*%s\n" % (TRACE, HISTORY, SYNCED),
    "prove": "tx [0-9a-f]+\nproof [0-9a-f]+\n",
    "check": "in %s %s\n" % (HASH, HASH),
    "demo": DEMO + "tip %s\n" % HASH,
    "address": "[0-9a-f]+\n|bcrt1[0-9a-z]+\n",
    "make": "",
}
SITUATION = "((%s)\n)*" % TRACE

Found = collections.namedtuple("Found", "status text told seconds size")


# ---- changes

def turned(lot, data):
    """Some bytes with one change."""
    if not data:
        return bytes([lot.randrange(256)])
    at = lot.randrange(len(data))
    end = min(len(data), at + 1 + int(lot.expovariate(0.2)))
    way = lot.randrange(7)
    if way == 0:
        return data[:at] + bytes([data[at] ^ 1 << lot.randrange(8)]) + data[at + 1:]
    if way == 1:
        return data[:at] + lot.choice(NUMBERS) + data[at + 1:]
    if way == 2:
        return data[:at]
    if way == 3:
        return data[:at] + data[end:]
    if way == 4:
        return data[:at] + (1 + lot.choice([1, 1, 2, 50])) * data[at:end] + data[end:]
    if way == 5:
        return data[:at] + lot.randbytes(1 + lot.randrange(9)) + data[at:]
    return data + lot.randbytes(1 + lot.randrange(40))


def shifted(lot, lines):
    """Some lines with one change of their order."""
    lines = list(lines)
    if not lines:
        return lines
    one, two = lot.randrange(len(lines)), lot.randrange(len(lines))
    way = lot.randrange(4)
    if way == 0:
        lines[one], lines[two] = lines[two], lines[one]
    elif way == 1:
        lines.insert(one, lines[two])
    elif way == 2:
        del lines[one]
    else:
        lines.insert(one, lines.pop(two))
    return lines


def changed_text(lot, data):
    """A text with some changes of its bytes and of its lines."""
    for _ in range(lot.choice([1, 1, 1, 2, 3])):
        if lot.random() < 0.4:
            data = b"".join(shifted(lot, data.splitlines(keepends=True)))
        elif lot.random() < 0.5 and data:
            at = lot.randrange(len(data))
            data = data[:at] + lot.choice(b"0123456789abcdefABCDEFg \n;:-+".decode()).encode() + data[at + 1:]
        else:
            data = turned(lot, data)
    return data


def framed(command, payload):
    return MAGIC + command + struct.pack("<I", len(payload)) + double(payload)[:4] + payload


def changed_frame(lot, data):
    """A frame with another payload or another command, and its checksum."""
    command, payload = data[4:16], data[24:]
    if lot.random() < 0.2:
        return framed(lot.choice(list(hostile.MESSAGES)).encode().ljust(12, b"\0"), payload)
    return framed(command, turned(lot, payload))


def changed_line(lot, line):
    """A line of a session with another time, or with another frame."""
    words = line.split(" ")
    if words[0] != "got":
        return "tick %d" % lot.choice([1, 30, 59, 60, 86_400]) if words[0] == "tick" else line
    return "got %s %s" % (words[1], changed_frame(lot, bytes.fromhex(words[2])).hex())


def changed_frames(lot, frames):
    """What a peer sends, with some changes."""
    frames = list(frames)
    for _ in range(lot.choice([1, 1, 2, 4])):
        at = lot.randrange(len(frames)) if frames else 0
        which = lot.random()
        if which < 0.3:
            frames = shifted(lot, frames)
        elif which < 0.6 and frames:
            frames[at] = changed_frame(lot, frames[at])
        elif which < 0.8:
            frames.insert(at, lot.choice(list(hostile.MESSAGES.values())))
        else:
            frames = [turned(lot, b"".join(frames))]
    return b"".join(frames)


def changed_session(lot, lines):
    """The bytes of a session with some changes."""
    way = lot.random()
    if way < 0.2:
        return changed_text(lot, "".join(line + "\n" for line in lines).encode())
    head = [line for line in lines if "dial" in line]
    rest = lines[len(head):]
    for _ in range(lot.choice([1, 1, 1, 1, 2, 4])):
        if not rest:
            break
        at = lot.randrange(len(rest))
        which = lot.random()
        if which < 0.5:
            rest[at] = changed_line(lot, rest[at])
        elif which < 0.7:
            rest = shifted(lot, rest)
        elif which < 0.8:
            message = lot.choice(list(hostile.MESSAGES.values()))
            rest.insert(at, "got %d %s" % (lot.randrange(len(head)) + 1, message.hex()))
        elif which < 0.9:
            rest.insert(at, lot.choice(["gone %d" % (lot.randrange(len(head)) + 1), "tick 30", "tick 60", "tick 59"]))
        elif rest[at].startswith("got") and len(rest[at]) > 12:
            word, number, digits = rest[at].split(" ")
            place = 2 * lot.randrange(1, len(digits) // 2)
            rest[at:at + 1] = ["%s %s %s" % (word, number, part) for part in (digits[:place], digits[place:])]
    return "".join(line + "\n" for line in head + rest).encode()


def record(block):
    return MAGIC + struct.pack("<I", len(block)) + block


def changed_blocks(lot, blocks):
    """The bytes of a file of blocks with some changes."""
    blocks = list(blocks)
    if lot.random() < 0.2:
        blocks.insert(0, GENESIS_HEADER + b"\1" + GENESIS_TX)
    way = lot.random()
    if way < 0.4:
        return changed_text(lot, b"".join(map(record, blocks)))
    at = lot.randrange(len(blocks))
    if way < 0.6:
        blocks = shifted(lot, blocks)
    elif way < 0.8:
        blocks[at] = turned(lot, blocks[at])
    else:
        blocks[at] = rooted(lot, blocks[at])
    return b"".join(map(record, blocks)) + lot.choice([b"", b"", bytes(9)])


def rooted(lot, block):
    """A block whose transactions are changed, under a header with their root and with work."""
    try:
        header, txs = read_block(block[:80] + turned(lot, block[80:]))
    except Bad:
        return block[:80] + turned(lot, block[80:])
    if lot.random() < 0.3:
        txs = txs + [lot.choice(txs)]
    root, _ = root_of([double(tx) for tx in txs])
    for nonce in range(1000):
        found = header[:36] + root + header[68:76] + struct.pack("<I", nonce)
        if meets(double(found)):
            break
    return found + bytes([len(txs)]) + b"".join(txs)


def changed_words(lot, words):
    """Words with some changes. They name no file outside the folder, no port, and no long work."""
    for _ in range(lot.choice([1, 1, 2])):
        if lot.random() < 0.4:
            words = shifted(lot, words)
        elif words:
            at = lot.randrange(len(words))
            words = words[:at] + [os.fsdecode(turned(lot, os.fsencode(words[at])))] + words[at + 1:]
    words = [re.sub("[\0/:]", "", word)[:300] for word in words]
    numbers = [word for word in words if re.fullmatch("[0-9]{3,}", word)]
    return ["address"] if numbers and {"demo", "make"} & set(words) else words


# ---- runs

def listed(scripts):
    """A watch file."""
    return "".join(text.hex() + "\n" for text in scripts).encode()


class Kind:
    """Input of one kind: what it is made of, its words, and how one is changed."""

    def __init__(self, name, words, files, change, comes=None, *asked):
        self.name, self.words, self.files, self.change = name, words, files, change
        # What has to come, and of which files.
        self.comes, self.asked = comes, asked
        self.statuses, self.size, self.seconds = collections.Counter(), 0, 0


class Trial:
    def __init__(self, program, folder):
        self.program, self.folder = program, folder
        with open(os.path.join(ROOT, "data", "blocks.dat"), "rb") as file:
            self.blocks = file.read()
        self.proof = b""
        self.restore()
        self.proof = self.run(["prove", "f", TXID]).text
        self.restore()

    def read(self, name):
        with open(os.path.join(self.folder, name), "rb") as file:
            return file.read()

    def restore(self):
        """Writes the files that are not changed. Changed words may have written over them."""
        for name, data in (("w", listed(WATCHED)), ("f", self.blocks), ("p", self.proof)):
            self.write(name, data)

    def write(self, name, data):
        with open(os.path.join(self.folder, name), "wb") as file:
            file.write(data)

    def run(self, words):
        def bound():
            resource.setrlimit(resource.RLIMIT_AS, (MEMORY, MEMORY))
            resource.setrlimit(resource.RLIMIT_CORE, (0, 0))

        with tempfile.TemporaryFile() as out, tempfile.TemporaryFile() as err:
            ends = {"stdin": subprocess.DEVNULL, "stdout": out, "stderr": err}
            child = subprocess.Popen([self.program, *words], cwd=self.folder, preexec_fn=bound, **ends)
            signal.signal(signal.SIGALRM, lambda *_: child.kill())
            signal.alarm(SECONDS)
            got = self.talk(child.pid, err) if words[-1:] == [ANY] else b""
            _, status, used = os.wait4(child.pid, 0)
            signal.alarm(0)
            child.returncode = os.waitstatus_to_exitcode(status)
            texts = [os.pread(file.fileno(), 1 << 24, 0) for file in (out, err)]
            texts[0] += got
        return Found(child.returncode, *texts, used.ru_utime + used.ru_stime, used.ru_maxrss * 1024)


    def talk(self, server, err):
        """What the server that tells its address there writes to a peer that sends what stands in the file `c`."""
        place, got = None, b""
        while not place and not os.waitid(os.P_PID, server, os.WEXITED | os.WNOHANG | os.WNOWAIT):
            place = re.search(rb"listening on \S+:(\d+)\n", os.pread(err.fileno(), 1 << 16, 0))
            time.sleep(0.001)
        try:
            with socket.create_connection(("127.0.0.1", int(place.group(1))), timeout=SECONDS) as conn:
                conn.sendall(self.read("c"))
                conn.shutdown(socket.SHUT_WR)
                while part := conn.recv(1 << 16):
                    got += part
        except (AttributeError, OSError):
            pass
        return without_choice(got)


def is_as_told(found, text, place):
    """Whether an answer is this one. What a server writes before it closes a connection that goes on may be lost."""
    if isinstance(text, str):
        is_right = found.text == text.encode()
    else:
        text = without_choice(text)
        is_right = found.text == text or place != CLOSED and text.startswith(found.text)
    return is_right and place.encode() in found.told


def faults(trial, kind, words, size, found):
    """What of an answer may not be, of a run whose input has so many bytes."""
    if found.status < 0:
        yield "signal", "%d after %.1f seconds" % (-found.status, found.seconds)
        return
    if found.status not in STATUSES:
        yield "status", "%d" % found.status
    command = words[0] if words else ""
    form = {0: TEXTS.get(command, "")}.get(found.status, "")
    if "--trace" in words and found.status in (6, 7, 8):
        form = SITUATION
    is_own = found.status == 0 and {"help", "-h", "--help", "-V", "--version"} & set(words)
    if words[-1:] != [ANY] and not is_own and not re.fullmatch(form, found.text.decode(errors="replace")):
        yield "text", "%d %r" % (found.status, found.text[:200])
    if found.status == 1:
        yield "memory", "none is found"
    if kind.size and found.size > 10 * kind.size and found.size > 10 * size:
        yield "memory", "%d kB, and %d kB unchanged" % (found.size >> 10, kind.size >> 10)
    if kind.seconds and found.seconds > max(0.1, 10 * kind.seconds):
        seconds = min(trial.run(words).seconds for _ in range(3))
        if seconds > max(0.1, 10 * kind.seconds):
            yield "time", "%.3f seconds, and %.3f unchanged" % (seconds, kind.seconds)
    if kind.comes:
        status, text, place = kind.comes(*map(trial.read, kind.asked))
        if found.status != status or not is_as_told(found, text, place):
            told = found.status, found.text[-200:], found.told[-200:], status, text[-200:], place
            yield "other", " ".join(map(repr, told))


def sessions():
    """Scripts and sessions: those of honest peers, and those of the rows `run` of cf_cases."""
    for peers in (2, 1, 3, 8):
        yield WATCHED, Play(CHAIN, peers, WATCHED).played().lines
    with open(os.path.join(ROOT, "crates", "cf_cases", "stdin")) as rows:
        for row in rows:
            words, watch, session, *_ = (row + "||").split("|")[1:] if row.startswith("run ") else "|||".split("|")
            lines, place = lines_of(session.replace(";", "\n").encode())
            if "replay" in words and not place and re.fullmatch("((01[0-9a-f]{6})(;|$))*", watch):
                yield [bytes.fromhex(text) for text in watch.split(";") if text], lines


def kinds(trial):
    """The kinds, each with as many inputs as there are."""
    def file_of(name):
        return lambda lot, data: trial.write(name, changed_text(lot, data))

    def session(lot, data):
        scripts, lines = data
        trial.write("x", listed(scripts))
        trial.write("s", changed_session(lot, list(lines)))

    def blocks(lot, data):
        trial.write("b", changed_blocks(lot, data))

    def frames(lot, data):
        trial.write("c", changed_frames(lot, data))

    def proved(data):
        return proof_of(data, bytes.fromhex(TXID)[::-1])

    watch = listed(WATCHED) + ADDRESS.encode() + b"\n"
    words = ["address " + ADDRESS, "scan f w", "filter f 2", "prove f " + TXID, "check p", "replay --trace w s",
             "make 7 3 m", "make --witness 7 3 m", "demo 7 3", "serve --connections 1 g a",
             "serve --grow --connections 1 g a", "sync --turns 9 --workers 2 --record r w a b", "--help"]
    long_blocks = long_chain().blocks[1:]
    yield Kind("session", ["replay", "--trace", "x", "s"], list(sessions()), session, replayed, "x", "s")
    yield Kind("blocks", ["scan", "b", "w"], [CHAIN.blocks[1:]], blocks, scanned, "w", "b")
    yield Kind("pieces", ["scan", "b", "w"], [long_blocks], blocks, scanned, "w", "b")
    yield Kind("watch", ["scan", "f", "v"], [watch], file_of("v"), scanned, "v", "f")
    yield Kind("proof", ["check", "q"], [trial.proof], file_of("q"), checked, "q")
    yield Kind("filter", ["filter", "b", "2"], [CHAIN.blocks[1:]], blocks, filtered, "b")
    yield Kind("prove", ["prove", "b", TXID], [CHAIN.blocks[1:]], blocks, proved, "b")
    asked, told = ([framed(name.encode().ljust(12, b"\0"), payload) for name, payload in read_frames(data)[0]] for data in (whole(CHAIN)[0], bringing()))
    yield Kind("serve", ["serve", "--connections", "1", "f", ANY], [asked], frames, served, "c")
    yield Kind("grow", ["serve", "--grow", "--connections", "1", "f", ANY], [told, asked], frames, grown, "c")
    yield Kind("words", None, [text.split(" ") for text in words], None)


def unchanged(trial, kind):
    """Notes what a kind takes without a change."""
    if kind.name == "words":
        return
    if kind.name == "session":
        trial.write("x", listed(kind.files[0][0]))
        trial.write("s", "".join(line + "\n" for line in kind.files[0][1]).encode())
    elif "b" in kind.words:
        trial.write("b", b"".join(map(record, kind.files[0])))
    elif kind.name in ("serve", "grow"):
        trial.write("c", b"".join(kind.files[0]))
    else:
        trial.write(kind.words[-1], kind.files[0])
    runs = [trial.run(kind.words) for _ in range(5)]
    if runs[0].status:
        raise SystemExit("%s ends with status %d unchanged: %r" % (kind.name, runs[0].status, runs[0].told))
    kind.size, kind.seconds = max(run.size for run in runs), min(run.seconds for run in runs)


class Tests:
    """The runs by their numbers, and what was found in them."""

    def __init__(self, trial, seed, keep):
        self.trial, self.seed, self.keep, self.kinds, self.count = trial, seed, keep, list(kinds(trial)), 0
        for kind in self.kinds:
            unchanged(trial, kind)

    def change(self, number):
        """Writes the input of a run, and gives its kind and its words."""
        if number < len(self.trial.blocks):
            self.trial.write("b", self.trial.blocks[:number])
            return self.kinds[1], self.kinds[1].words
        lot = random.Random("%d %d" % (self.seed, number))
        kind = lot.choices(self.kinds, [SHARES[kind.name] for kind in self.kinds])[0]
        data = lot.choice(kind.files)
        if kind.name == "words":
            return kind, changed_words(lot, data)
        kind.change(lot, data)
        return kind, kind.words

    def run(self, number):
        kind, words = self.change(number)
        found = self.trial.run(words)
        kind.statuses[found.status] += 1
        if kind.name == "words":
            self.trial.restore()
        names = [name for name in words if os.path.isfile(os.path.join(self.trial.folder, name))]
        size = sum(os.path.getsize(os.path.join(self.trial.folder, name)) for name in names)
        for what, told in faults(self.trial, kind, words, size, found):
            self.count += 1
            print("%d %s: %s: %s" % (number, kind.name, what, told), flush=True)
            print("    " + " ".join(map(repr, words)), flush=True)
            for name in names if self.keep else []:
                os.makedirs(os.path.join(self.keep, str(number)), exist_ok=True)
                shutil.copy(os.path.join(self.trial.folder, name), os.path.join(self.keep, str(number), name))


def main():
    parser = argparse.ArgumentParser()
    parser.add_argument("--program", default=os.path.join(ROOT, ".build", "cf"))
    parser.add_argument("--seed", type=int, default=1)
    parser.add_argument("--from", dest="first", type=int, default=0)
    parser.add_argument("--runs", type=int, default=20_000)
    parser.add_argument("--seconds", type=int, default=600)
    parser.add_argument("--keep")
    words = parser.parse_args()
    until = time.monotonic() + words.seconds
    with tempfile.TemporaryDirectory() as folder:
        tests = Tests(Trial(os.path.abspath(words.program), folder), words.seed, words.keep)
        number = words.first
        while number < words.first + words.runs and time.monotonic() < until:
            tests.run(number)
            number += 1
    print("seed %d, runs %d to %d: %d found" % (words.seed, words.first, number - 1, tests.count))
    for kind in tests.kinds:
        told = ", ".join("%d: %d" % pair for pair in sorted(kind.statuses.items()))
        print("%s: %d runs; statuses %s" % (kind.name, sum(kind.statuses.values()), told))
    sys.exit(tests.count > 0)


if __name__ == "__main__":
    main()
