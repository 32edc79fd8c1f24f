#!/usr/bin/env python3
"""`follow` over loopback, beside servers that grow, part, stop and go: `follow.py [--program PROGRAM] [CASE..]`, where
PROGRAM is `.build/cf` unless it is named, and all cases run unless some are.

    grows        1,000 blocks join the chain of a growing server, one by one
    branches     two growing servers whose chains part: each in turn gets the longer one
    later        the node of a peer comes to another branch: a second server, which starts later, serves it
    recorded     a `follow` of so many deliveries with a record, which `replay --follow` goes over
    gone         one of two servers ends, and then the other one
    silent       one of two servers is stopped for longer than a `ping` may be open, and is closed for it
    slept        the client is stopped for longer than that, and in another run the client and its server
    interrupted  Ctrl-C, while nothing is open, and while the chain is being learned
    closed       each of standard input, output and error is closed or open as it starts, and so with `sync` and
                 `serve`: no peer gets what is written there
    idle         what a minute costs in which nothing comes, from one peer and from eight
    cost         what a new block costs at heights of 10,000 and 100,000
    memory       what is held after 10,000 new blocks, beside a `follow` that begins with the same chain

Each text that is written has to be that of a plain scan, in Python, of one of the chains as it stood at some moment,
and the last one that of the chain as it stands; none is written twice in a row. Blocks are brought by the script, as a
peer of a server. What is waited for is looked at for PATIENCE seconds at most.

A `Relay` stands between a client and a server where the server's news is to come at once and not with the next `pong`.
Of `idle` and `cost` the processor's time counts. A minute in which nothing comes may take IDLE of it. For a block the
least of TRIES runs that take turns counts, where no block pays the watched script: at the greater height it may take
MOST times as long. Where an eighth of the blocks pays it, each text has the whole history, and what a block costs grows
with that: this is only told. Memory may be HELD times that of a client that begins with the whole chain. The status is
1 where a case ends otherwise.
"""
import argparse
import contextlib
import os
import signal
import socket
import sys
import tempfile
import threading
import time

from client import read_frames
from conversation import GENESIS_HEADER, GENESIS_TX, THEIR_VERSION, double, frame, valued
from grow import Stream, seconds_of, side_by_side, wanted
from growing import entry, listed
from load import PAID, ROOT, UNPAID, Run, address_of, connected, written
from made_chain import records

SEED, OTHER = 7, 8
BELOW, JOINED, ROUNDS = 40, 1_000, 10
LOW, HIGH, GROWN = 10_000, 100_000, 10_000
# So many blocks come, where none pays the watched script, and where an eighth does.
NEW = {"unpaid": 1_000, "paid": 100}
PATIENCE, OVERDUE, STOPPED, MINUTE = 60, 90, 75, 60
TRIES, MOST, IDLE, HELD = 3, 1.3, 0.001, 1.5
POKE = frame("ping", bytes(8))


# ---- chains

class Chain:
    """A made chain: its records from height 1 on, its blocks, and their hashes."""

    def __init__(self, *parts):
        self.records = list(records(*parts))
        self.blocks = [GENESIS_HEADER + b"\x01" + GENESIS_TX] + [record[8:] for record in self.records]
        self.hashes = [double(block[:80]) for block in self.blocks]
        self.tip = len(self.records)

    def last_line(self, height=None):
        """The last line of the text at a height, or at the tip."""
        height = self.tip if height is None else height
        return b"synced %d %s\n" % (height, self.hashes[height][::-1].hex().encode())

    def scans(self, heights, watched=bytes.fromhex(PAID)):
        """What plain scans tell of it as far as these heights."""
        coins, lines, found = {}, b"", []
        for height, block in enumerate(self.blocks):
            for place, (txid, names, outputs) in enumerate(valued(block) if height else ()):
                spent = [coins.pop(name) for name in (names if place else []) if name in coins]
                won = {(txid, i): value for i, (value, paid) in enumerate(outputs) if paid == watched}
                coins.update(won)
                if spent or won:
                    numbers = sum(won.values()), sum(spent), sum(coins.values())
                    lines += b"%d %s +%d -%d %d\n" % (height, txid[::-1].hex().encode(), *numbers)
            if height in heights:
                found.append(lines + self.last_line(height))
        return found


def texts_in(data):
    """The whole texts, and what stands behind them."""
    found, rest = [], b""
    for line in data.splitlines(keepends=True):
        rest += line
        if line.startswith(b"synced ") and line.endswith(b"\n"):
            found.append(rest)
            rest = b""
    return found, rest


# ---- processes

def comes(is_so, what, run, seconds=PATIENCE):
    """Waits until something is so of a run."""
    end = time.monotonic() + seconds
    while not is_so():
        wanted(time.monotonic() < end, "it has not come that", what, run.told()[-1000:])
        time.sleep(0.0005)


class Server:
    """A server of the first blocks of a chain, and a connection that brings it blocks."""

    def __init__(self, around, chain, tip, *words):
        self.file = written(around.folder, "blocks-%d" % len(around.runs), chain.records[:tip])
        self.chain, self.tip = chain, tip
        self.run = around.ran(Run([around.program, "serve", *words, self.file, "127.0.0.1:0"]))
        self.name, self.stream = address_of(self.run), None

    def brings(self, count=1):
        """Brings the next blocks, and is told that they have come."""
        self.stream = self.stream or Stream(self.name)
        blocks = self.chain.blocks[self.tip + 1:self.tip + 1 + count]
        self.stream.says(b"".join(frame("block", block) for block in blocks))
        self.tip += count
        return self.chain.last_line(self.tip)


def without_delay(connection):
    connection.setsockopt(socket.IPPROTO_TCP, socket.TCP_NODELAY, 1)
    return connection


def shut(connection):
    with contextlib.suppress(OSError):
        connection.shutdown(socket.SHUT_RDWR)


class Relay(threading.Thread):
    """An address at which one connection is one to a server. What comes is handed on frame by frame, so that others can
    be put between."""

    def __init__(self, name):
        super().__init__(daemon=True)
        self.place = socket.create_server(("127.0.0.1", 0))
        self.server, self.name = name, "%s:%d" % self.place.getsockname()
        self.locks = threading.Lock(), threading.Lock()
        self.start()

    def run(self):
        self.near = without_delay(self.place.accept()[0])
        self.is_answered_by(connected(self.server))
        self.hand_on(self.near, self.tell_server)
        shut(self.far)

    def is_answered_by(self, far):
        with self.locks[0]:
            self.far = without_delay(far)
        threading.Thread(target=self.listen, args=(far,), daemon=True).start()

    def listen(self, far):
        """Hands on what a server says, and closes the client's connection once the last server has closed its own."""
        self.hand_on(far, self.tell_client)
        if far is self.far:
            shut(self.near)

    @staticmethod
    def hand_on(source, tell):
        waiting = b""
        with contextlib.suppress(OSError):
            while piece := source.recv(1 << 18):
                waiting += piece
                _, size = read_frames(waiting)
                tell(waiting[:size])
                waiting = waiting[size:]

    def tell_server(self, frames):
        with self.locks[0]:
            self.far.sendall(frames)

    def tell_client(self, frames):
        with self.locks[1]:
            self.near.sendall(frames)

    def pokes(self):
        """Asks the server something, which then tells of its tip first. The client reads over the answer."""
        self.tell_server(POKE)

    def turns_to(self, name, tip):
        """From now on another server answers, and the client is told of its tip."""
        far, waiting = connected(name), b""
        far.sendall(THEIR_VERSION + frame("verack"))
        while len(read_frames(waiting)[0]) < 2:
            waiting += far.recv(1 << 18)
        self.is_answered_by(far)
        self.tell_client(listed("inv", [entry(tip)]))


class Noted(Relay):
    """A relay that hands on whatever comes, and keeps what the client has said."""

    def __init__(self, name):
        self.said = bytearray()
        super().__init__(name)

    def tell_server(self, piece):
        self.said += piece
        super().tell_server(piece)

    @staticmethod
    def hand_on(source, tell):
        with contextlib.suppress(OSError):
            while piece := source.recv(1 << 18):
                tell(piece)


class Follower(Run):
    """A `follow` of these peers."""

    def __init__(self, around, *names, watch="paid", words=()):
        super().__init__([around.program, "follow", *words, around.watch[watch], *names])
        around.ran(self)

    def size(self):
        return os.fstat(self.out.fileno()).st_size

    def has_told(self, line):
        """Whether this is the last line that was written."""
        return os.pread(self.out.fileno(), len(line), max(0, self.size() - len(line))) == line

    def comes_to(self, line):
        comes(lambda: self.has_told(line), f"{line} is the last line", self)

    def ends(self, *statuses):
        comes(lambda: not self.thread.is_alive(), "it has ended", self)
        what = ("it ends with", self.join().status, "and not with", statuses, self.told()[-1000:])
        wanted(self.status in statuses, *what)

    def check(self, *chains):
        """Each text is that of one of these chains at some height, and none comes twice in a row."""
        texts, rest = texts_in(self.text())
        heights = {int(text.split()[-2]) for text in texts}
        known = {text for chain in chains for text in chain.scans(heights)}
        wanted(not rest, "the last text is cut off:", rest)
        wanted(all(text in known for text in texts), "a text is of no such chain")
        wanted(all(text != later for text, later in zip(texts, texts[1:])), "a text is written twice")
        return texts


def ended(*runs):
    for run in runs:
        run.stop()
        run.join()


class Around:
    """The program, a folder, watch files, and all that was started, which is ended with it."""

    def __init__(self, program, folder):
        self.program, self.folder, self.runs = program, folder, []
        scripts = {"paid": PAID, "unpaid": UNPAID}
        self.watch = {name: written(folder, name, [text.encode()]) for name, text in scripts.items()}

    def ran(self, run):
        self.runs.append(run)
        return run

    def end(self):
        ended(*self.runs)


def sent(signal_number, *runs):
    for run in runs:
        os.kill(run.process.pid, signal_number)


# ---- cases

def has_same_scan(around, chain, text):
    """Whether the program's own scan tells this."""
    whole = written(around.folder, "whole", chain.records)
    return Run([around.program, "scan", whole, around.watch["paid"]]).join().text() == text


def grows(around):
    chain = Chain((SEED, BELOW + JOINED))
    server = Server(around, chain, BELOW, "--grow")
    run = Follower(around, server.name)
    run.comes_to(chain.last_line(BELOW))
    for _ in range(JOINED):
        line = server.brings()
        time.sleep(0.01)
    run.comes_to(line)
    texts = run.check(chain)
    heights = [int(text.split()[-2]) for text in texts]
    wanted(heights == sorted(heights), "the heights are", heights)
    wanted(has_same_scan(around, chain, texts[-1]), "the last text is not what scan tells")
    return f"{JOINED} blocks were brought, one by one, and {len(texts)} texts came"


def branches(around):
    tips = [BELOW + 2, BELOW + 1]
    chains = [Chain((SEED, BELOW + 2 * ROUNDS + 2)), Chain((SEED, BELOW), (OTHER, 2 * ROUNDS + 2))]
    servers = [Server(around, chain, tip, "--grow") for chain, tip in zip(chains, tips)]
    run = Follower(around, *(server.name for server in servers))
    run.comes_to(chains[0].last_line(tips[0]))
    for number in range(2 * ROUNDS - 1):
        run.comes_to(servers[1 - number % 2].brings(2))
    texts = run.check(*chains)
    wanted(len(texts) >= 2 * ROUNDS, "there are only", len(texts), "texts")
    return f"{2 * ROUNDS - 1} times the longer chain took the place of the other one, of up to {2 * ROUNDS} blocks"


def later(around):
    first, second = Chain((SEED, BELOW + 5)), Chain((SEED, BELOW), (OTHER, 10))
    server = Server(around, first, first.tip, "--grow")
    relay = Relay(server.name)
    run = Follower(around, server.name, relay.name)
    run.comes_to(first.last_line())
    other = Server(around, second, second.tip)
    relay.turns_to(other.name, second.hashes[-1])
    run.comes_to(second.last_line())
    sent(signal.SIGKILL, other.run)
    run.comes_to(first.last_line())
    texts = run.check(first, second)
    one, two = (chain.scans([chain.tip])[0] for chain in (first, second))
    wanted(texts == [one, two, one], "other texts come:", *texts)
    return "the text of the longer branch came, and that of the first chain again once the node was gone"


def recorded(around):
    chain, record = Chain((SEED, BELOW + JOINED)), os.path.join(around.folder, "record")
    server = Server(around, chain, BELOW, "--grow")
    run = Follower(around, server.name, words=["--turns", "80", "--record", record])
    run.comes_to(chain.last_line(BELOW))
    while run.thread.is_alive() and server.tip < chain.tip:
        server.brings()
        time.sleep(0.2)
    run.ends(0, 7)
    texts = run.check(chain)
    again = Run([around.program, "replay", "--follow", around.watch["paid"], record]).join()
    statuses = run.status, again.status
    wanted(statuses in ((0, 0), (7, 8)), "the statuses are", statuses, run.told(), again.told())
    wanted(again.text() == run.text(), "the replay writes something else")
    return f"80 deliveries, {len(texts)} texts, status {run.status}; the replay writes the same"


def gone(around):
    chain = Chain((SEED, BELOW + 2))
    servers = [Server(around, chain, BELOW, "--grow") for _ in range(2)]
    run = Follower(around, *(server.name for server in servers))
    run.comes_to(chain.last_line(BELOW))
    run.comes_to(servers[1].brings())
    sent(signal.SIGKILL, servers[1].run)
    run.comes_to(chain.last_line(BELOW))
    servers[0].brings()
    run.comes_to(servers[0].brings())
    sent(signal.SIGKILL, servers[0].run)
    run.ends(6)
    run.check(chain)
    return "the other one's text came, and with the last one it ended with status 6; standard error says\n" + run.told()


def silent(around):
    chain = Chain((SEED, BELOW + 2))
    servers = [Server(around, chain, BELOW, "--grow") for _ in range(2)]
    run = Follower(around, *(server.name for server in servers))
    run.comes_to(chain.last_line(BELOW))
    sent(signal.SIGSTOP, servers[1].run)
    line = servers[0].brings()
    # What the silent one was asked is open until it is closed, and no text comes before that.
    comes(lambda: run.has_told(line), f"{line} is the last line", run, OVERDUE)
    run.comes_to(servers[0].brings())
    sent(signal.SIGKILL, servers[0].run)
    run.ends(6)
    wanted("peer 1: gone" in run.told() and "peer 2: closed: Overdue" in run.told(), "it tells at its end", run.told())
    wanted(run.told().count("pong; peers left: 1") == 1, "that it was closed is told once", run.told())
    run.check(chain)
    return "once it was closed the texts of new blocks came; standard error says at the end\n" + run.told()


def slept(around):
    def sleeps(with_server):
        chain = Chain((SEED, BELOW + 5))
        server = Server(around, chain, BELOW, "--grow")
        run = Follower(around, server.name)
        run.comes_to(chain.last_line(BELOW))
        asleep = (run, server.run) if with_server else (run,)
        sent(signal.SIGSTOP, *asleep)
        if not with_server:
            server.brings(2)
        time.sleep(STOPPED)
        sent(signal.SIGCONT, *asleep)
        server.stream = None  # one that said nothing for so long may be closed by now
        run.comes_to(server.brings(chain.tip - server.tip))
        wanted("closed" not in run.told() and run.thread.is_alive(), "standard error says", run.told())
        run.check(chain)

    side_by_side(lambda: sleeps(False), lambda: sleeps(True))
    return f"after {STOPPED} seconds nobody was closed, and the text of the chain that had grown came"


def interrupted(around):
    chain = Chain((SEED, LOW))
    server = Server(around, chain, LOW, "--grow")
    run = Follower(around, server.name)
    run.comes_to(chain.last_line(LOW))
    sent(signal.SIGINT, run)
    run.ends(-signal.SIGINT)
    texts = run.check(chain)
    wanted(texts == chain.scans([LOW]), "there are", len(texts), "texts")
    early = Follower(around, server.name)
    time.sleep(0.05)
    sent(signal.SIGINT, early)
    early.ends(-signal.SIGINT)
    wanted(texts[0].startswith(early.text()), "no beginning of the text was written")
    return f"it ended at once, with a whole text; and while it learned the chain, with {early.size()} bytes"


def without(numbers, *words):
    """A call of these words where these of the first three descriptors are closed."""
    closing = "".join((" <&-", " >&-", " 2>&-")[number] for number in numbers)
    return ["sh", "-c", 'exec "$@"' + closing, "sh", *words]


def place_of(run):
    """Where a process listens, as the system tells it, or nothing."""
    folder = f"/proc/{run.process.pid}"
    opened = set()
    for name in os.listdir(f"{folder}/fd"):
        with contextlib.suppress(FileNotFoundError):
            opened.add(os.readlink(f"{folder}/fd/{name}"))
    with open(f"{folder}/net/tcp") as file:
        for fields in map(str.split, file):
            if fields[3] == "0A" and f"socket:[{fields[9]}]" in opened:
                return "127.0.0.1:%d" % int(fields[1].rpartition(":")[2], 16)
    return None


def are_frames(data, *what):
    frames, size = read_frames(bytes(data))
    wanted(None not in frames and size == len(data), "a peer gets what is no frame:", data[size:][:200], *what)


def asks_without(around, numbers, command, server, text):
    """A `follow` or a `sync` with these descriptors closed."""
    relay = Noted(server.name)
    run = around.ran(Run(without(numbers, around.program, command, around.watch["paid"], relay.name)))
    if command == "follow" and 1 not in numbers:
        comes(lambda: run.text() == text, "the text is written", run)
        sent(signal.SIGINT, run)
    comes(lambda: not run.thread.is_alive(), "it has ended", run)
    relay.join(PATIENCE)
    are_frames(relay.said, command, "without", numbers)
    status = 5 if 1 in numbers else -signal.SIGINT if command == "follow" else 0
    wanted(run.join().status == status, command, "without", numbers, "ends with", run.status, run.told())
    wanted(run.text() == (b"" if 1 in numbers else text), command, "without", numbers, "writes", run.text())


def heard(stream, said, number):
    """What comes up to the answer to a `ping` that is said behind this."""
    stream.sendall(said + frame("ping", bytes(8 * [number])))
    data, last = b"", frame("pong", bytes(8 * [number]))
    while last not in data:
        piece = stream.recv(1 << 18)
        wanted(piece, "the connection is closed behind", data[-200:])
        data += piece
    return data


def serves_without(around, numbers, chain, file, text):
    """A server with these descriptors closed, to which a block is brought, and which a `sync` asks."""
    words = [around.program, "serve", "--grow", "--connections", "2", file, "127.0.0.1:0"]
    run = around.ran(Run(without(numbers, *words)))
    comes(lambda: not run.thread.is_alive() or place_of(run), "it listens", run)
    name = place_of(run)
    with connected(name) as stream:
        stream.settimeout(PATIENCE)
        data = heard(stream, THEIR_VERSION + frame("block", chain.blocks[-1]), 1)
        sync = around.ran(Run([around.program, "sync", around.watch["paid"], name])).join()
        data += heard(stream, b"", 2)
    are_frames(data, "serve without", numbers)
    wanted((sync.status, sync.text()) == (0, text), "sync ends with", sync.status, sync.text(), sync.told())
    comes(lambda: not run.thread.is_alive(), "it has ended", run)
    wanted(run.join().status == 0, "serve without", numbers, "ends with", run.status, run.told())


def closed(around):
    chain = Chain((SEED, BELOW + 1))
    server = Server(around, chain, BELOW)
    below, text = chain.scans([BELOW, chain.tip])
    kinds = [[number for number in range(3) if kind >> number & 1] for kind in range(8)]
    for numbers in kinds:
        for command in "follow", "sync":
            asks_without(around, numbers, command, server, below)
        serves_without(around, numbers, chain, server.file, text)
    return f"in {len(kinds)} ways nothing but frames came to a peer; without standard output the status is 5"


def idle(around):
    chain = Chain((SEED, HIGH))
    server = Server(around, chain, HIGH)
    one, eight = (Follower(around, *[server.name] * count, watch="unpaid") for count in (1, 8))
    for run in one, eight:
        run.comes_to(chain.last_line())
    time.sleep(3)
    before = [seconds_of(run) for run in (one, eight)]
    time.sleep(MINUTE)
    part, of_eight = ((seconds_of(run) - since) / MINUTE for run, since in zip((one, eight), before))
    wanted(part <= IDLE, "it takes", part, "of a processor, and", IDLE, "is the most that is wanted")
    wanted(len(texts_in(one.text())[0]) == len(texts_in(eight.text())[0]) == 1, "another text came")
    told = f"{part:.6f} of a processor with one peer at height {HIGH}, {of_eight:.6f} with eight"
    return f"{told}; {IDLE} is the most that is wanted of one"


def taken(around, chain, tip, count, watch):
    """A `follow` of a server to which so many blocks come one by one, and the processor's seconds for a block."""
    server = Server(around, chain, tip, "--grow")
    relay = Relay(server.name)
    run = Follower(around, relay.name, watch=watch)
    run.comes_to(chain.last_line(tip))
    before = seconds_of(run)
    for _ in range(count):
        line = server.brings()
        relay.pokes()
        run.comes_to(line)
    seconds = (seconds_of(run) - before) / count
    return run, server, seconds


def cost(around):
    chains = {height: Chain((SEED, height + max(NEW.values()))) for height in (LOW, HIGH)}
    told = {}
    for watch, count in NEW.items():
        found = {height: [] for height in chains}
        for _ in range(TRIES):
            for height, chain in chains.items():
                run, server, seconds = taken(around, chain, height, count, watch)
                found[height].append(seconds)
                ended(run, server.run)
        low, high = (min(each) for each in found.values())
        told[watch] = f"{low * 1e6:.0f} and {high * 1e6:.0f} microseconds, {high / low:.2f} times"
        wanted(watch == "paid" or high <= MOST * low, told[watch], "and", MOST, "is the most that is wanted")
    what = f"a new block at heights {LOW} and {HIGH}: {told['unpaid']}; {MOST} is the most that is wanted"
    return f"{what}. With a history: {told['paid']}"


def memory_of(run):
    """The memory that a process holds, and the most that it has held, in MB."""
    with open(f"/proc/{run.process.pid}/status") as file:
        fields = dict(line.split(":", 1) for line in file)
    return tuple(int(fields[name].split()[0]) / 1024 for name in ("VmRSS", "VmHWM"))


def memory(around):
    chain = Chain((SEED, LOW + GROWN))
    run, server, _ = taken(around, chain, LOW, GROWN, "unpaid")
    grown, most_grown = memory_of(run)
    fresh = Follower(around, server.name, watch="unpaid")
    fresh.comes_to(chain.last_line())
    whole, most_whole = memory_of(fresh)
    told = f"{grown:.1f} MB after {GROWN} new blocks above {LOW}, {most_grown:.1f} at most"
    told += f"; {whole:.1f} where it begins with them, {most_whole:.1f} at most"
    is_so = grown <= HELD * whole and most_grown <= HELD * most_whole
    wanted(is_so, told + ";", HELD, "times that is the most that is wanted")
    return told


CASES = (grows, branches, later, recorded, gone, silent, slept, interrupted, closed, idle, cost, memory)


def fails(program, case):
    """Runs a case, and tells whether it ends otherwise than wanted."""
    with tempfile.TemporaryDirectory() as folder:
        around = Around(program, folder)
        try:
            print(f"{case.__name__}: as it should be: {case(around)}", flush=True)
            return False
        except Exception as e:
            print(f"{case.__name__}: otherwise: {e!r}", flush=True)
            return True
        finally:
            around.end()


def main():
    words = argparse.ArgumentParser()
    words.add_argument("--program", default=os.path.join(ROOT, ".build", "cf"))
    words.add_argument("cases", nargs="*")
    given = words.parse_args()
    # Where this is started in the background, what it starts would read over Ctrl-C.
    signal.signal(signal.SIGINT, signal.default_int_handler)
    bad = [fails(given.program, case) for case in CASES if not given.cases or case.__name__ in given.cases]
    return 1 if any(bad) else 0


if __name__ == "__main__":
    sys.exit(main())
