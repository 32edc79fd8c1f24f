#!/usr/bin/env python3
"""What standard error tells a user of files, outputs and long work: `told.py [--program PROGRAM] [CASE..]`, where
PROGRAM is `.build/cf` unless it is named, and all cases run unless some are.

    refused     each kind of line that a watch file can't have: the status, the line as ever, and what it is
    doubtful    scripts that can hardly be ones: the first is told, the text and the status stay
    fronts      files of blocks of another network, mixed with a key, and of nothing that is known
    outputs     a reader that is gone, and a full disk: the system's reason
    ports       a peer that is named without a port
    progress    a terminal is told how far a file was read, in one line that is gone at the end; nobody else is
    working     a terminal is told for how long `make` and `demo` work, in one line that is gone at the end; nobody else is
    comings     a server tells of connections as they come and end, where no other one follows; of several at a time; of
                those of a full pipe nobody, and none of them waits

The status is 1 where a case ends otherwise.
"""
import argparse
import os
import pty
import re
import subprocess
import sys
import threading
import time

from follow import Around, fails
from grow import wanted
from conversation import THEIR_VERSION
from load import PAID, ROOT, Run, address_of, connected, written
from made_chain import records

SEED, BLOCKS, LONG, MADE, PLAYED = 7, 30, 60_000, 200_000, 20_000
# How many connections come at a time, how many while nobody reads, and how long a line is waited for, in seconds.
CROWD, DEAF, SOON = 100, 200, 1
REGTEST = bytes.fromhex("fabfb5da")
ROWS = (
    (b"51\n01087551\r\n", 2, "ends with CR"),
    (REGTEST + b"\x50\0\0\0(\n", 1, "a file of blocks"),
    (b"51\n\x7fELF(\0\n", 2, "isn't a text"),
    (b"\xef\xbb\xbf01087551\n", 1, "a byte order mark"),
    (b"01087551 \n", 1, "a blank"),
    (b"0x01087551\n", 1, "begins with 0x"),
    (b"51\n52\nmipcBbFg9gMiCh81Kj8tqqdgoZub1ZJRfn\n", 3, "in base58"),
    (b"2N7DTo8YAUuQsrBEx9AyWGSnnDQDyDYvPfB\n", 1, "in base58"),
    (b"tb1qw508d6qejxtdg4y5r3zarvary0c5xw7kxpjzsx\n", 1, "another network"),
    (b"bc1qw508d6qejxtdg4y5r3zarvary0c5xw7kv8f3t4\n", 1, "another network"),
    (b"wpkh(02f9308a019258c31049344f85f89d5229b531c845836f99b08601f113bce036f9)#8zl0zxma\n", 1, "a descriptor"),
    (b"tpub" + b"D6NzVbkrYhZ4WaWSyoBvQwbpLkojyoTZ" * 3 + b"\n", 1, "an extended key"),
    (b"bcrt1qw508d6qejxtdg4y5r3zarvary0c5xw7kygt080\r\n", 1, "ends with CR"),
)
KEY = "02f9308a019258c31049344f85f89d5229b531c845836f99b08601f113bce036f9"
HASH = "751e76e8199196d454941c45d1b3a323f1433bd6"
# Line, bytes and name of the first that is told, or nothing.
DOUBTS = (
    ([PAID, KEY], (2, 33, "a public key")),
    ([HASH, KEY], (1, 20, "a hash")),
    ([PAID, "04" + KEY[2:] * 2], (2, 65, "a public key")),
    ([PAID, "5a" + "11" * 31], (2, 32, "a hash")),
    ([PAID, "0014" + HASH, "5120" + KEY[2:], "76a914" + HASH + "88ac", "21" + KEY + "ac"], None),
    # Witness programs, of 18 bytes and of 30.
    (["5112" + "11" * 18, "601e" + "22" * 30, "001E" + "33" * 30], None),
)


def scanned(around, lines, blocks=None):
    watch = written(around.folder, "some", lines)
    return Run([around.program, "scan", blocks or around.blocks, watch]).join(), watch


def refused(around):
    for data, place, kind in ROWS:
        run, watch = scanned(around, [data])
        lines = run.told().splitlines()
        wanted(run.status == 3 and run.text() == b"", data, run.status, run.told())
        wanted(len(lines) == 2 and lines[0].startswith(f"cf: the watch file, line {place}: "), data, lines)
        wanted(lines[1].startswith(f"cf: {watch}, line {place}: it ") and kind in lines[1], data, lines)
    run, _ = scanned(around, [b"51\nzz\n0x52\n"])
    told = "cf: the watch file, line 2: the line is neither an address of regtest nor hexadecimal\n"
    wanted((run.status, run.told()) == (3, told), run.status, run.told())
    return f"{len(ROWS) + 1} files"


def doubtful(around):
    for lines, told in DOUBTS:
        run, watch = scanned(around, ["\n".join(lines).encode()])
        if told:
            text = "cf: %s, line %d: these %d bytes are watched as a script, and look like %s\n" % (watch, *told)
        else:
            text = ""
        wanted((run.status, run.told()) == (0, text), lines, run.status, run.told())
    return f"{len(DOUBTS)} files"


def fronts(around):
    whole = b"".join(records((SEED, BLOCKS)))
    rows = (
        (bytes.fromhex("f9beb4d9") + whole[4:], "begins as a file of blocks of mainnet"),
        (bytes.fromhex("0a03cf40") + whole[4:], "begins as a file of blocks of signet"),
        (bytes(a ^ b for a, b in zip(whole, bytes(range(1, 9)) * len(whole))), "-blocksxor=0"),
        (b"#!/bin/sh\n", "-blocksxor=0"),
    )
    for data, text in rows:
        blocks = written(around.folder, "blocks", [data])
        run, _ = scanned(around, [PAID.encode()], blocks)
        lines = run.told().splitlines()
        wanted(run.status == 3 and len(lines) == 2 and text in lines[1], data[:8], run.status, lines)
    later = written(around.folder, "blocks", [whole, bytes.fromhex("f9beb4d9"), whole[4:]])
    run, _ = scanned(around, [PAID.encode()], later)
    wanted(run.status == 3 and len(run.told().splitlines()) == 1, run.status, run.told())
    return f"{len(rows) + 1} files"


def outputs(around):
    ends = os.pipe()
    os.close(ends[0])
    for to, reason in ((ends[1], "Broken pipe"), (os.open("/dev/full", os.O_WRONLY), "No space left on device")):
        for words in ([around.program, "scan", around.blocks, around.watch["paid"]], [around.program, "--help"]):
            err = os.path.join(around.folder, "err")
            new = os.O_WRONLY | os.O_CREAT | os.O_TRUNC
            actions = [(os.POSIX_SPAWN_DUP2, to, 1), (os.POSIX_SPAWN_OPEN, 2, err, new, 0o600)]
            pid = os.posix_spawn(words[0], words, os.environ, file_actions=actions)
            status = os.waitstatus_to_exitcode(os.waitpid(pid, 0)[1])
            with open(err, encoding="utf-8") as file:
                told = file.read()
            wanted(status == 5 and told.startswith("cf: the text could not be written: " + reason), status, told)
        os.close(to)
    return "status 5, and the system's reason"


def ports(around):
    run = Run([around.program, "sync", around.watch["paid"], "localhost"]).join()
    wanted(run.status == 6 and "regtest's is 18444, as in localhost:18444\n" in run.told(), run.status, run.told())
    run = Run([around.program, "sync", around.watch["paid"], "127.0.0.1:1"]).join()
    wanted(run.status == 6 and "18444" not in run.told(), run.status, run.told())
    return "it is told where there is none"


def on_terminal(words):
    """What a call writes on a terminal that is its standard error, and its status."""
    ours, theirs = pty.openpty()
    pid = os.posix_spawn(words[0], words, os.environ, file_actions=[
        (os.POSIX_SPAWN_OPEN, 1, "/dev/null", os.O_WRONLY, 0), (os.POSIX_SPAWN_DUP2, theirs, 2)])
    os.close(theirs)
    told = b""
    try:
        while piece := os.read(ours, 4096):
            told += piece
    except OSError:
        pass
    os.close(ours)
    return told.decode(), os.waitstatus_to_exitcode(os.waitpid(pid, 0)[1])


def progress(around):
    blocks = written(around.folder, "long", records((SEED, LONG)))
    words = [around.program, "scan", blocks, around.watch["paid"]]
    start = time.monotonic()
    told, status = on_terminal(words)
    seconds = time.monotonic() - start
    lines = re.findall(r"\rcf: (\d+) of (\d+) MB, (\d+) %", told)
    wanted(status == 0, status, told)
    wanted(re.fullmatch(r"(\rcf: \d+ of \d+ MB, \d+ %)*(\r *\r)?", told), "it tells", told)
    wanted(len(lines) <= seconds, len(lines), "lines in", seconds)
    parts = [int(line[2]) for line in lines]
    wanted(parts == sorted(parts) and all(part <= 100 for part in parts), parts)
    wanted(lines or seconds < 1.5, "it tells nothing in", seconds)
    run = Run(words).join()
    wanted((run.status, run.told()) == (0, ""), run.status, run.told())
    return f"{len(lines)} lines in {seconds:.1f} seconds, and none where it is no terminal"


def working(around):
    told = []
    for words, work in ((["make", str(SEED), str(MADE), os.path.join(around.folder, "long")], "making blocks"),
                        (["demo", str(SEED), str(PLAYED)], "making blocks and playing them")):
        start = time.monotonic()
        text, status = on_terminal([around.program, *words])
        seconds = time.monotonic() - start
        found = [int(n) for n in re.findall(rf"\rcf: {work}, (\d+) s", text)]
        wanted(status == 0, words, status, text)
        wanted(re.fullmatch(rf"((\rcf: {work}, \d+ s)+\r *\r)?", text), words, text)
        wanted(found == sorted(set(found)) and (found or seconds < 1.5), words, found, seconds)
        wanted(len(found) <= seconds and max(found, default=0) <= seconds, words, found, seconds)
        run = Run([around.program, *words]).join()
        wanted((run.status, run.told()) == (0, ""), words, run.status, run.told())
        told.append(f"{len(found)} lines in {seconds:.1f} seconds")
    return ", ".join(told) + ", and none where it is no terminal"


def soon(server, line, count=1):
    """Whether standard error has so many such lines, within a second."""
    end = time.monotonic() + SOON
    while time.monotonic() < end:
        if len(re.findall(f"^cf: {line}$", server.told(), re.M)) == count:
            return True
        time.sleep(0.01)
    return False


def serving(around, connections):
    server = Run([around.program, "serve", "--connections", str(connections), around.blocks, "127.0.0.1:0"])
    return server, address_of(server)


def name_of(peer):
    return re.escape("%s:%d" % peer.getsockname())


def comings(around):
    server, address = serving(around, 4 + CROWD)
    one = connected(address)
    wanted(soon(server, f"connection 1: from {name_of(one)}"), server.told())
    one.close()
    wanted(soon(server, "connection 1: the peer has closed it"), server.told())
    silent = [connected(address), connected(address)]
    for number, peer in enumerate(silent, 2):
        wanted(soon(server, f"connection {number}: from {name_of(peer)}"), server.told())
    wanted(soon(server, r"connection [23]: (?!from ).*", 0), server.told())
    silent[1].close()
    wanted(soon(server, "connection 3: the peer has closed it"), server.told())
    bad = connected(address)
    bad.sendall(bytes(24))
    wanted(soon(server, f"connection 4: from {name_of(bad)}"), server.told())
    wanted(soon(server, "connection 4: what came is no frame"), server.told())
    silent[0].close()
    wanted(soon(server, "connection 2: the peer has closed it"), server.told())
    crowd = [connected(address) for _ in range(CROWD)]
    for peer in crowd:
        threading.Thread(target=peer.close).start()
    wanted(server.join().status == 0, server.status)
    lines = server.told().splitlines()[2:]
    wanted(len(lines) == 2 * (4 + CROWD), len(lines), lines)
    for number in range(1, 5 + CROWD):
        own = [line for line in lines if line.startswith(f"cf: connection {number}: ")]
        wanted(len(own) == 2 and re.fullmatch(r"cf: connection \d+: from 127\.0\.0\.1:\d+", own[0]), number, own)
    return f"{2 * (4 + CROWD)} lines, and nobody reads: " + unread(around)


def unread(around):
    """Connections to a server whose standard error is full from the start, once it serves."""
    ours, theirs = os.pipe()
    server = subprocess.Popen([around.program, "serve", "--connections", str(DEAF), around.blocks, "127.0.0.1:0"],
                              stdin=subprocess.DEVNULL, stdout=subprocess.DEVNULL, stderr=theirs)
    try:
        said = b""
        while b"cf: serving" not in said:
            said += os.read(ours, 4096)
        os.set_blocking(theirs, False)
        try:
            while True:
                os.write(theirs, bytes(1))
        except BlockingIOError:
            os.set_blocking(theirs, True)
        os.close(theirs)
        address = re.search(r"listening on (\S+)", said.decode()).group(1)
        start = time.monotonic()
        for _ in range(DEAF):
            with connected(address) as peer:
                peer.sendall(THEIR_VERSION)
                wanted(peer.recv(24), "a peer is not answered")
        seconds = time.monotonic() - start
        wanted(server.wait(timeout=20) == 0, server.returncode)
        os.close(ours)
        return f"{DEAF} connections in {seconds:.1f} seconds"
    finally:
        server.kill()
        server.wait()


CASES = (refused, doubtful, fronts, outputs, ports, progress, working, comings)


def main():
    words = argparse.ArgumentParser()
    words.add_argument("--program", default=os.path.join(ROOT, ".build", "cf"))
    words.add_argument("cases", nargs="*")
    given = words.parse_args()

    def with_blocks(case):
        def run(around):
            around.blocks = written(around.folder, "made", records((SEED, BLOCKS)))
            return case(around)

        run.__name__ = case.__name__
        return run

    program = os.path.abspath(given.program)
    bad = [fails(program, with_blocks(case)) for case in CASES if not given.cases or case.__name__ in given.cases]
    return 1 if any(bad) else 0


if __name__ == "__main__":
    sys.exit(main())
