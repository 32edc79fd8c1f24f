#!/usr/bin/env python3
"""Blocks that join a server's chain and are kept in its file: `kept.py [--program PROGRAM] [CASE..]`, where PROGRAM is
`.build/cf` unless it is named, and all cases run unless some are:

    killed    blocks are brought, each is in the file once its joining is told, and the server is killed; a start serves
              all of them, and more join
    cut       the file ends in the middle of its last record, or has zeros from there on, as many as the record had or
              more: that is told, cut off, and the others are served
    other     a file that isn't cut off is left as it is: with zeros in the middle, with another magic at its end
    full      the file system has no room (one of a megabyte, in memory, in a namespace of its own: `unshare -rm`): that is
              told, the block doesn't join, the file is as it was, and once there is room the same block joins
    plain     with `--grow` alone the file stays byte for byte
    shared    a second server that is to keep blocks in the same file doesn't begin

The status is 1 where something else came.
"""
import argparse
import os
import subprocess
import struct
import sys
import tempfile
import time

from conversation import MAGIC, THEIR_VERSION, frame
from filled import Server, take
from growing import made
from load import ROOT

SEED, LOADED, MORE = 7, 20, 12
faults = []


def told(name, fine, what):
    print("    %-44s %s%s" % (name, what, "" if fine else "   FAULT"), flush=True)
    if not fine:
        faults.append(name)


def chain():
    """The records of a made chain above genesis."""
    return [MAGIC + struct.pack("<I", len(block)) + block for block in made((SEED, LOADED + MORE)).blocks[1:]]


def read(path):
    with open(path, "rb") as file:
        return file.read()


def write(path, data):
    with open(path, "wb") as file:
        file.write(data)


def brought(server, records, may_end=False):
    """Brings the blocks of records, one by one, and waits for each."""
    peer = server.peer()
    for number, record in enumerate(records):
        ping = struct.pack("<Q", number + 1)
        try:
            peer.sendall(frame("block", record[8:]) + frame("ping", ping))
            while take(peer, 1) != frame("pong", ping):
                pass
        except (SystemExit, OSError):
            if may_end:
                return False
            raise
    peer.close()
    return True


def height_of(server):
    """The height that it told as it began to serve."""
    for _ in range(200):
        for line in server.run.told().splitlines():
            if line.startswith("cf: serving "):
                return int(line.split()[2])
        time.sleep(0.05)
    return -1


def ended(program, words):
    """A server that is to end by itself."""
    return subprocess.run([program, "serve", *words], stdout=subprocess.PIPE, stderr=subprocess.PIPE, timeout=60)


KEEP = ("--grow", "--keep")


def killed(program, folder, all_records):
    file = os.path.join(folder, "killed")
    write(file, b"".join(all_records[:LOADED]))
    for begin, end in ((LOADED, LOADED + 5), (LOADED + 5, LOADED + MORE)):
        server = Server(program, file, *KEEP)
        told("served at height %d" % begin, height_of(server) == begin, str(height_of(server)))
        for number in range(begin, end):
            brought(server, all_records[number:number + 1])
            if read(file) != b"".join(all_records[:number + 1]):
                told("block %d" % (number + 1), False, "isn't in the file")
        server.stop()
        told("killed, %d blocks joined" % (end - begin), read(file) == b"".join(all_records[:end]), "the file has %d bytes" % len(read(file)))
    server = Server(program, file)
    told("served again", height_of(server) == LOADED + MORE, str(height_of(server)))
    server.stop()


def cut(program, folder, all_records):
    file = os.path.join(folder, "cut")
    whole, last = b"".join(all_records[:LOADED]), all_records[LOADED]
    tails = {
        "one byte of a record": last[:1], "its magic": last[:4], "its magic and half of its length": last[:6],
        "its first eight bytes": last[:8], "half of it": last[:len(last) // 2], "all but its last byte": last[:-1],
        "zeros": bytes(10_000), "a byte, and zeros": last[:1] + bytes(5_000), "its magic, and zeros": last[:4] + bytes(5_000),
        "half of it, and zeros for the rest": last[:len(last) // 2].ljust(len(last), b"\0"),
        "half of it, and more zeros": last[:len(last) // 2].ljust(len(last) + 70_000, b"\0"),
        "all but ten bytes, and zeros": last[:-10].ljust(len(last) + 3, b"\0"),
    }
    for name, tail in tails.items():
        write(file, whole + tail)
        server = Server(program, file, *KEEP)
        height, text = height_of(server), server.run.told()
        is_told = "was cut off, and its %d bytes are removed" % len(tail) in text
        fine = height == LOADED and is_told and read(file) == whole
        brought(server, all_records[LOADED:LOADED + 2])
        server.stop()
        fine = fine and read(file) == b"".join(all_records[:LOADED + 2])
        told(name, fine, "height %d, %s" % (height, "told" if is_told else "NOT told"))
    write(file, whole + last)
    server = Server(program, file, *KEEP)
    told("a whole record", height_of(server) == LOADED + 1 and "cut off" not in server.run.told() and read(file) == whole + last, "stays")
    server.stop()


def other(program, folder, all_records):
    file = os.path.join(folder, "other")
    whole, last = b"".join(all_records[:LOADED]), all_records[LOADED]
    broken = bytearray(last)
    broken[100] ^= 1
    for name, data in {
        "zeros in the middle": whole + bytes(100) + last,
        "another magic at its end": whole + b"\xf9\xbe\xb4\xd9" + last[4:],
        "text behind the records": whole + b"these are no blocks",
        "a last block that was changed": whole + bytes(broken),
        "a length that no record has": whole + MAGIC + struct.pack("<I", 4_000_001) + bytes(50),
    }.items():
        write(file, data)
        run = ended(program, [*KEEP, file, "127.0.0.1:0"])
        told(name, run.returncode not in (0, 1) and read(file) == data, "status %d, the file stays" % run.returncode)


def full(program, folder, all_records):
    if os.environ.get("KEPT_INSIDE") != "1":
        words = ["unshare", "-rm", sys.executable, os.path.abspath(__file__), "--program", program, "full"]
        status = subprocess.run(words, env={**os.environ, "KEPT_INSIDE": "1"}).returncode
        told("without room", status == 0, "status %d" % status)
        return
    small = os.path.join(folder, "small")
    os.mkdir(small)
    subprocess.run(["mount", "-t", "tmpfs", "-o", "size=1m", "none", small], check=True)
    file, filler = os.path.join(small, "blocks"), os.path.join(small, "filler")
    # The last page that the file has is filled, so that each further byte needs one more.
    first = b"".join(all_records[:LOADED])
    write(file, first)
    server = Server(program, file, *KEEP)
    brought(server, all_records[LOADED:LOADED + 1])
    before = read(file)
    try:
        with open(filler, "wb", buffering=0) as out:
            while True:
                out.write(bytes(4096))
    except OSError:
        pass
    joined, number = 0, LOADED + 1
    # What has room in the last page may still join.
    while number < LOADED + MORE and brought(server, all_records[number:number + 1], may_end=True):
        number += 1
        before = read(file)
    text = server.run.told()
    told("no room", number < LOADED + MORE and "a block could not be kept in %s: " % file in text, [line for line in text.splitlines() if "kept" in line][-1:])
    told("the file", read(file) == before == b"".join(all_records[:number]), "is whole, %d bytes" % len(read(file)))
    told("what joined", text.count("has joined") == number - LOADED, "%d blocks" % text.count("has joined"))
    os.remove(filler)
    brought(server, all_records[number:LOADED + MORE])
    told("with room again", read(file) == b"".join(all_records[:LOADED + MORE]), "%d blocks joined" % server.run.told().count("has joined"))
    server.stop()
    subprocess.run(["umount", small], check=True)


def plain(program, folder, all_records):
    file = os.path.join(folder, "plain")
    data = b"".join(all_records[:LOADED]) + bytes(100)
    write(file, data)
    server = Server(program, file, "--grow")
    brought(server, all_records[LOADED:])
    joined = server.run.told().count("has joined")
    server.stop()
    told("with --grow alone", joined == MORE and read(file) == data, "%d blocks joined, the file stays" % joined)
    run = ended(program, ["--keep", file, "127.0.0.1:0"])
    told("with --keep alone", run.returncode == 2 and b"--keep goes with --grow alone" in run.stderr, run.stderr.decode().strip())


def shared(program, folder, all_records):
    file = os.path.join(folder, "shared")
    data = b"".join(all_records[:LOADED])
    write(file, data)
    server = Server(program, file, *KEEP)
    height_of(server)
    run = ended(program, [*KEEP, file, "127.0.0.1:0"])
    told("a second server", run.returncode != 0 and read(file) == data, run.stderr.decode().strip().splitlines()[-1])
    run = ended(program, [*KEEP, folder, "127.0.0.1:0"])
    told("a folder", run.returncode != 0, run.stderr.decode().strip().splitlines()[-1])
    run = ended(program, [*KEEP, os.path.join(folder, "none"), "127.0.0.1:0"])
    told("no file", run.returncode != 0, run.stderr.decode().strip().splitlines()[-1])
    server.stop()


CASES = {"killed": killed, "cut": cut, "other": other, "full": full, "plain": plain, "shared": shared}


def main():
    parser = argparse.ArgumentParser()
    parser.add_argument("--program", default=os.path.join(ROOT, ".build", "cf"))
    parser.add_argument("cases", nargs="*", choices=[*CASES, []], default=[])
    words = parser.parse_args()
    all_records = chain()
    with tempfile.TemporaryDirectory() as folder:
        for name in words.cases or CASES:
            print(name, flush=True)
            CASES[name](words.program, folder, all_records)
    sys.exit(1 if faults else 0)


if __name__ == "__main__":
    main()
