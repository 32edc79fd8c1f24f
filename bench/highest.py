#!/usr/bin/env python3
"""What the highest chain costs beside one of a fifth: `highest.py [PROGRAM]`, where PROGRAM is `.build/cf` unless it is named.

`make` writes a made chain of FEW blocks and one of MANY, the most that a chain may have. Over each `scan`, `filter` of the last block, `serve` of one
connection and `sync` from it run in turns, as often as TRIES says: `sync` once with a script that none pays, and once with one that an eighth of the
blocks pays, each of which is then fetched. Of each call the least time of the processor counts, user and system, and it is told with the seconds and the
greatest memory of that run. A block of the longer chain is to take at most GROWTH times the time of one of the shorter chain. Then `demo` plays PLAYED
blocks, the most that it may, once. Each call is to end with status 0, and each `sync` with the text of `scan`. The script's status is 1 where one
doesn't, or where a block takes longer than that. No process runs for longer than load.py allows.
"""
import os
import sys
import tempfile

from load import PAID, ROOT, UNPAID, Run, fails, served, written

SEED, TRIES, GROWTH = 7, 3, 1.3
FEW, MANY = SIZES = 100_000, 500_000
PLAYED = MANY - 2


def least(runs):
    return min(runs, key=lambda run: run.processor)


def told(what, run, blocks):
    print(
        f"{what}, {blocks} blocks: {run.seconds:.2f} s, {run.processor:.2f} s of the processor, "
        f"{run.processor / blocks * 1e6:.1f} microseconds a block; {run.memory:.0f} MB",
        flush=True,
    )


def compared(what, runs):
    """Tells the least run of each chain, and whether a block of the longer one takes longer than is wanted."""
    few, many = (least(each) for each in zip(*runs))
    told(what, few, FEW)
    told(what, many, MANY)
    ratio = many.processor / few.processor * FEW / MANY
    is_more = ratio > GROWTH
    print(f"{what}, a block: {ratio:.2f} times; {GROWTH} is the most that is wanted{', and this is MORE' if is_more else ''}", flush=True)
    return is_more


def called(what, calls, is_right):
    """Runs of a call over each chain, and whether one ended otherwise than wanted."""
    runs = [[Run(words).join() for words in calls] for _ in range(TRIES)]
    bad = False
    for each in runs:
        for blocks, run in zip(SIZES, each):
            if run.status or not is_right(run.text().decode(), blocks):
                print(f"{what}, {blocks} blocks: status {run.status}, and {run.text()[:200]!r}\n{run.told()}")
                bad = True
    return compared(what, runs) | bad, [run.text() for run in runs[0]]


def served_to(program, what, files, watch, texts):
    """Runs of `sync` from a server of each chain, and of that server; and whether one ended otherwise than wanted."""
    syncs, servers, bad = [], [], False
    for _ in range(TRIES):
        pairs = []
        for file, text in zip(files, texts):
            server, address = served(program, file, 1)
            sync = Run([program, "sync", watch, address]).join()
            bad |= fails(f"sync, {what}", sync, text) | fails(f"serve, {what}", server.join(), b"")
            pairs.append((sync, server))
        syncs.append([sync for sync, _ in pairs])
        servers.append([server for _, server in pairs])
    bad |= compared(f"sync, {what}", syncs)
    return compared(f"serve, {what}", servers) | bad


def played(program):
    """Whether `demo` of the most blocks ends otherwise than wanted."""
    run = Run([program, "demo", str(SEED), str(PLAYED)]).join()
    told("demo", run, PLAYED)
    lines = run.text().decode().splitlines()
    if run.status == 0 and lines[:1] == [f"blocks {PLAYED}"] and len(lines) == 7:
        return False
    print(f"demo: status {run.status}, and {lines}\n{run.told()}")
    return True


def main():
    program = sys.argv[1] if len(sys.argv) > 1 else os.path.join(ROOT, ".build", "cf")
    with tempfile.TemporaryDirectory() as folder:
        paid = written(folder, "paid.txt", [PAID.encode()])
        unpaid = written(folder, "unpaid.txt", [UNPAID.encode()])
        files = [os.path.join(folder, f"{blocks}.dat") for blocks in SIZES]
        making = [[program, "make", str(SEED), str(blocks), file] for blocks, file in zip(SIZES, files)]
        bad, _ = called("make", making, lambda text, blocks: text == "")
        last = [[program, "filter", file, str(blocks)] for blocks, file in zip(SIZES, files)]
        bad |= called("filter", last, lambda text, blocks: [line.split()[0] for line in text.splitlines()] == ["block", "filter", "header"])[0]
        for what, watch in ("none fetched", unpaid), ("an eighth fetched", paid):
            scans = [[program, "scan", file, watch] for file in files]
            is_slow, texts = called(f"scan, {what}", scans, lambda text, blocks: text.splitlines()[-1].startswith(f"synced {blocks} "))
            bad |= is_slow | served_to(program, what, files, watch, texts)
    return bad | played(program)


if __name__ == "__main__":
    sys.exit(main())
