#!/usr/bin/env python3
"""What eight peers cost beside one: `peers.py [PROGRAM]`, where PROGRAM is `.build/cf` unless it is named.

Made chains of BLOCKS blocks and of a tenth of them are served over loopback. `sync` from one peer and from eight that serve the same chain run in
turns, as often as TRIES says; of each the least time of the processor counts, user and system, and the greatest memory of that run. Once with a script
that an eighth of the blocks pays, each of which is then fetched, and once with one that none pays. Eight peers are to take at most TIMES the time and
MEMORY times the memory of one, and a block of the longer chain at most GROWTH times the time of one of the shorter chain, from one peer and from eight.

Then eight peers serve eight chains of BLOCKS blocks, one each: `sync` from all of them is to take no longer than eight calls of `sync` from one each.
Each `sync` is to end with status 0 and the text of `scan` of its first peer's chain. The script's status is 1 where one doesn't.
"""
import os
import subprocess
import sys
import tempfile

from load import PAID, ROOT, TRIES, UNPAID, Run, fails, in_turns, served, written

SEED, BLOCKS, PEERS = 7, 100_000, 8
TIMES, MEMORY, GROWTH = 2.0, 1.5, 1.3


def made(program, folder, seed, blocks):
    """A file of a made chain."""
    path = os.path.join(folder, f"{seed}-{blocks}.dat")
    subprocess.run([program, "make", str(seed), str(blocks), path], check=True)
    return path


def least(runs):
    return min(runs, key=lambda run: run.processor)


def told(what, run, blocks):
    print(f"{what}: {run.processor:.2f} s of the processor, {run.processor / blocks * 1e6:.1f} microseconds a block; {run.memory:.0f} MB", flush=True)


def asked(what, ratio, most):
    """Tells a ratio and what is asked of it."""
    print(f"{what}: {ratio:.2f} times; {most} is the most that is wanted{'' if ratio <= most else ', and this is MORE'}", flush=True)


def beside(program, what, blocks, file, watch):
    """The least runs of `sync` from one peer and from eight, and whether one ended otherwise than wanted."""
    text = Run([program, "scan", file, watch]).join().text()
    server, address = served(program, file, TRIES * (1 + PEERS))
    ones, eights = in_turns([program, "sync", watch, address], [program, "sync", watch] + [address] * PEERS)
    bad = fails(f"{what}: the server", server.join(), b"")
    for run in ones + eights:
        bad |= fails(what, run, text)
    one, eight = least(ones), least(eights)
    told(f"{what}, one peer", one, blocks)
    told(f"{what}, eight peers", eight, blocks)
    return one, eight, bad


def of_chain(program, folder, what, watch):
    """The same chain from eight peers."""
    short, long = BLOCKS // 10, BLOCKS
    few = beside(program, f"{short} blocks, {what}", short, made(program, folder, SEED, short), watch)
    many = beside(program, f"{long} blocks, {what}", long, made(program, folder, SEED, long), watch)
    one, eight, _ = many
    asked(f"{what}: time of eight peers by that of one", eight.processor / one.processor, TIMES)
    asked(f"{what}: memory of eight peers by that of one", eight.memory / one.memory, MEMORY)
    for name, lower, upper in ("one peer", few[0], one), ("eight peers", few[1], eight):
        asked(f"{what}: a block of the longer chain, {name}", upper.processor / lower.processor * short / long, GROWTH)
    return few[2] | many[2]


def of_chains(program, folder, watch):
    """Eight chains from eight peers, one each."""
    files = [made(program, folder, seed, BLOCKS) for seed in range(1, PEERS + 1)]
    servers = [served(program, file, 2) for file in files]
    bad, total = False, 0
    for file, (_, address) in zip(files, servers):
        run = Run([program, "sync", watch, address]).join()
        bad |= fails("one chain", run, Run([program, "scan", file, watch]).join().text())
        total += run.processor
    run = Run([program, "sync", watch] + [address for _, address in servers]).join()
    bad |= fails("eight chains", run, Run([program, "scan", files[0], watch]).join().text())
    told("eight chains", run, BLOCKS)
    asked("eight chains by the sum of one each", run.processor / total, 1.0)
    for server, _ in servers:
        bad |= fails("a server", server.join(), b"")
    return bad


def main():
    program = sys.argv[1] if len(sys.argv) > 1 else os.path.join(ROOT, ".build", "cf")
    with tempfile.TemporaryDirectory() as folder:
        paid = written(folder, "paid.txt", [PAID.encode()])
        unpaid = written(folder, "unpaid.txt", [UNPAID.encode()])
        bad = of_chain(program, folder, "none fetched", unpaid)
        bad |= of_chain(program, folder, "an eighth fetched", paid)
        bad |= of_chains(program, folder, unpaid)
    return bad


if __name__ == "__main__":
    sys.exit(main())
