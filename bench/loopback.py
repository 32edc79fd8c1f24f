#!/usr/bin/env python3
"""Prints rows of cf_hub_cases in which the program goes over TCP, and what each comes to. `hubs.py` prints them behind its own.

A row of the kind `cf` has a call that serves the chain of data/blocks.dat, and one that follows it over TCP. What that one writes is what a scan of every block
tells, as bench/sessions.py has it. The last of them also records the session, and a second call replays it, which writes the same. A row of the kind `ticks` waits
for two ticks, which must not tell more seconds than have passed since they were waited for.
"""
import os
import sys

BENCH = os.path.dirname(os.path.abspath(__file__))
ROOT = os.path.dirname(BENCH)
sys.path.insert(0, BENCH)
from sessions import Chain

REMARK = "# SERVING|WORDS|WATCH|BLOCKS: how each call of WORDS ends that follows what the call SERVING serves, what it writes, and whether that one ends with `Done`."
TICKS = [
    ("# ticks: whether as many seconds have passed as two ticks tell, where the one peer is silent.", None),
    ("ticks", "passed"),
    ("# The same, where nothing is taken for three seconds after the dial, which don't count.", None),
    ("ticks 3", "passed"),
]
WATCHED = ["01087551"]
CALLS = [
    ("cf serve --connections 2 f @", "cf sync w @ @"),
    ("cf serve --connections 8 f @", "cf sync --workers 1 w" + 8 * " @"),
    ("cf serve --connections 1 f @", "cf sync --record r w @;cf replay w r"),
]


def rows():
    """Rows, with what each comes to, and remarks, with nothing."""
    with open(os.path.join(ROOT, "data", "blocks.dat"), "rb") as file:
        blocks = file.read()
    chain = Chain((7, 3))
    if not all(block in blocks for block in chain.blocks[1:]):
        raise SystemExit("data/blocks.dat has another chain")
    told = "0 Done\n" + chain.history([bytes.fromhex(script) for script in WATCHED])
    yield REMARK, None
    for serving, words in CALLS:
        yield f"{serving}|{words}|{';'.join(WATCHED)};|{blocks.hex()}", told * len(words.split(";")) + "served"
    yield from TICKS


def show(rows, with_answers):
    for row, answer in rows:
        print(row)
        if with_answers and answer is not None:
            print(answer)


if __name__ == "__main__":
    show(rows(), sys.argv[1:] != ["rows"])
