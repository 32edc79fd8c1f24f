#!/usr/bin/env python3
"""The limits that the texts name: each number is that of a constant of the sources.

    tools/limits.py            prints the constants
    tools/limits.py --check    status 1, and each text that names another number than its constant has, or no longer stands, where there is one

A text is written here as it stands, with the constant's name in the place of the number: by digits alone in what the program writes, and with
commas in the documents.
"""
import os
import re
import sys

sys.dont_write_bytecode = True
sys.path.insert(0, os.path.dirname(os.path.realpath(__file__)))

from crates import TOP  # noqa: E402

CONSTANT = re.compile(r"^pub const ([A-Z_]+): (?:u8|u16|u32|u64|usize|i64) = ([^;]+);", re.MULTILINE)
TERM = re.compile(r"[A-Z_]+|[0-9][0-9_]*|[-+*]")
HELP, HELP_PAGES = "crates/cf_answers/src/own_texts.rt", "crates/cf_answers/src/pages.rt"
TEXTS = {
    HELP: [
        "from 1 to {MOST_PEERS} peers, whose longest chain",
        "with 1 to {MOST_PEERS} peers, each HOST:PORT",
        "connections (else {MOST_CONNECTIONS}) at ADDRESS",
        "N bytes of blocks at most, from 1 to {MOST_GROWTH} (else {USUAL_GROWTH})",
        "from 1 to {MOST_AT_ONCE} (else {USUAL_AT_ONCE})",
        "from 1 to {MOST_BUDGET} (else {USUAL_BUDGET})",
        "1 to {MOST_MADE}; SEED, 0 to {MOST_SEED}, says",
        "BLOCKS, 1 to {MOST_PLAYED}, blocks",
        "deliveries, from 1 to {MOST_TURNS} (else {MOST_TURNS})",
        "threads, from 1 to {MOST_WORKERS} (else {USUAL_WORKERS})",
        "waits so long, from 1 to {MOST_REDIAL}, and dials",
        "1 to {MOST_PEERS} of them, numbered from 1",
        "has passed, from 1 to {MOST_SECONDS}",
    ],
    HELP_PAGES: [
        "Dials 1 to {MOST_PEERS} peers, each HOST:PORT",
        "deliveries, from 1 to {MOST_TURNS} (else {MOST_TURNS})",
        "threads, from 1 to {MOST_WORKERS} (else {USUAL_WORKERS})",
        "waits so long, from 1 to {MOST_REDIAL}, and dials",
        "were served, from 1 to {MOST_CONNECTIONS} (else {MOST_CONNECTIONS})",
        "at a time, from 1 to {MOST_AT_ONCE} (else {USUAL_AT_ONCE})",
        "messages, from 1 to {MOST_BUDGET} (else {USUAL_BUDGET})",
        "blocks at most, from 1 to {MOST_GROWTH} (else {USUAL_GROWTH})",
        "BLOCKS, 1 to {MOST_MADE}. SEED, 0 to {MOST_SEED}, says",
        "made chain of BLOCKS, 1 to {MOST_PLAYED}, blocks",
    ],
    "README.md": ["a good chain of at most {HEIGHT_LIMIT} blocks", "over TCP, with 1 to {MOST_PEERS} peers."],
    "docs/SERVER.md": [
        "| `--connections N` | 1 to {MOST_CONNECTIONS} | {MOST_CONNECTIONS} |",
        "| `--at-once N` | 1 to {MOST_AT_ONCE} | {USUAL_AT_ONCE} |",
        "| `--budget N` | 1 to {MOST_BUDGET} | {USUAL_BUDGET} |",
        "| `--grow-bytes N` | 1 to {MOST_GROWTH} | {USUAL_GROWTH} |",
        "and the {MOST_WAITING} connections that wait",
        "in all: `--connections N`, or no end: `--endless` | {MOST_CONNECTIONS} |",
        "at a time: `--at-once N` | {USUAL_AT_ONCE} |",
        "`--budget N` megabytes of 1,048,576 bytes | {USUAL_BUDGET} |",
        "`--grow-bytes N` bytes, 1 to {MOST_GROWTH} | {USUAL_GROWTH} bytes |",
        "Until its `version` is answered | {VERSION_SECONDS} seconds",
        "its first byte to its last | {MESSAGE_SECONDS} seconds, and one more for each {BYTES_A_SECOND} bytes",
        "takes something of its answer | {WRITE_SECONDS} seconds",
        "two reads from it | {ANSWER_SECONDS} seconds, and one more for each {BYTES_A_SECOND} bytes",
        "of more than {LARGE} bytes, held",
        "in the system's queue | {MOST_WAITING} |",
    ],
    "docs/USER.md": [
        "at HEIGHT: 0 (genesis) to {MOST_HEIGHT}.",
        "over TCP, with 1 to {MOST_PEERS} peers, each HOST:PORT",
        "| `--turns N` | 1 to {MOST_TURNS} | {MOST_TURNS} |",
        "| `--workers N` | 1 to {MOST_WORKERS} | {USUAL_WORKERS} |",
        "| `--redial SECONDS` | 1 to {MOST_REDIAL} |",
        "to BLOCKS: 1 to {MOST_MADE}. SEED, 0 to {MOST_SEED}, says",
        "of BLOCKS blocks: 1 to {MOST_PLAYED}.",
        "It would stand above height {HEIGHT_LIMIT}.",
        "1 to {MOST_SECONDS} seconds have passed.",
        "The file has at most {MOST_BLOCKS} bytes. The first refused record",
        "The file has at most {MOST_WATCH} bytes",
        "the last may lack it. The file has at most {MOST_SESSION} bytes.",
        "the second may lack it. The file has at most {MOST_PROOF} bytes.",
        "`replay` and `demo` {MOST_TURNS}), and a request",
    ],
}


def constants():
    """Each public constant that is a number, by its name."""
    found = {}
    for folder, _, files in os.walk(os.path.join(TOP, "crates")):
        if os.sep + "out" in folder or not re.search(r"[/\\]src\b", folder):
            continue
        for name in files:
            if name.endswith(".rt"):
                with open(os.path.join(folder, name)) as file:
                    found.update(CONSTANT.findall(file.read()))
    return {name: value for name in found if (value := value_of(found, found[name])) is not None}


def value_of(found, text):
    """The number that an expression of numbers and other constants is, or None where it is another one."""
    parts = TERM.findall(text)
    if "".join(parts) != text.replace(" ", ""):
        return None
    words = [f"({value_of(found, found[it])})" if it in found else it.replace("_", "") for it in parts]
    return None if any("None" in it or it.isalpha() for it in words) else eval("".join(words), {"__builtins__": {}})


def mistakes():
    """Each text that doesn't stand with its constants' numbers."""
    known = constants()
    for name, texts in TEXTS.items():
        with open(os.path.join(TOP, name)) as file:
            text = " ".join(file.read().split())
        for it in texts:
            numbers = {key: str(value) if name in (HELP, HELP_PAGES) else f"{value:,}" for key, value in known.items()}
            try:
                wanted = it.format(**numbers)
            except KeyError as missing:
                yield f"{name}: there is no constant {missing}"
                continue
            if wanted not in text:
                yield f"{name}: it doesn't say “{wanted}”"


def main(words):
    if words == ["--check"]:
        found = list(mistakes())
        print("\n".join(found), end="\n" if found else "")
        return 1 if found else 0
    if words:
        print(__doc__.strip())
        return 2
    for name, value in sorted(constants().items()):
        print(f"{name:18}{value:>14,}")
    return 0


if __name__ == "__main__":
    sys.exit(main(sys.argv[1:]))
