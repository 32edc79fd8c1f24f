#!/usr/bin/env python3
"""The page docs/LIBRARY.md: each file of sources that it shows, and each line of crates.txt, is as it stands.

    tools/library.py --check    status 1, and what differs, where something does
"""
import os
import re
import sys

sys.dont_write_bytecode = True
sys.path.insert(0, os.path.dirname(os.path.realpath(__file__)))

from crates import TOP  # noqa: E402

SHOWN = re.compile(r"^`(crates/[\w/.]+)`:\n\n```rust\n(.*?)```$", re.MULTILINE | re.DOTALL)
LINE = re.compile(r"^    (cf_\w+:.*)$", re.MULTILINE)


def text(name):
    with open(os.path.join(TOP, name), encoding="utf-8") as file:
        return file.read()


def mistakes():
    page = text("docs/LIBRARY.md")
    shown = SHOWN.findall(page)
    if not shown:
        yield "docs/LIBRARY.md shows no file"
    for name, code in shown:
        if not os.path.exists(os.path.join(TOP, name)) or text(name) != code:
            yield f"docs/LIBRARY.md doesn't show {name} as it stands"
    lines = text("crates.txt").splitlines()
    for line in LINE.findall(page):
        if line not in lines:
            yield f"docs/LIBRARY.md has a line that crates.txt hasn't: {line}"


def main(words):
    if words != ["--check"]:
        print(__doc__.strip())
        return 2
    found = list(mistakes())
    print("\n".join(found), end="\n" if found else "")
    return 1 if found else 0


if __name__ == "__main__":
    sys.exit(main(sys.argv[1:]))
