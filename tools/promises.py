#!/usr/bin/env python3
"""Writes docs/PROMISES.md and docs/PROMISES/: what each public function of the libraries promises, from its doc comment and its clauses.

    tools/promises.py            writes the files: one for each part of crates.txt, and the page that leads to them, which begins with `run`
    tools/promises.py --check    writes nothing; status 1, and the first part that differs, where a file isn't what it would write

It reads the sources as `rt fmt` lays them out, and proves nothing: the gate proves each clause.
"""
import os
import re
import sys

sys.dont_write_bytecode = True
sys.path.insert(0, os.path.dirname(os.path.realpath(__file__)))

from crates import TOP, below, headings  # noqa: E402
from sources import Crate  # noqa: E402

PAGE, FOLDER = "docs/PROMISES.md", "PROMISES"
RUN = "cf_cli", "run"
WIDTH = 118
LONGEST_DOC = 400
HEAD = """# What each public function promises

<!-- Written by tools/promises.py from the sources. Don't edit it: change the doc comments and clauses, and run tools/promises.py. -->

Each library's public functions, methods, traits and laws, with the beginning of the doc comment and every clause: `run`, and then a page for each part of the repository, the program's first. The gate proves each function to meet each of its `ensures`, and each call in the program to meet each `requires`. A law is a function that does nothing, whose clauses are theorems.

In a clause `x.old` is what a `&mut` argument held before the call and `x.new` what it holds after it, `x.now` what a `&` argument holds, `x.entry` what was handed in, and `result` the answer. A capital letter before a dot is a type parameter, with what its trait declares. The other names are definitions, under `crates/*/specs`, or of the kit: the `ghost use` lines of the source file say whose, and `./dev believe FUNCTION` prints all that a function's clauses reach.
"""
GROUP_HEAD = """# {group}: what each public function promises

<!-- Written by tools/promises.py from the sources. Don't edit it: change the doc comments and clauses, and run tools/promises.py. -->

[PROMISES.md](../PROMISES.md) says how the clauses are read, and leads to the other parts.
"""


def beginning(doc):
    """The first sentences of a doc comment's first paragraph."""
    paragraph = re.split(r"\n\s*\n", doc)[0].replace("\n", " ").strip()
    sentences = re.split(r"(?<=[.:?!]) (?=[A-Z`])", paragraph)
    text = sentences[0]
    for sentence in sentences[1:]:
        if len(text) + 1 + len(sentence) > LONGEST_DOC:
            break
        text += " " + sentence
    return text


def folded(text, first, later):
    """A text in lines that are not too long: broken before an arrow or a cross in the last two fifths of a line, else at a blank."""
    line = first + text
    while len(line) > WIDTH:
        least = max(len(first), len(later)) + 1
        place = max(line.rfind(f" {sign} ", WIDTH * 3 // 5, WIDTH + 1) for sign in "→×")
        if place < least:
            place = line.rfind(" ", least, WIDTH + 1)
        if place < 0:
            place = line.find(" ", WIDTH)
        if place < 0:
            break
        yield line[:place]
        line = later + line[place + 1 :]
    yield line


def table(rows):
    """Lines of two columns and a text."""
    widths = [max(len(row[i]) for row in rows) for i in (0, 1)]
    for kind, name, text in rows:
        start = f"    {kind:<{widths[0]}}  " + (f"{name:<{widths[1]}}  " if widths[1] else "")
        yield from folded(text, start, " " * (len(start) + 2))


def framed(heads, rows):
    yield "```text"
    for head in heads:
        yield from folded(head, "", "    ")
    if rows:
        yield from table(rows)
    yield "```"
    yield ""


def shown(title, doc, heads, rows):
    yield f"### {title}"
    yield ""
    if doc:
        yield from folded(beginning(doc), "", "")
        yield ""
    yield from framed(heads, rows)


def rows_of(item):
    return [(clause.kind, clause.name, clause.text) for clause in item.clauses]


def ghosts_of(trait):
    """What each implementation says of its values, with the doc comment's beginning."""
    docs = {ghost: beginning(doc) for ghost, doc in trait.docs.items()}
    return [("ghost", ghost, text + (f"  -- {docs[ghost]}" if docs[ghost] else "")) for ghost, text in trait.ghosts.items()]


def items_of(crate):
    """The public items of a library, in the order of its files: pairs of the name under which an item is known, and the item."""
    for source in crate.sources:
        for item in source.items:
            block = item.block
            if item.kind == "fn" and block:
                of_trait = bool(block.trait) and not block.type
                # A method of another's trait is shown where it has clauses of its own: else those of the trait hold.
                is_shown = item.clauses if block.trait and block.type else item.is_public
                if is_shown and crate.is_exported(block.trait if of_trait else block.type, item):
                    yield f"{block.trait if of_trait else block.type}::{item.name}", item
            elif item.is_public and item.kind in ("fn", "trait", "struct", "enum") and crate.is_exported(item.name, item):
                yield item.name, item


def models_of(crate):
    """What values of a type are to the clauses, by the type's name."""
    return {block.type: block.ghosts for source in crate.sources for block in source.blocks if block.trait == "Model"}


def parts_of(crate, models):
    """The text of a library, an item a part."""
    for name, item in items_of(crate):
        block = item.block
        if item.kind == "fn":
            of = f" of {block.trait}" if block and block.type and block.trait else ""
            yield list(shown(name + of, item.doc, [item.head], rows_of(item)))
        elif item.kind == "trait":
            yield list(shown(name, item.doc, [item.head], ghosts_of(block)))
        elif name in models:
            rows = [(word, "", models[name][word]) for word in ("Value", "view", "invariant") if word in models[name]]
            yield list(shown(name, item.doc, [item.head], rows))


def group_of(heading):
    """The name of the file of the libraries below a heading of crates.txt."""
    return heading.split()[0].lower()


def table_of(libraries):
    """The table of the libraries, those of the program first."""
    rows, of, last = ["| Part | Library | Functions | Clauses | What it is |", "|---|---|---|---|---|"], headings(), ""
    for crate in libraries:
        functions = [item for _, item in items_of(crate) if item.kind == "fn"]
        clauses = sum(len(item.clauses) for item in functions)
        heading, last = of[crate.name] if of[crate.name] != last else "", of[crate.name]
        link = f"[{crate.name}]({FOLDER}/{group_of(of[crate.name])}.md#{crate.name})"
        rows.append(f"| {heading} | {link} | {len(functions)} | {clauses} | {beginning(crate.doc)} |")
    return "\n".join(rows) + "\n"


def text_of(lines):
    return "\n".join(["", *lines[:-1], ""])


def pages():
    """The parts of each page, by its name: pairs of a title and a text."""
    of = headings()
    names = sorted(reversed(below()), key=lambda name: (group_of(of[name]) == "tests", name != RUN[0]))
    libraries = [it for it in map(Crate, names) if not it.is_program and any(True for _ in items_of(it))]
    run = next(part for crate in libraries if crate.name == RUN[0] for part in parts_of(crate, models_of(crate)) if part[0] == f"### {RUN[1]}")
    found = {PAGE: [("the head", HEAD), ("run", text_of(["## `run`: all that the program does", *run[1:]])),
                    ("the table of the libraries", f"\n## The libraries\n\n{table_of(libraries)}")]}
    for crate in libraries:
        group = group_of(of[crate.name])
        parts = found.setdefault(f"docs/{FOLDER}/{group}.md", [("the head", GROUP_HEAD.format(group=group.capitalize()))])
        parts.append((crate.name, f"\n## {crate.name}\n\n" + "\n".join(folded(beginning(crate.doc), "", "")) + "\n"))
        parts += [(f"{crate.name}, {part[0].lstrip('# ')}", text_of(part)) for part in parts_of(crate, models_of(crate))]
    return found


def others(found):
    """The files of the folder that are none of these pages."""
    folder = os.path.join(TOP, "docs", FOLDER)
    names = [f"docs/{FOLDER}/{name}" for name in sorted(os.listdir(folder))] if os.path.isdir(folder) else []
    return [name for name in names if name not in found]


def first_difference(parts, found):
    """The part that is another in the text that was found, and the line there."""
    place = 0
    for title, text in parts:
        if found[place : place + len(text)] != text:
            there = found[place : place + len(text)]
            same = os.path.commonprefix([text, there])
            return title, found.count("\n", 0, place + len(same)) + 1
        place += len(text)
    return ("what follows the last part", found.count("\n", 0, place) + 1) if place < len(found) else None


def written(name):
    try:
        with open(os.path.join(TOP, name), encoding="utf-8") as file:
            return file.read()
    except FileNotFoundError:
        return ""


def write(found):
    os.makedirs(os.path.join(TOP, "docs", FOLDER), exist_ok=True)
    for name, parts in found.items():
        with open(os.path.join(TOP, name), "w", encoding="utf-8") as out:
            out.write("".join(text for _, text in parts))
    for name in others(found):
        os.remove(os.path.join(TOP, name))


def main(words):
    if words not in ([], ["--check"]):
        print("promises.py: it takes --check, or nothing", file=sys.stderr)
        return 2
    found = pages()
    if not words:
        write(found)
        return 0
    for name in others(found):
        print(f"{name} is of no part of crates.txt: run tools/promises.py", file=sys.stderr)
        return 1
    for name, parts in found.items():
        differs = first_difference(parts, written(name))
        if differs:
            print(f"{name}:{differs[1]}: {differs[0]} isn't what the sources say: run tools/promises.py", file=sys.stderr)
            return 1
    return 0


if __name__ == "__main__":
    sys.exit(main(sys.argv[1:]))
