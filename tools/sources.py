"""Reads the sources as `rt fmt` lays them out: what crates declare and promise, and the definitions that their clauses name."""
import os
import re
from dataclasses import dataclass, field

from crates import TOP

ITEM = re.compile(r"( *)((?:pub(?:\(\w+\))? )?)(?:(?:const|final|unsafe) )*(fn|trait|struct|enum|type|const|impl)\b(?:\s*(\w+))?")
CLAUSE = re.compile(r"\s*(requires|ensures)(\*?)(?: (\w+))? \{")
GHOST = re.compile(r"\s*ghost (\w+)(?:: | = )\{")
DEFINITION = re.compile(r"(?:abbrev |unfoldable |pub |record |data )+([^\s:({]+)")
OPERATOR = re.compile(r"infix[lr]? \d+ (\S+)")
IMPORT = re.compile(r"\s*(?:ghost )?use ([\w.]+?)(?:\.\{(.*)\}| as (\w+));?$")


@dataclass
class Clause:
    kind: str
    name: str
    text: str


@dataclass
class Item:
    """A function, a type, a trait or a constant; of a block's functions, `block` is the block."""

    kind: str
    name: str
    is_public: bool
    doc: str
    head: str
    file: str
    line: int
    last: int
    clauses: list = field(default_factory=list)
    block: object = None


@dataclass
class Block:
    """An `impl` or a trait: of `impl Trait for Type` both names, else one of them. Ghost items are by name."""

    head: str
    type: str
    trait: str
    file: str = ""
    ghosts: dict = field(default_factory=dict)
    docs: dict = field(default_factory=dict)
    imports: list = field(default_factory=list)


@dataclass
class Source:
    """A file of code: its items, and its imports of definitions and of items."""

    file: str
    doc: str
    items: list = field(default_factory=list)
    blocks: list = field(default_factory=list)
    imports: list = field(default_factory=list)
    uses: dict = field(default_factory=dict)
    exports: dict = field(default_factory=dict)


def text_of(file):
    with open(os.path.join(TOP, file), encoding="utf-8") as found:
        return found.read()


def closing(text, start):
    """Where the brace at `start` is closed; one in quotes is none."""
    depth, is_quoted = 0, False
    for place in range(start, len(text)):
        sign = text[place]
        if sign == '"':
            is_quoted = not is_quoted
        elif not is_quoted and sign in "{}":
            depth += 1 if sign == "{" else -1
            if depth == 0:
                return place
    raise ValueError("a brace is not closed")


def joined(lines):
    """Lines of a head as one."""
    text = " ".join(line.strip() for line in lines)
    for was, now in (("( ", "("), (", )", ")"), ("< ", "<"), (", >", ">")):
        text = text.replace(was, now)
    return re.sub(r",? *(\{\s*\}?|;)$", "", text)


def doc_above(lines, at):
    """The doc comment above a line, by paragraphs in one text."""
    found, at = [], at - 1
    while at >= 0 and re.match(r"\s*(///|#\[)", lines[at]):
        if lines[at].lstrip().startswith("///"):
            found.insert(0, lines[at].strip()[3:].strip())
        at -= 1
    return "\n".join(found)


def head_end(lines, at):
    """The line behind an item's head: that of its first clause or of its body, or the one after its end."""
    for place in range(at, len(lines)):
        if place > at and (CLAUSE.match(lines[place]) or lines[place].strip() in ("{", "{}")):
            return place
        if lines[place].endswith(("{", "{}", "{ }", ";")):
            return place + 1
    return len(lines)


def body_end(lines, at, end, indent):
    """The last line of an item whose head begins at `at` and ends before `end`."""
    if lines[end - 1].endswith((";", "{}", "{ }")):
        return end - 1
    for place in range(end, len(lines)):
        if lines[place] in (indent + "}", indent + "{}", indent + "};"):
            return place
    return at


def clauses_at(text):
    """The clauses that stand at the beginning of a text."""
    found, place = [], 0
    match = CLAUSE.match(text)
    while match:
        end = closing(text, match.end() - 1)
        found.append(Clause(match[1] + match[2], match[3] or "", " ".join(text[match.end() : end].split())))
        place = end + 1
        match = CLAUSE.match(text, place)
    return found, place


def without_generics(text):
    """A text from behind the angle brackets that it begins with."""
    depth = 0
    for place, sign in enumerate(text):
        if sign == "<":
            depth += 1
        elif sign == ">" and text[place - 1] != "-":
            depth -= 1
        if depth == 0:
            return text[place + 1 :] if sign == ">" else text
    return text


def first_name(text):
    return re.match(r"[\w:&' ]*", text)[0].split("::")[-1].strip(" &'")


def block_of(head):
    """What an `impl` or a trait is for."""
    if " trait " in f" {head}":
        return Block(head, "", re.search(r"\btrait (\w+)", head)[1])
    rest = without_generics(head[len("impl") :].strip()).strip().split(" where ")[0]
    trait, mark, name = rest.partition(" for ")
    return Block(head, first_name(name if mark else trait), first_name(trait) if mark else "")


def imports_of(line):
    """An import of definitions: pairs of the name that it gives and of the path and the name that it is for, which is empty for a module."""
    match = IMPORT.match(line)
    if not match:
        return []
    if match[3]:
        return [(match[3], match[1], "")]
    found = []
    for word in match[2].split(", "):
        name, _, other = word.strip().partition(" as ")
        found.append((other or name, match[1], name))
    return found


def used_names(text):
    """The names of a Rust import, each with its path."""
    prefix, brace, rest = text.partition("{")
    if not brace:
        path, _, other = text.partition(" as ")
        return {other or path.split("::")[-1]: path}
    found, depth, word = {}, 0, ""
    for sign in rest[: rest.rindex("}")] + ",":
        depth += (sign == "{") - (sign == "}")
        if sign == "," and not depth:
            if word.strip():
                found.update(used_names(prefix + word.strip()))
            word = ""
        else:
            word += sign
    return found


def read_source(file):
    """A file of code, without its tests."""
    text = text_of(file)
    lines = re.split(r"\n#\[cfg\(test\)\]", text)[0].split("\n")
    head_doc = [line[3:].strip() for line in lines if line.startswith("//!")]
    source, block, at = Source(file, "\n".join(head_doc)), None, 0
    while at < len(lines):
        line = lines[at]
        if line.startswith(("use ", "pub use ")):
            end = next(i for i in range(at, len(lines)) if lines[i].endswith(";"))
            names = used_names(joined(lines[at : end + 1]).split("use ", 1)[1])
            (source.exports if line.startswith("pub") else source.uses).update(names)
            at = end + 1
            continue
        if line.lstrip().startswith("ghost use"):
            (block.imports if block and line.startswith(" ") else source.imports).extend(imports_of(line))
        elif block and GHOST.match(line):
            rest = "\n".join(lines[at:])
            match = GHOST.match(rest)
            block.ghosts[match[1]] = " ".join(rest[match.end() : closing(rest, match.end() - 1)].split())
            block.docs[match[1]] = doc_above(lines, at)
        elif line == "}":
            block = None
        match = ITEM.match(line)
        if not match or len(match[1]) > 4 or (match[1] and not block):
            at += 1
            continue
        end = head_end(lines, at)
        head = joined(lines[at:end])
        kind, indent = match[3], match[1]
        if kind == "impl" or kind == "trait":
            block = block_of(head)
            block.file = file
            source.blocks.append(block)
        if kind != "impl":
            own = block if indent else None
            is_public = match[2] == "pub " or bool(own and own.trait)
            found, last = [], body_end(lines, at, end, indent)
            if kind == "fn" and end < len(lines) and CLAUSE.match(lines[end]):
                rest = "\n".join(lines[end:])
                found, place = clauses_at(rest)
                if rest[place : place + 1] == ";":
                    last = end + rest.count("\n", 0, place)
            source.items.append(Item(kind, match[4], is_public, doc_above(lines, at), head, file, at + 1, last + 1, found, own))
            if kind == "trait":
                source.items[-1].block = block
            if kind == "fn":
                at = max(last, at)
                if not indent:
                    block = None
        if kind in ("impl", "trait") and lines[end - 1].endswith(("{}", "{ }")):
            block = None
        at = max(at + 1, end if kind in ("impl", "trait") else at + 1)
    return source


class Crate:
    """A crate of code: its files in the order of its modules, and what it exports by name."""

    def __init__(self, name):
        self.name = name
        self.folder = f"crates/{name}"
        self.is_program = os.path.exists(os.path.join(TOP, self.folder, "src/main.rt"))
        self.root = f"{self.folder}/src/{'main' if self.is_program else 'lib'}.rt"
        self.sources = [read_source(file) for file in self.files(self.root, f"{self.folder}/src")]
        self.exports = self.sources[0].exports

    def files(self, file, folder):
        """A file and those that its `mod` items name."""
        yield file
        for name in re.findall(r"(?m)^(?:pub(?:\(\w+\))? )?mod (\w+);", re.split(r"\n#\[cfg\(test\)\]", text_of(file))[0]):
            for below in (f"{folder}/{name}.rt", f"{folder}/{name}/mod.rt"):
                if os.path.exists(os.path.join(TOP, below)):
                    yield from self.files(below, f"{folder}/{name}")

    @property
    def doc(self):
        return self.sources[0].doc

    def is_exported(self, name, item):
        """Whether a function of a file, or a type by its name, is one that the crate exports. What is public in the root file is."""
        path, is_type = self.exports.get(name), name[0].isupper()
        if path is None or is_type:
            return path is not None or item.file == self.root
        module = os.path.relpath(item.file, f"{self.folder}/src")[: -len(".rt")].replace("/", "::")
        return path in (f"{module}::{name}", f"crate::{module}::{name}")
