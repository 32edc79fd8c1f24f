#!/usr/bin/env python3
"""What the contract of a function reaches: definitions of crates/*/specs, and the types and constants that the code declares, transitively.

    tools/definitions.py --check    status 1, and each file of specs that has definitions and doesn't begin with its mark, and each definition of a machine
                                    that the contract of `run` reaches, where there is one

A file of specs begins with its mark: `-- statement:` where its definitions are those that a promise is made of, and `-- machine:` where they say what a
machine keeps between two calls, or speak of its fields. `./dev believe` shows both.
"""
import os
import re
import sys
from dataclasses import dataclass, field

sys.dont_write_bytecode = True
sys.path.insert(0, os.path.dirname(os.path.realpath(__file__)))

from crates import TOP, below  # noqa: E402
from sources import DEFINITION, OPERATOR, Crate, imports_of, text_of  # noqa: E402

TOKEN = re.compile(r"[(){}\[\];,λ]|[^\s(){}\[\];,λ]+")
OPENING, CLOSED = "({[", ")}]"
PART = re.compile(r"Rattle\.(\w+)\.specs(?:\.(.+))?")
MARK = re.compile(r"-- (statement|machine): \S")


class NotFound(Exception):
    """No public function and no definition has the name, or several have it."""


@dataclass
class Definition:
    """A definition, or a type, trait or constant of the code, with its lines and the scope in which its text is read."""

    name: str
    file: str
    first: int
    last: int
    text: str
    scope: object
    kind: str = "definition"


@dataclass
class Scope:
    """What names mean in a file: its own definitions, and what it imports, each as the path and the name there. A module has no name."""

    crate: str
    own: dict = field(default_factory=dict)
    imports: dict = field(default_factory=dict)
    source: object = None


def definitions_in(crate, file):
    """The definitions of a file of specs: each from the comment above it to its last line."""
    lines = text_of(file).split("\n")
    scope, starts = Scope(crate), []
    for at, line in enumerate(lines):
        if line.startswith("use "):
            scope.imports.update({name: (path, inner) for name, path, inner in imports_of(line)})
        found = DEFINITION.match(line) or OPERATOR.match(line)
        if found and not re.match(r"pub (mod|use)\b", line):
            starts.append((at, found[1]))
    for number, (at, name) in enumerate(starts):
        first = at
        while first and lines[first - 1].startswith("--"):
            first -= 1
        last = (starts[number + 1][0] if number + 1 < len(starts) else len(lines)) - 1
        while last > at and (not lines[last].strip() or lines[last].startswith("--")):
            last -= 1
        scope.own[name] = Definition(name, file, first + 1, last + 1, "\n".join(lines[at : last + 1]), scope)
    return scope


def free_words(text):
    """The words of clauses or of a definition, but for the names that it binds where they stand: those of its patterns, of `λ`, of groups `(x y : T)`, and
    the labels and fields of records."""
    found = set()
    for part in re.split(r"\n(?=\S)", re.sub(r'--.*|"[^"]*"', "", text)):
        tokens = TOKEN.findall(part)
        found |= free_in(tokens, {name for name in pattern_of(tokens) if name[0].islower()})
    return found


def pattern_of(tokens):
    """What stands between the name and the sign `=` of an equation."""
    depth = 0
    for at, token in enumerate(tokens):
        depth += (token in OPENING) - (token in CLOSED)
        if token == "=" and not depth:
            return tokens[1:at]
    return []


def free_in(tokens, bound):
    """The words among these tokens, but for those that are bound and those that the tokens bind."""
    found, groups = set(), [bound]
    opened = []
    is_binding = False
    for at, token in enumerate(tokens):
        following = tokens[at + 1] if at + 1 < len(tokens) else ""
        if token == "λ":
            is_binding = True
        elif is_binding:
            groups[-1] |= {token.rstrip(".")}
            is_binding = not token.endswith(".")
        elif token in OPENING:
            opened.append(at)
            groups.append(set(groups[-1]))
        elif token in CLOSED and opened:
            groups.pop()
            groups[-1] |= binder(tokens[opened.pop() + 1 : at])
        elif following == ":" and tokens[at - 1] == "pub":
            groups[-1].add(token)
        elif following != "=" and token.split(".")[0] not in groups[-1]:
            found.add(token)
    return found


def binder(tokens):
    """The names that a group of tokens binds for what follows it."""
    if ":" not in tokens:
        return set()
    names = tokens[: tokens.index(":")]
    return set(names) if all(re.fullmatch(r"\w+", name) for name in names) else set()


def undeclared(kind, text):
    """The text of an item of code without its comments, its strings and what it declares itself: its fields' names, or an enum's variants. What all values
    of a type keep is left out: the checker holds it of each value that is made, so it is nothing that a reader of a contract must believe."""
    text = re.sub(r'"[^"]*"|//.*', "", text)
    text = re.sub(r"(?ms)^    ghost \w+: \{.*?\},$", "", text) if kind == "struct" else text
    text = re.sub(r"(?m)^ +(?:pub(?:\(\w+\))? )?\w+(?=:(?!:))", "", text)
    return re.sub(r"(?m)^    \w+", "", text) if kind == "enum" else text


class Repository:
    """The crates' code and specs, read where they are asked for."""

    def __init__(self):
        self.names = list(below())
        self.crates = {}
        self.modules = {}

    def crate(self, name):
        if name not in self.crates:
            self.crates[name] = Crate(name)
        return self.crates[name]

    def module(self, crate, path):
        """The scope of a module of specs, or nothing where there is none."""
        file = f"crates/{crate}/specs/{path.replace('.', '/')}.antt"
        if file not in self.modules:
            self.modules[file] = definitions_in(crate, file) if os.path.exists(os.path.join(TOP, file)) else None
        return self.modules[file]

    def at(self, path, name):
        """What a path and a name are, or what they are called where they are of the kit."""
        found = PART.match(path)
        if not found or found[1] not in self.names:
            return f"{path.replace('Rattle.', '').replace('.specs.', '.')}.{name}"
        if not found[2]:
            return self.passed_on(found[1], name)
        crate, parts = found[1], found[2].split(".")
        if parts[0] == "declared":
            return self.declared(crate, parts[1:], name)
        for count in range(len(parts), 0, -1):
            scope = self.module(crate, ".".join(parts[:count]))
            if scope:
                return scope.own.get(parts[count] if count < len(parts) else name)
        return None

    def passed_on(self, crate, name):
        """What a crate passes on under this name, by a line of its specs/Lib.antt."""
        for line in text_of(f"crates/{crate}/specs/Lib.antt").split("\n"):
            for given, path, inner in imports_of(line.removeprefix("pub ")) if line.startswith("pub use ") else ():
                if given == name:
                    return self.at(path, inner)
        return None

    def declared(self, crate, parts, name):
        """A type or a constant that the code declares: the first name of a type in a path, or the name itself."""
        types = [part for part in parts if part[0].isupper() and not part.startswith("The")]
        return self.item(crate, types[0] if types else name)

    def item(self, crate, name):
        """A type, a trait or a constant of a crate's code. It is read by what its values are to clauses, where that is said, and else by its fields."""
        for source in self.crate(crate).sources:
            for item in source.items:
                if item.name == name and item.kind in ("struct", "enum", "trait", "const", "type"):
                    return self.of_code(crate, source, item)
        path = self.crate(crate).exports.get(name, "")
        return self.item(path.split("::")[0], name) if path.split("::")[0] in self.names else None

    def of_code(self, crate, source, item):
        key = item.file, item.line
        if key not in self.modules:
            text = undeclared(item.kind, "\n".join(text_of(item.file).split("\n")[item.line - 1 : item.last]))
            scope = self.scope_of(crate, source)
            for block in source.blocks:
                if (block.trait, block.type) in (("Model", item.name), (item.name, "")):
                    text = "\n".join(said for name, said in block.ghosts.items() if name != "invariant")
                    scope.imports.update({name: (path, inner) for name, path, inner in block.imports})
            self.modules[key] = Definition(item.name, item.file, item.line, item.last, text, scope, item.kind)
        return self.modules[key]

    def scope_of(self, crate, source):
        scope = Scope(crate, source=source)
        scope.imports.update({name: (path, inner) for name, path, inner in source.imports})
        return scope

    def of_rust(self, scope, name):
        """What a name is by the imports and the items of a file of code."""
        path = scope.source.uses.get(name, "")
        first, last = path.split("::")[0], path.split("::")[-1]
        if first == "crate" or not path:
            return self.item(scope.crate, last or name)
        return self.item(first, last) if first in self.names else None

    def named(self, scope, word):
        """What a word of a clause or a definition names, where it names one."""
        head, _, rest = word.partition(".")
        if head in scope.own:
            return scope.own[head]
        if head in scope.imports:
            path, name = scope.imports[head]
            return self.at(path, name or rest.split(".")[0])
        if scope.source and head[:1].isupper():
            return self.of_rust(scope, head)
        return None

    def reached(self, scope, text):
        """What a text names in a scope. An operator is named by the signs between its places."""
        words = free_words(text)
        for name in {**scope.own, **scope.imports}:
            signs = [sign for sign in name.split("◌") if sign]
            if "◌" in name and all(sign in words for sign in signs):
                words.add(name)
        for word in sorted(words):
            found = self.named(scope, word)
            if found is not None:
                yield found


def spec_files(crate):
    for folder, _, files in sorted(os.walk(os.path.join(TOP, "crates", crate, "specs"))):
        for file in sorted(files):
            if file.endswith(".antt"):
                yield os.path.relpath(os.path.join(folder, file), TOP)


def mark_of(file):
    """What a file of specs says that it is, or nothing."""
    found = MARK.match(text_of(file))
    return found[1] if found else ""


def unmarked():
    """The files of specs that have no mark, but for those that only name modules and those that are made by the toolchain."""
    for crate in below():
        for file in spec_files(crate):
            is_made = file.startswith(f"crates/{crate}/specs/declared/")
            if not is_made and not mark_of(file) and definitions_in(crate, file).own:
                yield file


def machines_that_run_reaches():
    """The definitions in files of machines that the contract of `run` reaches: there should be none."""
    repository = Repository()
    _, named = named_once(repository, "cf_cli::run")
    found, _ = reach_of(repository, named)
    return [it for it in found if it.kind == "definition" and mark_of(it.file) == "machine"]


def definitions_named(repository, name):
    """The definitions of that name, which may have its crate before it."""
    wanted, found = name.split("::"), []
    for crate in repository.names:
        for file in spec_files(crate) if wanted[0] in (crate, wanted[-1]) else ():
            path = file[len(f"crates/{crate}/specs/") : -len(".antt")].replace("/", ".")
            found += [it for it in [repository.module(crate, path).own.get(wanted[-1])] if it]
    return found


def functions_named(repository, name):
    """The public functions of that name, each with the crate, the source and the whole name. One that is no method goes before those that are."""
    wanted, found = name.split("::"), []
    for crate in repository.names:
        if len(wanted) > 1 and wanted[0] in repository.names and wanted[0] != crate:
            continue
        for source in repository.crate(crate).sources:
            for item in source.items:
                block = item.block
                of = [crate, *([block.type or block.trait] if block else []), item.name]
                if item.kind == "fn" and item.is_public and of[-1] == wanted[-1] and all(part in of for part in wanted):
                    found.append((crate, source, item, "::".join(of)))
    return [it for it in found if not it[2].block] or found


def named_once(repository, name):
    """The lines that say what a name is, and what it names at once: by a function's clauses, or itself where it is a definition."""
    functions = functions_named(repository, name)
    if len(functions) == 1:
        crate, source, item, full = functions[0]
        told = f"{full}, {item.file}:{item.line}: {counted(len(item.clauses), 'clause')}"
        return told, words_of(repository, crate, source, item)
    found = [] if functions else definitions_named(repository, name)
    if len(found) == 1:
        return f"{found[0].name}, {found[0].file}:{found[0].first}", found
    every = sorted([it[3] for it in functions] + [f"{it.scope.crate}::{it.name} ({it.file})" for it in found])
    raise NotFound(f"{name} may be any of {', '.join(every)}" if every else f"no public function and no definition is named {name}")


def words_of(repository, crate, source, item):
    """What the clauses of a function, and the types that it takes and gives, name."""
    scope = repository.scope_of(crate, source)
    if item.block:
        scope.imports.update({name: (path, inner) for name, path, inner in item.block.imports})
    types = re.findall(r"\b[A-Z]\w*", item.head + (" " + item.block.head if item.block else ""))
    words = "\n".join([*(clause.text for clause in item.clauses), *types])
    return list(repository.reached(scope, words))


def reach_of(repository, named):
    """What these reach: definitions and items of code, and the names that are of the kit."""
    seen, kit, waiting = {}, set(), list(named)
    while waiting:
        found = waiting.pop()
        if isinstance(found, str):
            kit.add(found)
        elif (found.file, found.first) not in seen:
            seen[found.file, found.first] = found
            waiting += repository.reached(found.scope, found.text)
    return [seen[key] for key in sorted(seen)], kit


def chain_to(repository, named, name):
    """A shortest chain from one of these to what has a name, which may have its crate before it: each names the next. It is empty where they don't reach it."""
    crate, _, last = name.rpartition("::")
    seen, chains = set(), [[it] for it in named]
    for chain in chains:
        it = chain[-1]
        is_kit = isinstance(it, str)
        key = it if is_kit else (it.file, it.first)
        if key in seen:
            continue
        seen.add(key)
        if (it.rpartition(".")[2] if is_kit else it.name) == last and crate in ("", it.split(".")[0] if is_kit else it.scope.crate):
            return chain
        chains += [] if is_kit else [[*chain, found] for found in repository.reached(it.scope, it.text)]
    return []


def report_chain(name, goal):
    """The lines of a shortest chain of names from a public function's contract, or from a definition, to what has another name."""
    repository = Repository()
    told, named = named_once(repository, name)
    chain = chain_to(repository, named, goal)
    if not chain:
        raise NotFound(f"{name} reaches nothing that is named {goal}")
    yield told
    for it in chain:
        line = f"{it}, of the kit" if isinstance(it, str) else f"{it.name}, {it.file}:{it.first}"
        if line != told:
            yield f"  {line}"


def lines_of_specs():
    return sum(text_of(file).count("\n") for name in below() for file in spec_files(name))


def by_file(found, order):
    files = {}
    for it in found:
        files.setdefault(it.file, []).append(it)
    return sorted(files.items(), key=lambda it: (order.index(it[0].split("/")[1]), it[0]))


def listed(found, order):
    """Lines that list definitions by file, crate by crate from the lowest, each file with its mark."""
    for file, those in by_file(found, order):
        mark = mark_of(file) if file.endswith(".antt") else ""
        yield f"{file}: {counted(lines_in(those), 'line')}" + (f", {mark}" if mark else "")
        for it in those:
            place = f"{it.first}-{it.last}" if it.last > it.first else str(it.first)
            yield f"  {place:>9}  {it.name}" + (f", {it.kind}" if it.kind != "definition" else "")


def counted(count, word):
    return f"{count} {word}" if count == 1 else f"{count} {word}s"


def lines_in(found):
    return sum(it.last - it.first + 1 for it in found)


def report(name):
    """The lines of what the contract of a public function reaches, or a definition."""
    repository = Repository()
    told, named = named_once(repository, name)
    found, kit = reach_of(repository, named)
    specs = [it for it in found if it.kind == "definition"]
    code = [it for it in found if it.kind != "definition"]
    order, whole = repository.names, lines_of_specs()
    yield told
    yield ""
    yield "Definitions that it reaches"
    yield from listed(specs, order)
    if code:
        yield ""
        yield "Types, traits and constants of the code that these name"
        yield from listed(code, order)
    if kit:
        yield ""
        yield "Of the kit, by name"
        modules = {}
        for it in kit:
            module, _, word = it.rpartition(".")
            modules.setdefault(module, []).append(word)
        for module in sorted(modules):
            yield f"  {module}: {' '.join(sorted(modules[module]))}"
    yield ""
    files = len({it.file for it in specs})
    yield f"In all: {counted(len(specs), 'definition')} in {counted(files, 'file')}, {lines_in(specs)} of the {whole} lines of specs;"
    yield f"{len(code)} of the code's types, traits and constants, {counted(lines_in(code), 'line')}; {counted(len(kit), 'name')} of the kit."
    yield from by_marks(specs, order)


def by_marks(specs, order):
    """How many of these lines stand in files of each mark, and the files of machines."""
    of = {"statement": [], "machine": [], "": []}
    for it in specs:
        of[mark_of(it.file)].append(it)
    states, keeps = lines_in(of["statement"]), lines_in(of["machine"])
    yield f"Of these lines of specs {states} stand in files that state, and {keeps} in files of machines" + (":" if keeps else ".")
    for file, those in by_file(of["machine"], order):
        yield f"  {file}: {counted(lines_in(those), 'line')}, {' '.join(it.name for it in those)}"
    if of[""]:
        yield f"{counted(lines_in(of['']), 'line')} stand in files without a mark."


def main(words):
    if words != ["--check"]:
        print("definitions.py: it takes --check", file=sys.stderr)
        return 2
    faults = [f"{file}:1: it begins neither with `-- statement: ..` nor with `-- machine: ..`" for file in unmarked()]
    faults += [f"{it.file}:{it.first}: {it.name} is a machine's, and the contract of `run` reaches it" for it in machines_that_run_reaches()]
    for fault in faults:
        print(fault, file=sys.stderr)
    return 1 if faults else 0


if __name__ == "__main__":
    sys.exit(main(sys.argv[1:]))
