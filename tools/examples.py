#!/usr/bin/env python3
"""What the pages show: each command gives what is written below it, and each link goes somewhere.

    tools/examples.py            runs the commands of the pages and of the help, and looks at the links: status 1 where something differs
    tools/examples.py --links    looks at the links alone

A command is a line of a block that begins with `$ `; a `\\` at its end continues it. What follows is all that it prints, on both outputs. A page's
commands run in their order, in a folder of their own that has data/. A server runs beside those that follow it. Of other lines that call `cf`, as
those that need a node, only the words are tried.
"""
import contextlib
import os
import re
import shlex
import shutil
import socket
import subprocess
import sys
import tempfile
import threading

sys.dont_write_bytecode = True
sys.path.insert(0, os.path.dirname(os.path.realpath(__file__)))

import texts  # noqa: E402
from crates import TOP  # noqa: E402

PAGES = ("README.md", "docs/USER.md", "docs/SERVER.md", "docs/LIBRARY.md")
LINKED = ("README.md", "CHANGELOG.md", "docs", "bench")
SECONDS = 300
USAGE = 2
CALL = re.compile(r"(?:\S*/)?cf ([a-z]+ [^-].*|[a-z]+ --.*)")
PLACE = re.compile(r"127\.0\.0\.1:(\d+)")
# A peer's port, which the system chooses.
CHOSEN = re.compile(r"(?<=: from 127\.0\.0\.1:)\d+")
LINK = re.compile(r"(?<!!)\[[^\]]*\]\(([^)\s]+)\)")


def read(name):
    with open(os.path.join(TOP, name), encoding="utf-8") as file:
        return file.read()


# The blocks of a page


def blocks_of(page):
    """The lines of each block of a page: those between fences, and those that four blanks begin."""
    block, fenced = [], False
    for line in [*page.splitlines(), ""]:
        if line.startswith("```"):
            fenced = not fenced
        elif fenced or line.startswith("    "):
            block.append(line if fenced else line[4:])
            continue
        if block:
            yield block
        block = []


def commands_of(block):
    """Each command of a block, and what is written below it."""
    found, goes_on = [], False
    for line in block:
        if goes_on:
            found[-1][0] += line.strip()
        elif line.startswith("$ "):
            found.append([line[2:], ""])
        elif found:
            found[-1][1] += f"{line}\n"
        goes_on = bool(found) and found[-1][0].endswith("\\") and not found[-1][1]
        if goes_on:
            found[-1][0] = found[-1][0][:-1]
    return found


# The runs


def free_port():
    with socket.socket() as it:
        it.bind(("127.0.0.1", 0))
        return it.getsockname()[1]


class Server:
    """A server that runs beside the commands that follow it."""

    def __init__(self, words, room, env, wanted):
        self.wanted, self.text, self.serves = wanted, "", threading.Event()
        self.run = subprocess.Popen(words, cwd=room, env=env, stdin=subprocess.DEVNULL, stdout=subprocess.PIPE, stderr=subprocess.STDOUT, text=True)
        self.reader = threading.Thread(target=self.read)
        self.reader.start()
        self.serves.wait(SECONDS)

    def read(self):
        for line in self.run.stdout:
            self.text += line
            if "serving" in line:
                self.serves.set()
        self.serves.set()

    def end(self, port):
        """All that it said. One that still waits for a peer gets one that says nothing."""
        with contextlib.suppress(subprocess.TimeoutExpired):
            self.run.wait(2)
        while self.run.poll() is None:
            with contextlib.suppress(OSError), socket.create_connection(("127.0.0.1", port), 1):
                pass
            try:
                self.run.wait(2)
            except subprocess.TimeoutExpired:
                self.run.kill()
        self.reader.join()
        return self.text


class Room:
    """A folder in which the commands of a page run."""

    def __init__(self, folder, program):
        self.folder, self.ports, self.status, self.servers = folder, {}, 0, []
        shutil.copytree(os.path.join(TOP, "data"), os.path.join(folder, "data"))
        os.symlink(program, os.path.join(folder, "cf"))
        self.env = {"PATH": f"{folder}:/usr/local/bin:/usr/bin:/bin", "HOME": folder, "TMPDIR": folder, "LANG": "C.UTF-8"}

    def own(self, text):
        """The text with a free port in the place of each that it names."""
        return PLACE.sub(lambda it: f"127.0.0.1:{self.ports.setdefault(it[1], free_port())}", text)

    def written(self, text):
        """The other way round."""
        back = {str(own): port for port, own in self.ports.items()}
        return PLACE.sub(lambda it: f"127.0.0.1:{back.get(it[1], it[1])}", text)

    def run(self, command, wanted):
        """What a command printed. Of a server nothing is known yet, and it gives None."""
        command = self.own(command)
        if re.match(r"(\./)?cf serve ", command):
            self.servers.append((command, Server(shlex.split(command), self.folder, self.env, wanted)))
            return None
        ran = subprocess.run(["bash", "-c", f"(exit {self.status}); {command}"], cwd=self.folder, env=self.env, stdin=subprocess.DEVNULL,
                             stdout=subprocess.PIPE, stderr=subprocess.STDOUT, timeout=SECONDS, check=False)
        self.status = ran.returncode
        return self.written(ran.stdout.decode("utf-8", "replace"))

    def ends(self):
        """Each server's command, what it was to say and what it said."""
        for command, server in self.servers:
            yield self.written(command), server.wanted, self.written(server.end(int(PLACE.search(command)[1])))


def mistake(name, command, wanted, came):
    return f"{name}: $ {command}\n    wanted: {wanted!r}\n    came:   {came!r}"


def judged_page(name, page, program):
    """How many commands of a page gave what it shows, and a text for each that did not."""
    passed, failed = 0, []

    def judge(command, wanted, came):
        nonlocal passed
        if CHOSEN.sub("0", wanted) == CHOSEN.sub("0", came):
            passed += 1
        else:
            failed.append(mistake(name, command, wanted, came))

    with tempfile.TemporaryDirectory(prefix="cf-examples-") as folder:
        room = Room(folder, program)
        for block in blocks_of(page):
            for command, wanted in commands_of(block):
                came = room.run(command, wanted)
                if came is not None:
                    judge(command, wanted, came)
        for end in room.ends():
            judge(*end)
    return passed, failed


def untried(page):
    """The calls of `cf` that a page shows without what they print. Those with a name in the place of a word are left out."""
    for block in blocks_of(page):
        if any(line.startswith("$ ") for line in block):
            continue
        for line in block:
            found = CALL.search(line.split("#")[0])
            if found and not re.search(r"\.\.|\[|\b[A-Z]{2,}\b", found[1]):
                yield found[1].strip()


def judged_words(name, page, program):
    """The same of calls whose words alone are tried: in an empty folder, where no file is found."""
    passed, failed = 0, []
    with tempfile.TemporaryDirectory(prefix="cf-examples-") as folder:
        for words in untried(page):
            ran = subprocess.run([program, *shlex.split(PLACE.sub("127.0.0.1:0", words) if words.startswith("serve") else words)], cwd=folder,
                                 stdin=subprocess.DEVNULL, capture_output=True, timeout=SECONDS, check=False)
            if ran.returncode == USAGE:
                failed.append(f"{name}: cf {words}: {ran.stderr.decode('utf-8', 'replace')}")
            else:
                passed += 1
    return passed, failed


def judged(program):
    """How many commands of all pages are as shown, and a text for each that isn't; and the same of their links."""
    pages = {name: read(name) for name in PAGES}
    pages |= {f"help {name}": page for name, page in texts.pages().items()}
    passed, failed = 0, []
    for name, page in pages.items():
        for judge in (judged_page, judged_words):
            good, bad = judge(name, page, program)
            passed, failed = passed + good, failed + bad
    good, bad = judged_links()
    return passed + good, failed + bad


# The links


def slug(heading):
    """The name by which a link goes to a heading."""
    text = re.sub(r"\[([^\]]*)\]\([^)]*\)", r"\1", heading).lower()
    return re.sub(r"[^\w\- ]", "", text).replace(" ", "-")


def linked_pages():
    for name in LINKED:
        path = os.path.join(TOP, name)
        if os.path.isdir(path):
            for folder, _, files in sorted(os.walk(path)):
                yield from (os.path.relpath(os.path.join(folder, file), TOP) for file in sorted(files) if file.endswith(".md"))
        else:
            yield name


def judged_links():
    """How many links of the pages go somewhere, and a text for each that doesn't."""
    passed, failed, slugs = 0, [], {}

    def slugs_of(name):
        if name not in slugs:
            slugs[name] = {slug(it) for it in re.findall(r"^#+ +(.+)$", read(name), re.MULTILINE)}
        return slugs[name]

    for name in linked_pages():
        for link in LINK.findall(read(name)):
            if re.match(r"[a-z]+:", link):
                continue
            file, _, place = link.partition("#")
            to = os.path.normpath(os.path.join(os.path.dirname(name), file)) if file else name
            if not os.path.exists(os.path.join(TOP, to)):
                failed.append(f"{name}: there is no file {link}")
            elif place and place not in slugs_of(to):
                failed.append(f"{name}: {to} has no heading for {link}")
            else:
                passed += 1
    return passed, failed


def main(words):
    if words not in ([], ["--links"]):
        print(__doc__.strip())
        return 2
    if words:
        passed, failed = judged_links()
    else:
        import testing

        passed, failed = judged(testing.program_of("cf", lambda text: print(text, file=sys.stderr)))
    print("\n".join([*failed, f"{passed} passed, {len(failed)} failed"]))
    return 1 if failed else 0


if __name__ == "__main__":
    sys.exit(main(sys.argv[1:]))
