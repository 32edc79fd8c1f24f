#!/usr/bin/env python3
"""A release: the proved program of what is committed, in an archive for those who have no toolchain.

    ./dev release    makes .build/release/cf-VERSION-x86_64-linux.tar.gz, and its checksum beside it

It is refused where a file is changed or not committed, where the program isn't the one that `./dev build` has proved and built of these sources, where
it needs more than the C library, or where the documents name another version.
"""
import contextlib
import gzip
import hashlib
import io
import os
import platform
import re
import subprocess
import sys
import tarfile

sys.dont_write_bytecode = True
sys.path.insert(0, os.path.dirname(os.path.realpath(__file__)))

import crates  # noqa: E402
import texts  # noqa: E402
from crates import BUILD, PROGRAM, TOP  # noqa: E402
from manpage import manpage  # noqa: E402

FOLDER, PROVED = os.path.join(BUILD, "release"), os.path.join(BUILD, "proved")
# What every system with the GNU C library has.
SYSTEMS_OWN = ("linux-vdso", "libc.so", "libm.so", "libpthread.so", "libdl.so", "librt.so", "libgcc_s.so", "/lib64/ld-linux", "ld-linux")
FILES = ("docs/USER.md", "docs/SERVER.md", "LICENSE", "data/blocks.dat", "data/session.txt", "data/watch.txt")


class NotMade(Exception):
    """No release is made, and why."""


def told(*words):
    return subprocess.run(words, cwd=TOP, stdin=subprocess.DEVNULL, stdout=subprocess.PIPE, check=True).stdout.decode().strip()


def read(name):
    with open(os.path.join(TOP, name), "rb") as file:
        return file.read()


# What it is made of


def why_not():
    """Why no release can be made of this checkout, or nothing."""
    if told("git", "status", "--porcelain"):
        return "a file is changed or not committed: git status shows which"
    if not crates.is_current() or not kit_of(PROGRAM):
        return "the program isn't proved and built of these sources: ./dev build"
    return why_not_named(texts.version())


def note_proved(program):
    """Notes of a program that was proved and built just now its sum, and the kit by which it was proved."""
    with open(PROVED, "w", encoding="utf-8") as file:
        file.write(f"{sum_of(program)} {told('rt', 'version')}\n")


def kit_of(program):
    """The kit by which this very program was proved, or nothing."""
    with contextlib.suppress(FileNotFoundError), open(PROVED, encoding="utf-8") as file:
        noted, kit = file.read().strip().split(" ", 1)
        return " ".join(kit.split()) if noted == sum_of(program) else ""
    return ""


def why_not_named(version):
    """Why the documents don't go with this version, or nothing."""
    if f"Version {version} " not in read("README.md").decode():
        return f"README.md names another version than {version}"
    if not news(version):
        return f"CHANGELOG.md has nothing on version {version}"
    return ""


def news(version):
    """What the changelog says of a version, with its heading."""
    found = re.search(rf"^## \[?{re.escape(version)}\b.*?(?=^## |\Z)", read("CHANGELOG.md").decode(), re.MULTILINE | re.DOTALL)
    return found and found[0].strip()


def others_needed(program):
    """The libraries that a program needs, but for those of every system."""
    ran = subprocess.run(["ldd", program], stdin=subprocess.DEVNULL, capture_output=True, text=True, check=False)
    if "not a dynamic executable" in ran.stderr + ran.stdout or "statically linked" in ran.stdout:
        return []
    names = [line.split()[0] for line in ran.stdout.splitlines() if line.strip()]
    return [name for name in names if not name.startswith(SYSTEMS_OWN)]


def c_library(program):
    """The lowest version of the GNU C library that has all that a program calls."""
    with open(program, "rb") as file:
        found = re.findall(rb"GLIBC_(\d+)\.(\d+)", file.read())
    return "{}.{}".format(*max((tuple(map(int, it)) for it in found), default=(2, 2)))


def section(heading):
    """A section of README, with what its links go to in their place."""
    found = re.search(rf"^## {heading}\n(.*?)(?=^## )", read("README.md").decode(), re.MULTILINE | re.DOTALL)
    return re.sub(r"\[[^\]]*\]\(([^)#]*)[^)]*\)", r"`\1`", found[1]).strip()


def proved_page(program, commit, day, kit):
    """The page that says what was proved, by what, and how it is proved again."""
    version = texts.version()
    return f"""# What is proved of cf {version}

| | |
|---|---|
| Version | {version} |
| Day | {day} |
| Commit | {commit} |
| Proved by | {kit} |
| SHA-256 of `cf` | {sum_of(program)} |
| Needs | Linux on {platform.machine()}, the GNU C library {c_library(program)} or later |

`sha256sum -c SHA256SUMS` checks the files of this folder. Files below `docs/` and `crates/` are those of the commit.

## If a peer lies

{section("If a peer lies")}

## What you have to trust

{section("What you have to trust")}

## To prove it again

With `rt` of the same kit on the path, in a clone of the repository:

    git checkout {commit}
    ./dev build
    .build/cf --version

`./dev build` proves each of the program's crates, and links the program only then. `.ci/run` also tries wrong bodies, which the prover must refuse, and runs the tests.
"""


def read_of(path):
    with open(path, "rb") as file:
        return file.read()


def sum_of(path):
    return hashlib.sha256(read_of(path)).hexdigest()


# The archive


def files_of(program, commit, day, kit):
    """What the archive holds: the name, the mode and the bytes of each file."""
    files = {"cf": (0o755, read_of(program)), "cf.1": (0o644, manpage(day).encode())}
    files |= {name.removeprefix("docs/"): (0o644, read(name)) for name in FILES}
    files["NEWS.md"] = (0o644, f"{news(texts.version())}\n".encode())
    files["PROVED.md"] = (0o644, proved_page(program, commit, day, kit).encode())
    sums = "".join(f"{hashlib.sha256(text).hexdigest()}  {name}\n" for name, (_, text) in sorted(files.items()))
    return files | {"SHA256SUMS": (0o644, sums.encode())}


def archive(files, top, seconds):
    """The bytes of an archive of these files. The same files, name and time give the same bytes."""
    out = io.BytesIO()
    with gzip.GzipFile(fileobj=out, mode="wb", filename="", mtime=seconds) as packed, tarfile.open(fileobj=packed, mode="w", format=tarfile.USTAR_FORMAT) as tar:
        for name, (mode, text) in sorted(files.items()):
            entry = tarfile.TarInfo(f"{top}/{name}")
            entry.mode, entry.size, entry.mtime = mode, len(text), seconds
            tar.addfile(entry, io.BytesIO(text))
    return out.getvalue()


def write(program, commit, day, seconds, kit, folder=FOLDER):
    """Writes the archive and its checksum to a folder, and gives the archive's name."""
    others = others_needed(program)
    if others:
        raise NotMade(f"the program needs more than the C library: {', '.join(others)}")
    top = f"cf-{texts.version()}-{platform.machine()}-linux"
    packed = archive(files_of(program, commit, day, kit), top, seconds)
    os.makedirs(folder, exist_ok=True)
    name = f"{top}.tar.gz"
    with open(os.path.join(folder, name), "wb") as file:
        file.write(packed)
    with open(os.path.join(folder, f"{name}.sha256"), "w", encoding="ascii") as file:
        file.write(f"{hashlib.sha256(packed).hexdigest()}  {name}\n")
    return os.path.join(folder, name)


def make():
    """Makes the release of this checkout, and gives the archive's name."""
    why = why_not()
    if why:
        raise NotMade(why)
    shown = told(PROGRAM, "--version").split()[-1]
    if shown != texts.version():
        raise NotMade(f"the program says that it is {shown}")
    return write(PROGRAM, told("git", "rev-parse", "HEAD"), told("git", "show", "-s", "--format=%cs"), int(told("git", "show", "-s", "--format=%ct")),
                 kit_of(PROGRAM))
