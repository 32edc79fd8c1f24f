"""The unproved program that `./cf` runs where none is proved. It is kept below .build, under the sum of the sources and the kit that it is of.

Each state of the sources has two. The quick one is compiled with no optimisation, while its caller waits. The fast one is compiled behind the calls,
from the same module, by this file run as a program. It then takes the place of the quick one.
"""
import contextlib
import errno
import fcntl
import hashlib
import json
import os
import re
import shutil
import subprocess
import sys
import tempfile
import time

sys.dont_write_bytecode = True
sys.path.insert(0, os.path.dirname(os.path.realpath(__file__)))

import crates  # noqa: E402
import native  # noqa: E402
from trial import end_by_signals  # noqa: E402

FOLDER = os.path.join(crates.BUILD, "unproved")
# What the making of a program needs of the disk, and after how long a fast one that failed is tried again.
ROOM = 200 << 20
AGAIN = 600


OF_A_SUM = re.compile(r"([0-9a-f]{20})\.(.+)")


class NotKept(Exception):
    """No program can be kept in its folder, and why."""


def place(sum_of_all, kind):
    return os.path.join(FOLDER, f"{sum_of_all}.{kind}")


@contextlib.contextmanager
def locked(name, waits=None):
    """Holds a lock, and gives whether it is held. Where another holds it, `waits` is called, and then this waits; without it, this gives up."""
    with open(os.path.join(FOLDER, name), "w", encoding="ascii") as lock:
        try:
            fcntl.flock(lock, fcntl.LOCK_EX | fcntl.LOCK_NB)
        except BlockingIOError:
            if not waits:
                yield False
                return
            waits()
            fcntl.flock(lock, fcntl.LOCK_EX)
        yield True


# The sum


def kit_text():
    """What `rt version` tells, kept for the `rt` that told it. Where no `rt` is on the path, it is the text of the one that was there last."""
    file, kept = os.path.join(FOLDER, "kit"), None
    with contextlib.suppress(OSError, ValueError), open(file, encoding="utf-8") as found:
        kept = json.load(found)
    rt = shutil.which("rt")
    if not rt:
        return kept and kept["text"]
    stat = os.stat(rt)
    of = [os.path.realpath(rt), stat.st_size, stat.st_mtime_ns]
    if not kept or kept["of"] != of:
        text = subprocess.run([rt, "version"], stdin=subprocess.DEVNULL, stdout=subprocess.PIPE, check=False).stdout.decode(errors="replace").strip()
        kept = {"of": of, "text": text}
        new = f"{file}.{os.getpid()}"
        with contextlib.suppress(OSError):
            with open(new, "w", encoding="utf-8") as out:
                json.dump(kept, out)
            os.replace(new, file)
        remove(new)
    return kept["text"]


def sum_of_sources(crate="cf"):
    """A sum of all that a program is made of: the code of its crates, which crates they are, and the kit. Nothing where there is no kit."""
    kit = kit_text()
    if kit is None:
        return None
    found = hashlib.sha256(kit.encode())
    files = [file for name in crates.needed(crate) for file in crates.code(name)]
    for file in [os.path.join(crates.TOP, "crates.txt"), *sorted(files)]:
        with open(file, "rb") as source:
            text = source.read()
        found.update(f"\n{os.path.relpath(file, crates.TOP)} {len(text)}\n".encode() + text)
    return found.hexdigest()[:20]


# The quick program


def remove(path):
    with contextlib.suppress(OSError):
        if os.path.isdir(path):
            shutil.rmtree(path, ignore_errors=True)
        else:
            os.remove(path)


def remove_others(sum_of_all):
    """Removes what other states of the sources left, and calls that were killed. A compiler behind the calls ends when its module is gone."""
    for name in os.listdir(FOLDER):
        of = OF_A_SUM.fullmatch(name)
        if name.startswith("making-") or of and of[1] != sum_of_all:
            remove(os.path.join(FOLDER, name))


def sync_folder():
    folder = os.open(FOLDER, os.O_RDONLY)
    try:
        os.fsync(folder)
    finally:
        os.close(folder)


def need_room():
    if shutil.disk_usage(FOLDER).free < ROOM:
        raise OSError(errno.ENOSPC, f"less than {ROOM >> 20} MiB are free")


def make_quick(sum_of_all, tell):
    """Makes the quick program of the sources as they stand, and keeps the module for the fast one. Gives the sum that it is of."""
    remove_others(sum_of_all)
    while True:
        try:
            with tempfile.TemporaryDirectory(prefix="making-", dir=FOLDER) as folder:
                module, program = os.path.join(folder, "module"), os.path.join(folder, "program")
                native.lower("cf", module, tell=tell)
                before, sum_of_all = sum_of_all, sum_of_sources()
                if before != sum_of_all:
                    tell("a source has changed meanwhile, so it begins anew")
                    continue
                native.compile_to(program, module, "-O0", tell)
                for made, kind in ((f"{module}.words", "module.words"), (module, "module"), (program, "quick")):
                    os.replace(made, place(sum_of_all, kind))
        except native.NotMade:
            # The tools don't always tell that the disk is full.
            need_room()
            raise
        sync_folder()
        return sum_of_all


def standing(sum_of_all):
    """The program of these sources that stands, the fast one first: its sum and its kind."""
    return next(((sum_of_all, kind) for kind in ("fast", "quick") if os.access(place(sum_of_all, kind), os.X_OK)), None)


def kept(tell, begins):
    """The sum and the kind of the program that is kept, or else made now and kept: `begins` is called first, and `tell` tells of each step."""
    try:
        os.makedirs(FOLDER, exist_ok=True)
        sum_of_all = sum_of_sources()
        found = standing(sum_of_all)
        if found:
            return found
        if not crates.has_rt():
            raise native.NotMade("the toolchain's rt is not on the path")
        with locked("lock", waits=lambda: tell("another call makes the program, and this one waits for it")):
            sum_of_all = sum_of_sources()
            found = standing(sum_of_all)
            if not found:
                need_room()
                begins()
                found = standing(make_quick(sum_of_all, tell))
            return found
    except OSError as error:
        raise NotKept(f"no program can be kept in {FOLDER}: {error.strerror}") from error


def once(tell):
    """A program that is made for one call: an open file whose name is gone."""
    try:
        with tempfile.TemporaryDirectory(prefix="cf-") as folder:
            program = os.path.join(folder, "program")
            native.make("cf", program, "-O0", tell=tell)
            return os.open(program, os.O_RDONLY)
    except OSError as error:
        raise native.NotMade(f"the folder for temporary files can't be written to: {error.strerror}") from error


# The fast program


def why_failed(sum_of_all):
    """Why the fast program could not be made a short while ago, or nothing."""
    with contextlib.suppress(OSError):
        file = place(sum_of_all, "failed")
        if time.time() - os.stat(file).st_mtime < AGAIN:
            with open(file, encoding="utf-8", errors="replace") as found:
                return found.readline().strip()
    return ""


def waiting():
    """The sums whose modules wait to be compiled to a fast program."""
    sums = [of[1] for of in map(OF_A_SUM.fullmatch, os.listdir(FOLDER)) if of and of[2] == "module"]
    return [it for it in sums if not os.path.exists(place(it, "fast")) and not why_failed(it)]


def begin_behind():
    """Has the fast program compiled behind the calls, by a process that no terminal and no call ends. Where one is at work, it goes on."""
    with contextlib.suppress(OSError), locked("behind") as is_free:
        if not is_free or not waiting():
            return
    words = ["sh", "-c", '"$@" &', "sh", os.path.realpath("/proc/self/exe"), os.path.realpath(__file__)]
    silent = {"stdin": subprocess.DEVNULL, "stdout": subprocess.DEVNULL, "stderr": subprocess.DEVNULL}
    with contextlib.suppress(OSError):
        subprocess.run(words, cwd="/", start_new_session=True, check=False, **silent)


def make_fast(sum_of_all):
    """Makes the fast program from the module that is kept, and puts it in the place of the quick one."""
    module, failed = place(sum_of_all, "module"), place(sum_of_all, "failed")
    try:
        with tempfile.TemporaryDirectory(prefix="behind-", dir=FOLDER) as folder:
            program = os.path.join(folder, "program")
            native.compile_to(program, module, "-O2", is_wanted=lambda: os.path.exists(module))
            os.replace(program, place(sum_of_all, "fast"))
        sync_folder()
    except (OSError, native.NotMade) as why:
        if os.path.exists(module):
            with open(failed, "wb") as out:
                out.write(f"{why}\n".encode() + getattr(why, "told", b""))
        return
    for kind in ("quick", "module", "module.words", "failed"):
        remove(place(sum_of_all, kind))


def work_behind():
    os.nice(10)
    end_by_signals()
    with locked("behind") as is_held:
        if is_held:
            for name in os.listdir(FOLDER):
                if name.startswith("behind-"):
                    remove(os.path.join(FOLDER, name))
            for sum_of_all in iter(lambda: next(iter(waiting()), None), None):
                make_fast(sum_of_all)


if __name__ == "__main__":
    with contextlib.suppress(OSError):
        work_behind()
