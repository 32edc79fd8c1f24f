#!/usr/bin/env python3
"""Files that are written whole or not at all: `make` and a record on a disk without room, killed in the middle, beside
each other, and to what is no regular file.

    whole_files.py [--program FILE] [--kills N]

FILE is `.build/cf` unless it is named. N is how often a `make` is killed, 40 unless it is named. The disk without room
is a file system in memory of one megabyte, in a namespace of its own (`unshare -rm`), so nothing else sees it. Nothing
is dialled but a port of loopback at which nobody listens.

Each case tells what came; the status is 1 where an old file isn't as it was, a new one isn't whole, or a file beside is
left by a program that ended by itself.
"""
import argparse
import os
import resource
import signal
import stat
import subprocess
import sys
import tempfile
import time

ROOT = os.path.dirname(os.path.dirname(os.path.abspath(__file__)))
LIMIT = 60
MANY = 20_000
faults = []


def told(name, fine, what):
    print("%-34s %s%s" % (name, what, "" if fine else "   FAULT"))
    if not fine:
        faults.append(name)


def read(path):
    try:
        with open(path, "rb") as file:
            return file.read()
    except FileNotFoundError:
        return None


def run(program, words, folder, **more):
    return subprocess.run([program, *words], cwd=folder, stdout=subprocess.PIPE, stderr=subprocess.PIPE,
                          timeout=LIMIT, **more)


def make(program, folder, seed, blocks, file, **more):
    return run(program, ["make", str(seed), str(blocks), file], folder, **more)


def last_line(ended):
    lines = ended.stderr.decode().strip().splitlines()
    return "status %d, %s" % (ended.returncode, lines[-1] if lines else "nothing told")


def beside(folder, file):
    return sorted(name for name in os.listdir(folder) if name.startswith(file + "."))


def without_room(program, folder):
    """In a namespace with a small disk at the folder."""
    make(program, folder, 7, 3, "b")
    old = read(os.path.join(folder, "b"))
    ended = make(program, folder, 7, MANY, "b")
    kept = read(os.path.join(folder, "b")) == old and not beside(folder, "b")
    told("make, no room", ended.returncode == 4 and kept and b"No space" in ended.stderr,
         "%s; FILE is %s" % (last_line(ended), "as it was" if kept else "not as it was"))
    ended = make(program, folder, 7, MANY, "c")
    none = read(os.path.join(folder, "c")) is None and not beside(folder, "c")
    told("make of a new file, no room", ended.returncode == 4 and none,
         "%s; FILE is %s" % (last_line(ended), "not there" if none else "there"))
    with open(os.path.join(folder, "w"), "w"), open(os.path.join(folder, "r"), "w") as record:
        record.write("old\n")
    filler = os.open(os.path.join(folder, "filler"), os.O_WRONLY | os.O_CREAT)
    try:
        while True:
            os.write(filler, bytes(512))
    except OSError:
        os.close(filler)
    ended = run(program, ["sync", "--record", "r", "w", "127.0.0.1:1"], folder)
    kept = read(os.path.join(folder, "r")) == b"old\n" and not beside(folder, "r")
    told("a record, no room", ended.returncode == 4 and kept,
         "%s; the record is %s" % (last_line(ended), "as it was" if kept else "not as it was"))


def too_large(program, folder):
    def limit():
        resource.setrlimit(resource.RLIMIT_FSIZE, (1 << 16, 1 << 16))

    old = read(os.path.join(folder, "b"))
    for name, restore in (("a limit on files, a signal", True), ("a limit on files, an error", False)):
        ended = make(program, folder, 7, MANY, "b", preexec_fn=limit, restore_signals=restore)
        kept = read(os.path.join(folder, "b")) == old
        left = beside(folder, "b")
        told(name, ended.returncode in (4, -signal.SIGXFSZ) and kept and (restore or not left),
             "%s; FILE is %s, beside it %d" % (last_line(ended), "as it was" if kept else "not as it was", len(left)))
        for each in left:
            os.remove(os.path.join(folder, each))


def killed(program, folder, kills):
    """Killed while the file beside grows: what stands there is the old file or the new one."""
    make(program, folder, 9, MANY, "n")
    new, old = read(os.path.join(folder, "n")), read(os.path.join(folder, "b"))
    counts = {"old": 0, "new": 0, "else": 0}
    for i in range(kills):
        with open(os.path.join(folder, "b"), "wb") as file:
            file.write(old)
        child = subprocess.Popen([program, "make", "9", str(MANY), "b"], cwd=folder)
        end = time.monotonic() + LIMIT
        while not beside(folder, "b") and child.poll() is None and time.monotonic() < end:
            time.sleep(0.0002)
        time.sleep(0.0005 * (i % 40))
        child.kill()
        child.wait()
        now = read(os.path.join(folder, "b"))
        counts["old" if now == old else "new" if now == new else "else"] += 1
        for each in beside(folder, "b"):
            os.remove(os.path.join(folder, each))
    told("killed %d times" % kills, counts["else"] == 0 and counts["old"] > 0,
         "old %(old)d, new %(new)d, neither %(else)d" % counts)
    with open(os.path.join(folder, "b.new0"), "wb") as file:
        file.write(b"left by another")
    ended = make(program, folder, 9, MANY, "b")
    fine = ended.returncode == 0 and read(os.path.join(folder, "b")) == new and beside(folder, "b") == ["b.new0"]
    told("a file beside was left before", fine, "%s; it is left as it is" % last_line(ended))
    os.remove(os.path.join(folder, "b.new0"))


def side_by_side(program, folder):
    make(program, folder, 8, MANY, "o")
    wholes = [read(os.path.join(folder, name)) for name in ("n", "o")]
    children = [subprocess.Popen([program, "make", str(9 - i % 2), str(MANY), "b"], cwd=folder) for i in range(6)]
    ends = [child.wait(LIMIT) for child in children]
    fine = not any(ends) and read(os.path.join(folder, "b")) in wholes and not beside(folder, "b")
    told("six at once", fine, "FILE is whole" if fine else "ends %s" % ends)


def special(program, folder):
    make(program, folder, 7, 3, "s")
    small = read(os.path.join(folder, "s"))
    ended = make(program, folder, 7, 3, "/dev/stdout")
    told("/dev/stdout, a pipe", ended.returncode == 0 and ended.stdout == small, last_line(ended))
    with open(os.path.join(folder, "out"), "wb") as out:
        ended = subprocess.run([program, "make", "7", "3", "/dev/stdout"], cwd=folder, stdout=out,
                               stderr=subprocess.PIPE, timeout=LIMIT)
    told("/dev/stdout, a file", ended.returncode == 0 and read(os.path.join(folder, "out")) == small, last_line(ended))
    ended = make(program, folder, 7, 3, "/dev/full")
    told("/dev/full", ended.returncode == 4 and b"No space" in ended.stderr, last_line(ended))
    os.mkfifo(os.path.join(folder, "fifo"))
    reader = subprocess.Popen(["cat", "fifo"], cwd=folder, stdout=subprocess.PIPE)
    ended = make(program, folder, 7, 3, "fifo")
    came = reader.communicate(timeout=LIMIT)[0]
    told("a FIFO", ended.returncode == 0 and came == small, last_line(ended))
    with open(os.path.join(folder, "target"), "wb") as file:
        file.write(b"old")
    os.symlink("target", os.path.join(folder, "link"))
    ended = make(program, folder, 7, 3, "link")
    fine = os.path.islink(os.path.join(folder, "link")) and read(os.path.join(folder, "target")) == small
    told("a symbolic link", ended.returncode == 0 and fine, last_line(ended))
    os.chmod(os.path.join(folder, "target"), 0o640)
    ended = make(program, folder, 7, 3, "target")
    mode = stat.S_IMODE(os.stat(os.path.join(folder, "target")).st_mode)
    told("permissions", ended.returncode == 0 and mode == 0o640, "%s; %o" % (last_line(ended), mode))
    if os.geteuid() != 0:
        os.chmod(os.path.join(folder, "target"), 0o440)
        ended = make(program, folder, 7, 3, "target")
        told("a file that may not be written", ended.returncode == 4, last_line(ended))
    ended = make(program, folder, 7, 3, "nowhere/b")
    told("a folder that isn't there", ended.returncode == 4 and b"No such file" in ended.stderr, last_line(ended))
    ended = make(program, folder, 7, 3, ".")
    told("a folder", ended.returncode == 4 and b"directory" in ended.stderr, last_line(ended))


def main():
    parser = argparse.ArgumentParser(description=__doc__, formatter_class=argparse.RawDescriptionHelpFormatter)
    parser.add_argument("--program", default=os.path.join(ROOT, ".build", "cf"))
    parser.add_argument("--kills", type=int, default=40)
    parser.add_argument("--in-small", help=argparse.SUPPRESS)
    asked = parser.parse_args()
    program = os.path.abspath(asked.program)
    if asked.in_small:
        subprocess.run(["mount", "-t", "tmpfs", "-o", "size=1m", "none", asked.in_small], check=True)
        without_room(program, asked.in_small)
        return 1 if faults else 0
    with tempfile.TemporaryDirectory() as folder:
        small = os.path.join(folder, "small")
        os.mkdir(small)
        sys.stdout.flush()
        ended = subprocess.run(["unshare", "-rm", sys.executable, os.path.abspath(__file__), "--program", program,
                                "--in-small", small])
        if ended.returncode != 0:
            faults.append("no room")
        make(program, folder, 7, 3, "b")
        too_large(program, folder)
        killed(program, folder, asked.kills)
        side_by_side(program, folder)
        special(program, folder)
    return 1 if faults else 0


if __name__ == "__main__":
    sys.exit(main())
