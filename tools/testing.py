"""The rows and tests of this repository, run by native programs of the sources, which are not proved."""
import contextlib
import fcntl
import os
import re
import shutil
import subprocess
import sys
import tempfile
import threading
from concurrent.futures import ThreadPoolExecutor

import native
import unproved
from crates import BUILD, TOP, at_once, below, code

# How long one program may take, in seconds. The gate gives a proved one 120.
SECONDS = 600
# How much is shown of a text of a row that fails, in characters.
SHOWN = 160
# What the runner of tests says of each of them.
TEST = re.compile(r"test (\S+) \.\.\. (\w+)")
COUNTED = re.compile(r"(\d+) passed, (\d+) failed")
# What compiling a program takes of memory, in GB.
MEMORY = 4
# With more bytes of rows than these it pays to spend more on compiling: -O1 takes three times what -O0 takes, and its program a sixtieth.
MANY = 100_000
PROGRAMS = os.path.join(BUILD, "test")


class NotRun(Exception):
    """A program did not run to its end, and why."""


def file_of(crate, name):
    return os.path.join(TOP, "crates", crate, name)


def bytes_of(crate, name):
    """What stands in a file beside a crate's src/, or nothing where there is none."""
    with contextlib.suppress(FileNotFoundError), open(file_of(crate, name), "rb") as found:
        return found.read()
    return b""


def has_rows(crate):
    """Whether it is a program of which it is written down what it prints."""
    return os.path.exists(file_of(crate, "stdout"))


def has_tests(crate):
    """Whether a file of its code has a test function."""
    for file in code(crate):
        with open(file, "rb") as text:
            if re.search(rb"(?m)^\s*#\[test\]", text.read()):
                return True
    return False


def crates_with_some():
    """The crates that have rows or tests."""
    return [crate for crate in below() if has_rows(crate) or has_tests(crate)]


# the programs


def program_of(crate, tell):
    """The native program of a crate, which is made where there is none of the sources as they stand. Its name tells of which sources it is."""
    os.makedirs(PROGRAMS, exist_ok=True)
    with open(os.path.join(PROGRAMS, f"{crate}.lock"), "wb") as lock:
        fcntl.flock(lock, fcntl.LOCK_EX)
        program = os.path.join(PROGRAMS, f"{crate}-{unproved.sum_of_sources(crate)}")
        if not os.path.exists(program):
            for file in os.listdir(PROGRAMS):
                if file.startswith(f"{crate}-"):
                    os.remove(os.path.join(PROGRAMS, file))
            tell(f"{crate} is compiled")
            is_long = len(bytes_of(crate, "stdin")) > MANY
            native.make(crate, program, level="-O1" if is_long else "-O0", tests=not has_rows(crate))
    return program


@contextlib.contextmanager
def folder_of(crate):
    """A folder with what lies where a program is run."""
    with tempfile.TemporaryDirectory(prefix="cf-test-") as room:
        data = os.path.join(room, "data")
        if os.path.isdir(file_of(crate, "data")):
            shutil.copytree(file_of(crate, "data"), data)
        else:
            os.mkdir(data)
        yield data


def run(words, folder, given=b""):
    """What a program wrote, told and ended with."""
    env = {"PATH": "/usr/local/bin:/usr/bin:/bin", "HOME": folder, "TMPDIR": folder, "LANG": "C.UTF-8"}
    try:
        ran = subprocess.run(words, cwd=folder, env=env, input=given, capture_output=True, timeout=SECONDS, check=False)
    except subprocess.TimeoutExpired as error:
        raise NotRun(f"it had not ended after {SECONDS} seconds") from error
    except OSError as error:
        raise NotRun(f"it does not start: {error.strerror}") from error
    return ran.stdout, ran.stderr, ran.returncode if ran.returncode >= 0 else 128 - ran.returncode


# rows


def parted(rows, out):
    """What was printed behind each row, which is printed first: what it comes to. None for a row that wasn't printed."""
    known, found, behind = set(rows), {}, []
    for line in out.splitlines():
        if line in known:
            behind = []
            found.setdefault(line, []).append(behind)
        else:
            behind.append(line)
    return [found[row].pop(0) if found.get(row) else None for row in rows]


def shown(lines):
    if lines is None:
        return "nothing"
    text = b" | ".join(lines).decode("utf-8", "replace")
    return text if len(text) <= SHOWN else f"{text[:SHOWN]} .."


def differing(name, wanted, came):
    return f"{name}\n    wanted: {shown(wanted)}\n    came:   {shown(came)}"


def judged_rows(rows, wanted, out):
    """How many rows passed, and a text for each that did not."""
    passed, failed = 0, []
    for row, want, came in zip(rows, parted(rows, wanted), parted(rows, out)):
        if want is not None and want == came:
            passed += not row.startswith(b"#")
        else:
            failed.append(differing(shown([row]), want, came))
    return passed, failed


def run_rows(crate, program):
    """How many rows of a program passed, and a text for each that did not. A program that reads none is one itself."""
    given, wanted, status = bytes_of(crate, "stdin"), bytes_of(crate, "stdout"), int(bytes_of(crate, "status") or 0)
    with folder_of(crate) as folder:
        out, told, ended = run([program, *bytes_of(crate, "args").decode().splitlines()], folder, given)
    rows = given.splitlines()
    passed, failed = judged_rows(rows, wanted, out)
    if ended != status:
        failed.append(f"status {ended} came, and {status} is wanted: {shown(told.splitlines()[-1:])}")
    elif out != wanted and not failed:
        failed.append(differing("what it prints", wanted.splitlines(), out.splitlines()))
    return passed + (not rows and not failed), failed


# tests


def run_tests(crate, program):
    """How many tests of a crate passed, and a text for each that did not."""
    runner = os.path.join(native.kit(), "bin", "rattle-test")
    with folder_of(crate) as folder:
        out, told, ended = run([runner, "--seconds", str(SECONDS), program], folder)
    lines = (out + told).decode("utf-8", "replace").splitlines()
    ways = [found.groups() for found in map(TEST.match, lines) if found]
    failed = [name for name, way in ways if way != "ok"]
    if not failed and (ended or not ways):
        failed.append(f"the tests ended with status {ended}: {' | '.join(lines[-3:])}")
    return sum(way == "ok" for _, way in ways), failed


def judged(crate, tell):
    """How many rows or tests of a crate passed, and a text for each that did not."""
    try:
        program = program_of(crate, tell)
        return (run_rows if has_rows(crate) else run_tests)(crate, program)
    except native.NotMade as why:
        return 0, [f"it could not be compiled: {why}\n{why.told.decode('utf-8', 'replace')[-2000:]}"]
    except NotRun as why:
        return 0, [str(why)]


def try_one(crate, tell):
    """Prints what failed of a crate, and gives how many of its rows or tests passed and how many failed."""
    passed, failed = judged(crate, tell)
    for text in failed:
        print(f"{crate}: FAILED: {text}")
    return passed, len(failed)


def try_all(names):
    """The same of several crates, beside each other, each in a process of its own: whatever ends this one ends them and their tools."""
    counts, begun, is_ended = {}, [], threading.Event()

    def try_alone(crate):
        words = [sys.executable, os.path.join(TOP, "dev"), "test", crate]
        with subprocess.Popen(words, stdin=subprocess.DEVNULL, stdout=subprocess.PIPE, text=True, errors="replace") as run:
            begun.append(run)
            *lines, last = run.stdout.read().splitlines() or [""]
        if is_ended.is_set():
            return
        counted = COUNTED.fullmatch(last)
        counts[crate] = (int(counted[1]), int(counted[2])) if counted else (0, 1)
        print("\n".join([*lines, f"{crate}: {last if counted else 'FAILED: it was stopped'}"]), flush=True)

    with ThreadPoolExecutor(at_once(MEMORY)) as pool:
        try:
            for run in [pool.submit(try_alone, crate) for crate in names]:
                run.result()
        except BaseException:
            is_ended.set()
            pool.shutdown(wait=False, cancel_futures=True)
            for run in begun:
                run.terminate()
            raise
    return tuple(map(sum, zip(*counts.values())))
