"""A trial run of the program: `rt try` runs the sources as they stand, with checks and no proof, in a folder of its own."""
import contextlib
import os
import re
import signal
import subprocess
import sys
import tempfile

from crates import TOP

# How many of a command's first words name files that it reads.
FILES = {"replay": 2, "scan": 2, "filter": 1, "prove": 1, "check": 1}
SECONDS = "600"
# The last line of `rt try` where the program ended by itself, and what the lines before it begin with.
ENDED = re.compile(rb"run=ended status=(\d+) .*proved=no")
NOISE = re.compile(rb"(checked|interpreter|races): ")
# `rt try` calls the program so, which its own texts on a call repeat.
CALLED = re.compile(rb"(?m)^Usage: program\b")


class NotTried(Exception):
    """The program did not run to its end, and why. What `rt` told of it is kept."""

    def __init__(self, why, told=b""):
        super().__init__(why)
        self.told = told


def file_places(words):
    """The places of the words that name files to be read."""
    count, is_bare = FILES.get(words[0] if words else "", 0), False
    for place, word in enumerate(words[1:], 1):
        if word == "--" and not is_bare:
            is_bare = True
        elif count and (is_bare or word == "-" or not word.startswith("-")):
            count -= 1
            yield place


def handed_in(name, file, folder):
    """What hands a file in under a name: itself, a copy where it can be read but once, a folder for a folder, or nothing where nothing is there."""
    if os.path.isdir(file):
        return ["--data", f"{name}/inside={os.devnull}"]
    try:
        with open(file, "rb") as found:
            if os.path.isfile(file):
                return ["--data", f"{name}={os.path.abspath(file)}"]
            copy = os.path.join(folder, name)
            with open(copy, "wb") as out:
                out.write(found.read())
            return ["--data", f"{name}={copy}"]
    except (FileNotFoundError, NotADirectoryError):
        return []
    except OSError as error:
        raise NotTried(f"{file} can't be handed to the trial run: {error.strerror}") from error


def end_by_signals():
    """Makes a signal that ends this process end what it has begun as well."""
    for number in (signal.SIGTERM, signal.SIGHUP):
        if signal.getsignal(number) == signal.SIG_DFL:
            signal.signal(number, lambda number, _: sys.exit(128 + number))


def let_end(run, fault):
    """Lets `rt` end what it runs and remove its folders. An interrupt from the keyboard has reached it too, and of any other fault it is told."""
    if isinstance(fault, KeyboardInterrupt):
        with contextlib.suppress(subprocess.TimeoutExpired):
            run.wait(5)
    run.terminate()
    run.wait()


def tried(words):
    """What `rt try` wrote, told and ended with. Each file has a plain name in the run's folder, and what is told calls it as the words do."""
    names = {f"file-of-word-{place}": words[place] for place in file_places(words)}
    given = list(words)
    with tempfile.TemporaryDirectory(prefix="cf-") as folder:
        data = []
        for name, file in names.items():
            data += handed_in(name, file, folder)
            given[int(name.rpartition("-")[2])] = name
        call = ["rt", "try", "--seconds", SECONDS, *data, "--", *given]
        pipes = {"stdin": subprocess.DEVNULL, "stdout": subprocess.PIPE, "stderr": subprocess.PIPE}
        with subprocess.Popen(call, cwd=os.path.join(TOP, "crates", "cf"), **pipes) as run:
            try:
                out, told = run.communicate()
            except BaseException as fault:
                let_end(run, fault)
                raise
    if names:
        pattern = re.compile(("(" + "|".join(names) + r")(?!\d)").encode())
        told = pattern.sub(lambda found: os.fsencode(names[found[0].decode()]), told)
    return out, told, run.returncode


def run_of(words):
    """What the program wrote, told and ended with in a trial run."""
    out, told, status = tried(words)
    lines = told.splitlines(keepends=True)
    ended = ENDED.match(lines[-1]) if lines else None
    if not ended or int(ended[1]) != status:
        how = f"status {status}" if status >= 0 else f"signal {-status}"
        raise NotTried(f"the trial run gave no answer: rt try ended with {how}", told)
    del lines[-1]
    while lines and NOISE.match(lines[-1]):
        del lines[-1]
    return out, CALLED.sub(b"Usage: cf", b"".join(line for line in lines if not line.startswith(b"rt: "))), status
