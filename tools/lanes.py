"""Proves crates beside each other and links the program, each in a lane: a copy of the crates' files.

`rt` works in a crate's folder, and in those of all crates below it, while no other `rt` does. So two crates over a common one are proved beside each other
only in two copies. A library that was proved in one lane goes to every other one and to the checkout, by links, as soon as it is done. What a check kept is
moved to the lane in which its crate is proved next. Where no lane has any, `rt` looks for what other copies on this machine kept.

The lanes stay for the next build. They lie within `.git`, where there is one, since `rt ci` wants no other copy of a crate in the checkout.
"""
import contextlib
import fcntl
import os
import re
import shutil
import signal
import subprocess
import sys
import tempfile
import time

import crates
import sampling
from crates import BUILD, TOP

EVERY = 0.2
# How long it is until memory is looked at again, where it was too little, in seconds.
WAIT = 5
# A check is told of, and tells how fast the machine is, where it took so many seconds.
LONG = 5
# How long crates that are to end are waited for, in seconds.
PATIENCE = 10
# The memory that is left free, in GB, and what each further job of a check takes of what its first one does.
SPARE_GB, JOB = 0.7, 0.5
ROOM = "lane-"
OVER_KEPT = re.compile(r"^rt: (\w+): begins with what a check kept", re.MULTILINE)
# With this a command ends as soon as the process that began it has ended, however that was.
GUARD = """
import os, signal, sys
try:
    import ctypes
    ctypes.CDLL(None).prctl(1, signal.SIGKILL)
except (ImportError, AttributeError, OSError):
    pass
if os.getppid() == int(sys.argv[1]):
    os.execvp(sys.argv[2], sys.argv[2:])
"""
GUARDED = [sys.executable, "-ISc", GUARD]
# The statuses of a check that was killed, as the system does for want of memory: its own, and what `rt` makes of it.
KILLED = (-signal.SIGKILL, 256 - signal.SIGKILL, 128 + signal.SIGKILL)


class NotProved(Exception):
    """A crate could not be proved, or the program not be linked."""

    def __init__(self, crate, status, told):
        super().__init__(f"{crate} ends with status {status}")
        self.told = told


def place():
    """The folder of the lanes."""
    git = os.path.join(TOP, ".git")
    with contextlib.suppress(OSError):
        # (a checkout beside another one has a file that names its folder)
        with open(git, encoding="utf-8") as text:
            git = os.path.join(TOP, text.read().partition("gitdir:")[2].strip())
    return os.path.join(git if os.path.isdir(git) else BUILD, "lanes")


def files_of(crate):
    """The files of a crate's folder that a proof or a run may read, by their names in it, each with what changes as it does."""
    found = {}
    for folder, folders, names in os.walk(crate):
        if folder == crate:
            folders[:] = [it for it in folders if it not in ("out", "must-fail")]
        for name in names:
            path = os.path.join(folder, name)
            told = os.stat(path)
            found[os.path.relpath(path, crate)] = told.st_size, told.st_mtime_ns
    return found


def follow(source, copy):
    """Makes a copy have the crates of a source, with the files as they stand there."""
    os.makedirs(os.path.join(copy, "crates"), exist_ok=True)
    for name in ("crates.txt", "HANDLES"):
        shutil.copy2(os.path.join(source, name), copy)
    names = [name for name in os.listdir(os.path.join(source, "crates")) if os.path.isdir(os.path.join(source, "crates", name, "src"))]
    for name in os.listdir(os.path.join(copy, "crates")):
        if name not in names:
            shutil.rmtree(os.path.join(copy, "crates", name))
    for name in names:
        one, other = os.path.join(source, "crates", name), os.path.join(copy, "crates", name)
        wanted, found = files_of(one), files_of(other)
        for file in found:
            if file not in wanted:
                os.remove(os.path.join(other, file))
        for file, told in wanted.items():
            if found.get(file) != told:
                os.makedirs(os.path.dirname(os.path.join(other, file)), exist_ok=True)
                shutil.copy2(os.path.join(one, file), os.path.join(other, file))


def stamp(top, name):
    """The file by which `rt` knows of what a library was built."""
    return os.path.join(top, "crates", name, "out", "rlib", "stamp")


def text(file):
    with contextlib.suppress(OSError):
        with open(file, encoding="utf-8", errors="replace") as found:
            return found.read()
    return ""


def age(file):
    """When a file was written, or 0 where there is none."""
    try:
        return os.stat(file).st_mtime_ns
    except OSError:
        return 0


def linked(one, other):
    """Gives a file of a library a second name: it is removed before it is made anew, and never written into. Of a stamp there is a copy."""
    if os.path.basename(one) == "stamp":
        return shutil.copy2(one, other)
    try:
        os.link(one, other)
    except OSError:
        shutil.copy2(one, other)
    return other


@contextlib.contextmanager
def held(folder):
    """Whether no `rt` works in a crate's folder, which keeps others out meanwhile."""
    number = os.open(folder, os.O_RDONLY)
    try:
        fcntl.flock(number, fcntl.LOCK_EX | fcntl.LOCK_NB)
        yield True
    except BlockingIOError:
        yield False
    finally:
        os.close(number)


def share(name, one, other):
    """Gives the library of a crate to another copy, unless it has it, or an `rt` works on the crate there. Where that fails, `rt` itself looks for it."""
    new = text(stamp(one, name))
    if not new or new == text(stamp(other, name)):
        return
    source, folder = (os.path.join(top, "crates", name) for top in (one, other))
    out = os.path.join(folder, "out")
    with contextlib.suppress(OSError, shutil.Error), held(source if one == TOP else folder) as is_free:
        if not is_free:
            return
        os.makedirs(out, exist_ok=True)
        room = tempfile.mkdtemp(prefix=ROOM, dir=out)
        try:
            shutil.copytree(os.path.join(source, "out", "rlib"), os.path.join(room, "rlib"), copy_function=linked)
            shutil.rmtree(os.path.join(out, "rlib"), ignore_errors=True)
            os.rename(os.path.join(room, "rlib"), os.path.join(out, "rlib"))
        finally:
            shutil.rmtree(room, ignore_errors=True)


class Check:
    """One `rt` at work on a crate in a lane."""

    def __init__(self, name, lane, jobs, words):
        self.name, self.lane, self.jobs, self.start = name, lane, jobs, time.monotonic()
        self.log = os.path.join(BUILD, f"log.{name}")
        with open(self.log, "wb") as log:
            how = {"stdin": subprocess.DEVNULL, "stdout": log, "stderr": subprocess.STDOUT}
            self.run = subprocess.Popen([*GUARDED, str(os.getpid()), *words], cwd=os.path.join(lane, "crates", name), **how)

    def seconds(self):
        return time.monotonic() - self.start

    def told(self):
        """What `rt` has said, which goes out of its file."""
        said = text(self.log)
        with contextlib.suppress(OSError):
            os.remove(self.log)
        return said


class Build:
    """Proves crates, the last of which is the program, and then links it. `say` tells of each that is done, and what `rt` says goes to a log."""

    def __init__(self, names, log, say):
        self.names, self.log, self.say = names, log, say
        self.processors = len(os.sched_getaffinity(0))
        self.lanes = [os.path.join(place(), str(number + 1)) for number in range(min(self.processors, len(names)))]
        self.libraries, self.memory, self.stood = crates.below(), crates.proof_memory(), crates.kept()
        self.expected = {name: 1 if name in self.stood else seconds for name, seconds in crates.proof_seconds().items()}
        self.ways = crates.ways_up(names, self.expected)
        self.waiting = sorted(names, key=self.ways.get, reverse=True)
        self.running, self.alone, self.took = {}, set(), {}
        self.start, self.looks = time.monotonic(), 0
        self.begin_time = time.time_ns()
        self.sampler = sampling.Sampler(os.getpid())
        self.over_kept = {name for name in names if any(self.has_kept(top, name) for top in (TOP, *self.lanes))}

    # What a crate has in a copy

    def kept(self, top, name):
        return os.path.join(top, "crates", name, "out", "incremental")

    def has_kept(self, top, name):
        return os.path.isdir(self.kept(top, name))

    def prepare(self):
        """Makes the lanes have the files as they stand, and each library that was proved here."""
        for name in os.listdir(BUILD):
            if name.startswith("log."):
                os.remove(os.path.join(BUILD, name))
        first, others = self.lanes[0], self.lanes[1:]
        follow(TOP, first)
        for lane in others:
            follow(first, lane)
        for top in (TOP, *self.lanes):
            for name in os.listdir(os.path.join(top, "crates")):
                out = os.path.join(top, "crates", name, "out")
                for room in os.listdir(out) if os.path.isdir(out) else ():
                    if room.startswith(ROOM):
                        shutil.rmtree(os.path.join(out, room), ignore_errors=True)
        for name in self.names:
            newest = max(self.lanes, key=lambda lane, name=name: age(stamp(lane, name)))
            if name in self.stood and age(stamp(TOP, name)) > age(stamp(newest, name)):
                newest = TOP
            for lane in self.lanes:
                if lane != newest:
                    share(name, newest, lane)

    # Beginning and ending checks

    def free_memory(self):
        """The memory in GB that no process has, nor one that runs here is still to take."""
        grows = sum(max(0, self.need(name, check.jobs) - self.sampler.held(name)) for name, check in self.running.items())
        return crates.free_memory() - grows - SPARE_GB

    def need(self, name, jobs):
        return self.memory[name] * (1 + JOB * (jobs - 1))

    def begin(self):
        """Begins what is ready, as far as there are processors and memory. Where nothing runs, one is begun whatever memory there is."""
        unproved, running = {*self.waiting, *self.running}, {name: check.jobs for name, check in self.running.items()}
        ready = [name for name in self.waiting if unproved.isdisjoint(self.libraries[name])]
        lone = [name for name in ready if name in self.alone]
        if lone:
            ready = [] if running else lone[:1]
        if not ready or sum(running.values()) >= self.processors or self.alone & {*running} or time.monotonic() < self.looks:
            return
        free, taken = self.free_memory(), [*self.running]

        def fits(name, jobs):
            nonlocal free
            # (the program is the largest check, and few of its seconds go to functions)
            while jobs > 1 and (lone or crates.is_program(name) or self.need(name, jobs) > free):
                jobs -= 1
            if taken and self.need(name, jobs) > free:
                return 0
            free -= self.need(name, jobs)
            taken.append(name)
            return jobs

        for name, jobs in crates.begun(ready, running, self.processors, self.ways, fits).items():
            self.waiting.remove(name)
            self.running[name] = self.check(name, jobs)
        # What has no room is looked at again after a while, or as soon as a check has ended.
        if not {*ready} <= {*self.running}:
            self.looks = time.monotonic() + WAIT

    def check(self, name, jobs):
        used = {check.lane for check in self.running.values()}
        free = [lane for lane in self.lanes if lane not in used]
        lane = next((it for it in free if self.has_kept(it, name)), free[0])
        if not self.has_kept(lane, name):
            found = next((it for it in self.lanes if self.has_kept(it, name)), None)
            if found:
                os.makedirs(os.path.dirname(self.kept(lane, name)), exist_ok=True)
                os.rename(self.kept(found, name), self.kept(lane, name))
        words = ["rt", "run" if crates.is_program(name) else "lib", "--jobs", str(jobs)]
        return Check(name, lane, jobs, [*words, *(["--", "--version"] if crates.is_program(name) else [])])

    def end(self, check):
        """Notes what came of a check that has ended. One that was killed is made once more, with nothing beside it."""
        del self.running[check.name]
        self.looks = 0
        said, status, name = check.told(), check.run.returncode, check.name
        self.log.write(f"== {name}\n{said}dev: {check.jobs} jobs, {check.seconds():.0f} seconds, lane {os.path.basename(check.lane)}\n")
        self.log.flush()
        self.over_kept.update(OVER_KEPT.findall(said))
        if status in KILLED and name not in self.alone:
            self.say(f"{name}: its check was killed, for want of memory it seems: once more, with nothing beside it")
            self.alone.add(name)
            self.waiting.insert(0, name)
            return
        if status:
            self.log.write(f"== {name} failed ({status})\n")
            raise NotProved(name, status, said)
        self.took[name] = check.seconds(), check.jobs
        for top in (*self.lanes, TOP):
            if top != check.lane:
                share(name, check.lane, top)
        with contextlib.suppress(OSError):
            if text(stamp(TOP, name)) == text(stamp(check.lane, name)):
                # What is changed in the checkout meanwhile is newer.
                os.utime(stamp(TOP, name), ns=(self.begin_time, self.begin_time))
        self.tell(name)

    def tell(self, name):
        if name in self.stood and self.took[name][0] < LONG:
            return
        done = len(self.names) - len(self.waiting) - len(self.running)
        rest = f"some {crates.span(self.left())} left" if self.waiting or self.running else "all is done"
        self.say(f"{name} is done: {done} of {len(self.names)} crates, {crates.span(time.monotonic() - self.start)} gone, {rest}")

    def left(self):
        """How long the rest takes: by what was expected of each crate, and by as much more or less as those that are done took."""
        done = {name: it for name, it in self.took.items() if it[0] >= LONG and name not in self.stood}
        expected = sum(self.expected[name] / crates.FASTER[jobs - 1] for name, (_, jobs) in done.items())
        pace = sum(seconds for seconds, _ in done.values()) / expected if expected else 1
        seconds = {name: self.expected[name] * pace for name in self.names}
        running = {name: (check.seconds(), check.jobs) for name, check in self.running.items()}
        return crates.seconds_left([*self.waiting, *running], self.processors, running, seconds)

    def end_all(self):
        """Ends what still runs. An `rt` that ends ends all that it has begun."""
        for check in self.running.values():
            check.run.terminate()
        for check in self.running.values():
            try:
                check.run.wait(PATIENCE)
            except subprocess.TimeoutExpired:
                check.run.kill()
                check.run.wait()

    def prove(self):
        """Proves all, and links the program: gives the file of it."""
        self.sampler.start()
        try:
            program = None
            while self.waiting or self.running:
                for check in [it for it in self.running.values() if it.run.poll() is not None]:
                    self.end(check)
                    if crates.is_program(check.name):
                        program = os.path.join(check.lane, "crates", check.name, "out", check.name)
                self.begin()
                time.sleep(EVERY)
            return program
        finally:
            try:
                self.end_all()
                for check in self.running.values():
                    self.log.write(f"== {check.name}, which was stopped\n{check.told()}")
            finally:
                self.sampler.ends.set()
                self.sampler.join()
                sampling.note_times("build", self.sampler.seconds(lambda name, _: name not in self.over_kept), self.sampler.peaks)

    def summary(self):
        """What the build took, in words."""
        spent = {name: seconds for name, seconds in self.sampler.by_crate().items() if name in self.libraries}
        chain, seconds = crates.longest_chain(spent)
        yield f"wall {crates.span(time.monotonic() - self.start)}, work {crates.span(sum(self.sampler.by_crate().values()))} of processors"
        if chain:
            yield f"the longest chain {crates.span(seconds)} of a processor: {' '.join(chain)}"
        if self.sampler.peaks:
            largest = max(self.sampler.peaks, key=self.sampler.peaks.get)
            yield f"the most memory of one process {self.sampler.peaks[largest] / 1000:.1f} GB: {largest}"
