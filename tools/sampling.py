"""Processor seconds of what `rt` runs, by crate and kind of work, sampled while it runs."""
import contextlib
import datetime
import os
import re
import signal
import subprocess
import threading

from crates import BUILD, TIMES, TOP, last_times

TICK = os.sysconf("SC_CLK_TCK")
EVERY = 0.5
CRATE = re.compile(r"--crate-name\0(\w+)")
# The folders in which `rt` tries edits.
OF_EDITS = "/rt-edit"


def read(file):
    with open(file, "rb") as found:
        return found.read().decode("utf-8", "replace")


def megabytes(file, name):
    """What a line of a file of /proc says of memory, in MB."""
    try:
        return next((int(line.split()[1]) * 1024 / 1e6 for line in read(file).splitlines() if line.startswith(f"{name}:")), 0)
    except OSError:
        return 0


class Sampler(threading.Thread):
    """Looks at the processes below one, until it is told to stop."""

    def __init__(self, top):
        super().__init__(daemon=True)
        self.top = top
        self.kept = {name for name in os.listdir(os.path.join(TOP, "crates")) if os.path.isdir(os.path.join(TOP, "crates", name, "out", "incremental"))}
        self.known = {}
        self.spent = {}
        # The processes of each crate's proof that run, and the most memory in MB that one has had.
        self.provers, self.peaks = {}, {}
        self.ends = threading.Event()

    def run(self):
        while not self.ends.wait(EVERY):
            self.look()

    def look(self):
        found = {}
        for name in os.listdir("/proc"):
            if name.isdigit():
                try:
                    rest = read(f"/proc/{name}/stat").rpartition(")")[2].split()
                except OSError:
                    continue
                # The parent, the ticks of the process and of the system for it, and when it was started.
                found[int(name)] = int(rest[1]), (int(rest[11]) + int(rest[12])) / TICK, rest[19]
        provers = {}
        for pid in sorted(found):
            crate = self.note(pid, found)
            if crate and self.known.get((pid, found[pid][2]), ("", ""))[1] == "proof":
                provers.setdefault(crate, []).append(pid)
                self.peaks[crate] = max(megabytes(f"/proc/{pid}/status", "VmHWM"), self.peaks.get(crate, 0))
        self.provers = provers

    def note(self, pid, found):
        """Notes what a process has spent, where it is below the first one. Gives its crate, or nothing where it isn't below."""
        if pid == self.top:
            return "rt"
        if pid not in found or pid <= 1:
            return None
        parent, seconds, start = found[pid]
        key = pid, start
        if key not in self.known:
            above = self.note(parent, found)
            self.known[key] = above and self.work_of(pid, above)
        if self.known[key]:
            self.spent[key] = max(seconds, self.spent.get(key, 0))
            return self.known[key][0]
        return None

    def work_of(self, pid, above):
        """The crate and the kind of a process's work; what names no crate works for its parent's."""
        try:
            words, folder = read(f"/proc/{pid}/cmdline"), os.readlink(f"/proc/{pid}/cwd")
        except OSError:
            return above, "linking"
        named = CRATE.search(words)
        crate = named[1] if named else above
        if OF_EDITS in folder:
            return crate, "edits"
        if not named:
            return crate, "linking"
        if "\0--test\0" in words:
            return crate, "tests"
        return crate, "proof"

    def held(self, crate):
        """The memory in GB that the processes of a crate's proof have now. What several of them share counts once."""
        return sum(megabytes(f"/proc/{pid}/smaps_rollup", "Pss") for pid in self.provers.get(crate, ())) / 1000

    def by_crate(self):
        """The seconds by crate."""
        found = {}
        for key, seconds in list(self.spent.items()):
            crate = self.known[key][0]
            found[crate] = found.get(crate, 0) + seconds
        return found

    def seconds(self, is_whole):
        """The seconds by crate and kind. A proof that isn't whole is of a kind of its own."""
        found = {}
        for key, seconds in self.spent.items():
            crate, kind = self.known[key]
            if kind == "proof" and not is_whole(crate, self.kept):
                kind = "again"
            found[crate, kind] = found.get((crate, kind), 0) + seconds
        return found


def note_times(command, seconds, peaks):
    """Puts the seconds in the place of the last ones of that command, crate and kind. The memory of a whole proof, in MB, is noted so too."""
    rows = last_times()
    day = datetime.date.today().isoformat()
    rows.update({(command, crate, kind): (spent, day) for (crate, kind), spent in seconds.items() if spent >= 1})
    rows.update({(command, crate, "memory"): (peak, day) for crate, peak in peaks.items() if seconds.get((crate, "proof"), 0) >= 1})
    new = f"{TIMES}.{os.getpid()}"
    try:
        os.makedirs(BUILD, exist_ok=True)
        with open(new, "w", encoding="utf-8") as out:
            for (word, crate, kind), (spent, of) in sorted(rows.items()):
                out.write(f"{word} {crate} {kind} {spent:.1f} {of}\n")
        os.replace(new, TIMES)
    except OSError:
        pass


def over_kept(crate, kept):
    """Whether the proof of a crate is whole in a command that goes over what earlier checks kept."""
    return crate not in kept


def anew(_crate, _kept):
    """The same in a command that proves from nothing."""
    return True


def partly(_crate, _kept):
    """The same in a command that proves a part."""
    return False


def sampled(command, words, folder, is_whole=over_kept, tell=None):
    """Runs a command, notes its times, and gives its status. With `tell`, each line that it writes goes there."""
    how = {"stdout": subprocess.PIPE, "stderr": subprocess.STDOUT, "errors": "replace", "text": True} if tell else {}
    # Its own session, so that what ends this process can end the command with all that it has begun.
    with subprocess.Popen(words, cwd=folder, stdin=subprocess.DEVNULL, start_new_session=True, **how) as run:
        sampler = Sampler(run.pid)
        sampler.start()
        try:
            for line in run.stdout if tell else ():
                tell(line)
            status = run.wait()
        except BaseException:
            with contextlib.suppress(ProcessLookupError):
                os.killpg(run.pid, signal.SIGTERM)
            run.wait()
            raise
        finally:
            sampler.ends.set()
            sampler.join()
            note_times(command, sampler.seconds(is_whole), sampler.peaks)
    return status
