"""The crates of this repository: how they stand on one another, whether the program that is built is of these sources, and what proving takes."""
import contextlib
import os
import shutil

TOP = os.path.dirname(os.path.dirname(os.path.realpath(__file__)))
BUILD = os.path.join(TOP, ".build")
PROGRAM = os.path.join(BUILD, "cf")
TIMES = os.path.join(BUILD, "times")

# What each crate's proof took where it was last measured as a whole: processor seconds, and the memory of its largest process in GB.
COSTS = os.path.join(TOP, "tools", "costs.txt")
# What a proof takes of a processor where nothing has been measured: to begin with, for each line of code and of definitions and proofs, and for a program
# to be linked; and of memory in GB, to begin with, for each line of code, and for each of the crates below.
BEGINNING, LINE, OTHER_LINE, LINKING = 10, 0.08, 0.02, 100
FIRST_GB, LINE_GB, BELOW_GB = 0.7, 0.0008, 0.00015
# How many times faster a check is with so many jobs, from one on.
FASTER = (1, 1.6, 2.0, 2.3)


def below():
    """The crates in the order of crates.txt, each with the crates of the repository that it names."""
    found = {}
    with open(os.path.join(TOP, "crates.txt"), encoding="utf-8") as lines:
        for line in lines:
            name, colon, libraries = line.partition("#")[0].partition(":")
            if colon:
                found[name.split()[0]] = libraries.split()
    return {name: [it for it in libraries if it in found] for name, libraries in found.items()}


def headings():
    """The heading of crates.txt under which each crate stands: the last remark above it."""
    found, heading = {}, ""
    with open(os.path.join(TOP, "crates.txt"), encoding="utf-8") as lines:
        for line in lines:
            name, colon, _ = line.partition("#")[0].partition(":")
            if colon:
                found[name.split()[0]] = heading
            elif line.startswith("#"):
                heading = line.strip("# \n")
    return found


def needed(name="cf"):
    """A crate and all that it stands on, each after those below it."""
    libraries, found = below(), []

    def add(name):
        if name not in found:
            for it in libraries[name]:
                add(it)
            found.append(name)

    add(name)
    return found


def sources(name, parts=("src", "specs", "proofs")):
    """The files of a crate that a proof reads."""
    for part in parts:
        for folder, _, files in os.walk(os.path.join(TOP, "crates", name, part)):
            for file in files:
                yield os.path.join(folder, file)


def code(name):
    """The files of a crate that the program is made of."""
    return sources(name, ("src",))


def kept():
    """The crates that were proved as they stand: their library is newer than each source of theirs and of the crates below them."""
    found, libraries = set(), below()
    for name in needed():
        stamp = os.path.join(TOP, "crates", name, "out", "rlib", "stamp")
        if os.path.exists(stamp) and all(it in found for it in libraries[name]):
            made = os.stat(stamp).st_mtime_ns
            if all(os.stat(file).st_mtime_ns <= made for file in sources(name)):
                found.add(name)
    return found


def is_current():
    """Whether the program is built, and of the sources as they stand."""
    try:
        built = os.stat(PROGRAM).st_mtime_ns
        files = [os.path.join(TOP, "crates.txt"), *(file for name in needed() for file in sources(name))]
        return all(os.stat(file).st_mtime_ns <= built for file in files)
    except FileNotFoundError:
        return False


def has_rt():
    return shutil.which("rt") is not None


def why_not_built():
    """Why the program can't be built here, or nothing where it can."""
    if not has_rt():
        return "the toolchain's rt is not on the path"
    if not os.access(TOP, os.W_OK) or not os.access(os.path.join(TOP, "crates"), os.W_OK):
        return f"the folder {TOP} can't be written to (copy it to one that can)"
    return ""


def free_memory():
    """The memory in GB that no process has, within the limit of the control group."""
    free = []
    with contextlib.suppress(OSError, StopIteration):
        with open("/proc/meminfo", encoding="ascii") as lines:
            free.append(next(int(line.split()[1]) * 1024 for line in lines if line.startswith("MemAvailable:")))
    with contextlib.suppress(OSError, StopIteration, ValueError):
        with open("/sys/fs/cgroup/memory.max", encoding="ascii") as limit, open("/sys/fs/cgroup/memory.stat", encoding="ascii") as lines:
            free.append(int(limit.read()) - next(int(line.split()[1]) for line in lines if line.startswith("anon ")))
    return min(free, default=0) / 1e9


def at_once(memory=3):
    """How many crates are worked on beside each other: at most one for each processor, and for each 3 GB of memory that are free, or so many GB."""
    return max(1, min(len(os.sched_getaffinity(0)), int(free_memory() / memory)))


def span(seconds):
    return f"{seconds / 60:.0f} minutes" if seconds >= 90 else f"{seconds:.0f} seconds"


def last_times():
    """The processor seconds of the last runs, by command, crate and kind of work, each with its day."""
    found = {}
    try:
        with open(TIMES, encoding="utf-8") as lines:
            for line in lines:
                command, crate, kind, seconds, day = line.split()
                found[command, crate, kind] = float(seconds), day
    except (FileNotFoundError, ValueError):
        pass
    return found


def costs():
    """The seconds and the GB of the proof of each crate, as they were measured when this was written."""
    found = {}
    try:
        with open(COSTS, encoding="utf-8") as lines:
            for line in lines:
                name, seconds, memory = line.partition("#")[0].split() or ("", 0, 0)
                found[name] = float(seconds), float(memory)
    except (FileNotFoundError, ValueError):
        pass
    return found


def note_costs():
    """Writes what was measured here, beside what was noted before of other crates."""
    seconds, memory, known = proof_seconds(), proof_memory(), {**costs(), **measured()}
    with open(COSTS, "w", encoding="utf-8") as out:
        out.write("# What each crate's whole proof took: processor seconds, and the memory of its largest process in GB.\n")
        for name in below():
            if name in known:
                out.write(f"{name} {seconds[name]:.0f} {memory[name]:.1f}\n")


def measured():
    """Of each crate whose whole proof was measured here the seconds and the memory in GB, by kind: the last ones of a build, or else the most of others."""
    found = {}
    for (command, crate, kind), (much, _) in last_times().items():
        kinds = found.setdefault((crate, command == "build"), {})
        kinds[kind] = max(much, kinds.get(kind, 0))
    whole = {key: kinds for key, kinds in found.items() if "proof" in kinds}
    return {crate: kinds for (crate, of_build), kinds in sorted(whole.items())}


def proof_seconds():
    """What the proof of each crate takes of a processor, with linking: what was measured here from nothing. For others it is what was noted or is guessed for
    their lines, by as much more or less as those that were measured here took."""
    told = costs()
    guessed = {name: told[name][0] if name in told else guess(name) for name in below()}
    here = {name: kinds["proof"] + kinds.get("linking", 0) for name, kinds in measured().items() if name in guessed}
    pace = sum(here.values()) / sum(guessed[name] for name in here) if here else 1
    return {name: here.get(name, seconds * pace) for name, seconds in guessed.items()}


def proof_memory():
    """The memory in GB of the largest process of each crate's proof: what was measured here, or what others measured or is guessed."""
    told, here = costs(), {name: kinds["memory"] / 1000 for name, kinds in measured().items() if "memory" in kinds}
    return {name: here.get(name) or (told[name][1] if name in told else guess_memory(name)) for name in below()}


def lines_of(name):
    """How many lines a crate has, of code, and of definitions and proofs, but for empty ones."""
    lines = {".rt": 0, ".antt": 0}
    for file in sources(name):
        ending = os.path.splitext(file)[1]
        if ending in lines:
            with open(file, "rb") as text:
                lines[ending] += sum(1 for line in text if line.strip())
    return lines[".rt"], lines[".antt"]


def is_program(name):
    return os.path.exists(os.path.join(TOP, "crates", name, "src", "main.rt"))


def guess(name):
    code, other = lines_of(name)
    return BEGINNING + LINE * code + OTHER_LINE * other + LINKING * is_program(name)


def guess_memory(name):
    return FIRST_GB + LINE_GB * lines_of(name)[0] + BELOW_GB * sum(lines_of(it)[0] for it in needed(name)[:-1])


def ways_up(names, seconds):
    """The seconds of the longest way from each crate up, with its own. A crate stands after those below it in that way."""
    libraries, found = below(), {}

    def way_up(name):
        if name not in found:
            found[name] = seconds[name] + max((way_up(it) for it in names if name in libraries[it]), default=0)
        return found[name]

    for name in names:
        way_up(name)
    return found


def longest_chain(seconds):
    """The crates of the longest chain, from the lowest up, and its seconds."""
    names, libraries = list(seconds), below()
    ways, chain = ways_up(names, seconds), []
    above = names
    while above:
        chain.append(max(above, key=ways.get))
        above = [it for it in names if chain[-1] in libraries[it]]
    return chain, ways[chain[0]] if chain else 0


def begun(ready, running, processors, ways, fits=lambda _name, jobs: jobs):
    """Which of the crates that are ready, the longest way up first, are begun beside those that run, each with its jobs. What no other crate waits for of the
    processors goes to the first. Where its way up is longer than that of all that run, it gets half of them at least. `fits` lowers the jobs to those that
    memory has room for, or to 0."""
    found, idle = {}, processors - sum(running.values())
    for at, name in enumerate(ready):
        jobs = idle - (len(ready) - at - 1)
        if at == 0 and all(ways[it] < ways[name] for it in running):
            jobs = max(jobs, processors // 2)
        jobs = fits(name, max(1, min(len(FASTER), jobs))) if idle > 0 else 0
        if jobs:
            found[name] = jobs
            idle -= jobs
    return found


def seconds_left(names, processors, running=None, seconds=None):
    """How long the proofs of these crates take so many processors, each crate after those below it, the longest way up first. Of the crates in `running` it
    is told how long they have run, with how many jobs."""
    seconds, libraries = seconds or proof_seconds(), below()
    ways, ends, now = ways_up(names, seconds), {}, 0.0
    jobs = {name: count for name, (_, count) in (running or {}).items()}
    for name, (spent, count) in (running or {}).items():
        ends[name] = max(seconds[name] / FASTER[count - 1] - spent, 0.1 * seconds[name])
    waiting = sorted((name for name in names if name not in ends), key=ways.get, reverse=True)
    while waiting or ends:
        ready = [name for name in waiting if not any(it in waiting or it in ends for it in libraries[name])]
        for name, count in begun(ready, {it: jobs[it] for it in ends}, processors, ways).items():
            waiting.remove(name)
            jobs[name], ends[name] = count, now + seconds[name] / FASTER[count - 1]
        first = min(ends, key=ends.get)
        now = ends.pop(first)
    return now


def building():
    """How long it takes here to prove and link the program, in words."""
    minutes = seconds_left(needed(), at_once()) / 60
    return f"some {max(5, round(minutes / 5) * 5)} minutes"
