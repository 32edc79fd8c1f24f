"""Runs of programs, with the processor seconds and the memory that they take. `filters.py` and `scan.py` measure by it."""
import os
import subprocess


def run(words):
    """The text that one run writes, its processor seconds and its greatest size in bytes."""
    child = subprocess.Popen(words, stdout=subprocess.PIPE)
    text = child.stdout.read()
    _, status, used = os.wait4(child.pid, 0)
    child.returncode = os.waitstatus_to_exitcode(status)
    if child.returncode:
        raise SystemExit("%s ended with status %d" % (" ".join(words), child.returncode))
    return text, used.ru_utime + used.ru_stime, used.ru_maxrss * 1024


def best(*calls):
    """The same of the best of five runs of each call, which take turns."""
    runs = [[run(words) for words in calls] for _ in range(5)]
    return [(each[0][0], min(seconds for _, seconds, _ in each), max(size for _, _, size in each)) for each in zip(*runs)]
