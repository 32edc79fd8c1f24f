#!/usr/bin/env python3
"""Basic filters of a made chain of 100,000 blocks beside a plain reader in C: building them, and matching 1, 100 and 1000 scripts against all of them. Then the
same by threads: matching 100 scripts by the plain matcher and by 1, 2 and 4 workers, and building on one processor and on all.

`cf_bench` and `plain.c` (compiled with `cc -O2`) check the same file, build each filter and match the same scripts, which nothing pays. The first row has
no scripts: reading, checking and building. The others are what matching takes beyond it. Seconds are the processor's, and the best of five runs counts, which
take turns. Both must find the same number of filters, or it stops.

Of threads the time that passes is told, the least of nine runs, which take turns too (single runs of one call differ by half and more, and the least is what the work
itself takes), and how many times as fast it is as the row that it is compared with. On four processors that nothing else uses it is to be at least what stands
beside it, and where it isn't, `missed` is: `LEAST` for matching, `LEAST_BUILDING` for building the filters of the same made chain. What follows is told and
nothing is asked of it: building the filters of blocks with more outputs, and making the whole index, which beside the filters finds their headers and the heights of
the blocks' hashes. Filter headers stand on one another, so they are found one by one, beside the filters of later blocks: of blocks of 193 bytes, as made chains
have them, they are a third of the index's work, which no number of processors shortens; of larger blocks they are a small part.
"""
import os
import subprocess
import tempfile

from made_chain import records
from runs import best

BENCH = os.path.dirname(os.path.abspath(__file__))
CRATE = os.path.join(os.path.dirname(BENCH), "crates", "cf_bench")
PROGRAM = os.path.join(CRATE, "out", "cf_bench")
RUNS = 9
PLAIN, ONE, TWO, FOUR = 0, 1, 2, 4
# How many times as fast: one worker as the plain matcher, two and four as one; and all processors as one at building the filters of a made chain.
LEAST = {(PLAIN, ONE): 1 / 1.1, (ONE, TWO): 1.7, (ONE, FOUR): 2.8}
LEAST_BUILDING = 2.5
# How many outputs blocks have beyond those of made ones.
OTHERS = (0, 10, 50)


def passed(words):
    """What one run finds, and the milliseconds that it tells."""
    found, *milliseconds = subprocess.run(words, check=True, capture_output=True, text=True).stdout.splitlines()
    return found, [int(each) for each in milliseconds]


def in_turns(words, times):
    """The least of the milliseconds that runs tell which take turns, by what they are called."""
    runs = {key: [] for key in words}
    for _ in range(times):
        for key, line in words.items():
            runs[key].append(passed(line))
    if len({found for each in runs.values() for found, _ in each}) != 1:
        raise SystemExit("not all found the same")
    return {key: [min(column) for column in zip(*(told for _, told in each))] for key, each in runs.items()}


def tell(what, milliseconds, times=None, least=None):
    """Prints a row, and whether less was reached than is asked."""
    compared = "" if times is None else "%7.2f" % times
    asked = "" if least is None else "(%.2f)%s" % (least, " missed" if times < least else "")
    print(("%-34s %7dms %7s %s" % (what, milliseconds, compared, asked)).rstrip(), flush=True)


def tell_by_processors(what, words, least=None):
    """Prints how much sooner a call has done its last work on all processors than on one."""
    told = in_turns({"one": ["taskset", "-c", "0", *words], "all": words}, RUNS)
    one, all_ = told["one"][-1], told["all"][-1]
    tell(what + ", one", one)
    tell(what + ", all", all_, one / all_, least)


def tell_building(others, blocks):
    """Prints how much sooner the filters of a chain are built on all processors than on one, and its index is made."""
    outputs = ", %d outputs more" % others if others else ""
    tell_by_processors("filters" + outputs, [PROGRAM, blocks, "filters"], None if others else LEAST_BUILDING)
    tell_by_processors("index" + outputs, [PROGRAM, blocks, "0", "0"])


def tell_matching(blocks):
    """Prints how much sooner several workers have matched 100 scripts than one, and one beside the plain matcher."""
    words = {workers: [PROGRAM, blocks, "100", str(workers)] for workers in (PLAIN, ONE, TWO, FOUR)}
    matched = {workers: told[0] for workers, told in in_turns(words, RUNS).items()}
    tell("matching, plain", matched[PLAIN])
    for (before, workers), least in LEAST.items():
        tell("matching, %d worker%s" % (workers, "s" * (workers > 1)), matched[workers], matched[before] / matched[workers], least)


def main():
    subprocess.run(["rt", "run", "--", "data/blocks.dat", "0"], cwd=CRATE, check=True, stdout=subprocess.DEVNULL, stderr=subprocess.DEVNULL)
    with tempfile.TemporaryDirectory() as folder:
        plain, blocks = (os.path.join(folder, name) for name in ("plain", "blocks"))
        subprocess.run(["cc", "-O2", "-o", plain, os.path.join(BENCH, "plain.c")], check=True)
        subprocess.run([os.path.join(BENCH, "made_chain.py"), "7", "100000", blocks], check=True)
        print("%-26s %9s %9s %7s" % ("100,000 blocks", "program", "plain", "ratio"))
        before = (0.0, 0.0)
        for count, row in ((0, "building"), (1, "matching 1 script"), (100, "matching 100 scripts"), (1000, "matching 1000 scripts")):
            (text, seconds, _), (expected, base, _) = best([PROGRAM, blocks, str(count)], [plain, "match", blocks, str(count)])
            if text != expected:
                raise SystemExit("%s: %r and %r" % (row, text, expected))
            ours, other = seconds - before[0], base - before[1]
            print("%-26s %8.2fs %8.2fs %7.1f" % (row, ours, other, ours / other if other > 0 else 0))
            if count == 0:
                before = (seconds, base)
        print("%-34s %9s %7s %s" % ("by threads", "passed", "times", "(at least)"))
        tell_matching(blocks)
        for others in OTHERS:
            with open(blocks, "wb") as file:
                file.writelines(records((7, 100_000), others=others))
            tell_building(others, blocks)


if __name__ == "__main__":
    main()
