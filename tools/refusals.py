#!/usr/bin/env python3
"""Where the program says by itself that there is no memory.

    tools/refusals.py            prints these places, each with why
    tools/refusals.py --check    status 1, and what is wrong, where a place has no reason here, or a reason no place

`NoMemory` may stand in the place of any other answer, so no clause refuses a body that gives it without need. Each body of the sources hands on the
refusal of an allocation, or of a call that met one: in an arm for that refusal, behind `let Ok(..) = .. else`, or in a conversion (`From`). All others
are in WHY, by file and function.
"""
import glob
import os
import re
import sys

sys.dont_write_bytecode = True
sys.path.insert(0, os.path.dirname(os.path.realpath(__file__)))

from crates import TOP  # noqa: E402

DEAD = "the client met a refusal of memory before, and answers it from then on, as its contract says"
LENGTH = "a count that no memory holds: more than 4,294,967,295 entries or bytes"
UNREACHED = "the words are read within these bounds, so no call of the program comes here"
WHY = {
    ("cf/src/main.rt", "not_begun"): "no memory was found for the words, or for what the call goes over",
    ("cf_cli_host/src/listener.rt", "ready"): "no memory was found for the link",
    ("cf_cli_host/src/listener.rt", "ready_for"): "no memory was found for the link",
    ("cf_grow/src/grown.rt", "put"): "the room for blocks that join (`--grow-bytes`) is used up, which is answered like memory that isn't found",
    ("cf_grow/src/record.rt", "record_of"): LENGTH,
    ("cf_link/src/tcp.rt", "new"): "no memory was found for the seats",
    ("cf_cli_client/src/following.rt", "record_run"): "the run before it answered so",
    ("cf_cli_demo/src/demoing.rt", "demo"): UNREACHED,
    ("cf_cli_host/src/given.rt", "words_of"): "a word could not be kept",
    ("cf_client/src/client.rt", "dialled"): DEAD,
    ("cf_client/src/client.rt", "not_dialled"): DEAD,
    ("cf_client/src/client.rt", "step"): DEAD,
    ("cf_client/src/client.rt", "send_failed"): DEAD,
    ("cf_client/src/client.rt", "report"): DEAD,
    ("cf_client/src/client.rt", "ends"): DEAD,
    ("cf_dispute/src/rows.rt", "add"): LENGTH,
    ("cf_headers/src/pool.rt", "add"): LENGTH,
    ("cf_hub/src/book.rt", "make_room"): "a count at the greatest u64",
    ("cf_link/src/line.rt", "reserve"): "a count at the greatest usize",
    ("cf_link/src/serving.rt", "make_ready"): "no connection runs whose end could free memory, or 2^64 tries were refused",
    ("cf_make/src/recording.rt", "put_record"): LENGTH,
    ("cf_make/src/streaming.rt", "put_record_by"): LENGTH,
    ("cf_offline/src/making.rt", "make"): UNREACHED,
    ("cf_played/src/omitting.rt", "filter_without"): "a played block has few scripts, and its filter is far below the limit",
    ("cf_played/src/omitting.rt", "cfilter_with"): "a played block has few scripts, and its filter is far below the limit",
    ("cf_scan/src/book.rt", "push"): LENGTH,
    ("cf_scan/src/extracts.rt", "watched_outputs"): LENGTH,
    ("cf_scan/src/lent.rt", "outputs_of"): LENGTH,
    ("cf_tracker/src/tracker.rt", "mark_asked"): "the peer has an open request for a block already; what is asked next never names such a one",
}
# A function's first line.
FUNCTION = re.compile(r"^\s*(?:pub(?:\(\w+\))? )?(?:const )?fn (\w+)")
MADE = re.compile(r"\bNoMemory\b")
# What is no expression: types, names that are brought in, clauses, patterns, declarations.
NO_VALUE = re.compile(
    r"Result<[^=]*NoMemory|^\s*(?:pub )?use |^\s*ghost |^\s*(?:ensures|requires|invariant)\b|^\s*//|^\s*impl\b|^\s*NoMemory[,;({]?\s*$|struct NoMemory|[≡≢λ→⊎×]"
)
ARM = re.compile(r"(?:NoMemory|OutOfMemory|AllocError|AllocFailed(?:\(_\))?)\)* =>")
# A refusal of something else than memory, that is answered as if it were one.
COUNT = re.compile(r"try_from|try_into|checked_|ok_or|map_err")
ANY = re.compile(r"Err\(_\w*\) =>")
LET = re.compile(r"let Ok\(.*else \{\s*$|\}\) else \{\s*$|\) else \{\s*$")
BACK = 3


def bodies(path):
    """Each line of code of a file, with its number, the function that it is in, and the lines before it there."""
    name, before = "", []
    with open(path, encoding="utf-8") as text:
        for number, line in enumerate(text, 1):
            found = FUNCTION.match(line)
            if found:
                name, before = found.group(1), []
            yield number, line.rstrip("\n"), name, before
            before.append(line.rstrip("\n"))


def is_handed_on(line, name, before):
    """Whether a line with `NoMemory` answers the refusal of an allocation, or of a call that met one."""
    if name == "from" or ARM.search(line):
        return True
    near = before[-BACK:]
    if COUNT.search(line) or any(COUNT.search(it) for it in near):
        return False
    if ANY.search(line):
        return True
    return any(ARM.search(it) or ANY.search(it) or LET.search(it) for it in near)


def places():
    """The places where the program says so by itself: file, function and lines."""
    found = {}
    for path in sorted(glob.glob(os.path.join(TOP, "crates", "*", "src", "**", "*.rt"), recursive=True)):
        file = os.path.relpath(path, os.path.join(TOP, "crates"))
        for number, line, name, before in bodies(path):
            value = line if "=>" not in line else line.partition("=>")[2]
            if MADE.search(value) and not NO_VALUE.search(line) and not is_handed_on(line, name, before):
                found.setdefault((file, name), []).append(number)
    return found


def main():
    found = places()
    if "--check" not in sys.argv[1:]:
        for (file, name), numbers in found.items():
            print(f"{file}:{','.join(map(str, numbers))} {name}: {WHY.get((file, name), 'NO REASON')}")
        return 0
    faults = [f"{file}:{numbers[0]}: {name} says NoMemory by itself" for (file, name), numbers in found.items() if (file, name) not in WHY]
    faults += [f"{file}: {name} no longer says NoMemory by itself" for file, name in WHY if (file, name) not in found]
    for fault in faults:
        print(f"tools/refusals.py: {fault}", file=sys.stderr)
    return 1 if faults else 0


if __name__ == "__main__":
    sys.exit(main())
