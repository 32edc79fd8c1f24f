"""The texts that the program has of itself, as its sources have them: the help, the version, and a page for each command."""
import os
import re

from crates import TOP

FOLDER = os.path.join(TOP, "crates", "cf_answers", "src")
CONSTANT = re.compile(r'^pub const ([A-Z]+): &str = "((?:[^"\\]|\\.)*)";', re.DOTALL | re.MULTILINE)
ESCAPED = {"n": "\n", "t": "\t"}
HELP_WORDS, VERSION_WORDS = ("help", "--help", "-h"), ("--version", "-V")


def constants(file):
    """The texts of a file of sources, by their names."""
    with open(os.path.join(FOLDER, file), encoding="utf-8") as source:
        found = CONSTANT.findall(source.read())
    return {name: re.sub(r"\\(\n\s*|.)", lambda it: "" if it[1][0] == "\n" else ESCAPED.get(it[1], it[1]), text) for name, text in found}


def pages():
    """The page of each command, by its name."""
    return {name.lower(): text for name, text in constants("pages.rt").items()}


def version():
    """The program's version, as `0.2.0`."""
    return constants("own_texts.rt")["VERSION"].split()[1]


def own_text(words):
    """The text that the program has for these words behind its name, or None."""
    own = constants("own_texts.rt")
    if any(word in HELP_WORDS for word in words):
        topic = next((word for word in words if word not in HELP_WORDS), None)
        return pages().get(topic, own["HELP"])
    return own["VERSION"] if any(word in VERSION_WORDS for word in words) else None
