#!/usr/bin/env python3
"""The manual page cf.1, made from the help that the program has.

    tools/manpage.py [DAY]    prints it, with the day that it names
"""
import os
import re
import sys

sys.dont_write_bytecode = True
sys.path.insert(0, os.path.dirname(os.path.realpath(__file__)))

import texts  # noqa: E402


def escaped(line):
    line = line.replace("\\", "\\e").replace("-", "\\-")
    return f"\\&{line}" if line.startswith((".", "'")) else line


def as_written(lines):
    """Lines that keep their form."""
    return [".nf", *map(escaped, lines), ".fi"]


def cut(line, blanks):
    return line[blanks:] if line[:blanks].isspace() else line


def prose(lines):
    """Paragraphs, with the deeper lines kept in their form."""
    out, deeper = [".PP"], []
    for line in [*lines, ""]:
        if line.startswith("    "):
            deeper.append(line[4:])
            continue
        if deeper:
            out += [".RS 4", *as_written(deeper), ".RE"]
            deeper = []
        out.append(escaped(line) if line else ".PP")
    while out and out[-1] == ".PP":
        out.pop()
    return out


def options(lines):
    out = []
    for line in lines:
        out += [escaped(line.strip())] if line.startswith("    ") else [".TP", f".B {escaped(line)}"]
    return out


def sections(page):
    """The sections of a page of help, each a heading and its lines."""
    for part in re.split(r"\n(?=[A-Z]+\n)", page):
        heading, *lines = part.rstrip("\n").splitlines()
        yield heading, [cut(line, 4) for line in lines]


def of_command(name, page):
    out = [f".SS {name}"]
    for heading, lines in sections(page):
        if heading == "NAME":
            continue
        if heading == "SYNOPSIS":
            out += as_written(lines)
        elif heading == "OPTIONS":
            out += options(lines)
        elif heading == "EXAMPLE":
            out += [".PP", "Example:", ".RS 4", *as_written(lines), ".RE"]
        else:
            out += prose(lines)
    return out


def manpage(day):
    """The page in the form of man."""
    name, about, usage, *others = texts.constants("own_texts.rt")["HELP"].rstrip("\n").split("\n\n")
    files = [text for text in others if re.match(r"(FILE|WATCH|SESSION) ", text)]
    statuses = next(text for text in others if text.startswith("The exit status:"))
    short, text = name.split(": ", 1)
    out = [f'.TH CF 1 "{day}" "cf {texts.version()}" "User Commands"', ".SH NAME", f"{short} \\- {escaped(text.rstrip('.'))}"]
    out += [".SH SYNOPSIS", *as_written(cut(line, 7).removeprefix("usage: ") for line in usage.splitlines())]
    out += [".SH DESCRIPTION", *prose(about.splitlines()), ".SH COMMANDS"]
    for command, page in texts.pages().items():
        out += of_command(command, page)
    out += [".SH FILES"]
    for text in files:
        out += prose(text.splitlines())
    out += [".SH EXIT STATUS", *as_written(statuses.splitlines()[1:])]
    return "\n".join(out) + "\n"


if __name__ == "__main__":
    print(manpage(sys.argv[1] if len(sys.argv) > 1 else ""), end="")
