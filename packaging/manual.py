#!/usr/bin/env python3
"""Prints the program's manual page: `packaging/manual.py PROGRAM > trace_collector.1`.

Its synopsis, commands, options, lines of scripts and exit statuses are what the program prints as its `--help`, so they
stand in one place; all else is packaging/trace_collector.1.in, where `@NAME@` has such a part. What `--help` says and no
part takes is a fault.
"""

import re
import subprocess
import sys
import textwrap
from pathlib import Path

TEMPLATE = Path(__file__).resolve().with_name("trace_collector.1.in")
# What begins a paragraph of the help, and where it goes; the ones before have no such words.
HEADS = {"Options of `serve`": "OPTIONS", "The lines of a script:": "SCRIPTS", "Bytes are": "NOTES"}
FIRST = ("DESCRIPTION", "SYNOPSIS", "COMMANDS")
USAGE, STATUSES = "usage: ", "Exit statuses: "
WIDTH = 80


def said(program, word):
    return subprocess.run([program, word], capture_output=True, text=True, timeout=60, check=True).stdout


def paragraphs(text):
    """The lines of each paragraph, by the part of the page that it is."""
    found = {}
    for paragraph in text.strip("\n").split("\n\n"):
        lines = paragraph.split("\n")
        part = next((part for head, part in HEADS.items() if lines[0].startswith(head)), None)
        part = part or (FIRST[len(found)] if len(found) < len(FIRST) else None)
        if part is None or part in found:
            raise ValueError(f"no part of the page takes the paragraph that begins with {lines[0]!r}")
        found[part] = lines
    return found


def escaped(text):
    """A text's characters for the formatter: a hyphen that may be typed stays one."""
    return text.replace("\\", "\\e").replace("-", "\\-").replace("'", "\\(aq").replace("`", "\\(ga")


def words_of(text):
    """A text that may be typed: what stands for something else is in italics, all else in bold."""
    parts = re.split(r"([A-Z]{2,}|\b[A-Z]\b)", text)
    return "".join(f"\\f{'I' if at % 2 else 'B'}{escaped(part)}\\fR" for at, part in enumerate(parts) if part)


def prose(text):
    """A text in which what may be typed stands in backquotes, in lines of a page's width."""
    parts = re.split(r"`([^`]*)`", " ".join(text.split()))
    joined = "".join(words_of(part) if at % 2 else escaped(part).replace("\\-", "-") for at, part in enumerate(parts))
    return textwrap.fill(joined, WIDTH, break_long_words=False, break_on_hyphens=False) + "\n"


def entries(lines):
    """Each word of an indented list, and what is said of it."""
    found = []
    for line in lines:
        begun = re.fullmatch(r"  (\S.*?)(?:  +(\S.*))?", line)
        if begun:
            found.append((begun[1], [begun[2]] if begun[2] else []))
        elif found and line.startswith("   "):
            found[-1][1].append(line.strip())
        else:
            raise ValueError(f"neither an entry of a list nor its text: {line!r}")
    return found


def listed(lines):
    return "".join(f".TP\n{words_of(word)}\n{prose(' '.join(text))}" for word, text in entries(lines))


def synopsis(lines):
    """Each way to call it on a line of its own."""
    joined = " ".join(" ".join(lines).removeprefix(USAGE).split())
    name = joined.split()[0]
    ways = filter(None, map(str.strip, re.split(rf"\b{name} | \| ", joined)))
    return ".br\n".join(f"{words_of(name)} {words_of(way)}\n" for way in ways)


def parts_of(text):
    found = paragraphs(text)
    notes = "\n".join(found["NOTES"])
    notes, _, statuses = notes.partition(STATUSES)
    ends = [end.partition(" ") for end in re.split(r";\s+", statuses.rstrip("."))]
    return {
        "DESCRIPTION": prose(" ".join(found["DESCRIPTION"])),
        "SYNOPSIS": synopsis(found["SYNOPSIS"]),
        "COMMANDS": listed(found["COMMANDS"]),
        "OPTIONS": prose(found["OPTIONS"][0]) + listed(found["OPTIONS"][1:]),
        "SCRIPTS": prose(found["SCRIPTS"][0]) + listed(found["SCRIPTS"][1:]) + ".PP\n" + prose(notes),
        "STATUSES": "".join(f".TP\n.B {number}\n{prose(text)}" for number, _, text in ends),
    }


def main(program):
    parts = parts_of(said(program, "--help"))
    parts["VERSION"] = said(program, "--version").strip()
    page = re.sub(r"@([A-Z]+)@\n?", lambda found: parts.pop(found[1]), TEMPLATE.read_text())
    if parts:
        raise ValueError(f"the page has no place for {', '.join(parts)}")
    print(page, end="")


if __name__ == "__main__":
    if len(sys.argv) != 2:
        sys.exit(__doc__)
    main(sys.argv[1])
