#!/usr/bin/env python3
"""Whether code, definitions and contracts are no wider than the house has them: crates/**/*.rt and crates/*/specs.

Each line has at most 120 columns, and a line of a `requires` or an `ensures` at most 100. A clause (one of these, or a
ghost field), its lines joined by one space, has at most 250 characters: a longer formula gets a name in specs/. Imports
and attributes are passed over, since the formatter keeps each on one line, and so are bytes made elsewhere, vectors.rt.
A text in quotes can't be parted, so it counts for nothing. Ends with 1, and names the lines and clauses, where some are
longer, or where a crate has another number of long clauses than LONG says; `widths.py --count` prints only how many
there are in each crate.
"""
import collections
import pathlib
import re
import sys

ROOT = pathlib.Path(__file__).resolve().parent.parent
MOST = 120
MOST_OF_A_LINE = 100
MOST_OF_A_CLAUSE = 250
# crates that still have longer clauses, and how many
LONG = {}
QUOTED = re.compile(r'"(\\.|[^"\\])*"')
PASSED = re.compile(r"\s*((pub |ghost )*use |#!?\[)")
CLAUSE = re.compile(r"\s*(pub )?((requires|ensures)\b\*?|ghost \w+:)")


def bare(line):
    """A line without its texts in quotes and its comment."""
    return QUOTED.sub("", line).split("//")[0].rstrip()


def sources(pattern):
    return (file for file in sorted((ROOT / "crates").glob(pattern)) if file.name != "vectors.rt")


def long_lines():
    for file in sorted([*sources("*/src/**/*.rt"), *sources("*/specs/**/*.antt")]):
        for number, line in enumerate(file.read_text().splitlines(), 1):
            if len(QUOTED.sub("", line)) > MOST and not PASSED.match(line):
                yield file.relative_to(ROOT), number, f"{len(line)} columns"


def clauses(lines):
    """Each clause: the number of its first line, and its lines, up to the brace that ends it."""
    i = 0
    while i < len(lines):
        if not CLAUSE.match(lines[i]):
            i += 1
            continue
        end, depth, opened = i, 0, False
        while end < len(lines):
            text = bare(lines[end])
            depth += text.count("{") - text.count("}")
            opened = opened or "{" in text
            if opened and depth <= 0:
                break
            end += 1
        yield i + 1, lines[i : end + 1]
        i = end + 1


def wide_clauses():
    for file in sources("*/src/**/*.rt"):
        for number, lines in clauses(file.read_text().splitlines()):
            for at, line in enumerate(lines, number):
                if len(bare(line)) > MOST_OF_A_LINE and not lines[0].lstrip().startswith(("ghost", "pub ghost")):
                    yield file.relative_to(ROOT), at, f"{len(bare(line))} columns of a clause"
            size = len(" ".join(bare(line).strip() for line in lines))
            if size > MOST_OF_A_CLAUSE:
                yield file.relative_to(ROOT), number, f"a clause of {size} characters"


def main(words):
    lines, wide = list(long_lines()), list(wide_clauses())
    number_of = collections.Counter(file.parts[1] for file, _, what in wide if what.startswith("a clause"))
    kept = {crate for crate, number in LONG.items() if number_of[crate] == number}
    found = lines + [it for it in wide if not (it[0].parts[1] in kept and it[2].startswith("a clause"))]
    if "--count" in words:
        for crate, number in sorted(collections.Counter(file.parts[1] for file, _, _ in found).items()):
            print(f"{crate}: {number}")
    else:
        for file, number, what in found:
            print(f"{file}:{number}: {what}")
        for crate in sorted(LONG.keys() - kept):
            print(f"{crate}: {number_of[crate]} clauses above {MOST_OF_A_CLAUSE} characters; LONG says {LONG[crate]}")
    if found or LONG.keys() - kept:
        print(f"widths: {len(found)} lines and clauses to be mended")
        return 1
    known = sum(LONG.values())
    but = f", but {known} that are known" if known else ""
    clause = f"none of a clause above {MOST_OF_A_LINE}, no clause above {MOST_OF_A_CLAUSE} characters{but}"
    print(f"widths: no line above {MOST} columns, {clause}")
    return 0


if __name__ == "__main__":
    sys.exit(main(sys.argv[1:]))
