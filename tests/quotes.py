#!/usr/bin/env python3
"""Checks that docs/PROOFS.md quotes definitions as their files have them, and that each public definition has its comment.

A quotation is a fenced block. The line before it names its definitions and links their file:

    `one_name`, `another_name` in [crate, Module](../crates/NAME/specs/Module.antt):
    `function::clause` in [crate, module](../crates/NAME/src/module.rt):

The block has those definitions in that order, each without the comment before it. A clause of a contract has its
function's name before its own, or that alone if it has no name of its own; its indentation is left out. The script names
each fault and ends with 1 if a block differs, a name is not in its file or is there twice, a block has no such line, the
page has too many words, or a public definition of specs/ has no comment before it (modules of examples and crates of
tests are left out).

    quotes.py             compares
    quotes.py --write     writes the definitions into the page
    quotes.py --plain     compares only the quotations
"""
import pathlib
import re
import sys

ROOT = pathlib.Path(__file__).resolve().parent.parent
PAGE = ROOT / "docs" / "PROOFS.md"
MOST_WORDS = 5000
QUOTE = re.compile(r"((?:`[\w':]+`(?:, )?)+) in \[[^\]]+\]\(\.\./(crates/\S+\.(?:antt|rt))\):")
DEFINITION = re.compile(r"^(?:(?:abbrev|unfoldable|opaque) )*pub (?:record |data )?(?!mod\b|use\b)(\w[\w']*)")
COMMENT = re.compile(r"^\s*(--|//)")
FUNCTION = re.compile(r"^\s*(?:pub(?:\(crate\))? )?fn (\w+)")
CLAUSE = re.compile(r"^(\s*)ensures (?:(\w+) )?\{")


def definitions(path):
    """The public definitions of a file: the name, the text, the number of its first line, and whether a comment leads it."""
    lines, found, i = path.read_text().splitlines(), [], 0
    while i < len(lines):
        named = DEFINITION.match(lines[i])
        if not named:
            i += 1
            continue
        end = i + 1
        while end < len(lines) and lines[end] and not COMMENT.match(lines[end]) and not DEFINITION.match(lines[end]):
            end += 1
        found.append((named[1], "\n".join(lines[i:end]), i + 1, i > 0 and bool(COMMENT.match(lines[i - 1]))))
        i = end
    return found


def clauses(path):
    """The clauses of a file's contracts that say what a function ensures: `function::clause` and the clause."""
    lines, function = path.read_text().splitlines(), ""
    for i, line in enumerate(lines):
        named = FUNCTION.match(line)
        function = named[1] if named else function
        clause = CLAUSE.match(line)
        if not clause:
            continue
        end, depth = i, 0
        while end < len(lines):
            depth += lines[end].count("{") - lines[end].count("}")
            end += 1
            if depth == 0:
                break
        yield f"{function}::{clause[2]}" if clause[2] else function, "\n".join(it[len(clause[1]) :] for it in lines[i:end])


def text_of(named, names, faults):
    """What a line of this kind asks for."""
    file = ROOT / named
    if not file.is_file():
        faults.append(f"{PAGE.name}: there is no file {named}")
        return ""
    found = [it[:2] for it in definitions(file)] if file.suffix == ".antt" else list(clauses(file))
    for name in names:
        times = sum(it == name for it, _ in found)
        if times != 1:
            faults.append(f"{PAGE.name}: {named} has {times or 'no'} public definitions `{name}`")
    texts = dict(found)
    return "\n\n".join(texts[name] for name in names if name in texts)


def page_again(faults):
    """The page with its quotations as their files have them. What differs is named."""
    lines, made, i = PAGE.read_text().splitlines(), [], 0
    while i < len(lines):
        made.append(lines[i])
        asked = QUOTE.fullmatch(lines[i])
        i += 1
        if not asked:
            if made[-1].startswith("```"):
                faults.append(f"{PAGE.name}:{i}: no line before this block names its definitions")
                while i < len(lines) and not lines[i].startswith("```"):
                    made.append(lines[i])
                    i += 1
                made += lines[i : i + 1]
                i += 1
            continue
        names, named = re.findall(r"`([^`]+)`", asked[1]), asked[2]
        if i >= len(lines) or lines[i] != "```":
            faults.append(f"{PAGE.name}:{i}: no block follows the line that names {names[0]}")
            continue
        end = next((k for k in range(i + 1, len(lines)) if lines[k] == "```"), len(lines))
        text = text_of(named, names, faults)
        if "\n".join(lines[i + 1 : end]) != text:
            faults.append(f"{PAGE.name}:{i}: {', '.join(names)} differs in {named}")
        made += ["```", *text.splitlines(), "```"]
        i = end + 1
    return "\n".join(made) + "\n"


def without_comment():
    """Each public definition of specs/ without a comment before it, except in examples and crates of tests."""
    for file in sorted((ROOT / "crates").glob("*/specs/**/*.antt")):
        crate = file.relative_to(ROOT / "crates").parts[0]
        if file.stem in ("Examples", "Lib") or crate.endswith("_tests"):
            continue
        for name, _, line, is_led in definitions(file):
            if not is_led:
                yield f"{file.relative_to(ROOT)}:{line}: `{name}` has no line of comment before it"


def main(words):
    faults = []
    made = page_again(faults)
    if "--write" in words:
        PAGE.write_text(made)
        faults = [it for it in faults if " differs in " not in it]
    number = len(made.split())
    if number > MOST_WORDS:
        faults.append(f"{PAGE.name} has {number} words, more than {MOST_WORDS}")
    if "--plain" not in words:
        faults += without_comment()
    for fault in faults:
        print(fault)
    quotes = len(re.findall(QUOTE, made))
    if faults:
        print(f"quotes: {len(faults)} things to mend")
        return 1
    comments = "" if "--plain" in words else ", and each public definition has its comment"
    print(f"quotes: {quotes} quotations of {PAGE.name} are as in their files{comments}")
    return 0


if __name__ == "__main__":
    sys.exit(main(sys.argv[1:]))
