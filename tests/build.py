#!/usr/bin/env python3
"""Proves and builds a program of crates.txt, and says how far it is.

`rt ci` proves the program's crate and those that it stands on, each once, as many side by side as there are processors, in a
copy that has neither other crates nor edits that must be refused. With rattle-kit-13f it keeps what passes on this machine,
for the next build and for the gate. It runs the program on its stored input. What it says goes to out/build.log. Where
nothing has changed since the file was built, nothing is done.

    build.py CRATE FILE      FILE is the program as LLVM builds it, which is the one that the tests from outside try
"""
import hashlib
import os
import re
import shutil
import subprocess
import sys
import tempfile
import time
from pathlib import Path

ROOT = Path(__file__).resolve().parent.parent
LOG, STAMP = ROOT / "out/build.log", ROOT / "out/build.stamp"
DONE = re.compile(r"rt: (\w+) (proved|is kept: .*)")


def lines_of(root):
    """The lines of crates.txt, by crate, and the words that each has behind its colon."""
    lines = [line.partition("#")[0].strip() for line in (root / "crates.txt").read_text().splitlines()]
    found = {line.split(":")[0].split()[0]: line for line in lines if line}
    return found, {name: line.partition(":")[2].split() for name, line in found.items()}


def below(crate, uses):
    """The crate and all that it stands on."""
    found, left = set(), [crate]
    while left:
        name = left.pop()
        if name in uses and name not in found:
            found.add(name)
            left += uses[name]
    return found


def copy(root, to, names, lines):
    """A repository of these crates alone, without what earlier builds left and without edits."""
    (to / ".git").mkdir(parents=True)
    (to / "crates.txt").write_text("".join(f"{lines[name]}\n" for name in lines if name in names))
    shutil.copyfile(root / "HANDLES", to / "HANDLES")
    for name in names:
        for part in (root / "crates" / name).iterdir():
            if part.name not in ("out", "must-fail"):
                copied = to / "crates" / name / part.name
                copied.parent.mkdir(parents=True, exist_ok=True)
                (shutil.copytree if part.is_dir() else shutil.copyfile)(part, copied)


def stamp_of(names, lines, file):
    """A sum of all that the file was built from, and of the file itself."""
    told = [subprocess.run(["rt", "version"], capture_output=True, text=True).stdout, (ROOT / "HANDLES").read_text()]
    for name in sorted(names):
        parts = [ROOT / "crates" / name / part for part in ("src", "specs", "proofs")]
        told += [lines[name], *((str(it), it.read_bytes()) for part in parts for it in sorted(part.rglob("*")) if it.is_file())]
    built = Path(file)
    return hashlib.sha256(repr([told, built.read_bytes() if built.is_file() else None]).encode()).hexdigest()


def since(start):
    seconds = int(time.monotonic() - start)
    return f"{seconds // 60} min {seconds % 60} s" if seconds >= 60 else f"{seconds} s"


def proved(where, log, number, start):
    """Whether all passed; prints a line for each crate that is done, and keeps all that is said."""
    done = 0
    with subprocess.Popen(["rt", "ci"], cwd=where, stdin=subprocess.DEVNULL, stdout=subprocess.PIPE,
                          stderr=subprocess.STDOUT, errors="replace") as run:
        for line in run.stdout:
            log.write(line)
            log.flush()
            named = DONE.match(line)
            if named:
                done += 1
                is_kept = ", kept from before" if named[2] != "proved" else ""
                print(f"[{done}/{number}] {named[1]}, {since(start)}{is_kept}", flush=True)
    return run.returncode == 0


def made(where, crate):
    """The program, as the faster of the two compilers built it."""
    program = where / "crates" / crate / "out" / crate
    return program if program.is_file() else None


def build(crate, file, names, lines):
    """Builds the file, or ends with what was said last."""
    start = time.monotonic()
    print(f"Proving {len(names)} crates and building {file}. The first time this is long (docs/OPERATING.md); each crate that is done is\n"
          "named, with the time since the start. It may be broken off: with rattle-kit-13f the next run takes up what is done.",
          flush=True)
    with tempfile.TemporaryDirectory(prefix="trace_collector-build-", ignore_cleanup_errors=True) as room:
        where = Path(room, "repository")
        copy(ROOT, where, names, lines)
        with open(LOG, "w") as log:
            is_well = proved(where, log, len(names), start)
        program = made(where, crate)
        if not is_well or not program:
            print("".join(LOG.read_text().splitlines(True)[-40:]), end="")
            sys.exit(f"make: {crate} was not built; all that was said is in {LOG.relative_to(ROOT)}")
        shutil.copy(program, f"{file}.new")
        os.replace(f"{file}.new", file)
    print(f"{file} is built, {since(start)}")


def main(crate, file):
    if not shutil.which("rt"):
        sys.exit("make: there is no command rt: docs/OPERATING.md names the toolchain")
    lines, uses = lines_of(ROOT)
    names = below(crate, uses)
    LOG.parent.mkdir(exist_ok=True)
    if STAMP.is_file() and STAMP.read_text() == stamp_of(names, lines, file):
        return
    STAMP.unlink(missing_ok=True)
    was = stamp_of(names, lines, "")
    build(crate, file, names, lines)
    # what was changed while it was built is built by the next run
    if was == stamp_of(names, lines, ""):
        STAMP.write_text(stamp_of(names, lines, file))


if __name__ == "__main__":
    if len(sys.argv) != 3:
        sys.exit(__doc__)
    try:
        main(*sys.argv[1:])
    except KeyboardInterrupt:
        sys.exit("make: broken off; with rattle-kit-13f what is proved is kept")
