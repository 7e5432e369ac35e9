#!/usr/bin/env python3
"""Tells what a tenant's caches of decisions cost: the bytes of an id, and the instructions of a decision and of look-ups.

    (cd crates/store_tests && rt test)        # proves and builds out/store_tests_tests
    tests/cached.py [BINARY]

Each of the tests of crates/store_tests/src/cached.rt fills a cache of a thousand or a million ids, and then makes 100,000
calls of it. Instructions are Callgrind's for each call: those of the test less those of the one that only fills the cache.
Memory is what that one allocates at most, and what it has of the machine's at most beyond a test that allocates little,
for each id. In brackets: as against a thousand ids. It needs `valgrind` and a C compiler, `cc`.
"""
import os
import pathlib
import re
import subprocess
import sys
import tempfile

from held import BINARY, most_bytes
from refused import built

CALLS = 100_000
SIZES = {"a_thousand": 1_000, "a_million": 1_000_000}
KINDS = {"ids_and_decisions": "a decision, by which the oldest id leaves",
         "ids_that_are_found": "a look-up of an id that is there",
         "ids_beside_others": "a look-up of an id that isn't there",
         "ids_that_are_followed": "a span that follows a decision: look-up, hit and commit"}


def instructions(binary, test):
    """All instructions of a run."""
    tool = ["valgrind", "--tool=callgrind", "--callgrind-out-file=/dev/null", binary, test]
    done = subprocess.run(tool, capture_output=True, text=True, check=True)
    return int(re.findall(r"Collected : (\d+)", done.stderr)[-1])


def resident(binary, test):
    """The most bytes of the machine's memory that a run had."""
    with subprocess.Popen([binary, test], stdout=subprocess.DEVNULL) as child:
        _, status, usage = os.wait4(child.pid, 0)
        child.returncode = os.waitstatus_to_exitcode(status)
    if child.returncode:
        sys.exit(f"cached: {test} ended with {child.returncode}")
    return usage.ru_maxrss * 1024


def table(what, values):
    """A line of a value for each size, each with its ratio to the first one."""
    first = values[0]
    print(f"{what}:", ", ".join(f"{value:.0f} ({value / first:.2f})" for value in values))


def main():
    binary = pathlib.Path(sys.argv[1]) if len(sys.argv) > 1 else BINARY
    if not binary.exists():
        sys.exit(f"cached: {binary} isn't there: run `rt test` in crates/store_tests")
    little = resident(binary, "cached::a_thousand_ids")
    print("of a cache of", " and of ".join(f"{size:,}" for size in SIZES.values()), "ids")
    with tempfile.TemporaryDirectory() as folder:
        shim = built(pathlib.Path(folder))
        table("bytes an id, allocated", [most_bytes(binary, f"cached::{name}_ids", shim) / size for name, size in SIZES.items()])
    million = SIZES["a_million"]
    print(f"bytes an id, the machine's: {(resident(binary, 'cached::a_million_ids') - little) / million:.0f} with {million:,}")
    filled = {name: instructions(binary, f"cached::{name}_ids") for name in SIZES}
    for kind, what in KINDS.items():
        table(f"instructions of {what}",
              [(instructions(binary, f"cached::{name}_{kind}") - filled[name]) / CALLS for name in SIZES])


if __name__ == "__main__":
    main()
