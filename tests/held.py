#!/usr/bin/env python3
"""Tells what a span costs that passes through a pool and a table of rows, by time and by memory.

    (cd crates/store_tests && rt test)        # proves and builds out/store_tests_tests
    tests/held.py [ROUNDS] [BINARY]           # the best of so many rounds, 3 by default

Each of the tests of crates/store_tests/src/load.rt lets a million spans pass: they come, join the rows of their traces,
ten spans each, are decided and leave. They differ in how many spans are held at a time, and of how many tenants. Time
is the processor time of the program for each span that passes, and beside it what the system took of it; memory is the
most bytes that were allocated at a time, for each span that was held. A second million takes the room that the first
one left: its time is that of two million less that of one, and so without what the system takes for memory that wasn't
used before. In brackets: as against the first line. It needs a C compiler, `cc`.
"""
import os
import pathlib
import re
import subprocess
import sys
import tempfile

from refused import ROOT, built

BINARY = ROOT / "crates" / "store_tests" / "out" / "store_tests_tests"
SPANS = 1_000_000
TESTS = [
    ("load::a_thousand_held_of_one_tenant", 1_000),
    ("load::a_thousand_held_of_a_thousand_tenants", 1_000),
    ("load::a_million_held_of_one_tenant", 1_000_000),
    ("load::a_million_held_of_a_thousand_tenants", 1_000_000),
]
SECOND = [
    ("load::two_million_pass_a_million_held_of_one_tenant", "load::a_million_held_of_one_tenant"),
    ("load::two_million_pass_a_million_held_of_a_thousand_tenants", "load::a_million_held_of_a_thousand_tenants"),
]


def seconds(binary, test):
    """The processor time of a run, its own and the system's."""
    before = os.times()
    subprocess.run([binary, test], stdout=subprocess.DEVNULL, check=True)
    after = os.times()
    return after.children_user - before.children_user, after.children_system - before.children_system


def best(binary, test, rounds):
    """Of so many runs the one that took least, its own time and the system's."""
    return min((seconds(binary, test) for _ in range(rounds)), key=sum)


def most_bytes(binary, test, shim):
    """The most bytes that a run had at a time."""
    environment = dict(os.environ, LD_PRELOAD=str(shim), REFUSE="0")
    done = subprocess.run([binary, test], capture_output=True, text=True, check=True, env=environment)
    return int(re.findall(r"^bytes (\d+)$", done.stderr, re.M)[-1])


def main():
    rounds = int(sys.argv[1]) if len(sys.argv) > 1 else 3
    binary = pathlib.Path(sys.argv[2]) if len(sys.argv) > 2 else BINARY
    if not binary.exists():
        sys.exit(f"held: {binary} isn't there: run `rt test` in crates/store_tests")
    first, took = None, {}
    with tempfile.TemporaryDirectory() as folder:
        shim = built(pathlib.Path(folder))
        for test, held in TESTS:
            own, system = took[test] = best(binary, test, rounds)
            nanos, size = (own + system) * 1e9 / SPANS, most_bytes(binary, test, shim) / held
            first = first or (nanos, size)
            print(f"{test}: {nanos:.0f} ns a span ({nanos / first[0]:.2f}; {system * 1e9 / SPANS:.0f} of it the "
                  f"system's), {size:.0f} bytes a span held ({size / first[1]:.2f})")
    for test, half in SECOND:
        nanos = (sum(best(binary, test, rounds)) - sum(took[half])) * 1e9 / SPANS
        print(f"{test}: {nanos:.0f} ns a span of the second million ({nanos / first[0]:.2f})")


if __name__ == "__main__":
    main()
