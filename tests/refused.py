#!/usr/bin/env python3
"""Runs each test of a crate once for each allocation that it asks for, with that one refused.

    (cd crates/store_tests && rt test)        # proves and builds out/store_tests_tests
    tests/refused.py store_tests [TEST]       # all its tests, or those whose name has this in it

A run may pass, or end for want of memory: with an error that says so, or at an `expect` of a value for which there was
none (`memory: AllocError`). Anything else is listed and fails: an assertion, another error, a crash. So a test that does
a call again after a refusal, and compares what stood before with what stands after it, shows that a refused call changes
nothing. A run that ends at an `expect` drops nothing of what the test owns, so it doesn't show that this goes well. It
needs a C compiler, `cc`, and what the test was built for.
"""
import os
import pathlib
import re
import subprocess
import sys
import tempfile

ROOT = pathlib.Path(__file__).resolve().parent.parent
REFUSED = ("AllocError", "AllocFailed", "OutOfMemory", "out of memory", "Stopped")
UNEXPECTED = re.compile(r"^[a-z ]+: (AllocError|AllocFailed( \{ \.\. \})?|OutOfMemory)$", re.M)
MOST = 20_000


def built(folder):
    """The library that refuses, built there."""
    shim = folder / "refuse.so"
    source = ROOT / "tests" / "refuse.c"
    subprocess.run(["cc", "-shared", "-fPIC", "-O2", "-o", shim, source, "-ldl"], check=True)
    return shim


def run(binary, test, shim, refused):
    """The run's status, what it wrote, and how many allocations it asked for."""
    environment = dict(os.environ, LD_PRELOAD=str(shim), REFUSE=str(refused))
    done = subprocess.run([binary, test], capture_output=True, text=True, env=environment, timeout=60)
    told = done.stdout + done.stderr
    counts = re.findall(r"^allocations (\d+)$", told, re.M)
    return done.returncode, told, int(counts[-1]) if counts else None


def verdict(status, told):
    """`passed`, `refused`, or what went wrong."""
    if status == 0:
        return "passed"
    errors = re.findall(r"^error: (.*)$", told, re.M)
    if errors and any(word in errors[-1] for word in REFUSED) or UNEXPECTED.search(told):
        return "refused"
    return f"status {status}: {' '.join(told.split())[:200]}"


def refuse_each(binary, test, shim):
    """Tells of one test, and whether all its runs ended as they may."""
    status, told, allocations = run(binary, test, shim, 0)
    if status != 0 or allocations is None:
        print(f"{test}: not passed with ample memory: {verdict(status, told)}")
        return False
    counts = {"passed": 0, "refused": 0}
    well = True
    for number in range(1, min(allocations, MOST) + 1):
        status, told, _ = run(binary, test, shim, number)
        end = verdict(status, told)
        if end in counts:
            counts[end] += 1
        else:
            well = False
            print(f"{test}: allocation {number}: {end}")
    print(f"{test}: {allocations} allocations: {counts['passed']} passed, {counts['refused']} refused")
    return well


def main():
    if len(sys.argv) not in (2, 3):
        sys.exit(__doc__)
    crate = sys.argv[1]
    binary = ROOT / "crates" / crate / "out" / f"{crate}_tests"
    if not binary.exists():
        sys.exit(f"refused: {binary} isn't there: run `rt test` in crates/{crate}")
    listed = subprocess.run([binary, "--list"], capture_output=True, text=True, check=True).stdout
    tests = re.findall(r"^(\S+): test$", listed, re.M)
    wanted = [test for test in tests if len(sys.argv) < 3 or sys.argv[2] in test]
    with tempfile.TemporaryDirectory() as folder:
        shim = built(pathlib.Path(folder))
        well = [refuse_each(binary, test, shim) for test in wanted]
    if not wanted or not all(well):
        sys.exit(1)


if __name__ == "__main__":
    main()
