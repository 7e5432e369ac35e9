#!/usr/bin/env python3
"""Runs the tests of crates, and scripts over the program, without proofs: `make try-test`.

`rt try --test` compiles each crate of crates.txt that has tests, with checks of bounds, overflows and addresses, and runs
them. tests/unproved.py builds the program so, unless it is built already, and then the scripts that SCRIPTS names run over
it unchanged. Two run at a time where there are two processors and 7 GB are free. Each prints a line as it ends: its name,
how many tests or cases passed, and seconds. For one that fails the last lines of its output follow. The last line counts
all. Ends with 1 where one failed. It proves nothing, and tries no must-fail edit and no service: `make test` does.

Beside each build `rt try` starts a `rattle check`, whose only use is a hint on names. It takes half of the seconds of
processors, so it is ended here; counts and statuses are those of the tests.
"""
import contextlib
import os
import re
import signal
import subprocess
import sys
import time
from concurrent.futures import ThreadPoolExecutor, as_completed
from dataclasses import dataclass
from pathlib import Path

from build import ROOT, below, lines_of
from unproved import KEPT, end_hint

SCRIPTS = ("program.py", "stories.py", "random_scripts.py", "script_lines.py")
TEST = re.compile(r"^\s*#\[test\]", re.M)
TESTS = re.compile(r"^test result: \w+\. (\d+) passed; (\d+) failed", re.M)
CASES = re.compile(r"(\d+) (?:stories|scripts of \d+ lines), (\d+) (?:failed|wrong)")
# kB of free memory that two at a time need.
MEMORY = 7_000_000
MOST_SECONDS = 300
LAST_LINES = 40
EVERY = 0.2
# What runs now. Each is in a session of its own, and takes one signal, from `end`.
running = set()


@dataclass
class Result:
    name: str
    passed: int
    failed: int
    seconds: float
    said: str


def with_tests():
    """The crates of crates.txt that have tests, those with most crates below them first."""
    _, uses = lines_of(ROOT)
    sources = {name: (ROOT / "crates" / name / "src").rglob("*.rt") for name in uses}
    found = [name for name, files in sources.items() if any(TEST.search(it.read_text()) for it in files)]
    return sorted(found, key=lambda name: -len(below(name, uses)))


def counted(said, status):
    """How many tests or cases passed and failed. An output without counts is that of one test."""
    tests, cases = TESTS.search(said), CASES.search(said)
    if tests:
        passed, failed = int(tests[1]), int(tests[2])
    elif cases:
        passed, failed = int(cases[1]) - int(cases[2]), int(cases[2])
    else:
        passed, failed = int(status == 0), 0
    return passed, max(failed, int(status != 0))


def said_by(process, has_hint):
    """What a process says until its end. Where it is `rt try`, its hint is ended as soon as it is there."""
    while has_hint:
        try:
            return process.communicate(timeout=EVERY)[0]
        except subprocess.TimeoutExpired:
            has_hint = not end_hint(process.pid)
    return process.communicate()[0]


def run(name, words, folder, has_hint=False):
    start = time.monotonic()
    with subprocess.Popen(words, cwd=folder, stdin=subprocess.DEVNULL, stdout=subprocess.PIPE, stderr=subprocess.STDOUT,
                          errors="replace", start_new_session=True) as process:
        running.add(process)
        said = said_by(process, has_hint)
    running.discard(process)
    return Result(name, *counted(said, process.returncode), time.monotonic() - start, said)


def try_crate(name):
    return run(name, ["rt", "try", "--test", "--seconds", str(MOST_SECONDS)], ROOT / "crates" / name, has_hint=True)


def build():
    """Calls `program()` of tests/unproved.py, in a process of its own that takes a signal as the others do."""
    result = run("trace_collector_program is built", [sys.executable, str(ROOT / "tests/unproved.py")], ROOT)
    result.passed = 0
    return result


def try_script(name, built):
    """Runs the script once the program is built."""
    if built.result().failed:
        return Result(name, 0, 1, 0, "not run: the program was not built")
    return run(name, [sys.executable, str(ROOT / "tests" / name), str(ROOT / KEPT)], ROOT)


def lanes():
    """How many run at a time."""
    available = int(re.search(r"MemAvailable:\s+(\d+)", Path("/proc/meminfo").read_text())[1])
    return min(2, len(os.sched_getaffinity(0))) if available >= MEMORY else 1


def show(result):
    counts = [f"{result.passed} passed"] * (result.passed > 0) + [f"{result.failed} FAILED"] * (result.failed > 0)
    print(f"{result.name}: {', '.join([*counts, f'{result.seconds:.0f} s'])}", flush=True)
    if result.failed:
        print("".join(f"    {line}\n" for line in result.said.splitlines()[-LAST_LINES:]), end="", flush=True)


def end(left):
    for it in left:
        with contextlib.suppress(OSError):
            if it.poll() is None:
                os.killpg(it.pid, signal.SIGTERM)


def results():
    """Each result as it is there."""
    with ThreadPoolExecutor(lanes()) as pool:
        built = pool.submit(build)
        crates = [pool.submit(try_crate, name) for name in with_tests()]
        left = [built, *crates, *(pool.submit(try_script, name, built) for name in SCRIPTS)]
        try:
            yield from (it.result() for it in as_completed(left))
        finally:
            for it in left:
                it.cancel()
            end(list(running))


def main():
    passed = failed = 0
    with contextlib.closing(results()) as found:
        for result in found:
            show(result)
            passed, failed = passed + result.passed, failed + result.failed
    print(f"{passed} passed, {failed} failed")
    return min(failed, 1)


def ends_by(number, _):
    sys.exit(128 + number)


if __name__ == "__main__":
    for ending in (signal.SIGTERM, signal.SIGHUP):
        signal.signal(ending, ends_by)
    try:
        sys.exit(main())
    except KeyboardInterrupt:
        sys.exit("make: broken off")
