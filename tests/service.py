#!/usr/bin/env python3
"""Checks what the built program does as a service, from outside: `make trace_collector && python3 tests/service.py`.

    python3 tests/service.py [PROGRAM] [NAME..]       # all tests, or those of these names
    python3 tests/service.py PROGRAM SECONDS          # `agreement` alone, for so long
    python3 tests/service.py PROGRAM comings TENANTS  # how much memory so many leave behind that come and go

Takes the program's path, `./trace_collector` if there is none. `leaves_with_an_audit` and `scraped_often` run where they
are named alone. Each test of tests/serving/ starts the program at a free port with back ends made of Python's standard
library, posts bodies, and looks at what comes out. What is expected was worked out by hand. It prints what is wrong, and
ends with 1 where something is.
"""

import os
import subprocess
import sys
from pathlib import Path

from serving import (admin, agreement, back_ends, bodies, clients, comings, ending, exporters, late, limits, loopback, memory,
                     metrics, queue_bytes, rest, short, talk)
from serving.runs import end, run

HERE = Path(__file__).resolve().parent.parent
SHORT = 3
# They wait for seconds and hardly do anything, so they go on beside the others.
BESIDE = [test.__name__ for test in (loopback.without_room, *limits.WAITING, *bodies.WAITING)]


def agree(folder):
    """For a few seconds."""
    agreement.agrees(folder, SHORT)


def named(*tests):
    """Tests by their names; each has its own, or one of two would never run."""
    names = [test.__name__ for test in tests]
    twice = {name for name in names if names.count(name) > 1}
    if twice:
        sys.exit(f"service.py: two tests have one name: {' '.join(sorted(twice))}")
    return dict(zip(names, tests))


TESTS = named(*loopback.TESTS, *exporters.TESTS, *clients.TESTS, *back_ends.TESTS, *late.TESTS, *comings.TESTS, *limits.TESTS, *bodies.TESTS,
              *queue_bytes.TESTS, *rest.TESTS, *ending.TESTS, *memory.TESTS, *admin.TESTS, *metrics.TESTS, *short.TESTS, agree)
# Those of these names alone.
BY_HAND = named(*short.BY_HAND, *metrics.BY_HAND)


def main():
    words = sys.argv[1:]
    talk.program = os.path.abspath(words.pop(0) if words and words[0] not in (*TESTS, *BY_HAND, "comings") else HERE / "trace_collector")
    if not os.access(talk.program, os.X_OK):
        sys.exit(f"service.py: there is no program, and no test, {talk.program}")
    if len(words) == 1 and words[0].isdigit():
        run("agreement", lambda folder: print(agreement.agrees(folder, int(words[0])), "spans", flush=True))
    elif len(words) == 2 and words[0] == "comings":
        run("comings", lambda folder: comings.memory_of_many(folder, int(words[1])))
    elif words:
        for name in words:
            print(f"{name}: {run(name, (TESTS | BY_HAND)[name]):.1f} s", flush=True)
    else:
        with subprocess.Popen([sys.executable, __file__, talk.program, *BESIDE], stdout=subprocess.PIPE) as beside:
            for name in (name for name in TESTS if name not in BESIDE):
                print(f"{name}: {run(name, TESTS[name]):.1f} s", flush=True)
            said = beside.communicate()[0].decode()
            print(said, end="")
            if beside.returncode != 0:
                talk.faults.append(said)
    end("the service does as it has to")


if __name__ == "__main__":
    main()
