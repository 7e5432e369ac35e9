#!/usr/bin/env python3
"""Checks that what tenants had is given back once they have left: `tests/replay/lives.py [PROGRAM [TENANTS]]`.

Ten thousand tenants, if no other number is said, come one after the other, each under one of a hundred names. Each takes a
span, is drained, hands its batch out, is answered and leaves, beside one tenant that stays. When all have left, the program
may have hardly more memory than when a hundred had. It is Linux that counts it (`VmRSS`).
"""

import re
import subprocess
import sys
import tempfile
import threading
from pathlib import Path

from steady import body

HERE = Path(__file__).resolve().parent.parent.parent
SHARDS = 3
FIRST, NAMES = 100, 100
MOST_PER_CENT = 110
TENANT = """
[[tenant]]
name = "{}"
[tenant.tail_sampling]
num_traces = 100
[tenant.tail_sampling.decision_cache]
sampled_cache_size = 100
non_sampled_cache_size = 100
[[tenant.tail_sampling.policy]]
type = "always_sample"
"""
LINES = {"added": 1, "reply": 1, "done": 2, "job": 1, "report": 1}


def life(number):
    """The lines of the tenant with this number, which are all of one moment."""
    name = f"t{number % NAMES}"
    return (f"add {TENANT.format(name).encode().hex()}\npost {name} {number} {body(number)}\ndrain {name} {number}\n"
            f"turn {number % SHARDS} {number}\nanswer {name} {number} 1 0 200 - -\nretire {name} {number}\n")


class Run:
    """The program, whose answers are counted."""

    def __init__(self, program, file):
        self.process = subprocess.Popen([program, "replay", file], stdin=subprocess.PIPE, stdout=subprocess.PIPE)
        self.counts = {}
        self.reports = set()
        self.left = threading.Semaphore(0)
        self.reader = threading.Thread(target=self.read)
        self.reader.start()

    def read(self):
        for line in self.process.stdout:
            word, _, *fields = line.decode().split()
            self.counts[word] = self.counts.get(word, 0) + 1
            if word == "report":
                self.reports.add(" ".join(field for field in fields if not field.endswith("=0")))
                self.left.release()

    def live(self, numbers):
        """The kilobytes that it has once the tenants of these numbers have left."""
        for number in numbers:
            self.process.stdin.write(life(number).encode())
        self.process.stdin.flush()
        for _ in numbers:
            if not self.left.acquire(timeout=120):
                sys.exit("lives: a tenant has not left")
        status = Path(f"/proc/{self.process.pid}/status").read_text()
        return int(re.search(r"^VmRSS:\s+(\d+) kB$", status, re.M)[1])

    def end(self):
        self.process.stdin.close()
        self.reader.join()
        return self.process.wait()


def main():
    program = sys.argv[1] if len(sys.argv) > 1 else HERE / "trace_collector"
    tenants = int(sys.argv[2]) if len(sys.argv) > 2 else 10_000
    with tempfile.TemporaryDirectory() as folder:
        file = Path(folder, "settings.toml")
        file.write_text(f"[global]\nshards = {SHARDS}\n{TENANT.format('stays')}")
        run = Run(program, file)
        # number 0 is that of the tenant that stays
        first = run.live(range(1, FIRST + 1))
        last = run.live(range(FIRST + 1, tenants + 1))
        status = run.end()
    wanted = {word: count * tenants for word, count in LINES.items()}
    faults = [f"it ended with {status}"] if status else []
    if run.counts != wanted or run.reports != {"accepted=1 exported=1"}:
        faults.append(f"lines: {run.counts} and not {wanted}; reports: {run.reports}")
    if last * 100 > first * MOST_PER_CENT:
        faults.append(f"memory rose from {first} to {last} kB")
    print(*faults, sep="\n", end="\n" if faults else "")
    print(f"{tenants} tenants: {first} kB once {FIRST} had left, {last} kB at the end" if not faults else f"{len(faults)} wrong")
    sys.exit(min(len(faults), 1))


if __name__ == "__main__":
    main()
