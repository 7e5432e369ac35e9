#!/usr/bin/env python3
"""Checks that a replay's memory doesn't grow with its script: `tests/replay/steady.py [PROGRAM [POSTS]]`.

A million posts, if no other number is said, each of one span of a new trace under a new resource, one a millisecond, from
four tenants in turn, and a turn after each post. One tenant's batches are taken by its back end; another's wait for
answers that never come, so that its queue is full; the third has a budget that is too small for what it gets, and samples
nothing; the fourth has room for too few traces; and each remembers the last hundred decisions. In the first tenth of the
posts every bound of the settings is reached, and the most memory that the program had until then may hardly rise. It is
Linux that counts it (`VmHWM`).
"""

import re
import subprocess
import sys
import tempfile
import threading
from pathlib import Path

HERE = Path(__file__).resolve().parent.parent.parent
WAIT = 100
MOST_KILOBYTES = 128
ALWAYS = 'type = "always_sample"'
ERRORS = 'type = "status_code"\nstatus_codes = ["ERROR"]'
# each tenant's budget of spans, its room for traces, and its policy
TENANTS = {"taken": (100, 50, ALWAYS), "stuck": (100, 50, ALWAYS), "poor": (20, 50, ERRORS), "narrow": (100, 15, ALWAYS)}
NAMES = tuple(TENANTS)
SETTINGS = """
[[tenant]]
name = "{}"
max_spans = {}
[tenant.tail_sampling]
decision_wait_ms = {}
num_traces = {}
[tenant.tail_sampling.decision_cache]
sampled_cache_size = 100
non_sampled_cache_size = 100
[[tenant.tail_sampling.policy]]
{}
[tenant.batch]
timeout_ms = 0
[tenant.sending_queue]
queue_size = 10
num_consumers = 2
"""


def settings():
    return "".join(SETTINGS.format(name, spans, WAIT, traces, policy) for name, (spans, traces, policy) in TENANTS.items())


def body(number):
    """A request with one span and a resource of its own."""
    return f"0a3b0a190a170a016b12120a10{(b'%016d' % number).hex()}121e121c0a10{number:032x}1208{number:016x}"


def lines(posts):
    """The script. The trace that was posted a wait ago is decided by now, and its batch is the first tenant's next job."""
    for moment in range(posts):
        yield f"post {NAMES[moment % 4]} {moment} {body(moment + 1)}\nturn 0 {moment}\n"
        decided = moment - WAIT
        if decided >= 0 and decided % 4 == 0:
            yield f"answer taken {moment} {decided // 4 + 1} 0 200 - -\n"


class Run:
    """The program, whose answers are counted."""

    def __init__(self, program, file):
        self.process = subprocess.Popen([program, "replay", file], stdin=subprocess.PIPE, stdout=subprocess.PIPE)
        self.counts = {}
        self.reports = {}
        self.reported = threading.Semaphore(0)
        self.reader = threading.Thread(target=self.read)
        self.reader.start()

    def read(self):
        for line in self.process.stdout:
            word, name, *fields = line.decode().split()
            if word in ("reply", "refused"):
                said = name, fields[0]
                self.counts[said] = self.counts.get(said, 0) + 1
            if word == "report":
                self.reports[name] = {key: int(value) for key, value in (field.split("=") for field in fields)}
                self.reported.release()

    def kilobytes(self, moment):
        """The most memory that it has had, once all it was sent is answered."""
        for name in NAMES:
            self.send(f"report {name} {moment}\n")
        self.process.stdin.flush()
        for _ in NAMES:
            if not self.reported.acquire(timeout=120):
                sys.exit("steady: no report")
        status = Path(f"/proc/{self.process.pid}/status").read_text()
        return int(re.search(r"^VmHWM:\s+(\d+) kB$", status, re.M)[1])

    def send(self, text):
        self.process.stdin.write(text.encode())

    def end(self):
        self.process.stdin.close()
        self.reader.join()
        return self.process.wait()


def wrong(run, posts, first, last):
    """What isn't as it has to be."""
    if last > first + MOST_KILOBYTES:
        yield f"memory rose from {first} to {last} kB"
    for at, name in enumerate(NAMES):
        report = run.reports[name]
        sent = len(range(at, posts, 4))
        ends = sum(count for key, count in report.items() if key not in ("accepted", "invalid", "over_budget"))
        taken, busy = (run.counts.get((name, status), 0) for status in ("200", "429"))
        if not (report["accepted"] == ends == taken and taken + busy == sent):
            yield f"{name}: of {sent} posts {taken} were taken and {busy} refused, and the report is {report}"
    taken, stuck, poor, narrow = (run.reports[name] for name in NAMES)
    unheard = run.counts.get(("taken", "21"), 0)
    if taken["exported"] < taken["accepted"] - WAIT or unheard:
        yield f"taken: {taken}, and {unheard} answers were not heard"
    if stuck["queued"] + stuck["active"] != 12 or not stuck["queue_full"]:
        yield f"stuck: {stuck}"
    if not (poor["not_sampled"] and run.counts.get(("poor", "429"))):
        yield f"poor: {poor}, and no post was above the budget"
    if not narrow["too_early"]:
        yield f"narrow: {narrow}"


def main():
    program = sys.argv[1] if len(sys.argv) > 1 else HERE / "trace_collector"
    posts = int(sys.argv[2]) if len(sys.argv) > 2 else 1_000_000
    with tempfile.TemporaryDirectory() as folder:
        file = Path(folder, "settings.toml")
        file.write_text(settings())
        run = Run(program, file)
        script = lines(posts)
        moment, first = 0, None
        for text in script:
            run.send(text)
            if text.startswith("post"):
                moment += 1
                if moment == posts // 10:
                    first = run.kilobytes(moment - 1)
        last = run.kilobytes(posts - 1)
        status = run.end()
    faults = [*wrong(run, posts, first, last), *([f"it ended with {status}"] if status else [])]
    print(*faults, sep="\n", end="\n" if faults else "")
    print(f"{posts} posts: {first} kB at most in the first tenth, {last} kB in all" if not faults else f"{len(faults)} wrong")
    sys.exit(min(len(faults), 1))


if __name__ == "__main__":
    main()
