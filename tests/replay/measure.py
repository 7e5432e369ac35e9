#!/usr/bin/env python3
"""Measures what a span costs a replay: `tests/replay/measure.py [WHAT...] [--program PROGRAM] [--beside OTHER] [--rounds N]`.

WHAT is any of these, all of them if none is said:

    tenants   a span of 1 tenant and of 1,000, with 1,000 and 100,000 spans held
    held      a span with 1,000, 100,000 and 1,000,000 spans held
    idle      a turn that finds nothing to do, of 1 tenant and of 1,000, which hold nothing, and a trace each
    memory    the bytes of a span that waits
    ids       a trace whose id is any, and ones that are chosen
    caches    a trace that is remembered by a cache of 1,000 and of 1,000,000 ids, and one that isn't
    parts     a post of 50 spans that are noted by 1, 2 and 16 threads
    million   the million spans of make_script.py

A cost is what twice as many steps take beyond what so many take, so that the settings, the start and the first spans are
not in it. Instructions are Valgrind's (`cachegrind`), where they don't take too long; time is the processor time of the
program, its own and the system's, the best of so many rounds (3). A ratio is against the first line of its table. With
another program each table has its lines for both.
"""

import argparse
import hashlib
import os
import re
import subprocess
import sys
import tempfile
import threading
from functools import partial
from pathlib import Path

import make_script

HERE = Path(__file__).resolve().parent.parent.parent
TRACE = make_script.TRACE
SETTINGS = """
[[tenant]]
name = "tenant-{}"
max_spans = 2000000
[tenant.batch]
timeout_ms = 0
[tenant.tail_sampling]
decision_wait_ms = {}
num_traces = {}
[[tenant.tail_sampling.policy]]
type = "always_sample"
"""
# the policies of make_script.py, of which one samples every trace besides
OTHERS = make_script.SETTINGS[make_script.SETTINGS.index("[[tenant.tail_sampling.policy]]"):]


def settings(tenants, wait, rows, parts=1, policies=OTHERS):
    """So many tenants, whose traces wait for so many milliseconds."""
    tables = "".join(SETTINGS.format(tenant, wait, rows) + policies for tenant in range(tenants))
    return f"[global]\nparts = {parts}\n{tables}"


def trace_body(tenants, post):
    """The next trace of a tenant: twelve spans of eight attributes under one resource."""
    return make_script.body(post % tenants, post // tenants * TRACE, TRACE, post % len(make_script.SERVICES))


def one_span(number, post):
    """A span of a trace with this id, and nothing else."""
    return bytes.fromhex("0a20121e121c0a10") + number(post) + bytes.fromhex("1208") + (post + 1).to_bytes(8, "big")


def load(tenants, wait, body, posts):
    """A post each millisecond from tenants in turn, a turn after it, and the answer to the batch that the turn gives: that
    of the trace that was posted a wait ago."""
    for post in range(posts):
        yield f"post tenant-{post % tenants} {post} {body(post).hex()}\n"
        if post >= wait:
            tenant, ticket = (post - wait) % tenants, (post - wait) // tenants + 1
            yield f"turn 0 {post}\nanswer tenant-{tenant} {post} {ticket} 0 200 - -\n"


def turns(tenants, holding, count):
    """Turns that find nothing to do, once each tenant holds one trace or none."""
    if holding:
        yield from (f"post tenant-{tenant} 0 {trace_body(tenants, tenant).hex()}\n" for tenant in range(tenants))
    yield from (f"turn 0 {1 + moment}\n" for moment in range(count))


def fed(process, script, said):
    """Writes the script, and goes through what is answered."""
    def write():
        with process.stdin as stdin:
            for line in script:
                stdin.write(line.encode())

    writer = threading.Thread(target=write)
    writer.start()
    for line in process.stdout:
        word = line[: line.find(b" ")]
        said[word] = said.get(word, 0) + 1
    writer.join()


def run(command, file, script):
    """Replays a script; gives how often each kind of answer came, the seconds it took, the most kilobytes it had, and what
    was written to standard error."""
    with tempfile.TemporaryFile() as errors:
        process = subprocess.Popen([*command, "replay", file], stdin=subprocess.PIPE, stdout=subprocess.PIPE, stderr=errors)
        said = {}
        fed(process, script, said)
        _, status, usage = os.wait4(process.pid, 0)
        errors.seek(0)
        told = errors.read().decode()
    if status or said.get(b"refused"):
        sys.exit(f"measure: status {status}, {said}: {told[-300:]}")
    return said, usage.ru_utime + usage.ru_stime, usage.ru_maxrss, told


def instructions(program, file, script):
    tool = ["valgrind", "--tool=cachegrind", "--cache-sim=no", "--cachegrind-out-file=/dev/null"]
    told = run([*tool, program], file, script)[3]
    return int(re.search(r"I\s+refs:\s+([\d,]+)", told)[1].replace(",", ""))


class Table:
    """Lines of costs, each with its ratio to the first line."""

    def __init__(self, title, options):
        print(f"{title}")
        self.options = options
        self.first = {}

    def line(self, name, document, script, first, more, units, counted=True):
        """What `script(first + more)` takes beyond `script(first)`, by unit."""
        for program in self.options.programs:
            with tempfile.TemporaryDirectory() as folder:
                file = Path(folder, "settings.toml")
                file.write_text(document)
                costs = {"ns": self.time(program, file, script, first, more) * 1e9 / units}
                if counted:
                    low, high = (instructions(program, file, script(count)) for count in (first, first + more))
                    costs["instructions"] = (high - low) / units
            told = ", ".join(f"{cost:,.0f} {unit} ({cost / self.first.setdefault(unit, cost):.2f})"
                             for unit, cost in costs.items())
            print(f"  {name}{'' if program == self.options.programs[0] else ', the other program'}: {told}", flush=True)

    def time(self, program, file, script, first, more):
        def best(count):
            return min(run([program], file, script(count))[1] for _ in range(self.options.rounds))
        return best(first + more) - best(first)


def load_line(table, tenants, held, posts, counted=True):
    wait = held // TRACE
    script = partial(load, tenants, wait, partial(trace_body, tenants))
    name = f"{tenants:,} tenant{'s' if tenants > 1 else ''}, {held:,} spans held"
    table.line(name, settings(tenants, wait, wait // tenants + 10), script, wait + tenants, posts, posts * TRACE, counted)


def tenants(options):
    table = Table("A span, by the number of tenants", options)
    for held, counted in ((1_000, True), (100_000, False)):
        for count in (1, 1_000):
            load_line(table, count, held, 4_000, counted)
        table.first = {}


def held(options):
    table = Table("A span, by the number of spans held", options)
    for count in (1_000, 100_000, 1_000_000):
        load_line(table, 1, count, 4_000 if count < 1_000_000 else 40_000, count < 1_000_000 or options.long)


def idle(options):
    for holding in (False, True):
        table = Table(f"A turn that finds nothing to do, each tenant holding {'one trace' if holding else 'nothing'}", options)
        for count in (1, 1_000):
            document = settings(count, 86_400_000, 10, policies="")
            table.line(f"{count:,} tenants", document, partial(turns, count, holding), 50_000, 50_000, 50_000)


def memory(options):
    print("The most memory, by spans that wait")
    with tempfile.TemporaryDirectory() as folder:
        file = Path(folder, "settings.toml")
        file.write_text(settings(1, 86_400_000, 1_000_000))
        for name, size, body in (("of eight attributes", TRACE, partial(trace_body, 1)),
                                 ("of ids alone, a trace each", 1, partial(one_span, any_id))):
            counts = [500_000 // size, 1_000_000 // size]
            for program in options.programs:
                low, high = (run([program], file, load(1, count, body, count))[2] for count in counts)
                text = sum(len(body(post)) for post in range(1_000)) / (1_000 * size)
                a_span = (high - low) * 1024 / ((counts[1] - counts[0]) * size)
                print(f"  a span {name}: {a_span:.0f} bytes, of a body of {text:.0f} a span", flush=True)


def any_id(post):
    return hashlib.sha256(post.to_bytes(8, "big")).digest()[:16]


IDS = {
    "any ids": any_id,
    "ids that rise": lambda post: (post + 1).to_bytes(16, "big"),
    "ids that fall": lambda post: (2**127 - post).to_bytes(16, "big"),
    "ids that differ in the first byte and the last ones": lambda post: bytes([post % 251 + 1]) + post.to_bytes(15, "big"),
    "ids that rise by 2^64": lambda post: ((post + 1) << 64).to_bytes(16, "big"),
    "ids that come from both ends": lambda post: (post + 1 if post % 2 else 2**128 - 1 - post).to_bytes(16, "big"),
}


def ids(options):
    table = Table("A trace of one span, 4,000 traces held", options)
    for name, number in IDS.items():
        script = partial(load, 1, 4_000, partial(one_span, number))
        table.line(name, settings(1, 4_000, 5_000), script, 4_000, 8_000, 8_000)


CACHES = """
[tenant.tail_sampling.decision_cache]
sampled_cache_size = {0}
non_sampled_cache_size = {0}
"""


def caches(options):
    table = Table("A trace of one span, 4,000 traces held, by the sizes of its tenant's caches of decisions", options)
    for size in (0, 1_000, 1_000_000):
        script = partial(load, 1, 4_000, partial(one_span, any_id))
        table.line(f"{size:,}", settings(1, 4_000, 5_000, policies=OTHERS + CACHES.format(size)), script, 6_000, 8_000, 8_000)


def made(count):
    """A script of make_script.py with so many posts."""
    for post in range(count):
        text = make_script.body(post % 10, post // 10 * 50, 50, post // 10 % len(make_script.SERVICES))
        yield f"post tenant-{post % 10} {post * 10} {text.hex()}\nturn 0 {post * 10}\nturn 0 {post * 10}\n"


def made_settings(parts):
    return f"[global]\nparts = {parts}\n" + "".join(make_script.SETTINGS.format(tenant) for tenant in range(10))


def parts(options):
    table = Table("A span of the scripts of make_script.py, by the threads that note a body", options)
    for count in (1, 2, 16):
        table.line(f"{count} parts", made_settings(count), made, 1_000, 1_000, 50_000)


def million(options):
    table = Table("A span of make_script.py's million", options)
    table.line("1 part", made_settings(1), made, 0, 20_000, 1_000_000, False)


def main():
    kinds = {kind.__name__: kind for kind in (tenants, held, idle, memory, ids, caches, parts, million)}
    parser = argparse.ArgumentParser(description=__doc__, formatter_class=argparse.RawDescriptionHelpFormatter)
    parser.add_argument("what", nargs="*")
    parser.add_argument("--program", default=str(HERE / "trace_collector"))
    parser.add_argument("--beside")
    parser.add_argument("--rounds", type=int, default=3)
    parser.add_argument("--long", action="store_true", help="count instructions with a million spans held too")
    options = parser.parse_args()
    options.programs = [options.program, *([options.beside] if options.beside else [])]
    if unknown := set(options.what) - set(kinds):
        parser.error(f"no such measure: {', '.join(sorted(unknown))}")
    for name, kind in kinds.items():
        if name in options.what or not options.what:
            kind(options)


if __name__ == "__main__":
    main()
