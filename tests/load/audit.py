#!/usr/bin/env python3
"""Tells how much memory the log of `--audit` takes: `python3 tests/load/audit.py PROGRAM..`.

A service of one shard and one heap is posted 200,000 spans of 460 bytes in bodies of 100, or 20,000 in bodies of one;
twelve are a trace, which waits a tenth of a second, is kept, and leaves in batches of 1,000. Once all have left it is
posted as many again. What resident memory has grown by meanwhile, divided by these spans, is what stays of each: with
the log, and without one. It prints a table of Markdown. What else runs on the machine has no say. Ends with 1 where
not all is counted and sent.
"""

import argparse
import subprocess
import tempfile
from pathlib import Path

import measure
from measure import free_port, numbers, on, wait_for
from peers import Measured

# Spans a body, requests a second, for how many seconds, and for how many rows there is room: for fewer than are posted in
# that time, so that no more stay later, and for so many that none is pushed out undecided where the machine stands still
# for some seconds.
LOADS = ((100, 400, 5, 10_000), (1, 2_000, 10, 1_000))
HEAP = ("env", "MALLOC_ARENA_MAX=1")


def left(service):
    """How many spans have left, once all have."""
    counts = numbers(service.ask("report tenant-0"))
    return counts["accepted"] if counts["accepted"] == counts["exported"] else None


def posted(words, service, size, rate, seconds):
    """How many spans were posted, and resident bytes once they have left."""
    before = left(service)
    post = on(words.others, words.load, "post", *map(str, (service.port, 1, 1, rate, seconds, size)))
    spans = numbers(subprocess.run(post, stdout=subprocess.PIPE, text=True, check=True).stdout)["spans"]
    wait_for(lambda: left(service) == before + spans, "all have left")
    return spans, 1024 * service.kilobytes("RssAnon")


def stays(words, program, folder, load, *options):
    """How many bytes stay of a span."""
    words.program, port = program, free_port()
    *load, rows = load
    with measure.BackEnd(words.others, words.load) as back_end:
        settings = measure.settings(port, back_end.port, 1, 1).replace("shards = 2", "shards = 1").replace(
            "decision_wait_ms = 1000", "decision_wait_ms = 100").replace("num_traces = 1000000", f"num_traces = {rows}")
        with Measured(words, folder, port, settings, options, under=HEAP) as service:
            (_, before), (spans, after) = (posted(words, service, *load) for _ in range(2))
            return (after - before) / spans


def main():
    asked = argparse.ArgumentParser(description="Tells how much memory the log of --audit takes.")
    asked.add_argument("programs", nargs="+")
    measure.add_processors(asked)
    words = asked.parse_args()
    print("| Program | Spans a body | Bytes that stay of a span, with --audit | without |\n|---|---|---|---|")
    with tempfile.TemporaryDirectory() as folder:
        words.load = measure.built(folder)
        for program in words.programs:
            for load in LOADS:
                told = [stays(words, program, folder, load, *options) for options in (("--audit",), ())]
                print(f"| {Path(program).name} | {load[0]} | {told[0]:,.0f} | {told[1]:,.0f} |", flush=True)


if __name__ == "__main__":
    main()
