#!/usr/bin/env python3
"""Counts what a span takes on its whole way through a collector: `python3 tests/load/count.py PROGRAM..`, with the
options that `--help` names.

Each program is run by valgrind's callgrind under the load of measure.py: one tenant over one connection that posts as
soon as it was answered, once for three seconds and once for nine. What the longer run took more, of all threads, less
what those that rest take in that time, is divided by how many spans more were taken. So start and settings have no
share, and since batches wait until they are full neither has how slow callgrind is. That is done for bodies of 1, 100
and 1,000 spans. What else runs on the machine has no say; what the system does for a program isn't counted. The C
library fills and moves memory without string instructions, of which callgrind counts one for each byte.

It prints a table of Markdown; behind each program but the first, how many times the first one's instructions it takes.
Ends with 1 where a span isn't taken, counted and sent.
"""

import argparse
import os
import re
import subprocess
import tempfile
from pathlib import Path

import measure
from measure import free_port, numbers, on, wait_for

NO_STRINGS = "GLIBC_TUNABLES=" + ":".join(f"glibc.cpu.x86_rep_{kind}_threshold={1 << 40}" for kind in ("stosb", "movsb"))
CALLGRIND = ("env", NO_STRINGS, "valgrind", "--tool=callgrind", "--callgrind-out-file=/dev/null")
SIZES = (1, 100, 1000)
# no batch goes before it is full
PATIENT = "[tenant.batch]\ntimeout_ms = 600000\n"


class Counted(measure.Service):
    """The program under callgrind."""

    def end(self):
        """All its instructions, and how many spans it says that it took and sent."""
        out, err = self.run.communicate(timeout=measure.MOST)
        told = numbers(out)
        return int(re.findall(r"Collected : (\d+)", err)[-1]), (told["accepted"], told["exported"])


def once(words, program, folder, spans, seconds):
    """The instructions of one run, and of how many spans they are; without spans nothing is posted."""
    port = free_port()
    file = Path(folder, "settings.toml")
    with measure.BackEnd(words.others, words.load) as back_end:
        file.write_text(measure.settings(port, back_end.port, 1, 1).replace("[tenant.batch]\n", PATIENT))
        with Counted(words.own, port, *CALLGRIND, os.path.abspath(program), "serve", file) as service:
            wait_for(service.is_up, "the service is up")
            post = on(words.others, words.load, "post", *map(str, (port, 1, 1, 0, seconds, spans)))
            if not spans:
                post = ["sh", "-c", f"sleep {seconds}; echo spans=0 others=0"]
            told = numbers(subprocess.run(post, stdout=subprocess.PIPE, text=True, check=True).stdout)
            took, counts = service.end()
    if told["others"] or counts != (told["spans"], told["spans"]):
        raise ValueError(f"{program}: {told} told, accepted and exported are {counts}")
    return took, told["spans"]


def of_a_span(words, program, folder, spans):
    """Instructions a span, and of how many spans the difference is."""
    (less, few), (more, many) = (once(words, program, folder, spans, seconds) for seconds in words.seconds)
    if many == few:
        raise ValueError(f"{program}: both runs took {few} spans of bodies of {spans}: have them post for longer")
    (rest_less, _), (rest_more, _) = (once(words, program, folder, 0, seconds) for seconds in words.seconds)
    return (more - less - (rest_more - rest_less)) / (many - few), many - few


def main():
    asked = argparse.ArgumentParser(description="Counts what a span takes on its whole way through a collector.")
    asked.add_argument("programs", nargs="+")
    asked.add_argument("--spans", type=int, nargs="+", default=SIZES, help="spans a body")
    asked.add_argument("--seconds", type=int, nargs=2, default=(3, 9), help="how long the two runs post")
    measure.add_processors(asked)
    words = asked.parse_args()
    names = [Path(name).name for name in words.programs]
    print("| Spans a body | " + " | ".join(names) + " |\n|---" + "|---" * len(names) + "|")
    with tempfile.TemporaryDirectory() as folder:
        words.load = measure.built(folder)
        for spans in words.spans:
            told = [of_a_span(words, program, folder, spans) for program in words.programs]
            first = told[0][0]
            cells = (f" {took:,.0f} ({took / first:.2f}; of {count:,} spans) |" for took, count in told)
            print(f"| {spans:,} |" + "".join(cells), flush=True)


if __name__ == "__main__":
    main()
