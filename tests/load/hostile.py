#!/usr/bin/env python3
"""Measures what the largest bodies cost that somebody may make up: `python3 tests/load/hostile.py PROGRAM.. [--shapes
SHAPE..]`.

Each body has hardly less than 20,971,520 bytes, and is posted alone and with another of its kind at a time, each time
to a fresh program of one shard whose tenants have room for all; programs take turns. Meanwhile another tenant of that
shard posts spans one after the other. It prints a table of Markdown: the most memory that the program had more than
before (VmHWM), its processor time until the reply and until all was sent, and the longest that the other tenant
waited.

Ends with 1 where the first program takes more memory than it may (SHAPES), where a body isn't answered as it has to be,
or where what is counted and sent isn't what was posted. Times are the machine's: beside other work only memory is
good.
"""

import argparse
import os
import re
import sys
import tempfile
import threading
import time
from pathlib import Path

sys.path.insert(0, str(Path(__file__).resolve().parent.parent))
from replay.make_script import attribute, number_field, piece, time_field  # pylint: disable=wrong-import-position
from serving import talk  # pylint: disable=wrong-import-position
from serving.talk import (  # pylint: disable=wrong-import-position
    BackEnd, Service, body, check, in_threads, tenant, wait_for)

SIZE = 20_971_520
TICKS = os.sysconf("SC_CLK_TCK")
EMPTY = piece(2, b"")


def ids(trace, at):
    return piece(1, (trace + 1).to_bytes(16, "big")) + piece(2, (at + 1).to_bytes(8, "big"))


def in_scope(spans):
    return piece(1, piece(2, spans))


def again(text, most=SIZE - 40):
    return text * (most // len(text))


def valid_spans(count, spelled):
    return b"".join(piece(2, spelled(at)) for at in range(count))


def of_resources(count, each):
    """So many resources, each with so many spans of a trace of their own."""
    spans = (valid_spans(each, lambda at, first=number * each: ids(first + at, at)) for number in range(count))
    return b"".join(piece(1, piece(1, attribute(1, "k", f"{number:04}")) + piece(2, text))
                    for number, text in enumerate(spans))


def one_span(fields):
    return in_scope(piece(2, ids(1, 1) + again(fields, SIZE - 80)))


def nested():
    value = piece(1, b"v")
    for _ in range(45):
        value = piece(5, piece(1, value))
    return one_span(piece(9, piece(1, b"k") + piece(2, value)))


def turned_round(at):
    return piece(2, (at + 1).to_bytes(8, "big")) + piece(1, (at + 1).to_bytes(16, "big"))


# A body, how many of its spans are valid, and how many MB more the program may have for one, and for two at a time.
SHAPES = {
    "10 million empty spans": (lambda: in_scope(again(EMPTY)), 0, 43, 83),
    "3.5 million resource spans of an empty span": (lambda: again(piece(1, piece(2, EMPTY))), 0, 843, 1683),
    "650,000 spans of a trace": (lambda: in_scope(valid_spans(650_000, lambda at: ids(1, at))), 650_000, 238, 366),
    "650,000 spans, a trace each": (lambda: in_scope(valid_spans(650_000, lambda at: ids(at, at))), 650_000, 407, 535),
    "550,000 resource spans of a span": (
        lambda: b"".join(in_scope(piece(2, ids(at, at))) for at in range(550_000)), 550_000, 590, 1011),
    "100 resources of 6,000 spans": (lambda: of_resources(100, 6_000), 600_000, 417, 574),
    "600,000 spans turned round": (lambda: in_scope(valid_spans(600_000, turned_round)), 600_000, 433, 618),
    "a span of a million attributes": (lambda: one_span(attribute(9, "key-0000", "v")), 1, 63, 105),
    "a span of empty attributes": (lambda: one_span(piece(9, b"")), 1, 63, 105),
    "a span of events": (lambda: one_span(piece(11, time_field(1, 1))), 1, 63, 105),
    "a span of nested attributes": (nested, 1, 63, 105),
    "a span of one text": (lambda: in_scope(piece(2, ids(1, 1) + piece(5, b"n" * (SIZE - 80)))), 1, 63, 105),
    "a span of unknown fields": (lambda: one_span(number_field(100, 1)), 1, 63, 105),
}


def megabytes(service, name):
    status = Path(f"/proc/{service.run.pid}/status").read_text()
    return int(re.search(rf"{name}:\s*(\d+)", status)[1]) / 1000


def seconds(service):
    words = Path(f"/proc/{service.run.pid}/stat").read_text().rpartition(")")[2].split()
    return (int(words[11]) + int(words[12])) / TICKS


class Other(threading.Thread):
    """Another tenant, which posts a span again and again, and notes the longest that it waited."""

    def __init__(self, service):
        super().__init__()
        self.service, self.over, self.longest, self.posts = service, threading.Event(), 0.0, 0

    def run(self):
        with self.service.connect() as peer:
            peer.settimeout(10 * talk.MOST)
            while not self.over.wait(0.01):
                begun = time.monotonic()
                check("another tenant's post", self.service.post("b", body(1, 1), peer)[0], 200)
                self.longest = max(self.longest, time.monotonic() - begun)
                self.posts += 1


def counts_of(service, name):
    return {word: int(count) for word, count in re.findall(r"(\w+)=(\d+)", service.report(name))}


def section(name, back_end, batch):
    """A tenant with room for all."""
    sampling = "[tenant.tail_sampling]\n"
    text = tenant(name, back_end, most=100_000_000, timeout=200, consumers=10, batch=batch)
    return text.replace(sampling, f"{sampling}num_traces = 1000000\n")


def bodies(text, valid, count):
    """So many bodies like this one. Those of a single large span are of a trace each, and so each in a batch of its own:
    two of them in one would be more than a batch may have."""
    return [text.replace(ids(1, 1), ids(number, 1), 1) if valid == 1 else text for number in range(1, count + 1)]


def posted(folder, what, text, valid, at_a_time):
    """The figures of one run."""
    sections = [section(name, back_end, 1 if valid == 1 else 8192) for name, back_end in folder[1].items()]
    with Service(folder[0], sections, shards=1, receivers=4, senders=4, parts=1) as service:
        service.watch.cancel()
        check("a post", service.post("b", body(1, 1))[0], 200)
        before, begun = megabytes(service, "VmHWM"), seconds(service)
        other, told = Other(service), []
        other.start()
        in_threads(*(lambda made=made: told.append(service.post("a", made)[0])
                     for made in bodies(text, valid, at_a_time)))
        replied = seconds(service) - begun
        counts = {}

        def all_sent():
            time.sleep(0.05)
            counts.update(counts_of(service, "a"))
            return counts["exported"] == counts["accepted"]

        wait_for(all_sent, "all is sent")
        sent = seconds(service) - begun
        other.over.set()
        other.join()
        check(f"{what}: told, accepted", (set(told), counts["accepted"]), ({200}, valid * at_a_time))
        more = megabytes(service, "VmHWM") - before
        check(f"{what}: status", service.end()[0], 0)
    return more, replied, sent, 1000 * other.longest


class Uncounted(BackEnd):
    """Keeps no text."""

    def serve(self, peer):
        with peer:
            talk.read_message(peer.recv)
            peer.sendall(talk.TAKEN)


def main():
    asked = argparse.ArgumentParser(description="Measures what the largest bodies cost that somebody may make up.")
    asked.add_argument("programs", nargs="+")
    asked.add_argument("--shapes", nargs="+", choices=SHAPES, default=SHAPES, metavar="SHAPE")
    words = asked.parse_args()
    print("| Body | Program | one: MB | processor s to the reply | until sent | another's wait, ms | two: MB | s | s | ms |")
    print("|---" * 10 + "|")
    with tempfile.TemporaryDirectory() as folder, Uncounted() as ones, Uncounted() as others:
        for what in words.shapes:
            made, valid, *most = SHAPES[what]
            text = made()
            for program in words.programs:
                talk.program = os.path.abspath(program)
                ends = folder, {"a": ones, "b": others}
                runs = [posted(ends, what, text, valid, at_a_time) for at_a_time in (1, 2)]
                cells = "".join(f" {run[0]:.0f} | {run[1]:.1f} | {run[2]:.1f} | {run[3]:.0f} |" for run in runs)
                print(f"| {what}, {len(text):,} bytes | {Path(program).name} |{cells}", flush=True)
                if program == words.programs[0]:
                    for (more, *_), bound in zip(runs, most):
                        check(f"{what}: {more:.0f} MB, at most {bound}", more <= bound, True)
    print(*talk.faults[:20], sep="\n", file=sys.stderr)
    sys.exit(min(len(talk.faults), 1))


if __name__ == "__main__":
    main()
