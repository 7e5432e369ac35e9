#!/usr/bin/env python3
"""Tells whether the service's memory levels off under a load that stays the same: `python3 tests/load/hours.py
PROGRAM`, with the options that `--help` names.

Twenty tenants in two shards keep all or drop all, half of them with caches of decisions; traces wait two seconds. They
are posted 40,000 spans a second or as many as are named, by loads as those of measure.py, of 1, 10, 100 and 400 spans
a body, and besides twenty bodies a second of 1 to 400 spans whose attributes have up to 4,000 bytes. A third of the
tenants have a back end that answers one post in ten with 503, and rests before one in twenty; the others have that of
measure.py.

It prints a table of Markdown with a line a minute: spans that were taken, the mean and the most of resident memory,
threads and descriptors. Ends with 1 where the mean of the last quarter of the time is above 1.05 times that of the
quarter before, where threads or descriptors rise, or where what clients were told and what was counted don't agree.
"""

import argparse
import os
import random
import socket
import statistics
import subprocess
import sys
import tempfile
import threading
import time
from contextlib import suppress

import measure
from measure import free_port, numbers, on, wait_for
from peers import Measured, globals_of, raise_open_files, talk
from replay.make_script import attribute, number_field, piece

TENANTS, RECEIVERS, SENDERS = 20, 24, 8
# by how many spans a body has: which share of the spans a second come so
LOADS = {1: 0.005, 10: 0.095, 100: 0.5, 400: 0.4}
CONNECTIONS = 4
# bodies a second with texts of any length, and of how many kinds
VARIED, KINDS, MOST_SPANS, MOST_TEXT = 20, 200, 400, 4_000
TRACE, SPAN = b"\1TRACE\1\1" * 2, b"\1SPAN\1\1\1"
LAST = ("exported", "not_sampled", "too_early", "queue_full", "retry_exhausted", "back_end_refused",
        "back_end_rejected")
MOST_TIMES = 1.05
faults = []


def check(what, is_so):
    if not is_so:
        faults.append(what)


def section(number, back_end):
    """Tenants by their number: every other one keeps all, and two of four remember what was decided."""
    kept = talk.ALL if number % 2 else talk.ERRORS
    cache = "decision_cache = { sampled_cache_size = 2000, non_sampled_cache_size = 2000 }\n" if number % 4 < 2 else ""
    return (f'[[tenant]]\nname = "tenant-{number}"\nendpoint = "127.0.0.1:{back_end}"\nmax_spans = 1000000\n'
            f"[tenant.tail_sampling]\ndecision_wait_ms = 2000\nnum_traces = 20000\n{cache}{kept}"
            "[tenant.batch]\nsend_batch_size = 500\nsend_batch_max_size = 500\ntimeout_ms = 200\n"
            "[tenant.sending_queue]\nqueue_size = 100\nnum_consumers = 4\n[tenant.retry_on_failure]\n"
            "initial_interval_ms = 100\nmax_interval_ms = 500\nmax_elapsed_time_ms = 10000\n")


class Faulty(talk.BackEnd):
    """Keeps no text. One post in ten is told to come again, and one in twenty waits."""

    def __init__(self):
        super().__init__()
        self.chance = random.Random(3)

    def serve(self, peer):
        with suppress(OSError), peer:
            talk.read_message(peer.recv)
            with self.lock:
                luck = self.chance.random()
            if luck < 0.05:
                time.sleep(6 * luck)
            peer.sendall(talk.BUSY if 0.05 < luck < 0.15 else talk.TAKEN)


def varied_body(chance):
    """A body, and how many spans it has; its ids are to be replaced."""
    def text(most):
        return "".join(chance.choice("abcdefghijklmnop /") for _ in range(chance.randint(1, most)))

    def length():
        return MOST_TEXT if chance.random() < 0.03 else 40

    count = min(MOST_SPANS, int(chance.lognormvariate(3.6, 1)) + 1)
    def span():
        attributes = b"".join(attribute(9, text(20), text(length())) for _ in range(chance.randrange(14)))
        return piece(1, TRACE) + piece(2, SPAN) + piece(5, text(40).encode()) + number_field(6, 2) + attributes

    spans = b"".join(piece(2, span()) for _ in range(count))
    return piece(1, piece(1, attribute(1, "service.name", text(10))) + piece(2, spans)), count


class Varied(threading.Thread):
    """Posts bodies of its own to everyone in turn, so many a second, and counts the spans that were taken."""

    def __init__(self, port, seconds):
        super().__init__()
        self.port, self.end, self.taken, self.others = port, time.monotonic() + seconds, 0, 0

    def run(self):
        chance = random.Random(7)
        bodies = [varied_body(chance) for _ in range(KINDS)]
        due, post = time.monotonic(), 0
        with socket.create_connection(("127.0.0.1", self.port)) as peer:
            while due < self.end:
                due, post = due + chance.expovariate(VARIED), post + 1
                time.sleep(max(0, due - time.monotonic()))
                text, count = bodies[chance.randrange(KINDS)]
                text = text.replace(TRACE, chance.randbytes(15) + b"\1").replace(SPAN, chance.randbytes(7) + b"\1")
                peer.sendall(talk.head_of(f"tenant-{post % TENANTS}", len(text)) + text)
                if talk.read_message(peer.recv).startswith(b"HTTP/1.1 200 "):
                    self.taken += count
                else:
                    self.others += 1


def loads(words, port):
    """The loads, each for as long as it is."""
    runs = []
    for spans, share in LOADS.items():
        rate = max(1, round(words.rate * share / spans))
        post = map(str, (port, TENANTS, CONNECTIONS, rate, 60 * words.minutes, spans))
        runs.append(subprocess.Popen(on(words.others, words.load, "post", *post), stdout=subprocess.PIPE, text=True))
    return runs


def counted(service):
    """The sums of all tenants' counters."""
    lines = [numbers(service.ask(f"report tenant-{number}")) for number in range(TENANTS)]
    return {name: sum(line[name] for line in lines) for name in lines[0]}


def look(service):
    """Resident memory in MB, threads and descriptors."""
    return service.kilobytes("VmRSS") / 1000, len(service.threads()), len(os.listdir(f"/proc/{service.run.pid}/fd"))


def watched(words, service):
    """What it had each second, told each minute."""
    print("| Minute | Spans taken | Resident, MB: mean | most | Threads | Descriptors | Processor s |")
    print("|---" * 7 + "|")
    seen = []
    for minute in range(1, words.minutes + 1):
        for _ in range(60):
            seen.append(look(service))
            time.sleep(1)
        memory, threads, files = zip(*seen[-60:])
        print(f"| {minute} | {counted(service)['accepted']:,} | {statistics.mean(memory):.1f} | {max(memory):.1f} "
              f"| {max(threads)} | {max(files)} | {service.seconds():.0f} |", flush=True)
    return seen


def levels_off(seen):
    """From the third quarter of the time to the last one."""
    quarter = len(seen) // 4
    for what, at, times in (("resident MB", 0, MOST_TIMES), ("threads", 1, 1), ("descriptors", 2, 1.5)):
        before, last = (statistics.mean(moment[at] for moment in part)
                        for part in (seen[2 * quarter:3 * quarter], seen[3 * quarter:]))
        check(f"{what}: {before:.1f}, then {last:.1f}", last <= times * before)


def accounted(service, runs, varied):
    """What clients were told, and what became of it."""
    told = [numbers(run.communicate()[0]) for run in runs]
    varied.join()
    others = varied.others + sum(of["others"] for of in told)
    check(f"{others} posts that weren't taken", others == 0)
    service.run.stdin.close()
    service.run.stdin = None
    sums = {name: 0 for name in ("accepted", *LAST)}
    for line in service.run.stdout:
        for name in sums:
            sums[name] += numbers(line).get(name, 0)
    taken = varied.taken + sum(of["spans"] for of in told)
    print(f"\n{taken:,} spans were taken; " + ", ".join(f"{name} {count:,}" for name, count in sums.items()))
    check(f"{taken} told, {sums}", taken == sums["accepted"] == sum(sums[name] for name in LAST))
    check("its status", service.run.wait(measure.MOST) == 0)


def measured(words, folder):
    port = free_port()
    words.load = measure.built(folder)
    with measure.BackEnd(words.others, words.load) as good, Faulty() as faulty:
        sections = (section(number, good.port if number % 3 else faulty.port) for number in range(TENANTS))
        settings = globals_of(port, receivers=RECEIVERS, senders=SENDERS) + "".join(sections)
        with Measured(words, folder, port, settings, words.options.split()) as service:
            service.watch.cancel()
            wait_for(service.is_up, "the service is up")
            runs, varied = loads(words, port), Varied(port, 60 * words.minutes)
            varied.start()
            try:
                levels_off(watched(words, service))
                accounted(service, runs, varied)
            finally:
                for run in runs:
                    run.kill()


def main():
    asked = argparse.ArgumentParser(description="Tells whether the service's memory levels off.")
    asked.add_argument("program")
    asked.add_argument("--minutes", type=int, default=60)
    asked.add_argument("--rate", type=int, default=40_000, help="spans a second")
    asked.add_argument("--with", dest="options", default="", help="options of the program, as one word")
    measure.add_processors(asked)
    words = asked.parse_args()
    raise_open_files()
    with tempfile.TemporaryDirectory() as folder:
        measured(words, folder)
    print(*faults, sep="\n", file=sys.stderr)
    sys.exit(min(len(faults), 1))


if __name__ == "__main__":
    main()
