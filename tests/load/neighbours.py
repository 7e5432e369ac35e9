#!/usr/bin/env python3
"""Measures what neighbours that rest, hang or are loud cost others:
`python3 tests/load/neighbours.py PROGRAM PART.. [--with="OPTION.."]..`, and with the options that `--help` names.

Each part starts the program without options, and once more with those of each `--with`. These and the kinds of runs
of a part take turns, as often as `--runs` says. It prints a table of Markdown for each part, of medians over the runs:

    clients      one client posts 200 requests a second while none, 60 or 4,096 others rest, each with its connection,
                 over which it was answered before: the time of its replies, and the memory that is resident
    back_ends    of a hundred tenants ten have a back end that answers, or that takes posts and never does: how many
                 spans a second of the other ninety come to theirs, and how late behind their moment
    rest         with a thousand tenants and 64 shards, senders and receivers, and with one tenant and 4 of each: the
                 share of a processor at rest, how often a thread wakes in a second, and how late posts come of ten
                 spans a second
    connections  8 and 32 connections to one tenant: how many spans a second are taken, and come
    quiet        a tenant with ten requests a second, alone, beside another one at full load in its own shard, and
                 beside one in another, with 1, 2 and 4 shards: the time of its replies
    waiting      forty clients, of which eight are served at a time, each over one connection for two seconds; who isn't
                 answered within a second, or whose connection is closed, posts the same again over another: how many
                 spans were posted, how often again, how many were taken twice, and when the last one was done

Every wait has an end: who isn't served until then is a figure. Ends with 1 where of what was taken not all was counted
and came. Processors are shared out as measure.py does.
"""

import argparse
import socket
import statistics
import subprocess
import tempfile
import threading
import time
from contextlib import ExitStack

import measure
from measure import MOST, RATE, SPANS, free_port, wait_for
from peers import Measured, Resting, each_part, globals_of, plain_section, post, talk

IDLE = (0, 60, 4096)
GOOD, BAD = 90, 10
# a tenant's decision, and then its batch, in milliseconds
WAIT, BATCH = 1000, 200
# the longest, in seconds, until clients that rest are answered, and that a load may take more than it posts
ANSWERED = 10
# stands once in each span
NAME = b"GET /v1/orders"
faults = []


def row(*cells):
    print("| " + " | ".join(map(str, cells)) + " |", flush=True)


def head(*cells):
    row(*cells)
    print("|---" * len(cells) + "|", flush=True)


def median(runs, name, scale=1.0, less=0.0):
    """The median of this figure of the runs, with the least and the most, or in how many runs there is none."""
    found = [run[name] / scale - less for run in runs if name in run]
    if len(found) < len(runs):
        return f"none in {len(runs) - len(found)} of {len(runs)} runs"
    if len(found) == 1:
        return f"{found[0]:,.1f}"
    return f"{statistics.median(found):,.1f} ({min(found):,.1f} to {max(found):,.1f})"


def in_turns(words, kinds, measured):
    """Runs all variants and kinds in turns: each one's name, its kind, and its figures."""
    runs = {(options, kind): [] for options in ("", *words.given) for kind in kinds}
    for _ in range(words.runs):
        for (options, kind), found in runs.items():
            with tempfile.TemporaryDirectory() as folder:
                found.append(measured(words, folder, options.split(), kind))
    return [(options or "none", kind, found) for (options, kind), found in runs.items()]


def loaded(words, service, tenants, connections, rate, spans=SPANS, first=0):
    """What `load post` says, or nothing where it isn't answered."""
    return post(words, words.load, service.port, tenants, connections, rate, words.seconds, spans, first,
                wait=words.seconds + ANSWERED)


def settle(service, told, came, what, again=False):
    """Waits until as many spans have come as were taken, ends the service, and compares: all reports. Whose back end lets
    an answer wait too long is posted the same again."""
    try:
        wait_for(lambda: came() >= told, "all spans are sent")
        reports, status = service.reports()
    except (TimeoutError, subprocess.TimeoutExpired) as fault:
        faults.append(f"{what}: {fault}")
        return
    sums = [sum(counts.get(name, 0) for counts in reports.values()) for name in ("accepted", "exported")]
    if (*sums, status) != (told, told, 0) or came() < told or came() > told and not again:
        faults.append(f"{what}: {told} spans were taken; accepted, exported: {sums}; {came()} came; status {status}")


def beside_idle(words, folder, options, idle):
    port = free_port()
    with measure.BackEnd(words.others, words.load) as back_end:
        settings = globals_of(port, receivers=64) + measure.section("tenant-0", back_end.port)
        with Measured(words, folder, port, settings, options) as service:
            with Resting(port, idle) as others:
                found = {"answered": others.answered(ANSWERED)}
                found.update(loaded(words, service, 1, 1, RATE))
                found.update(resident=service.kilobytes("VmRSS"), threads=len(service.threads()))
                # Who was let go meanwhile isn't.
                found["again"] = others.answered(ANSWERED)
            if "spans" in found:
                settle(service, found["spans"], back_end.spans, f"clients {options} {idle}")
        return found


def clients(words):
    head("Options", "Clients that rest", "answered before", "and after", "Replies to the busy one", "half within, ms",
         "99 of 100, ms", "Resident, MB", "Threads")
    for options, idle, runs in in_turns(words, words.idle, beside_idle):
        row(options, idle, median(runs, "answered"), median(runs, "again"), median(runs, "requests"),
            median(runs, "half", 1000), median(runs, "most_99", 1000), median(runs, "resident", 1000),
            median(runs, "threads"))


def both_loads(words, service, good, rate):
    """The ninety's figures beside a few posts of the ten, and how many spans of the ten were taken."""
    told = {}
    others = threading.Thread(target=lambda: told.update(loaded(words, service, BAD, 2, 20, 10, GOOD)))
    own = threading.Thread(target=lambda: found.update(loaded(words, service, GOOD, 8, rate)))
    found = {}
    others.start()
    # The ten's jobs are on their way before those of the others.
    time.sleep((WAIT + BATCH) / 1000 + 0.5)
    own.start()
    time.sleep(words.seconds / 2)
    half, sent = time.monotonic(), good.spans()
    own.join()
    found["sent_a_second"] = (good.spans() - sent) / (time.monotonic() - half)
    others.join()
    return found, told.get("spans", 0)


def beside_hanging(words, folder, options, kind):
    rate, hang = kind
    port = free_port()
    with ExitStack() as stack:
        good = stack.enter_context(measure.BackEnd(words.others, words.load))
        bad = stack.enter_context(talk.BackEnd(None if hang else talk.TAKEN))
        sections = [plain_section(number, (good if number < GOOD else bad).port, WAIT) for number in range(GOOD + BAD)]
        settings = globals_of(port, receivers=16) + "".join(sections)
        service = stack.enter_context(Measured(words, folder, port, settings, options))
        found, others = both_loads(words, service, good, rate)
        found["held"] = len(bad.held)
        bad.release()
        taken = found.get("spans", 0)
        try:
            wait_for(lambda: good.spans() >= taken, "the ninety's spans come")
        except TimeoutError as fault:
            faults.append(f"back_ends {options} {kind}: {fault}")
        late = good.asked("ages")
        found.update(late_half=late["half"], late_99=late["most_99"], late_most=late["most"])
        settle(service, taken + others, lambda: good.spans() + b"".join(bad.bodies()).count(NAME),
               f"back_ends {options} {kind}", hang and "--back-end-timeout" in options)
        return found


def back_ends(words):
    head("Options", "Requests a second", "Ten back ends", "held at once", "Spans of the ninety come a second",
         "late by half, ms", "99 of 100, ms", "the latest, ms", "99 of 100 replies, ms")
    kinds = [(rate, hang) for rate in words.rates for hang in (False, True)]
    for options, (rate, hang), runs in in_turns(words, kinds, beside_hanging):
        row(options, rate or "all", "hang" if hang else "answer", median(runs, "held"), median(runs, "sent_a_second"),
            *(median(runs, name, 1000, WAIT + BATCH) for name in ("late_half", "late_99", "late_most")),
            median(runs, "most_99", 1000))


def resting(words, folder, options, kind):
    tenants, threads = kind
    port = free_port()
    with measure.BackEnd(words.others, words.load) as back_end:
        sections = [plain_section(number, back_end.port, WAIT) + "[tenant.batch]\ntimeout_ms = 0\n"
                    for number in range(tenants)]
        settings = globals_of(port, threads, threads, threads) + "".join(sections)
        with Measured(words, folder, port, settings, options) as service:
            # Each thread has come to its rest then.
            time.sleep(2)
            start, (seconds, waits) = time.monotonic(), service.used()
            time.sleep(words.rest)
            took, (seconds_then, waits_then) = time.monotonic() - start, service.used()
            found = {"share": (seconds_then - seconds) / took, "wakes": (waits_then - waits) / took}
            told = loaded(words, service, tenants, 1, 10, 1)
            settle(service, told.get("spans", 0), back_end.spans, f"rest {options} {kind}")
            late = back_end.asked("ages")
            found.update(late_half=late["half"], late_99=late["most_99"], late_most=late["most"])
            return found


def rest(words):
    head("Options", "Tenants", "Shards, senders, receivers", "Of 100 of a processor", "Wakes a second",
         "Posts late by half, ms", "99 of 100, ms", "the latest, ms")
    for options, (tenants, threads), runs in in_turns(words, ((1, 4), (1000, 64)), resting):
        row(options, tenants, threads, median(runs, "share", 0.01), median(runs, "wakes"),
            *(median(runs, name, 1000, WAIT) for name in ("late_half", "late_99", "late_most")))


def over_connections(words, folder, options, connections):
    port = free_port()
    with measure.BackEnd(words.others, words.load) as back_end:
        settings = measure.settings(port, back_end.port, 1, connections)
        with Measured(words, folder, port, settings, options) as service:
            found = {}
            load = threading.Thread(target=lambda: found.update(loaded(words, service, 1, connections, 0)))
            load.start()
            time.sleep(words.seconds / 2)
            half, sent = time.monotonic(), back_end.spans()
            load.join()
            found["sent_a_second"] = (back_end.spans() - sent) / (time.monotonic() - half)
            found["taken_a_second"] = found.get("spans", 0) / words.seconds
            settle(service, found.get("spans", 0), back_end.spans, f"connections {options} {connections}")
            return found


def connections(words):
    head("Options", "Connections", "Spans a second taken", "come", "half of the replies, ms", "99 of 100, ms")
    for options, count, runs in in_turns(words, words.connections, over_connections):
        row(options, count, median(runs, "taken_a_second"), median(runs, "sent_a_second"), median(runs, "half", 1000),
            median(runs, "most_99", 1000))


def beside_loud(words, folder, options, kind):
    """Tenant 0 is loud, tenant 1 is in another shard if there is one, and tenant 4 in the same."""
    shards, quiet, loud = kind
    port = free_port()
    with measure.BackEnd(words.others, words.load) as back_end:
        settings = globals_of(port, shards, receivers=16) + "".join(
            measure.section(f"tenant-{number}", back_end.port) for number in range(5))
        with Measured(words, folder, port, settings, options) as service:
            found, told = {}, {}
            load = threading.Thread(target=lambda: told.update(loaded(words, service, 1, 8, 0)))
            if loud:
                load.start()
            found.update(loaded(words, service, 1, 1, 10, 1, quiet))
            if loud:
                load.join()
            spans = told.get("spans", 0)
            found["loud_a_second"] = spans / words.seconds
            settle(service, spans + found.get("spans", 0), back_end.spans, f"quiet {options} {kind}")
            return found


def quiet(words):
    head("Options", "Shards", "Beside it", "Spans a second of the loud one", "half of its replies, ms", "99 of 100, ms",
         "the latest, ms")
    kinds = [(shards, tenant, loud) for shards in (1, 2, 4) for tenant, loud in ((4, False), (4, True), (1, True))
             if shards > 1 or tenant == 4]
    for options, (shards, tenant, loud), runs in in_turns(words, kinds, beside_loud):
        row(options, shards, ("one in its shard" if tenant == 4 else "one in another") if loud else "nobody",
            median(runs, "loud_a_second"), *(median(runs, name, 1000) for name in ("half", "most_99", "most")))


class Impatient(threading.Thread):
    """Posts spans one after the other over a connection for two seconds from its first reply on, each anew over another
    connection where no reply came within a second, or this one was closed."""

    def __init__(self, port, number):
        super().__init__(daemon=True)
        self.port = port
        self.number = number
        self.spans = 0
        self.again = 0

    def run(self):
        end, line = None, None
        while end is None or time.monotonic() < end:
            text = talk.request((bytes([1, self.number]) + self.spans.to_bytes(14, "big"), b"\1" * 8, b""))
            while not (line := self.answered(line, text)):
                self.again += 1
                time.sleep(0.2)
            self.spans += 1
            end = end or time.monotonic() + 2
            time.sleep(0.1)
        line.close()

    def answered(self, line, text):
        """The connection over which the post was answered, or none."""
        line = line or socket.create_connection(("127.0.0.1", self.port), timeout=1)
        try:
            line.sendall(talk.head_of("tenant-0", len(text)) + text)
            if line.recv(4096):
                return line
        except OSError:
            pass
        line.close()
        return None


def beside_many(words, folder, options, count):
    port = free_port()
    with measure.BackEnd(words.others, words.load) as back_end:
        settings = globals_of(port, receivers=8) + measure.section("tenant-0", back_end.port)
        with Measured(words, folder, port, settings, options) as service:
            start = time.monotonic()
            many = [Impatient(port, number) for number in range(count)]
            for one in many:
                one.start()
            for one in many:
                one.join(MOST)
            found = {"took": time.monotonic() - start, "posted": sum(one.spans for one in many),
                     "again": sum(one.again for one in many)}
            # What was given up is served until here.
            time.sleep(0.5)
            reports, _ = service.reports()
            found["twice"] = sum(counts["accepted"] for counts in reports.values()) - found["posted"]
            return found


def waiting(words):
    head("Options", "Clients", "Spans posted", "posted again", "taken twice", "all done after, s")
    for options, count, runs in in_turns(words, (40,), beside_many):
        row(options, count, median(runs, "posted"), median(runs, "again"), median(runs, "twice"), median(runs, "took"))


PARTS = {part.__name__: part for part in (clients, back_ends, rest, connections, quiet, waiting)}


def main():
    asked = argparse.ArgumentParser(description="Measures what neighbours that rest, hang or are loud cost others.")
    asked.add_argument("program")
    asked.add_argument("parts", nargs="+", choices=PARTS)
    asked.add_argument("--with", dest="given", action="append", default=[], help="options of the program, as one word")
    asked.add_argument("--runs", type=int, default=3, help="of each kind")
    asked.add_argument("--seconds", type=int, default=10, help="how long each run posts")
    asked.add_argument("--rest", type=int, default=20, help="how long it is looked at while it rests")
    asked.add_argument("--idle", type=int, nargs="+", default=IDLE, help="clients that rest")
    asked.add_argument("--rates", type=int, nargs="+", default=(RATE, 0), help="of back_ends, 0: all it takes")
    asked.add_argument("--connections", type=int, nargs="+", default=(8, 32))
    measure.add_processors(asked)
    words = asked.parse_args()
    each_part(words, lambda name: PARTS[name](words), faults)


if __name__ == "__main__":
    main()
