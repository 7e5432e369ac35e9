#!/usr/bin/env python3
"""Has a service under load for as long as one likes, and accounts for every span.

    make trace_collector && python3 tests/soak.py [PROGRAM] [--minutes N] [--rate N]    # ten minutes, 60 posts a second

Fifty tenants, ten of which come and go by the admin port all the while, each for some seconds and then another
of that name. Their back ends are good, busy, slow, reject spans, refuse batches, break off or hold their answer for
longer than `--back-end-timeout`. Clients keep their connections, and others open some and drop them: before a request,
in it, by a reset, at rest until `--client-timeout`, or with a reply that they don't read.

It prints a line a minute: spans that were taken, tenants that went, memory, threads and descriptors of the process. At
the end it is drained. Of each tenant, those that went too, what its clients were told, its last report, and what came to
its back end have to agree, each span once. It ends with 1 where they don't, or where threads, descriptors or memory
rise. With `MALLOC_ARENA_MAX=2` memory stays from the first minutes on (docs/SIZING.md, "Memory variables").
"""

import argparse
import os
import random
import re
import socket
import struct
import tempfile
import threading
import time
from pathlib import Path

from serving import talk
from serving.admin import AdminService
from serving.runs import end
from serving.talk import BUSY, ERROR, ERRORS, MOST, NAMES, TAKEN, BackEnd, check, head_of, read_message, request

SPAN = re.compile(rb"\x0a\x10(\d{6})(\d{10})\x12\x08(\d{8})")
OVER = re.compile(rb"rejected: 0 invalid, (\d+) over budget")
REFUSED = b"HTTP/1.1 400 Bad Request\r\nContent-Length: 0\r\n\r\n"
ONE_REJECTED = b"HTTP/1.1 200 OK\r\nContent-Length: 4\r\n\r\n\x0a\x02\x08\x01"
# Of so many batches one is answered so; the others are taken. `None` is held until the collector gives it up.
KINDS = {"good": (1, TAKEN), "busy": (3, BUSY), "rejects": (5, ONE_REJECTED), "breaks": (4, b"HTTP/1.1 20"),
         "errors": (1, TAKEN), "holds": (10, None), "refuses": (6, REFUSED), "narrow": (1, TAKEN), "gives-up": (3, BUSY),
         "unheard": (1, TAKEN)}
STEADY, PLACES, CLIENTS, DROPPERS, MOST_SPANS = 40, 10, 6, 3, 8
OF_GUESTS = ("good", "busy", "rejects", "breaks", "errors", "refuses")
OPTIONS = {"connections": 40, "senders": 40, "client-timeout": 20_000, "request-timeout": 20_000, "back-end-timeout": 15_000}
WAITING = ("undecided", "pending", "queued", "active")
# Which counters may have spans beside `exported`, by kind.
ALSO = {"rejects": {"back_end_rejected"}, "errors": {"not_sampled"}, "refuses": {"back_end_refused"},
        "narrow": {"over_budget", "queue_full"}, "gives-up": {"retry_exhausted"}}


class Life:
    """A tenant from when it comes until it goes, and what its clients and its back end know of it."""

    def __init__(self, number, name, kind):
        self.number, self.name, self.kind = number, name, kind
        self.lock = threading.Lock()
        self.traces = 0
        # By span: whether a client was told that it is taken (2 where it wasn't told anything), and how often it came.
        self.told, self.came = bytearray(), bytearray()
        self.over = self.taken = self.rejected = self.refused = 0
        # posts on their way
        self.posts = 0
        self.report = None

    def body(self):
        """A body of a new trace, the trace's number, and how many spans it has. Each third trace has an error."""
        with self.lock:
            trace, self.traces = self.traces, self.traces + 1
            for spans in (self.told, self.came):
                spans.extend(bytes(MOST_SPANS))
        count = 1 + trace % MOST_SPANS
        error = ERROR if trace % 3 == 0 else b""
        ids = ((f"{self.number:06}{trace:010}".encode(), f"{at:08}".encode(), error) for at in range(count))
        return request(*ids), trace, count

    def mark(self, trace, count, what):
        with self.lock:
            for at in range(count):
                self.told[trace * MOST_SPANS + at] = what

    def arrived(self, spans, reply):
        """A batch with these spans came and was answered."""
        if reply not in (TAKEN, ONE_REJECTED, REFUSED):
            return
        with self.lock:
            if reply == REFUSED:
                self.refused += len(spans)
            else:
                self.taken += len(spans)
                self.rejected += reply == ONE_REJECTED
            for _, trace, at in spans:
                self.came[int(trace) * MOST_SPANS + int(at)] += 1

    def compare(self):
        """What is known of it on three sides agrees; its counters."""
        line = dict(word.split("=") for word in self.report.split()[2:])
        counts = {name: int(line[name]) for name in NAMES}
        said, unsure = self.told.count(1) - self.over, self.told.count(2)
        wanted = {**dict.fromkeys(WAITING, 0), "exported": self.taken - self.rejected, "back_end_rejected": self.rejected,
                  "back_end_refused": self.refused, "over_budget": self.over}
        of_all = f"{self.name}, {self.kind}, life {self.number}:"
        check(f"{of_all} counters", {name: counts[name] for name in wanted}, wanted)
        check(f"{of_all} a sum", counts["accepted"], sum(counts[name] for name in NAMES[1:12]))
        check(f"{of_all} {counts['accepted']} accepted, {said} told, {unsure} perhaps",
              said <= counts["accepted"] <= said + unsure, True)
        lost = {name for name in NAMES[6:] if counts[name]} - ALSO.get(self.kind, set())
        check(f"{of_all} lost", lost, set())
        check(f"{of_all} spans that came twice", sum(times > 1 for times in self.came), 0)
        check(f"{of_all} spans that came and weren't told", sum(c > 0 and not t for c, t in zip(self.came, self.told)), 0)
        self.compare_kept(counts["not_sampled"])
        return counts

    def compare_kept(self, not_sampled):
        """All spans that its policies keep have come, where its queue and its retries give up none."""
        of_all = f"{self.name}, {self.kind}, life {self.number}:"
        said, unsure = self.told.count(1), self.told.count(2)
        kept = bytearray(self.told)
        if self.kind == "errors":
            for at in range(len(kept)):
                kept[at] *= at // MOST_SPANS % 3 == 0
            check(f"{of_all} not sampled", said + unsure >= not_sampled >= said - kept.count(1), True)
        if self.kind not in ("narrow", "gives-up"):
            check(f"{of_all} spans that were told and didn't come", sum(t == 1 and not c for c, t in zip(self.came, kept)), 0)


class End(BackEnd):
    """The back end of all tenants of a kind. It keeps no text."""

    def __init__(self, kind, lives):
        super().__init__()
        self.kind, self.lives, self.count = kind, lives, 0

    def serve(self, peer):
        with peer:
            spans = SPAN.findall(read_message(peer.recv))
            with self.lock:
                self.count += 1
                every, other = KINDS[self.kind]
                reply = other if self.count % every == 0 else TAKEN
            if reply is None:
                time.sleep(1.5 * OPTIONS["back-end-timeout"] / 1000)
                return
            if self.kind == "narrow":
                time.sleep(2)
            if spans:
                self.lives[int(spans[0][0])].arrived(spans, reply)
            peer.sendall(reply)


class Soak:
    def __init__(self, service, rate, ends, lives):
        self.service, self.rate, self.ends, self.lives = service, rate, ends, lives
        self.over = threading.Event()
        self.lock = threading.Lock()
        # who is posted to; none while nobody has that name
        self.present = list(lives)
        self.gone = 0

    def pause(self, seconds):
        """Whether it goes on after a rest."""
        return not self.over.wait(seconds)

    def client(self, seed):
        """Posts to everyone by chance over a connection that it keeps for some posts."""
        chance, peer, left = random.Random(seed), None, 0
        while self.pause(chance.expovariate(self.rate / CLIENTS)):
            if left == 0:
                if peer:
                    peer.close()
                peer, left = self.service.connect(), chance.randint(1, 200)
            left -= 1
            with self.lock:
                life = chance.choice([life for life in self.present if life])
                life.posts += 1
            if not self.posted(life, peer):
                left = 0
            with self.lock:
                life.posts -= 1
        if peer:
            peer.close()

    def posted(self, life, peer):
        """Posts a body, and notes what is told of it: whether anything is."""
        text, trace, count = life.body()
        if life.kind == "unheard":
            with self.service.connect() as other:
                life.mark(trace, count, 2)
                other.sendall(head_of(life.name, len(text)) + text)
            return True
        try:
            status, told = self.service.post(life.name, text, peer)
        except OSError:
            status, told = 0, b""
        if status == 200:
            life.mark(trace, count, 1)
            if over := OVER.search(told):
                with life.lock:
                    life.over += int(over[1])
        elif status == 0:
            life.mark(trace, count, 2)
        else:
            check(f"a post of {life.name}", status in (403, 429, 503), True)
        return status != 0

    def dropper(self, seed):
        """Opens connections, sends a part of a request over each, and drops it in one of several ways."""
        chance, rest = random.Random(seed), []
        while self.pause(0.2):
            life = self.present[chance.randrange(STEADY)]
            text = head_of(life.name, 10_000) + bytes(5_000)
            peer = self.service.connect()
            with_faults = chance.randrange(4)
            try:
                peer.sendall(text[:chance.randrange(len(text))] if with_faults else b"")
            except OSError:
                pass
            if with_faults == 1:
                peer.setsockopt(socket.SOL_SOCKET, socket.SO_LINGER, struct.pack("ii", 1, 0))
            if with_faults == 2 and chance.random() < 0.1:
                rest.append(peer)
            else:
                peer.close()
            if len(rest) > 4:
                rest.pop(0).close()
        for peer in rest:
            peer.close()

    def asked(self, target, method, text=b""):
        """The status of a reply, and how often it was asked for: a connection that rests for a second, since this process
        had no processor, is closed, and while another change is made one is told 503."""
        for times in range(1, MOST):
            try:
                status, _, _ = self.service.ask(target, method, text)
                if status != 503:
                    return status, times
            except (OSError, IndexError):
                pass
            time.sleep(0.5)
        raise TimeoutError(f"{method} {target} is not answered")

    def retired(self, life):
        """Lets a tenant go, and waits until it has."""
        status, times = self.asked(f"/tenants/{life.name}", "DELETE")
        while status == 202:
            time.sleep(0.5)
            if self.asked(f"/tenants/{life.name}", "GET")[0] == 404:
                return
        check(f"{life.name} goes", status in (200, 404 if times > 1 else 200), True)

    def guests(self):
        """Lets tenants come and go, one after the other: it is another place's turn each time."""
        chance, place = random.Random(7), 0
        while self.pause(chance.uniform(0.2, 1.8)):
            at = STEADY + place
            old = self.present[at]
            new = Life(len(self.lives), old.name, OF_GUESTS[len(self.lives) % len(OF_GUESTS)])
            self.retired(old)
            # What is posted under its name once another has it isn't the old one's.
            with self.lock:
                self.present[at] = None
            talk.wait_for(lambda: old.posts == 0, "all posts are answered")
            self.lives.append(new)
            status, times = self.asked("/tenants", "POST", section(new, self.ends).encode())
            check(f"{new.name} comes", status in (201, 409 if times > 1 else 201), True)
            with self.lock:
                self.present[at] = new
            self.gone += 1
            place = (place + 1) % PLACES

    def look(self):
        """Memory in kB, threads and descriptors."""
        pid = self.service.run.pid
        status = Path(f"/proc/{pid}/status").read_text()
        memory, threads = (int(status.split(f"{name}:")[1].split()[0]) for name in ("VmRSS", "Threads"))
        return memory, threads, len(os.listdir(f"/proc/{pid}/fd"))


def section(life, ends):
    """A tenant's section, by its kind."""
    how = {"errors": {"policies": ERRORS}, "narrow": {"most": 8, "queue": 1, "timeout": 0, "consumers": 1}}.get(life.kind, {})
    how = {"wait": 500, "timeout": 1000, "consumers": 3, "retry": 200, "batch": 256, **how}
    text = talk.tenant(life.name, ends[life.kind], **how)
    # Decided traces, and decisions that are remembered, soon reach their bounds: what rises after that is something else.
    wait = "decision_wait_ms = 500\n"
    cache = "decision_cache = { sampled_cache_size = 50, non_sampled_cache_size = 50 }\n" if life.kind == "errors" else ""
    text = text.replace(wait, f"{wait}num_traces = 100\n{cache}")
    return text + ("max_elapsed_time_ms = 1\n" if life.kind == "gives-up" else "max_elapsed_time_ms = 0\n")


def heard(service, lines):
    """Keeps what the service prints, so that it never waits."""
    for line in service.run.stdout:
        lines.append(line.decode())


def watch(soak, minutes):
    """What the process had, each second, told each minute."""
    seen, start, told_of = [], time.monotonic(), 1
    while (now := time.monotonic() - start) < 60 * minutes:
        seen.append(soak.look())
        if now > 60 * told_of:
            told_of += 1
            told = sum(life.told.count(1) for life in list(soak.lives))
            memory, threads, files = (max(look[at] for look in seen[-60:]) for at in range(3))
            print(f"{now / 60:5.1f} min: {told} spans taken, {soak.gone} tenants gone, {memory} kB, {threads} threads, "
                  f"{files} descriptors, {len(talk.faults)} wrong", flush=True)
        time.sleep(1)
    return seen


def flat(seen, minutes):
    """Threads stay, descriptors don't rise, and memory hardly does, from the second fifth of the time to the last one. In a
    short run memory still comes to what it needs."""
    fifth = max(len(seen) // 5, 1)
    second, last = seen[fifth:2 * fifth], seen[-fifth:]
    # Threads that look at a part of a body, and connections, are there for a moment.
    for what, at, more in (("threads", 1, 0), ("descriptors", 2, 10)):
        middle = [sorted(look[at] for look in part)[len(part) // 2] for part in (second, last)]
        check(f"{what}, from {middle[0]} to {middle[1]}", middle[1] <= middle[0] + more, True)
    memory = [max(look[0] for look in part) for part in (second, last)]
    check(f"memory, from {memory[0]} to {memory[1]} kB", minutes < 5 or memory[1] <= 1.2 * memory[0], True)


def accounted(lives, lines):
    """Each tenant that there was has a last report, in the order in which those of a name came, and agrees with it."""
    reports = {life.name: [] for life in lives}
    for line in lines:
        if line.startswith("report "):
            reports[line.split()[1]].append(line)
    totals = dict.fromkeys(NAMES, 0)
    for life in lives:
        check(f"a report of {life.name}", reports[life.name] != [], True)
        if reports[life.name]:
            life.report = reports[life.name].pop(0)
            for name, count in life.compare().items():
                totals[name] += count
    check("reports of nobody", {name for name, left in reports.items() if left}, set())
    told = " ".join(f"{name}={value}" for name, value in totals.items())
    print(f"{len(lives)} tenants in all: {told}", flush=True)


def soaked(folder, minutes, rate):
    """See above."""
    kinds, lines = list(KINDS), []
    lives = [Life(number, f"tenant-{number}", kinds[number % len(kinds)]) for number in range(STEADY)]
    lives += [Life(STEADY + place, f"guest-{place}", OF_GUESTS[place % len(OF_GUESTS)]) for place in range(PLACES)]
    ends = {kind: End(kind, lives).__enter__() for kind in kinds}
    options = [word for name, value in OPTIONS.items() for word in (f"--{name}", str(value))]
    with AdminService(folder, [section(life, ends) for life in lives], *options, shards=4) as service:
        service.watch.cancel()
        threading.Thread(target=heard, args=(service, lines), daemon=True).start()
        soak = Soak(service, rate, ends, lives)
        works = [lambda s=seed: soak.client(s) for seed in range(CLIENTS)]
        works += [lambda s=seed: soak.dropper(s) for seed in range(DROPPERS)]
        beside = threading.Thread(target=talk.in_threads, args=(*works, soak.guests))
        beside.start()
        seen = watch(soak, minutes)
        soak.over.set()
        beside.join()
        start = time.monotonic()
        check("a drain", soak.asked("/drain", "POST")[0], 200)
        check("the status", service.run.wait(10 * MOST), 0)
        print(f"drained in {time.monotonic() - start:.1f} s", flush=True)
        time.sleep(1)
    flat(seen, minutes)
    accounted(lives, lines)
    for end in ends.values():
        end.__exit__()


def main():
    parser = argparse.ArgumentParser(description=__doc__.partition("\n")[0])
    parser.add_argument("program", nargs="?", default=str(Path(__file__).resolve().parent.parent / "trace_collector"))
    parser.add_argument("--minutes", type=float, default=10)
    parser.add_argument("--rate", type=float, default=60)
    given = parser.parse_args()
    talk.program = os.path.abspath(given.program)
    with tempfile.TemporaryDirectory() as folder:
        soaked(folder, given.minutes, given.rate)
    for fault in talk.faults[:50]:
        print(fault)
    end("each span is accounted for, and nothing rose")


if __name__ == "__main__":
    main()
