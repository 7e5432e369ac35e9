#!/usr/bin/env python3
"""Measures what tenants that come and go cost others: `python3 tests/load/comings.py PROGRAM`, with the options that
`--help` names.

A few tenants are under the load of measure.py, each with a back end of its own: 200 requests a second, and in other
runs as many as are answered. Each run has one of three kinds of guests beside them, and the kinds take turns:

    none  nobody
    stay  twenty tenants that are there from the start. A thousand times one of them is reported twice, and two times of
          three it is posted one to ten spans of a trace
    come  twenty tenants at a time. A thousand times one goes (`retire NAME`), and the next of its name comes (`add
          PATH`) and is posted the same spans. Every other one decides at once, and the others as they go

All of it is spread over nine tenths of a run. What is looked at is the time of the replies of those under load: the one
that 99 of 100 don't exceed, by the median of the runs, beside that without guests; and how many replies took one and a
half times that one or longer, and were on their way while the program was asked to let a guest come, or to let one go.
It prints a table of Markdown. Processors are shared out as measure.py does.

Ends with 1 where a request isn't taken, or where of any tenant, those that went too, these are not as many: the spans
that clients were told are taken, those that its last report counts as accepted and as exported, and those that came to
its back end.
"""

import argparse
import os
import re
import socket
import statistics
import subprocess
import sys
import tempfile
import threading
import time
from bisect import bisect
from collections import Counter, namedtuple
from contextlib import ExitStack
from pathlib import Path

import measure
from measure import MOST, SPANS, numbers, on, wait_for

sys.path.insert(0, str(measure.HERE.parent))
from serving import talk  # pylint: disable=wrong-import-position

KINDS = ("none", "stay", "come")
RATES = (measure.RATE, 0)
CONNECTIONS = 8
PRESENT = 20
MOST_TIMES = 1.5
# of a run, in which guests come and go
SHARE = 0.9
SPAN = re.compile(rb"\x0a\x10(\d{16})\x12\x08(\d{8})")
# times in seconds; `at` is when it was answered, since 1970
Answer = namedtuple("Answer", "tenant took at taken")
# what was answered to the load, what the service was asked by lines, and how long the load posted
Run = namedtuple("Run", "answers asked seconds")


def guest(name, back_end):
    """A tenant that decides after some milliseconds, or, if its number is odd, when it is drained."""
    return talk.tenant(name, back_end, wait=86_400_000 if int(name.rpartition("-")[2]) % 2 else 20, timeout=20)


def spans_of(turn):
    """How many a guest is posted in this turn."""
    return turn % 3 and 1 + turn % 10


def body(turn):
    return talk.request(*((f"{turn:016}".encode(), f"{at + 1:08}".encode(), b"") for at in range(spans_of(turn))))


class Served(measure.Service):
    """The program, which is asked lines of its input."""

    def __init__(self, *words):
        super().__init__(*words)
        # Who waits for what it says waits no longer.
        self.watch = threading.Timer(10 * MOST, self.run.kill)
        self.watch.start()
        # the first word of a line, and when it was said and answered
        self.asked = []

    def __exit__(self, *_):
        self.watch.cancel()
        super().__exit__()

    def ask(self, line):
        said = time.time()
        self.run.stdin.write(line + "\n")
        self.run.stdin.flush()
        answer = self.run.stdout.readline()
        self.asked.append((line.partition(" ")[0], said, time.time()))
        return answer

    def reports(self):
        """By name, after its input has ended, and its status."""
        out, err = self.run.communicate(timeout=MOST)
        if err:
            print(err, file=sys.stderr)
        return {line.split()[1]: numbers(line) for line in out.splitlines()}, self.run.returncode


class Guests:
    """Those beside the tenants under load. Each turn has a guest: where they come and go it is another in each."""

    def __init__(self, service, kind, back_end, first):
        self.service = service
        self.come = kind == "come"
        self.back_end = back_end
        # the number of the tenant that comes next
        self.next = first
        self.told = Counter()
        self.counted = {}
        self.faults = []

    def of(self, turn):
        """The guest of a turn."""
        return turn if self.come else turn % PRESENT

    def expect(self, got, wanted):
        if got != wanted:
            self.faults.append(f"a guest: {got!r}, expected {wanted!r}")

    def go(self, turn):
        name = f"guest-{turn % PRESENT}"
        line = self.service.ask(f"{'retire' if self.come else 'report'} {name}")
        self.expect(line[:len(name) + 8], f"report {name} ")
        if self.come:
            self.counted[turn] = numbers(line)

    def arrive(self, turn, folder):
        name = f"guest-{turn % PRESENT}"
        if self.come:
            self.expect(self.service.ask(f"add {folder}/{name}"), f"added {name} {self.next}\n")
            self.next += 1
        else:
            self.service.ask(f"report {name}")

    def post(self, turn, peer):
        text = body(turn)
        peer.sendall(talk.head_of(f"guest-{turn % PRESENT}", len(text)) + text)
        head, _, told = talk.read_message(peer.recv).partition(b"\r\n\r\n")
        taken = (head[:13], told) == (b"HTTP/1.1 200 ", b"")
        self.expect(taken, True)
        self.told[self.of(turn)] += spans_of(turn) * taken

    def run(self, turns, seconds, folder):
        """All turns, one after the other, spread over so many seconds if they don't take longer."""
        start = time.monotonic()
        with socket.create_connection(("127.0.0.1", self.service.port), timeout=MOST) as peer:
            for turn in range(turns):
                time.sleep(max(start + turn * seconds / turns - time.monotonic(), 0))
                if turn >= PRESENT:
                    self.go(turn - PRESENT)
                self.arrive(turn, folder)
                if spans_of(turn):
                    self.post(turn, peer)
            for turn in range(max(turns - PRESENT, 0), turns):
                self.go(turn)

    def came(self):
        """By guest, the spans that came to their back end. None may come twice."""
        found = Counter(span for text in self.back_end.bodies() for span in SPAN.findall(text))
        self.expect(found.total(), len(found))
        return Counter(self.of(int(trace)) for trace, _ in found)

    def wrong(self, reports):
        """What is wrong, by what those that stay to the end are told then."""
        came = self.came()
        counted = self.counted if self.come else {
            number: reports.get(f"guest-{number}", {}) for number in range(PRESENT)}
        agree = (differs(f"guest {number}", self.told[number], counts, came[number])
                 for number, counts in counted.items())
        strangers = [f"spans of no guest: {came - self.told}"] if came - self.told else []
        return self.faults + [fault for fault in agree if fault] + strangers


def differs(name, told, counts, came):
    """What is wrong with this tenant's spans."""
    got = (counts.get("accepted"), counts.get("exported"), came)
    return None if got == (told,) * 3 else f"{name}: {told} spans were taken; accepted, exported and come: {got}"


def answers(out):
    """What `load post` says of each request, which stands behind its first line."""
    for line in out.splitlines()[1:]:
        tenant, micros, at, taken = map(int, line.split())
        yield Answer(tenant, micros / 1e6, at / 1e6, taken == 1)


class Bench:
    """A service with tenants under load, their back ends, and guests of a kind, all until the end of a `with`."""

    def __init__(self, words, load, folder, kind):
        self.words, self.load, self.folder, self.kind = words, load, folder, kind
        self.stack = ExitStack()

    def __enter__(self):
        words = self.words
        enter = self.stack.enter_context
        self.back_ends = [enter(measure.BackEnd(words.others, self.load)) for _ in range(words.tenants)]
        beside = enter(talk.BackEnd())
        documents = {f"guest-{number}": guest(f"guest-{number}", beside) for number in range(PRESENT)}
        for name, text in documents.items():
            Path(self.folder, name).write_text(text)
        port = measure.free_port()
        file = Path(self.folder, "settings.toml")
        sections = [measure.section(f"tenant-{at}", back_end.port) for at, back_end in enumerate(self.back_ends)]
        # The guests' posts have a connection of their own.
        file.write_text(measure.globals_of(port, words.connections + 1) + "".join(sections)
                        + "".join(documents.values() if self.kind == "stay" else ()))
        program = [os.path.abspath(words.program), "serve", file]
        self.service = enter(Served(words.own, port, *program))
        self.guests = Guests(self.service, self.kind, beside, words.tenants)
        wait_for(self.service.is_up, "the service is up")
        return self

    def __exit__(self, *what):
        return self.stack.__exit__(*what)

    def posted(self, rate):
        """What the load says, beside guests."""
        words = self.words
        numbers_of_it = (self.service.port, words.tenants, words.connections, rate, words.seconds, SPANS)
        post = on(words.others, self.load, "post", *map(str, numbers_of_it), "each")
        with open(f"{self.folder}/told", "w+", encoding="ascii") as told:
            with subprocess.Popen(post, stdout=told) as run:
                if self.kind != "none":
                    self.guests.run(words.guests, words.seconds * SHARE, self.folder)
                if run.poll() is not None:
                    print("guests came and went for longer than the load", file=sys.stderr)
                run.wait(words.seconds + MOST)
            told.seek(0)
            return told.read()

    def wrong(self, replies):
        """What is wrong, once all is sent and the service has ended."""
        taken = Counter()
        for reply in replies:
            taken[reply.tenant] += SPANS * reply.taken
        for at, back_end in enumerate(self.back_ends):
            wait_for(lambda b=back_end, t=taken[at]: b.spans() >= t, "all spans are sent")
        reports, status = self.service.reports()
        faults = [differs(f"tenant-{at}", taken[at], reports.get(f"tenant-{at}", {}), back_end.spans())
                  for at, back_end in enumerate(self.back_ends)]
        others = sum(not reply.taken for reply in replies)
        faults.append(f"requests that weren't taken: {others}" if others else None)
        faults.append(f"the program ended with {status}" if status else None)
        return [fault for fault in faults if fault] + (self.guests.wrong(reports) if self.kind != "none" else [])


def measured(words, load, folder, kind, rate):
    """A run, and what is wrong."""
    with Bench(words, load, folder, kind) as bench:
        out = bench.posted(rate)
        replies = list(answers(out))
        faults = bench.wrong(replies)
        return Run(replies, bench.service.asked, numbers(out.splitlines()[0])["millis"] / 1000), faults


def within(times, share):
    """What so many of 100 don't exceed."""
    times = sorted(times)
    return times[min(len(times) * share // 100, len(times) - 1)] if times else 0


def between(numbers_of_runs):
    """Their median, and the least and the most, in milliseconds."""
    middle, least, most = (1000 * f(numbers_of_runs) for f in (statistics.median, min, max))
    return f"{middle:.1f} ms ({least:.1f} to {most:.1f})"


def beside(late, asked, word):
    """How many of the late replies were on their way while such a line was."""
    lines = sorted((said, answered) for first, said, answered in asked if first == word)
    starts = [said for said, _ in lines]
    count = 0
    for reply in late:
        at = bisect(starts, reply.at)
        count += at > 0 and lines[at - 1][1] > reply.at - reply.took
    return count


def took(asked, word):
    """How long such lines took: half, 99 of 100 and all of them."""
    times = [answered - said for first, said, answered in asked if first == word]
    return ", ".join(f"{1000 * within(times, share):.1f}" for share in (50, 99, 100)) + " ms" if times else ""


def row(rate, kind, runs, alone):
    """A kind's line, beside 99 of 100 replies without guests."""
    most_99 = [within([reply.took for reply in run.answers], 99) for run in runs]
    late = [[reply for reply in run.answers if reply.took > MOST_TIMES * alone] for run in runs]
    asked = [line for run in runs for line in run.asked]
    beside_of = {word: sum(beside(replies, run.asked, word) for replies, run in zip(late, runs))
                 for word in ("add", "retire")}
    replies = sum(len(run.answers) for run in runs)
    return (f"| {rate or 'all'} | {kind} | {replies / sum(run.seconds for run in runs):,.0f} "
            f"| {between([within([reply.took for reply in run.answers], 50) for run in runs])} | {between(most_99)} "
            f"| {statistics.median(most_99) / alone:.2f} "
            f"| {between([max(reply.took for reply in run.answers) for run in runs])} "
            f"| {sum(map(len, late))} of {replies} | {beside_of['add']}, {beside_of['retire']} "
            f"| {took(asked, 'add')} | {took(asked, 'retire')} |")


def compared(words, load, folder, rate):
    """Prints the lines of a rate. How many faults there are."""
    runs, wrong = {kind: [] for kind in words.kinds}, 0
    for number in range(words.runs):
        for kind in words.kinds:
            run, faults = measured(words, load, folder, kind, rate)
            runs[kind].append(run)
            for fault in faults[:20]:
                print(f"{kind}, {rate}, run {number}: {fault}", file=sys.stderr)
            wrong += len(faults)
    first = runs[words.kinds[0]]
    alone = statistics.median(within([reply.took for reply in run.answers], 99) for run in first)
    for kind in words.kinds:
        print(row(rate, kind, runs[kind], alone), flush=True)
    return wrong


def main():
    asked = argparse.ArgumentParser(description="Measures what tenants that come and go cost others.")
    asked.add_argument("program")
    asked.add_argument("--seconds", type=int, default=20, help="how long each run posts")
    asked.add_argument("--runs", type=int, default=3, help="of each kind")
    asked.add_argument("--tenants", type=int, default=4, help="under load")
    asked.add_argument("--connections", type=int, default=CONNECTIONS, help="of the load")
    asked.add_argument("--guests", type=int, default=1000, help="how many come and go in a run")
    asked.add_argument("--rates", type=int, nargs="+", default=RATES, help="requests a second, 0: all it takes")
    asked.add_argument("--kinds", nargs="+", choices=KINDS, default=KINDS, help="the first is what others are beside")
    measure.add_processors(asked)
    words = asked.parse_args()
    print("| Requests a second | Guests | answered a second | half within | 99 of 100 within | times none's "
          f"| the latest | above {MOST_TIMES} times | while one came, went | to come: half, 99 of 100, most | to go |\n"
          + "|---" * 11 + "|")
    with tempfile.TemporaryDirectory() as folder:
        load = measure.built(folder)
        wrong = sum(compared(words, load, folder, rate) for rate in words.rates)
    sys.exit(min(wrong, 1))


if __name__ == "__main__":
    main()
