#!/usr/bin/env python3
"""Measures what the service does where memory is short, and how it ends: `python3 tests/load/limits.py PROGRAM PART..
[--with="OPTION.."]..`, and with the options that `--help` names.

    memory  under limits of its addresses (`prlimit --as`), from what it needs at rest to ample, it is posted bodies of
            200 spans as fast as they are answered. Then the load ends, and it is looked at within how many seconds
            everything has left that it counts as accepted, how long a report took at most meanwhile, whether all threads
            are there, and how long its end took after the end of its input
    ending  while clients rest, others send a byte a second, ten tenants' back ends take posts and don't answer, and
            another tenant is posted spans, the input ends: within how many seconds that tenant's spans came, all
            reports were printed, and the service was gone

Each wait is bounded, and it says where it was in vain. Ends with 1 where it was, and where what clients were told, what
was counted and what came don't agree. Processors are shared out as measure.py does.
"""

import argparse
import socket
import tempfile
import threading
import time
from collections import Counter
from contextlib import ExitStack

import measure
from measure import free_port, numbers
from neighbours import head, row
from peers import Dripping, Heard, Measured, Resting, each_part, globals_of, plain_section, talk
from replay.make_script import piece

# more than it needs at rest, in MB
ROOM = (0, 16, 32, 64, 128, 256, 512, 1024)
SPANS = 200
HELD = ("undecided", "pending", "queued", "active")
# the longest that anything may take after a load, and after the end of the input
LEFT, ENDED = 10, 10
NAME = b"n" * 400
FIRST = b"\1FIRST\1\1"
# Some 460 bytes a span, each trace of twelve; FIRST is where a post's number is to stand.
BODY = talk.request(*((FIRST + (at // 12 + 1).to_bytes(8, "big"), (at + 1).to_bytes(8, "big"), piece(5, NAME))
                      for at in range(SPANS)))
faults = []


def body(number):
    return BODY.replace(FIRST, number.to_bytes(8, "big"))


class Client:
    """Posts for so long, and notes what it was told; where its connection breaks it makes another one."""

    def __init__(self, port, number):
        self.port = port
        self.number = number
        self.told = Counter()

    def run(self, seconds):
        end = time.monotonic() + seconds
        peer = None
        number = self.number << 20
        while time.monotonic() < end:
            number += 1
            try:
                peer = peer or socket.create_connection(("127.0.0.1", self.port), timeout=end + 1 - time.monotonic())
                text = body(number)
                peer.sendall(talk.head_of("tenant-0", len(text)) + text)
                reply = talk.read_message(peer.recv)
                self.told[reply[9:12].decode() or "broken"] += 1
                if reply.startswith(b"HTTP/1.1 200"):
                    continue
            except OSError:
                self.told["broken"] += 1
            if peer:
                peer.close()
            peer = None
        if peer:
            peer.close()


def loaded(port, seconds, count):
    """What so many clients were told in so many seconds."""
    clients = [Client(port, number) for number in range(count)]
    threads = [threading.Thread(target=client.run, args=(seconds,)) for client in clients]
    for thread in threads:
        thread.start()
    for thread in threads:
        thread.join()
    return sum((client.told for client in clients), Counter())


def until_empty(heard, seconds):
    """Asks for reports until one says that nothing is held: after how many seconds it came, how long one of them took
    at most, and the last one. None where it didn't come, and where the last one that was asked for didn't."""
    start, longest, last = time.monotonic(), 0.0, {}
    while time.monotonic() < start + seconds:
        asked, place = time.monotonic(), heard.ask("report tenant-0")
        while len(heard.lines) <= place:
            if time.monotonic() > start + seconds:
                return None, None, last
            time.sleep(0.005)
        at, line = heard.lines[place]
        longest, last = max(longest, at - asked), numbers(line)
        if last and not any(last[name] for name in HELD):
            return at - start, longest, last
        time.sleep(0.1)
    return None, longest, last


def seconds_of(took):
    return "in vain" if took is None else f"{took:.1f}"


def settings_of(port, back_end):
    """All that may come before it is decided has room."""
    section = plain_section(0, back_end, 4000).replace(
        "[tenant.tail_sampling]", "max_spans = 30000000\n[tenant.tail_sampling]\nnum_traces = 1000000", 1)
    return globals_of(port, receivers=8) + section + "[tenant.sending_queue]\nqueue_size = 100000\n"


def at_rest(words):
    """The addresses that it needs at rest, in MB, and how many threads it has."""
    port = free_port()
    with measure.BackEnd(words.others, words.load) as back_end, tempfile.TemporaryDirectory() as folder:
        with Measured(words, folder, port, settings_of(port, back_end.port), words.options) as service:
            # All its threads are there by then, each with what it took at its start.
            time.sleep(2)
            return service.kilobytes("VmPeak") // 1024 + 1, len(service.threads())


def under(words, most, threads):
    """A row's figures where the service has so many MB of addresses, and is to have so many threads."""
    port = free_port()
    with measure.BackEnd(words.others, words.load) as back_end, tempfile.TemporaryDirectory() as folder:
        try:
            service = Measured(words, folder, port, settings_of(port, back_end.port), words.options,
                               under=("prlimit", f"--as={most << 20}"))
            service.__enter__()
        except (RuntimeError, TimeoutError) as fault:
            return [str(fault).strip()] + [""] * 6
        with service:
            told = loaded(port, words.seconds, 4)
            there = len(service.threads())
            if there != threads:
                faults.append(f"{most} MB: {there} threads of {threads} are there")
            heard = Heard(service)
            try:
                left, longest, counts = until_empty(heard, LEFT)
            except OSError:
                left, longest, counts = None, None, {}
            start = time.monotonic()
            at, status = heard.ended(ENDED)
        if status == 0:
            # With an audit the lines of its logs stand behind the last report.
            counts = numbers([line for _, line in heard.lines if line.startswith("report")][-1])
        took = None if at is None else at - start
        compare(most, told, counts, back_end.spans(), None not in (left, longest, took) and status == 0)
        others = sum(told.values()) - told["200"] - told["503"] - told["broken"]
        return [f"{told['200']}, {told['503']}, {told['broken']}, {others}", f"{counts.get('accepted', 0):,}",
                f"{back_end.spans():,}", *map(seconds_of, (left, longest, took)), status]


def compare(most, told, counts, came, good):
    """Notes where it isn't as it has to be. Whose connection broke doesn't know whether its spans were taken."""
    accepted, exported = counts.get("accepted", 0), counts.get("exported", 0)
    least, most_taken = told["200"] * SPANS, (told["200"] + told["broken"]) * SPANS
    if not (good and least <= accepted <= most_taken and accepted == exported == came):
        faults.append(f"{most} MB: {dict(told)}; {accepted} accepted, {exported} exported, and {came} came")


def memory(words):
    least, threads = at_rest(words)
    head("Options", "Addresses, MB", "told 200, 503, broken, others", "accepted", "came", "all left within, s",
         "a report at most, s", "its end, s", "Status")
    for room in words.room:
        row(words.name, least + room, *under(words, least + room, threads))


def ending_sections(good, bad):
    """Tenant 0 waits for its end, and has a back end that answers; ten others don't, and give up after two seconds."""
    retry = "[tenant.retry_on_failure]\nmax_elapsed_time_ms = 2000\n"
    return plain_section(0, good, 86_400_000) + "".join(plain_section(number, bad) + retry for number in range(1, 11))


def ending(words):
    head("Options", "Clients that rest, that drip", "posts held", "a tenant's spans came within, s", "reports, s",
         "its end, s", "Status")
    port = free_port()
    with ExitStack() as stack:
        enter = stack.enter_context
        good, bad = enter(measure.BackEnd(words.others, words.load)), enter(talk.BackEnd(None))
        settings = globals_of(port, receivers=64) + ending_sections(good.port, bad.port)
        folder = enter(tempfile.TemporaryDirectory())
        service = enter(Measured(words, folder, port, settings, words.options))
        resting, dripping = enter(Resting(port, words.idle)), enter(Dripping(port, words.drip))
        resting.answered(LEFT)
        with socket.create_connection(("127.0.0.1", port), timeout=LEFT) as peer:
            for number in range(11):
                text = body(number + 1)
                peer.sendall(talk.head_of(f"tenant-{number}", len(text)) + text)
                if not talk.read_message(peer.recv).startswith(b"HTTP/1.1 200 "):
                    faults.append(f"tenant-{number} isn't served beside those that rest")
        time.sleep(2)
        held = len(bad.held)
        start = time.monotonic()
        heard = Heard(service)
        came, at, status = ends(heard, good, start, words.within)
        reports = heard.lines[10][0] - start if len(heard.lines) > 10 else None
        gone = None if at is None else at - start
        row(words.name, f"{words.idle}, {words.drip}", held, *map(seconds_of, (came, reports, gone)), status)
        if None in (came, reports, gone) or status != 0:
            faults.append(f"{words.name}: the end was waited for in vain")


def ends(heard, good, start, within):
    """Ends the input: after how many seconds the tenant's spans have come, when the service has ended, its status."""
    came = []

    def look():
        while not came and time.monotonic() < start + within:
            if good.spans() == SPANS:
                came.append(time.monotonic() - start)
            time.sleep(0.02)

    looking = threading.Thread(target=look)
    looking.start()
    at, status = heard.ended(within)
    looking.join()
    return came[0] if came else None, at, status


PARTS = {part.__name__: part for part in (memory, ending)}


def main():
    asked = argparse.ArgumentParser(description="Measures a service where memory is short, and how it ends.")
    asked.add_argument("program")
    asked.add_argument("parts", nargs="+", choices=PARTS)
    asked.add_argument("--with", dest="given", action="append", default=[], help="options of the program, as one word")
    asked.add_argument("--seconds", type=int, default=8, help="how long it is posted to")
    asked.add_argument("--room", type=int, nargs="+", default=ROOM, help="MB more than it needs at rest")
    asked.add_argument("--idle", type=int, default=20, help="clients that rest")
    asked.add_argument("--drip", type=int, default=20, help="clients that send a byte a second")
    asked.add_argument("--within", type=int, default=30, help="how long its end is waited for")
    measure.add_processors(asked)
    words = asked.parse_args()

    def with_options(name):
        for options in ("", *words.given):
            words.name, words.options = options or "none", options.split()
            PARTS[name](words)

    each_part(words, with_options, faults)


if __name__ == "__main__":
    main()
