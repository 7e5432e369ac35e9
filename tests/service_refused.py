#!/usr/bin/env python3
"""Refuses memory to a running service, one allocation after the other.

    make trace_collector && python3 tests/service_refused.py [PROGRAM] [CASE..]       # all, or those of these names

Takes the program's path, `./trace_collector` if there is none. Each case asks a service for something again and again:
each time one allocation more is let through and the next one is refused, alone, or with all that come after it for a
moment. So each is refused, whichever thread asks for it. What is told has to be the answer or want of memory; then the
same is asked with ample memory and answered as ever; no thread may be gone; and at the end the counters, what clients
were told and what came to back ends agree. `loads` has memory away for moments while clients post, `starts` refuses each
allocation of the start. It prints how many were refused and what was told. It needs a C compiler, `cc`.
"""

import mmap
import os
import random
import re
import struct
import subprocess
import sys
import tempfile
import threading
import time
import traceback
from collections import Counter
from concurrent.futures import ThreadPoolExecutor
from pathlib import Path

from refused import built
from serving import talk
from serving.admin import AdminService
from serving.runs import end
from serving.talk import (ERROR, ERRORS, MOST, NAMES, BackEnd, Service, check, line_of, read_message, request, tenant,
                          wait_for)

HERE = Path(__file__).resolve().parent.parent
SPAN = re.compile(rb"\x0a\x10(\d{16})\x12\x08(\d{8})")
# A case that asks for more allocations than these is never done.
MOST_ALLOCATIONS = 5_000
# For so many seconds memory is away where it is away for a moment, and for so many it is waited for what comes of an
# answer. So many seconds after memory was refused posts are taken again.
MOMENT, REST, SOON = 0.02, 0.004, 2
DAY = 86_400_000
AT_A_TIME = 24
EVER = 1 << 40
# So many clients post for so many seconds.
CLIENTS, LOAD = 4, 5
# For so many seconds no command comes.
WHILE = 2
HELD = ("undecided", "pending", "queued", "active")


class Memory:
    """What tests/refuse.c is told, in a file that the service maps too."""

    PLACES = ("wanted", "asked", "first", "last", "refused", "bytes")
    NUMBER = struct.Struct("q")

    def __init__(self, folder, shim=None):
        file = Path(folder, "refuse")
        file.write_bytes(bytes(self.NUMBER.size * len(self.PLACES)))
        with file.open("r+b") as opened:
            self.map = mmap.mmap(opened.fileno(), 0)
        self.shim = shim or built(Path(folder))
        self.under = ("env", f"LD_PRELOAD={self.shim}", f"REFUSE_FILE={file}")

    def __getitem__(self, name):
        return self.NUMBER.unpack_from(self.map, self.PLACES.index(name) * self.NUMBER.size)[0]

    def __setitem__(self, name, number):
        self.NUMBER.pack_into(self.map, self.PLACES.index(name) * self.NUMBER.size, number)

    def refuse(self, first, last):
        """Those of these numbers, counted from 1 from now on. More than one are refused for a moment alone."""
        self["asked"] = self["refused"] = 0
        self["first"], self["last"] = first, last
        self["wanted"] = 1
        if first != last:
            threading.Thread(target=self.after_a_moment).start()

    def after_a_moment(self):
        while self["wanted"] and not self["refused"]:
            time.sleep(0.001)
        end = time.monotonic() + MOMENT
        while self["wanted"] and time.monotonic() < end:
            time.sleep(0.001)
        self.ample()

    def ample(self):
        self["wanted"] = 0


def counts_of(line):
    return Counter({name: int(count) for name, count in re.findall(r"(\w+)=(\d+)", line)})


class Case:
    """What is asked of one service again and again: `ask` while memory is refused, which gives what was told, and
    `again` with ample memory. `GOOD` is what may be told, and `MEMORY` what else where memory was refused. With `EACH`
    each is another service."""

    KIND, OPTIONS, HOW, EACH = Service, (), {}, False
    GOOD, MEMORY = {200}, {503}

    def __init__(self, memory, folder):
        self.back_end = BackEnd().__enter__()
        self.folder = folder
        how = {"receivers": 2, "senders": 2, "shards": 2, "parts": 1} | self.HOW
        self.service = self.KIND(folder, self.sections(), *self.OPTIONS, under=memory.under, **how).__enter__()
        self.trace = 0
        # By trace: whose it is, how many spans it has, and what was told of it.
        self.posted = {}
        # Whoever is answered finds all threads there.
        check("an empty post", self.service.post("a", request())[0], 200)
        self.begin()

    def sections(self):
        return [tenant("a", self.back_end), tenant("b", self.back_end, wait=DAY)]

    def begin(self):
        """Once, before it is first asked."""

    def prepare(self):
        """Each time, before it is asked."""

    def again(self):
        """Each time, after it was asked."""

    def close(self):
        self.finish()
        self.service.__exit__()
        self.back_end.__exit__()

    def finish(self):
        """The service ends, and what is counted is what was taken."""
        status, out, err = self.service.end()
        check("the end", (status, err), (0, b""))
        self.agree(out.splitlines())

    def body(self, name, count=1, more=b""):
        """A body of so many spans of a new trace, and the trace."""
        self.trace += 1
        trace = f"{self.trace:016}".encode()
        self.posted[trace] = (name, count, None)
        return request(*((trace, b"%08d" % at, more) for at in range(count))), trace

    def told(self, trace, status):
        self.posted[trace] = (*self.posted[trace][:2], status)
        return status

    def post(self, name, count=1, more=b""):
        """Posts a new trace: the status, and the trace."""
        text, trace = self.body(name, count, more)
        return self.told(trace, self.service.post(name, text)[0]), trace

    def taken(self, name, count=1, more=b""):
        """Posts traces until one is taken, since none is until the reserve is there again: that one."""
        end = time.monotonic() + SOON
        status, trace = self.post(name, count, more)
        while status == 503 and time.monotonic() < end:
            time.sleep(REST)
            status, trace = self.post(name, count, more)
        check("a post", status, 200)
        return trace

    def arrives(self, trace):
        wait_for(lambda: any(trace in text for text in reversed(self.back_end.bodies())), "it comes")

    def agree(self, lines):
        """Of each tenant of which a report tells: what was told taken is counted, and has come."""
        came = {span for text in self.back_end.bodies() for span in SPAN.findall(text)}
        for line in lines:
            if not line.startswith("report "):
                continue
            name, counts = line.split()[1], counts_of(line)
            own = {trace: (count, status) for trace, (whose, count, status) in self.posted.items() if whose == name}
            taken = sum(count for count, status in own.values() if status == 200)
            perhaps = sum(count for count, status in own.values() if status != 200)
            check(f"{name}: {counts['accepted']} accepted, of {taken} and perhaps {perhaps} more",
                  taken <= counts["accepted"] <= taken + perhaps, True)
            check(f"{name}: held", [place for place in HELD if counts[place]], [])
            check(f"{name}: a sum", counts["accepted"], sum(counts[place] for place in NAMES[1:12]))
            check(f"{name}: exported", counts["exported"], counts["accepted"])
            found = {trace: sum((trace, b"%08d" % at) in came for at in range(count)) for trace, (count, _) in own.items()}
            check(f"{name}: spans that came", sum(found.values()), counts["exported"])
            check(f"{name}: traces that came", [trace for trace, (count, status) in own.items()
                                               if status == 200 and found[trace] != count], [])


class Post(Case):
    """A post of two spans, and what comes of it: a decision, a batch, a job, its post and its answer."""

    COUNT = 2

    def prepare(self):
        self.text, self.mine = self.body("a", self.COUNT)

    def sent(self):
        return self.service.post("a", self.text)[0]

    def ask(self):
        status = self.told(self.mine, self.sent())
        if status == 200:
            self.arrives(self.mine)
            time.sleep(REST)
        return status

    def again(self):
        self.arrives(self.taken("a", self.COUNT))


class Large(Post):
    """The same of a body of which notes are made in several threads."""

    COUNT, HOW = 1_500, {"parts": 4}


class Audited(Post):
    """The same with a log, which is stopped once it is refused memory: so each is another service."""

    OPTIONS, EACH = ("--audit",), True


class Chunked(Post):
    """The same in chunks, with a long head."""

    COUNT = 20
    HEAD = (b"POST /v1/traces HTTP/1.1\r\nHost: c\r\nX-Scope-OrgID: a\r\nContent-Type: application/x-protobuf\r\n"
            b"Transfer-Encoding: chunked\r\n" + b"".join(b"X-Field-%d: value\r\n" % at for at in range(40)) + b"\r\n")

    def sent(self):
        pieces = [self.text[at:at + 64] for at in range(0, len(self.text), 64)]
        chunks = b"".join(b"%x\r\n%s\r\n" % (len(piece), piece) for piece in pieces)
        with self.service.connect() as peer:
            peer.sendall(self.HEAD + chunks + b"0\r\n\r\n")
            return int(read_message(peer.recv)[9:12] or 0)


class Cached(Case):
    """Late spans of two traces that a tenant remembers: of one that was sampled, and of one that wasn't. Those of the
    first leave, though no policy wants them."""

    GOOD, MEMORY = {(200, 200)}, {(200, 503), (503, 200), (503, 503)}
    CACHE = "decision_cache = { sampled_cache_size = 10, non_sampled_cache_size = 10 }\n"

    def sections(self):
        return [tenant("a", self.back_end, policies=ERRORS).replace("wait_ms = 1\n", "wait_ms = 1\n" + self.CACHE)]

    def begin(self):
        self.known = [self.taken("a", 1, ERROR), self.taken("a", 1)]
        self.arrives(self.known[0])
        wait_for(lambda: counts_of(self.service.report("a"))["not_sampled"] == 1, "the other is decided")
        self.number, self.late = 0, {}

    def ask(self):
        self.number += 1
        told = []
        for trace in self.known:
            span = (trace, b"%08d" % self.number)
            told.append(self.service.post("a", request((*span, b"")))[0])
            self.late[span] = told[-1]
        return tuple(told)

    def again(self):
        end = time.monotonic() + SOON
        while (told := self.ask()) != (200, 200) and time.monotonic() < end:
            time.sleep(REST)
        check("late spans", told, (200, 200))

    def finish(self):
        status, out, err = self.service.end()
        check("the end", (status, err), (0, b""))
        counts = counts_of(out)
        came = {span for text in self.back_end.bodies() for span in SPAN.findall(text)}
        for known, place in zip(self.known, ("exported", "not_sampled")):
            own = [status for (trace, _), status in self.late.items() if trace == known]
            check(f"{place}, of {Counter(own)}", 1 + own.count(200) <= counts[place] <= 1 + len(own), True)
        check("all", counts["accepted"], counts["exported"] + counts["not_sampled"])
        check("late spans that came", [span in came for span, status in self.late.items() if status == 200],
              [span[0] == self.known[0] for span, status in self.late.items() if status == 200])


class Report(Case):
    """A report of a tenant that holds a span."""

    GOOD, MEMORY = {"its report"}, set()

    def begin(self):
        self.taken("b")

    def ask(self):
        line = self.service.report("b")
        return "its report" if line == line_of("b", accepted=1, undecided=1) else line

    def again(self):
        check("a report", self.ask(), "its report")


class Coming(Case):
    """A tenant that comes by a line of the input."""

    GOOD, MEMORY = {"added"}, {"refused add memory"}
    present = False

    def sections(self):
        self.document = Path(self.folder, "tenant.toml")
        self.document.write_text(tenant("c", self.back_end, wait=DAY))
        return super().sections()

    def come(self):
        self.service.say(f"add {self.document}\n")
        line = self.service.hear().strip()
        self.present = line.startswith("added c ")
        return "added" if self.present else line

    def go(self):
        """Its last report agrees."""
        self.service.say("retire c\n")
        line = self.service.hear()
        self.gone(line)
        return line

    def gone(self, line):
        self.agree([line])
        self.posted = {trace: post for trace, post in self.posted.items() if post[0] != "c"}
        self.present = False

    def isnt_there(self):
        end = time.monotonic() + SOON
        while (status := self.service.post("c", request()) [0]) == 503 and time.monotonic() < end:
            time.sleep(REST)
        check("who isn't there", status, 403)

    def ask(self):
        return self.come()

    def again(self):
        """Whoever came takes a span, sends it and goes; whoever didn't may come now."""
        if not self.present:
            self.isnt_there()
            check("it comes", self.come() in self.GOOD, True)
        self.taken("c")
        self.go()
        self.isnt_there()
        self.taken("a")


class Awaited(Coming):
    """A tenant that can't come, where no command came for a while. The while is no attempt, as long as which to rest."""

    GOOD, MEMORY = {"refused add 10"}, {"refused add memory"}

    def ask(self):
        time.sleep(WHILE)
        begun = time.monotonic()
        self.service.say("add /nowhere\n")
        line = self.service.hear().strip()
        check("it is answered soon", time.monotonic() - begun < WHILE / 2, True)
        return line

    def again(self):
        self.taken("a")


class Going(Coming):
    """A tenant that goes, and holds a span."""

    GOOD, MEMORY = {"its report"}, set()

    def prepare(self):
        check("it comes", self.come(), "added")
        self.taken("c")

    def ask(self):
        line = self.go()
        return "its report" if line == line_of("c", accepted=1, exported=1) else line

    def again(self):
        self.isnt_there()
        self.taken("a")


class Draining(Case):
    """The end of the input, where spans wait."""

    GOOD, MEMORY, EACH, SPANS = {"its end"}, set(), True, 4

    def begin(self):
        self.arrives(self.taken("a"))
        time.sleep(REST)
        self.taken("b", 3)

    def wanted(self):
        return (0, line_of("a", accepted=1, exported=1) + line_of("b", accepted=3, exported=3), b"")

    def ask(self):
        end = self.service.end()
        return "its end" if end == self.wanted() else end

    def finish(self):
        check("spans that came", len({span for text in self.back_end.bodies() for span in SPAN.findall(text)}), self.SPANS)


class DrainingBounded(Draining):
    """The same where three batches of a drain, of 94, 34 and 34 bytes, have more together than may wait. Each of them may
    wait: while a drain is refused memory they form one after another, within that."""

    OPTIONS, SPANS = ("--queue-bytes", "100"), 6

    def begin(self):
        super().begin()
        for _ in range(2):
            time.sleep(REST)
            self.taken("b")

    def wanted(self):
        return (0, line_of("a", accepted=1, exported=1) + line_of("b", accepted=5, exported=5), b"")


class AuditedEnd(Draining):
    """The same with a log, of which a line is printed for each shard. Where these lines are refused memory all reports
    were printed before."""

    OPTIONS, GOOD, MEMORY = ("--audit",), {(0, b"", 2)}, {(3, b"out of memory\n", 0)}

    def ask(self):
        status, out, err = self.service.end()
        reports = self.wanted()[1]
        check("its reports", out[:len(reports)], reports)
        audit = [line.split()[:2] for line in out[len(reports):].splitlines()]
        return status, err, len(audit) if audit == [["audit", str(shard)] for shard in range(len(audit))] else audit


class DrainedByCall(Draining):
    """The same by a call at the admin port: who is told want of memory may ask again."""

    KIND, GOOD, MEMORY = AdminService, {200}, {503}

    def ask(self):
        return self.service.ask("/drain", "POST")[0]

    def is_draining(self):
        """Once all is sent it ends, and its port with it."""
        try:
            return self.service.ask("/readyz")[0] == 503
        except ConnectionError:
            return True

    def again(self):
        if not self.is_draining():
            check("a drain", self.service.ask("/drain", "POST")[0], 200)
        check("its end", self.service.end(), self.wanted())


class Looked(Case):
    """What is looked at at the admin port."""

    KIND, TARGET = AdminService, "/"
    # Figures that change by themselves.
    OTHER = re.compile(rb"(?m)^(nimchaes_(memory|connections|received|sent|requests|turns|idle)_|otelcol_process_)\S* .*$")

    def begin(self):
        for name in "ab":
            self.taken(name)
        wait_for(lambda: b'"exported":1' in self.looked("/tenants/a")[1], "it is sent")
        self.good = self.looked(self.TARGET)
        check("the status", self.good[0], 404 if self.TARGET.endswith("none") else 200)

    def finish(self):
        status, out, err = self.service.drained()
        check("the end", (status, err), (0, b""))
        self.agree(out.splitlines())

    def looked(self, target):
        status, _, content = self.service.ask(target)
        return status, self.OTHER.sub(b"", content)

    def ask(self):
        told = self.looked(self.TARGET)
        return 200 if told == self.good else 503 if told[0] == 503 else told

    def again(self):
        check("looked at again", self.ask(), 200)


LOOKED = [type(f"Looked{target}", (Looked,), {"TARGET": target}) for target in (
    "/", "/metrics", "/healthz", "/readyz", "/tenants", "/tenants/a", "/tenants/none", "/none")]


class Added(Coming):
    """A tenant that comes by a call. Who is told want of memory looks whether it came."""

    KIND, GOOD, MEMORY = AdminService, {201}, {503}

    def begin(self):
        self.lines = []
        self.listener = threading.Thread(target=lambda: self.lines.extend(map(bytes.decode, self.service.run.stdout)))
        self.listener.start()

    def heard(self):
        """The last report of who went."""
        def its_report():
            return next((line for line in self.lines if line.startswith("report c ")), None)

        wait_for(its_report, "it is printed")
        line = its_report()
        self.lines.remove(line)
        return line

    def called(self, target, method="GET", text=b""):
        """What is told once no other change is being made."""
        status, _, content = self.service.ask(target, method, text)
        while b"another tenant" in content:
            time.sleep(REST)
            status, _, content = self.service.ask(target, method, text)
        return status, content

    def looks(self):
        return self.called("/tenants/c")[0] == 200

    def come(self):
        return self.called("/tenants", "POST", self.document.read_bytes())[0]

    def go(self):
        check("it goes", self.called("/tenants/c", "DELETE")[0], 200)
        self.gone(self.heard())

    def again(self):
        self.present = self.looks()
        super().again()

    def finish(self):
        check("a drain", self.service.ask("/drain", "POST")[0], 200)
        self.listener.join()
        check("the end", (self.service.run.wait(), self.service.run.stderr.read()), (0, b""))
        self.agree(self.lines)


class Deleted(Added):
    """A tenant that goes by a call, and holds a span. Who is told want of memory looks whether it went."""

    GOOD, MEMORY = {200}, {503}

    def prepare(self):
        check("it comes", self.come(), 201)
        self.taken("c")

    def ask(self):
        return self.called("/tenants/c", "DELETE")[0]

    def again(self):
        if self.looks():
            check("it goes", self.called("/tenants/c", "DELETE")[0], 200)
        line = self.heard()
        check("what is printed", line, line_of("c", accepted=1, exported=1))
        self.gone(line)
        check("whether it is there", self.looks(), False)
        self.isnt_there()


class Faulty(Added):
    """A document with a fault, and one of a tenant that is present."""

    GOOD, MEMORY = {(422, 409)}, {(503, 409), (422, 503), (503, 503)}

    def ask(self):
        told = []
        for text in (self.document.read_text().replace("max_spans", "max_spans = 0\n#"), tenant("a", self.back_end)):
            told.append(self.called("/tenants", "POST", text.encode())[0])
        return tuple(told)

    def again(self):
        check("who is there", self.called("/tenants")[1].count(b'"tenant"'), 2)


CASES = {case.__name__: case for case in (Post, Large, Audited, Chunked, Cached, Report, Coming, Awaited, Going, Draining,
                                           DrainingBounded, AuditedEnd, DrainedByCall, *LOOKED, Added, Deleted, Faulty)}


class Loaded(Case):
    """Four clients post for a while, and memory is away for a moment again and again."""

    HOW = {"receivers": CLIENTS}

    def begin(self):
        self.lock = threading.Lock()
        self.over = threading.Event()
        self.counted = Counter()

    def sections(self):
        return [tenant(name, self.back_end, wait=5, timeout=5, batch=64, consumers=2, most=10_000_000) for name in "ab"]

    def client(self, number):
        chance = random.Random(number)
        while not self.over.is_set():
            with self.lock:
                text, trace = self.body(chance.choice("ab"), chance.randrange(1, 20))
            try:
                status = self.service.post(self.posted[trace][0], text)[0]
            except OSError:
                status = 0
            with self.lock:
                self.told(trace, status)
                self.counted[status] += 1

    def disturb(self, memory):
        """How often."""
        chance, end, times = random.Random(0), time.monotonic() + LOAD, 0
        while time.monotonic() < end:
            memory.refuse(chance.randrange(1, 200), EVER)
            wait_for(lambda: not memory["wanted"], "memory is there again")
            times += 1
            time.sleep(chance.uniform(0, 0.1))
        self.over.set()
        return times


def loads(folder, *options):
    """Whoever is told 200 has its spans sent, no thread is gone, and the end comes, whenever memory was refused."""
    memory, times = Memory(folder), []
    kind = type("Loaded", (Loaded,), {"OPTIONS": options})
    case = kind(memory, folder)
    before = threads(case.service)
    talk.in_threads(lambda: times.append(case.disturb(memory)),
                    *(lambda number=number: case.client(number) for number in range(CLIENTS)))
    check("threads", threads(case.service), before)
    check("what is told", sorted(set(case.counted) - {200, 503}), [])
    check("both are told", min(case.counted[200], case.counted[503]) > 0, True)
    case.taken("a")
    case.close()
    return f"{times[0]} moments", case.counted


def loads_with_an_audit(folder):
    """The same with a log, which is soon stopped."""
    return loads(folder, "--audit")


def started(folder, shim, settings, first):
    """The end of a service whose input ends at once, where this allocation is refused: what it printed, and how many it
    asked for."""
    folder = Path(folder, str(first))
    folder.mkdir()
    memory = Memory(folder, shim)
    memory.refuse(first, first)
    run = subprocess.run([*memory.under, talk.program, "serve", str(settings)], stdin=subprocess.DEVNULL,
                         capture_output=True, timeout=MOST, check=False)
    return (run.returncode, run.stdout.decode(), run.stderr), memory["asked"]


def starts(folder):
    """A service starts and ends as ever, or says that there is no memory. It waits for ten seconds for a thread that
    couldn't be started, so many do so at a time."""
    shim = built(Path(folder))
    settings = Path(folder, "settings.toml")
    with BackEnd() as back_end:
        settings.write_text(talk.globals_of() + tenant("a", back_end) + tenant("b", back_end))
        good, count = started(folder, shim, settings, EVER)
        check("with ample memory", good, (0, line_of("a") + line_of("b"), b""))
        with ThreadPoolExecutor(AT_A_TIME) as pool:
            ends = list(pool.map(lambda first: started(folder, shim, settings, first)[0], range(1, count + 1)))
    for first, end in enumerate(ends, 1):
        check(f"allocation {first} of {count}", end if end != good else (3, "", b"out of memory\n"), (3, "", b"out of memory\n"))
    return f"{count} allocations", Counter(end[0] for end in ends)


ALONE = {work.__name__: work for work in (loads, loads_with_an_audit, starts)}


def threads(service):
    return int(Path(f"/proc/{service.run.pid}/status").read_text().split("Threads:")[1].split()[0])


def refused_from(case, memory, first, last):
    """Asks once while these allocations are refused: whether any was."""
    case.prepare()
    memory.refuse(first, last)
    told = case.ask()
    memory.ample()
    refused = memory["refused"] > 0
    if told not in case.GOOD and not (refused and told in case.MEMORY):
        talk.faults.append(f"allocation {first} of {memory['asked']}, {memory['bytes']} bytes: told {told!r}")
    case.counted[told] += 1
    case.again()
    return refused


def run(kind, memory, folder, last_of):
    """All of a case, where from each allocation on those up to another are refused: how many there are, and how often what
    was told."""
    counted = Counter()
    case = kind(memory, folder)
    case.counted = counted
    before = threads(case.service)
    for first in range(1, MOST_ALLOCATIONS):
        refused = refused_from(case, memory, first, last_of(first))
        if not kind.EACH:
            wait_for(lambda: threads(case.service) == before, f"there are {before} threads")
        elif refused:
            case.close()
            case = kind(memory, folder)
            case.counted = counted
        if not refused:
            break
    case.close()
    return f"{first - 1} allocations", counted


def tell(what, work):
    """Prints what came of it. What it raises is a fault of it."""
    start, before, asked, counted = time.monotonic(), len(talk.faults), "not to its end", {}
    with tempfile.TemporaryDirectory() as folder:
        try:
            asked, counted = work(folder)
        except Exception:  # pylint: disable=broad-except
            talk.faults.append(traceback.format_exc())
    for fault in talk.faults[before:][:20]:
        print(f"{what}: {fault}", flush=True)
    told = ", ".join(f"{word} {count} times" for word, count in counted.items())
    print(f"{what}: {asked}, told {told[:200]}: {time.monotonic() - start:.1f} s", flush=True)


def main():
    words = sys.argv[1:]
    talk.program = os.path.abspath(words.pop(0) if words and words[0] not in (*CASES, *ALONE) else HERE / "trace_collector")
    for name in words or (*CASES, *ALONE):
        if name in ALONE:
            tell(name, ALONE[name])
            continue
        for how, last_of in (("alone", lambda first: first), ("and all after it", lambda first: EVER)):
            tell(f"{name}, {how}", lambda folder: run(CASES[name], Memory(folder), folder, last_of))
    end("it does as it has to")


if __name__ == "__main__":
    main()
