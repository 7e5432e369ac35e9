"""What comes of a service whose memory was short, once the load is over."""

import itertools
import re
import resource
import tempfile
import time
from collections import Counter
from pathlib import Path

from replay.make_script import piece
from serving.talk import BackEnd, Service, body, check, in_threads, line_of, read_message, request, tenant

# so many MB of addresses more than it needs at rest
ROOM = (0, 16, 32, 64, 128, 256)
AT_A_TIME = 3
CLIENTS = 4
SPANS = 2_000
FIRST = b"\1FIRST\1\1"
MARK = b"a key that each span has"
# until a span is decided on: by then there is little memory left
WAIT = 6_000
# for so many seconds there is load
LOAD = 8
HELD = ("undecided", "pending", "queued", "active")
# How long all takes is the machine's to say. A service stands still that does nothing of what it has to do for so many
# seconds; none takes so many in all.
STILL = 60
LONGEST = 900
# a day passes until a span is decided on that waits at the end of the input
LONG = 86_400_000
FULL = (32, 128)
# Of one that isn't given any more addresses so many bytes are taken beside: all that it keeps back, and what others let go.
TAKEN = 64 << 20
# what is posted to each tenant before, and until its spans are decided on, by when all addresses are taken
FEW = 4
LATE = 20_000
HOW = {"shards": 2, "receivers": CLIENTS, "senders": 2, "parts": 1}
# the C library gives each thread memory of its own, or what is free in that of one is there for all others
HEAPS = {"heaps of their own": (), "one heap": ("env", "MALLOC_ARENA_MAX=1")}


def large():
    """A body of traces of ten spans each, of some 460 bytes, whose ids begin with FIRST."""
    more = piece(9, piece(1, MARK) + piece(2, piece(1, b"x" * 380)))
    return request(*((FIRST + (number // 10 + 1).to_bytes(8, "big"), (number + 1).to_bytes(8, "big"), more)
                     for number in range(SPANS)))


def sections(back_end, wait=WAIT):
    """No trace is pushed out by others."""
    return [tenant(name, back_end, wait=wait, timeout=100, consumers=2, most=40_000_000).replace(
        "[tenant.tail_sampling]", "[tenant.tail_sampling]\nnum_traces = 1000000") for name in "ab"]


def needed(folder, back_end, heaps, *options):
    """How many bytes of addresses it needs at rest."""
    with Service(folder, sections(back_end), *options, under=heaps, **HOW) as service:
        check("a post", service.post("a", body(1, 1))[0], 200)
        return addresses(service, "VmPeak")


def addresses(service, which="VmSize"):
    """How many bytes of addresses it has, or had at most."""
    status = Path(f"/proc/{service.run.pid}/status").read_text()
    return 1024 * int(re.search(rf"{which}:\s*(\d+)", status)[1])


class Sink(BackEnd):
    """Takes each post, and keeps none."""

    def serve(self, peer):
        with peer:
            read_message(peer.recv)
            peer.sendall(self.reply)


class Client:
    """Posts for a while, also when memory is refused, and counts what it is told; 0 where the connection broke."""

    def __init__(self, service, number, text):
        self.service = service
        self.number = number
        self.text = text
        self.told = Counter()

    def run(self):
        end = time.monotonic() + LOAD
        count = self.number << 32
        while time.monotonic() < end:
            count += 1
            self.told[self.post(self.text.replace(FIRST, count.to_bytes(8, "big")))] += 1

    def post(self, text):
        try:
            return self.service.post("ab"[self.number % 2], text)[0]
        except OSError:
            return 0


def counts_of(service, name):
    return Counter({name: int(count) for name, count in re.findall(r"(\w+)=(\d+)", service.report(name))})


class Watch:
    """Kills a service that stands still, so that whoever waits for what it prints waits no longer. For so many seconds it
    may rest at first."""

    def __init__(self, service, rest=0):
        self.service = service
        self.end = time.monotonic() + LONGEST
        self.done = None
        service.lives_for(rest + STILL)

    def sees(self, done):
        """So much it has done by now, in whatever unit."""
        if self.done is not None and done > self.done and time.monotonic() < self.end:
            self.service.lives_for(STILL)
        self.done = done


def left(service, name, rest=0):
    """The counters of a tenant once nothing is held of it, or the last ones of a service that stood still."""
    watch, counts = Watch(service, rest), Counter()
    while now := counts_of(service, name):
        counts = now
        if not any(counts[place] for place in HELD):
            break
        watch.sees(counts["exported"] - counts["undecided"])
        time.sleep(0.1)
    return counts


def leaves(what, service, clients):
    """All that was accepted leaves, a batch after another, reports come, a post is taken again, and the end of the input
    ends it."""
    begun = time.monotonic()
    all_told = sum((client.told for client in clients), Counter())
    for name, own in zip("ab", (clients[::2], clients[1::2])):
        told = sum((client.told for client in own), Counter())
        counts = left(service, name)
        if not counts:
            check(f"{what}: a report", "none", "one")
            return
        accepted = counts["accepted"]
        check(f"{what}: {name} was told", sorted(set(told) - {200, 503, 0}), [])
        check(f"{what}: {name} is accepted", told[200] * SPANS <= accepted <= (told[200] + told[0]) * SPANS, True)
        check(f"{what}: {name} has left", {place: counts[place] for place in (*HELD, "exported")},
              dict.fromkeys(HELD, 0) | {"exported": accepted})
    print(what, dict(all_told), f"{time.monotonic() - begun:.1f} s", flush=True)
    check(f"{what}: a post", taken_again(service), 200)
    Watch(service)
    check(f"{what}: it ends", service.end()[0], 0)


def taken_again(service):
    """The status of a post, of the first that is taken or of the last one before the service stood still."""
    end = time.monotonic() + STILL
    status, _ = service.post("a", body(1, 1))
    while status == 503 and time.monotonic() < end:
        time.sleep(0.1)
        status, _ = service.post("a", body(1, 1))
    return status


def under(heaps, least, room, what, text, *options):
    """One service under a limit of addresses: so many bytes, and so many MB more."""
    limit = ("prlimit", f"--as={least + (room << 20)}")
    with tempfile.TemporaryDirectory() as folder, Sink() as back_end:
        with Service(folder, sections(back_end), *options, under=(*heaps, *limit), **HOW) as service:
            clients = [Client(service, number, text) for number in range(CLIENTS)]
            in_threads(*(client.run for client in clients))
            if heaps and not room:
                check(f"{what}: some are refused", any(client.told[503] for client in clients), True)
            leaves(what, service, clients)


def leaves_by_itself(folder, *options):
    """Under each of these limits, from what it needs at rest to ample, a service that was posted more than it had
    memory for sends all that it took once the load is over, tells reports meanwhile, takes posts again, and ends:
    whether its threads share their memory or not. That takes as long as it takes, but at no time does it stand still."""
    text = large()
    works = []
    for name, heaps in HEAPS.items():
        with BackEnd() as back_end:
            least = needed(folder, back_end, heaps, *options)
        works += [lambda heaps=heaps, least=least, room=room, what=f"{name}, {room} MB more":
                  under(heaps, least, room, what, text, *options) for room in ROOM]
    for at in range(0, len(works), AT_A_TIME):
        in_threads(*works[at:at + AT_A_TIME])


def leaves_without_addresses(folder):
    """All addresses are taken that a service may have, the reserve's too, before its shards had anything to send. What
    it took leaves nevertheless, and it ends: each turner and sender has a heap of its own from the start, with free
    addresses that nobody else can take."""
    text = large()
    with BackEnd() as back_end, Service(folder, sections(back_end, LATE), **HOW) as service:
        for count, name in itertools.product(range(FEW), "ab"):
            check("a post", service.post(name, text.replace(FIRST, count.to_bytes(8, "big")))[0], 200)
        for name in "ab":
            check(f"{name} waits", counts_of(service, name)["undecided"], FEW * SPANS)
        resource.prlimit(service.run.pid, resource.RLIMIT_AS, (addresses(service) - TAKEN, resource.RLIM_INFINITY))
        for name in "ab":
            counts = left(service, name, LATE / 1_000)
            check(f"{name} has left without addresses", {place: counts[place] for place in (*HELD, "exported")},
                  dict.fromkeys(HELD, 0) | {"exported": FEW * SPANS})
        check("a post without addresses", taken_again(service), 200)
        Watch(service)
        check("the end without addresses", service.end()[0], 0)


def filled(service, text):
    """The numbers of the posts that were taken, by tenant, until one was refused memory."""
    taken = {"a": [], "b": []}
    for count in itertools.count(1):
        name = "ab"[count % 2]
        status, _ = service.post(name, text.replace(FIRST, count.to_bytes(8, "big")))
        if status != 200:
            check("a post that isn't taken", status, 503)
            return taken
        taken[name].append(count)


def spans_of(count):
    """The bytes of a post's spans in which their ids are."""
    return [count.to_bytes(8, "big") + (number // 10 + 1).to_bytes(8, "big") + b"\x12\x08" + (number + 1).to_bytes(8, "big")
            for number in range(SPANS)]


def drained(service, back_end):
    """What `end` gives of a service that sends what it holds batch by batch, or stands still."""
    watch = Watch(service)
    service.run.stdin.close()
    while service.run.poll() is None:
        watch.sees(len(back_end.posts))
        time.sleep(0.01)
    return service.end()


def full(heaps, most, what, text):
    """One service under a limit of so many bytes of addresses, which ends once it is full of spans."""
    with tempfile.TemporaryDirectory() as folder, BackEnd() as back_end:
        with Service(folder, sections(back_end, LONG), under=(*heaps, "prlimit", f"--as={most}"), **HOW) as service:
            taken = filled(service, text)
            check(f"{what}: nothing was sent", len(back_end.posts), 0)
            begun = time.monotonic()
            status, out, _ = drained(service, back_end)
            took = time.monotonic() - begun
        print(what, {name: len(counts) for name, counts in taken.items()}, f"{took:.1f} s", flush=True)
        counts = {name: SPANS * len(taken[name]) for name in "ab"}
        done = "".join(line_of(name, accepted=counts[name], exported=counts[name]) for name in "ab")
        check(f"{what}: the end", (status, out), (0, done))
        came = (span for text in back_end.bodies() for span in re.findall(rb"\x0a\x10(.{16}\x12\x08.{8})", text, re.DOTALL))
        wanted = (span for name in "ab" for count in taken[name] for span in spans_of(count))
        check(f"{what}: each span came once", sorted(came) == sorted(wanted), True)


def drains_while_full(folder):
    """A service that took spans until it was refused memory has no room for all their batches. At the end of its input they
    leave nevertheless one batch after another, each span once, long before they are due by the time alone: whether its
    threads share their memory or not."""
    text = large()
    works = []
    for name, heaps in HEAPS.items():
        with BackEnd() as back_end:
            least = needed(folder, back_end, heaps)
        works += [lambda heaps=heaps, most=least + (room << 20), what=f"{name}, {room} MB more, full":
                  full(heaps, most, what, text) for room in FULL]
    in_threads(*works)


def leaves_with_an_audit(folder):
    """The same of a service that keeps a log, which takes memory for good, and is stopped while there is some."""
    leaves_by_itself(folder, "--audit")


TESTS = (leaves_by_itself, leaves_without_addresses, drains_while_full)
BY_HAND = (leaves_with_an_audit,)
