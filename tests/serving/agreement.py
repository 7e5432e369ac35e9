"""What clients were told, what the service counts, and what back ends took: the same, to the span."""

import re
import time
from collections import Counter

from serving.talk import (ALL, BUSY, ERROR, ERRORS, TAKEN, BackEnd, Service, check, in_threads, line_of, request,
                          tenant)

# ids are digits, so that no other bytes look like them
SPAN = re.compile(rb"\x0a\x10([0-9a-f]{16})\x12\x08([0-9a-f]{8})")
ONE_REJECTED = b"HTTP/1.1 200 OK\r\nContent-Length: 4\r\n\r\n\x0a\x02\x08\x01"
TENANTS = "abcd"
CLIENTS = 4


def replies(name):
    """What this tenant's back end says: b's is busy now and then, c's rejects spans, and d's breaks off."""
    every, other = {"a": (1, TAKEN), "b": (3, BUSY), "c": (5, ONE_REJECTED), "d": (7, b"HTTP/1.1 20")}[name]
    return lambda count: other if count % every == 0 else TAKEN


def body_of(name, client, number):
    """A body of one to twenty spans of one trace, and the spans' ids. Each third trace has an error."""
    trace = f"{ord(name):x}{client:02x}{number:012x}".encode()
    ids = [f"{at:08x}".encode() for at in range(1, 2 + (7 * number + client) % 20)]
    error = ERROR if number % 3 == 0 else b""
    return request(*((trace, span, error) for span in ids)), [(trace, span) for span in ids]


class Client:
    """Posts for all tenants in turn over one connection that it keeps, for so many seconds, and notes what was taken:
    each tenant's spans, and of these those of traces with an error."""

    def __init__(self, number):
        self.number = number
        self.posts = Counter()
        self.spans = {name: [] for name in TENANTS}
        self.errors = {name: [] for name in TENANTS}

    def run(self, service, seconds):
        end = time.monotonic() + seconds
        number = 0
        with service.connect() as peer:
            while time.monotonic() < end:
                for name in TENANTS:
                    text, ids = body_of(name, self.number, number)
                    check("a post", service.post(name, text, peer), (200, b""))
                    self.posts[name] += 1
                    self.spans[name] += ids
                    if number % 3 == 0:
                        self.errors[name] += ids
                number += 1


def compare(name, line, clients, end):
    """A tenant's report and what its back end took, against what its clients were told."""
    accepted = [span for client in clients for span in client.spans[name]]
    kept = [span for client in clients for span in client.errors[name]] if name == "d" else accepted
    taken = [(text, reply) for text, reply, _ in end.posts if reply in (TAKEN, ONE_REJECTED)]
    found = Counter(span for text, _ in taken for span in SPAN.findall(text))
    missing, more = Counter(kept) - found, found - Counter(kept)
    check(f"{name}'s spans that didn't arrive once", (missing.total(), more.total()), (0, 0))
    rejected = sum(reply == ONE_REJECTED for _, reply in taken)
    wanted = line_of(name, accepted=len(accepted), exported=len(kept) - rejected, back_end_rejected=rejected,
                     not_sampled=len(accepted) - len(kept))
    check("report", line, wanted)


def agrees(folder, seconds):
    """Four tenants in two shards, four receivers, four clients and an audit: see above. d keeps traces with an error
    alone. Each shard's log has an entry for each post, job, answer, drain and report."""
    ends = {name: BackEnd(replies(name)) for name in TENANTS}
    sections = [tenant(name, end, wait=20, timeout=20, consumers=2, batch=64, most=10_000_000,
                       policies=ERRORS if name == "d" else ALL) for name, end in ends.items()]
    clients = [Client(number) for number in range(CLIENTS)]
    for end in ends.values():
        end.__enter__()
    with Service(folder, sections, "--audit", shards=2, receivers=CLIENTS, senders=4) as service:
        in_threads(*(lambda c=client: c.run(service, seconds) for client in clients))
        asked = {name: service.report(name).startswith(f"report {name} accepted=") for name in TENANTS}
        check("reports between", asked, {name: True for name in TENANTS})
        status, out, err = service.end()
    lines = out.splitlines(keepends=True)
    check("status and standard error", (status, err), (0, b""))
    for name, line in zip(TENANTS, lines):
        compare(name, line, clients, ends[name])
    words = [line.split(" ") for line in lines[len(TENANTS):]]
    check("lines of the audit", [word[:2] for word in words], [["audit", "0"], ["audit", "1"]])
    for shard, word in enumerate(words):
        # Tenants go to shards by turns. A job has a turn and an answer; there are two reports and a drain.
        least = sum(client.posts[name] for client in clients for name in TENANTS[shard::2])
        least += sum(2 * len(ends[name].posts) + 3 for name in TENANTS[shard::2])
        check("entries", int(word[2]) >= least, True)
    for end in ends.values():
        end.__exit__()
    return sum(len(client.spans[name]) for client in clients for name in TENANTS)
