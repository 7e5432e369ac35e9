#!/usr/bin/env python3
"""Tells how many instructions the service takes at one size and at twice it, for shapes on which it could take time
that grows faster than what comes in.

    make trace_collector && python3 tests/service_growth.py [PROGRAM] [SHAPE..]

Takes `./trace_collector` if no program is named, and all shapes if none is. It prints a table of Markdown as
tests/growth.py does. Instructions are valgrind's (callgrind), of the one thread that the shape is about, its receiver,
its sender or its turner: the others rest, and look again each millisecond. Notes are made in the receiver. Ends with 1
where a ratio is above 2.2, or where a client isn't told what it has to be.
"""

import os
import re
import sys
import tempfile
from pathlib import Path

import growth
from replay.make_script import piece
from serving import talk
from serving.talk import (ERRORS, TAKEN, BackEnd, Service, body, check, head_of, read_message, request, tenant, wait_for)

ROOT = Path(__file__).resolve().parent.parent
MOST = 2.2
# What that thread runs and no other does; a turner steps its shard, as others do, and runs nothing of theirs.
RECEIVER, SENDER, TURNER = "http_edge::server::", "export_edge::sender::", "tenant_shard::shard::Shard::step"
HEAD = b"POST /v1/traces HTTP/1.1\r\nHost: c\r\nX-Scope-OrgID: t0\r\nContent-Type: application/x-protobuf\r\n"


def told(peer, *texts):
    """Posts them over this connection, one after the other."""
    for text in texts:
        peer.sendall(text)
        check("the reply", read_message(peer.recv)[:17], b"HTTP/1.1 200 OK\r\n")


def small_chunks(service, n):
    """A body of n bytes, most of them of an unknown field, in chunks of one byte."""
    text = piece(2, bytes(n))
    chunks = b"".join(b"1\r\n" + text[at:at + 1] + b"\r\n" for at in range(len(text)))
    with service.connect() as peer:
        told(peer, HEAD + b"Transfer-Encoding: chunked\r\n\r\n" + chunks + b"0\r\n\r\n")


def long_heads(service, n):
    """Ten posts whose heads have a field of n bytes."""
    with service.connect() as peer:
        told(peer, *[HEAD + b"Content-Length: 0\r\nX-Long: " + b"v" * n + b"\r\n\r\n"] * 10)


def many_fields(service, n):
    """Fifty posts with n fields more."""
    more = b"".join(b"X-Field-%d: value\r\n" % number for number in range(n))
    with service.connect() as peer:
        told(peer, *[HEAD + b"Content-Length: 0\r\n" + more + b"\r\n"] * 50)


def connections(service, n):
    """n connections one after another, with a post of a span each."""
    for _ in range(n):
        with service.connect() as peer:
            told(peer, head_of("t0", 34) + body(1, 1))


def one_connection(service, n):
    """n posts of a span over one connection."""
    with service.connect() as peer:
        told(peer, *[head_of("t0", 34) + body(1, 1)] * n)


def large_bodies(service, n):
    """A post of n spans of one trace."""
    text = request(*((b"\1" * 16, (at + 1).to_bytes(8, "big"), b"") for at in range(n)))
    with service.connect() as peer:
        told(peer, head_of("t0", len(text)) + text)


def many_tenants(service, n):
    """A post of a span for each of n tenants."""
    with service.connect() as peer:
        told(peer, *(head_of(f"t{number}", 34) + body(1, 1) for number in range(n)))


def many_jobs(service, n):
    """n batches of a span, all there at a time."""
    text = request(*((at.to_bytes(16, "big"), b"\1" * 8, b"") for at in range(1, n + 1)))
    with service.connect() as peer:
        told(peer, head_of("t0", len(text)) + text)


def long_lines(service, n):
    """Ten bodies of four chunks whose lines have n bytes of extension, and a trailer of as many."""
    chunks = b"".join(b"1;" + b"e" * n + b"\r\n" + piece(2, b"vv")[at:at + 1] + b"\r\n" for at in range(4))
    with service.connect() as peer:
        told(peer, *[HEAD + b"Transfer-Encoding: chunked\r\n\r\n" + chunks + b"0\r\nX: " + b"t" * n + b"\r\n\r\n"] * 10)


def one_job(service, _):
    """A batch of a span."""
    with service.connect() as peer:
        told(peer, head_of("t0", 34) + body(1, 1))


def in_chunks(n):
    """An answer of n bytes in chunks of one byte: a field that a reader passes over."""
    text = piece(3, bytes(n))
    chunks = b"".join(b"1\r\n" + text[at:at + 1] + b"\r\n" for at in range(len(text)))
    return b"HTTP/1.1 200 OK\r\nTransfer-Encoding: chunked\r\n\r\n" + chunks + b"0\r\n\r\n"


def behind_a_long_head(n):
    """An answer behind sixteen interim heads with a field of n bytes."""
    return (b"HTTP/1.1 103 Early Hints\r\nX: " + b"v" * n + b"\r\n\r\n") * 16 + TAKEN


def replayed(name):
    """The posts of a shape of tests/growth.py, one after the other over one connection."""
    def shape(service, n):
        with service.connect() as peer:
            for line in growth.SHAPES[name][0](n)[1].splitlines():
                if line.startswith("post "):
                    _, tenant_of_it, _, digits = line.split(" ")
                    text = bytes.fromhex(digits)
                    told(peer, head_of(tenant_of_it, len(text)) + text)
    shape.settings = lambda n: growth.SHAPES[name][0](n)[0]
    return shape


def no_job(_):
    return 0


def a_job(_):
    return 1


def ten_jobs(_):
    return 10


def for_each(n):
    return n


def for_each_hundred(n):
    return n // 100


# A shape, its smaller size, the thread that it is about, how many jobs it makes, and what its back end answers.
SHAPES = {
    "small chunks": (small_chunks, 10_000, RECEIVER, no_job),
    "long lines of chunks": (long_lines, 15_000, RECEIVER, no_job),
    "long heads": (long_heads, 30_000, RECEIVER, no_job),
    "fields of a head": (many_fields, 29, RECEIVER, no_job),
    "connections": (connections, 200, RECEIVER, no_job),
    "posts of a connection": (one_connection, 200, RECEIVER, no_job),
    "large bodies": (large_bodies, 8_000, RECEIVER, no_job),
    "tenants": (many_tenants, 300, RECEIVER, no_job),
    "jobs": (many_jobs, 200, SENDER, for_each),
    "small chunks of an answer": (one_job, 10_000, SENDER, a_job, in_chunks),
    "long heads of an answer": (one_job, 30_000, SENDER, a_job, behind_a_long_head),
    **{name: (replayed(name), size, RECEIVER, a_job) for name, size in (
        ("resources times spans", 1_000), ("attributes of a span", 6_000), ("nested attributes", 500),
        ("unknown fields", 10_000), ("a resource that stands again", 4_000), ("different resources", 4_000),
        ("posts of a trace", 1_000))},
    "empty spans": (replayed("empty spans"), 20_000, RECEIVER, no_job),
    "traces of chosen ids": (replayed("traces of chosen ids"), 1_000, RECEIVER, for_each),
    "rows pushed out": (replayed("rows pushed out"), 1_000, RECEIVER, ten_jobs),
    "policies": (replayed("policies"), 32, RECEIVER, no_job),
    "rows due at once, kept": (replayed("rows due at once, kept"), 8_000, TURNER, for_each_hundred),
    "rows due at once, dropped": (replayed("rows due at once, dropped"), 8_000, TURNER, a_job),
}


def sections_of(shape, n, exports, back_end):
    """The tenants of a shape; those of tests/growth.py with an endpoint each."""
    if hasattr(shape, "settings"):
        return [shape.settings(n).replace("[[tenant]]\n", f'[[tenant]]\nendpoint = "127.0.0.1:{back_end.port}"\n')]
    return [tenant(f"t{number}", back_end, policies=talk.ALL if exports else ERRORS)
            for number in range(n if shape is many_tenants else 1)]


def runs(text, function):
    """Whether the thread with this profile ran it."""
    return re.search(rf"^c?fn=\(\d+\) .*{function}", text, re.MULTILINE)


def instructions(folder, n, shape, thread, jobs, reply=None):
    """What this thread takes, or None where it isn't found or the service doesn't end as it has to."""
    out = folder / "callgrind"
    under = ("valgrind", "-q", "--tool=callgrind", "--separate-threads=yes", f"--callgrind-out-file={out}")
    with BackEnd(reply(n) if reply else TAKEN) as back_end:
        sections = sections_of(shape, n, jobs(n) > 0, back_end)
        with Service(folder, sections, under=under, shards=1, receivers=1, senders=1, parts=1) as service:
            shape(service, n)
            if thread == TURNER:
                wait_for(lambda: len(back_end.posts) == jobs(n), "all rows are decided")
            status, _, err = service.end()
        check("status and standard error", (status, err), (0, b""))
        check("jobs", len(back_end.posts), jobs(n))
    found = []
    others = (RECEIVER, SENDER) if thread == TURNER else ()
    for file in folder.glob("callgrind-*"):
        text = file.read_text()
        if runs(text, thread) and not any(runs(text, it) for it in others):
            found.append(int(re.search(r"^(?:totals|summary): (\d+)", text, re.MULTILINE)[1]))
        file.unlink()
    return max(found, default=None)


def main():
    words = sys.argv[1:]
    talk.program = os.path.abspath(words.pop(0) if words and words[0] not in SHAPES else ROOT / "trace_collector")
    worst = 0
    print("| Shape | Size | Instructions | At twice the size | Ratio |\n|---|---|---|---|---|")
    with tempfile.TemporaryDirectory() as folder:
        for name in words or SHAPES:
            shape, n, *how = SHAPES[name]
            once, twice = (instructions(Path(folder), size, shape, *how) for size in (n, 2 * n))
            ratio = twice / once if once and twice else float("inf")
            worst = max(worst, ratio)
            print(f"| {name} | {n:,} | {once or 0:,} | {twice or 0:,} | {ratio:.2f} |", flush=True)
    print(*talk.faults[:20], sep="\n", file=sys.stderr)
    sys.exit(worst > MOST or bool(talk.faults))


if __name__ == "__main__":
    main()
