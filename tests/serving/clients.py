"""Clients that go away, that come in pieces, that rest half way, and that are many."""

import itertools
import os
import re
import resource
import socket
import struct
import threading
import time
from contextlib import ExitStack

from replay.make_script import piece
from serving.loopback import CHUNKED, HEAD, REPLY, refused
from serving.talk import (ERRORS, MOST, SOON, BackEnd, Service, body, check, in_threads, line_of, read_message, tenant,
                          wait_for)

LENGTH = HEAD + b"Content-Length: 34\r\n\r\n" + body(18, 34)
CONNECTIONS = 200
SPANS = 400_000


def cut(folder):
    """A request that is cut at any of its bytes is told nothing and counted nowhere, whether the client hangs up or is
    gone; with its last byte it is a post. The receiver serves the next client."""
    whole = 0
    with BackEnd() as back_end, Service(folder, [tenant("a", back_end)], shards=1, receivers=1) as service:
        for text in (LENGTH, CHUNKED):
            for at in range(len(text) + 1):
                with service.connect() as peer:
                    peer.sendall(text[:at])
                    peer.shutdown(socket.SHUT_WR)
                    check(f"a request's first {at} bytes", read_message(peer.recv), b"" if at < len(text) else REPLY)
                with service.connect() as peer:
                    # It goes with a reset.
                    peer.setsockopt(socket.SOL_SOCKET, socket.SO_LINGER, struct.pack("ii", 1, 0))
                    peer.sendall(text[:-1][:at])
            whole += 1
        check("the end", service.end(), (0, line_of("a", accepted=whole, exported=whole), b""))
        check("posts", sorted(back_end.bodies()), [body(17, 33), body(18, 34)])


def gone(folder):
    """Who goes away without having read its replies, by a reset or not, is nobody's fault but its own."""
    with BackEnd() as back_end, Service(folder, [tenant("a", back_end, policies=ERRORS)], receivers=2) as service:
        for number in range(60):
            with service.connect() as peer:
                if number % 2:
                    peer.setsockopt(socket.SOL_SOCKET, socket.SO_LINGER, struct.pack("ii", 1, 0))
                peer.sendall(LENGTH * 20)
                if number % 3:
                    peer.recv(1)
        check("the next client", service.post("a", body(17, 2)), (200, b""))
        status, out, err = service.end()
        counts = dict(re.findall(r"(\w+)=(\d+)", out))
        check("the end", (status, err), (0, b""))
        check("a report", out, line_of("a", accepted=counts["accepted"], not_sampled=counts["accepted"]))


def in_pieces(folder):
    """A request in two pieces, parted at each byte, and one byte by byte, over one connection: each is one post."""
    count = 0
    with BackEnd() as back_end, Service(folder, [tenant("a", back_end, policies=ERRORS)], shards=1) as service:
        with service.connect() as peer:
            for text in (LENGTH, CHUNKED):
                for at in range(1, len(text)):
                    peer.sendall(text[:at])
                    peer.sendall(text[at:])
                    check(f"parted at {at}", read_message(peer.recv), REPLY)
                    count += 1
                for at in range(len(text)):
                    peer.sendall(text[at:at + 1])
                check("byte by byte", read_message(peer.recv), REPLY)
                count += 1
        check("the end", service.end(), (0, line_of("a", accepted=count, not_sampled=count), b""))


def half_a_request(folder):
    """Clients that rest in their head and in their body hold a receiver each, and nobody else: a third is served, for
    the same tenant and for one of another shard."""
    with BackEnd() as ones, BackEnd() as others, Service(
            folder, [tenant("a", ones), tenant("b", others)], receivers=3) as service:
        with service.connect() as first, service.connect() as second:
            first.sendall(LENGTH[:30])
            second.sendall(LENGTH[:-10])
            for number in range(1, 21):
                check("a third client", (service.post("a", body(number, 1)), service.post("b", body(number, 1))),
                      ((200, b""), (200, b"")))
            for name in "ab":
                done = line_of(name, accepted=20, exported=20)
                wait_for(lambda n=name, d=done: service.report(n) == d, "its spans are sent")
            first.sendall(LENGTH[30:])
            second.sendall(LENGTH[-10:])
            check("the rest", (read_message(first.recv), read_message(second.recv)), (REPLY, REPLY))
        done = line_of("a", accepted=22, exported=22) + line_of("b", accepted=20, exported=20)
        check("the end", service.end(), (0, done, b""))


def sends_all_first(folder):
    """A client that sends all of a request that is refused before it reads gets its reply to the byte, and then the
    end: of a body whose length is too great, as stated and in a chunk, of a head with too many fields, of one without an
    end, of empty lines without one, and of a line that is no field."""
    gone = "Connection: close\r\n"
    much = bytes(24_000_000)
    too_long = refused(413, "Content Too Large", "body too large", gone)
    too_many = refused(431, "Request Header Fields Too Large", "too many header fields", gone)
    talks = [
        (HEAD + b"Content-Length: 24000000\r\n\r\n", too_long),
        (HEAD + b"Transfer-Encoding: chunked\r\n\r\n16e3600\r\n", too_long),
        (HEAD + b"X: y\r\n" * 65 + b"\r\n", too_many),
        (b"a" * 70_000, too_many),
        (b"\n" * 70_000, too_many),
        (HEAD + b"no field\r\n\r\n", refused(400, "Bad Request", "bad request", gone)),
    ]
    with BackEnd() as back_end, Service(folder, [tenant("a", back_end)], receivers=1) as service:
        for text, wanted in talks:
            with service.connect() as peer:
                peer.sendall(text + much)
                check(text[:300], read_message(peer.recv), wanted)
                check("the end after it", peer.recv(1), b"")
        check("the next client", service.post("a", body(17, 2)), (200, b""))
        check("the end", service.end(), (0, line_of("a", accepted=1, exported=1), b""))


def never_stops(folder):
    """Who sends on without an end after a reply that closes is let go after so many bytes, and who only stays, within
    seconds: neither keeps the receiver, nor the service at its end."""
    with BackEnd() as back_end, Service(folder, [tenant("a", back_end)], receivers=1) as service:
        with service.connect() as peer:
            check("much", sent_until_cut(peer, HEAD + b"Content-Length: 24000000\r\n\r\n") < 100_000_000, True)
        check("the next client", service.post("a", body(17, 2)), (200, b""))
        with service.connect() as peer:
            peer.sendall(HEAD + b"Content-Length: 24000000\r\n\r\n")
            check("a reply", read_message(peer.recv)[:12], b"HTTP/1.1 413")
            start = time.monotonic()
            check("the end", service.end(), (0, line_of("a", accepted=1, exported=1), b""))
            check("it came soon", time.monotonic() - start < SOON, True)


def sent_until_cut(peer, text):
    """How many bytes a client sends behind a text until its connection breaks, up to as many as nobody reads."""
    count = 0
    try:
        peer.sendall(text)
        while count < 1_000_000_000:
            peer.sendall(bytes(1_000_000))
            count += 1_000_000
    except OSError:
        pass
    return count


def many_clients(folder):
    """Two hundred clients at once: each is answered, and each span arrives once."""
    statuses = []
    gate = threading.Barrier(CONNECTIONS)
    with BackEnd() as back_end, Service(
            folder, [tenant("a", back_end, consumers=8)], shards=1, receivers=64, senders=8) as service:
        def client(number):
            gate.wait(MOST)
            statuses.append(service.post("a", body(number, 1))[0])

        in_threads(*(lambda n=number: client(n) for number in range(1, CONNECTIONS + 1)))
        check("replies", statuses, [200] * CONNECTIONS)
        check("the end", service.end(), (0, line_of("a", accepted=CONNECTIONS, exported=CONNECTIONS), b""))
        wanted = sorted(body(number, 1) for number in range(1, CONNECTIONS + 1))
        check("each arrives once", sorted(back_end.bodies()) == wanted, True)


def a_long_step(folder):
    """While a post of very many spans is taken, which is one step of its shard, posts of another shard are answered;
    those of the same shard wait for it. On a busy machine all wait at times, so it is tried some times."""
    with BackEnd() as back_end:
        sections = [tenant(name, back_end, most=2 * SPANS, policies=ERRORS) for name in "abc"]
        with Service(folder, sections) as service:
            meanwhile = []
            while len(meanwhile) < 8 and max(meanwhile, default=0) < 30:
                meanwhile.append(posts_beside(service, len(meanwhile) + 1))
            check(f"another shard's posts meanwhile: {meanwhile}", max(meanwhile) >= 30, True)
            check("the end", service.end()[::2], (0, b""))


def posts_beside(service, trace):
    """A post of very many spans of this trace is a's. Of c's posts beside it, in the same shard, one takes longest: how
    many of b's posts, in the other, lie in the first three quarters of that time."""
    ids = (b"\x12\x1c\x0a\x10" + bytes([trace]) * 16 + b"\x12\x08" + at.to_bytes(8, "big")
           for at in range(1, SPANS + 1))
    large = piece(1, piece(2, b"".join(ids)))
    times = {"b": [], "c": []}
    answered = threading.Event()

    def post_large():
        try:
            check("the large post", service.post("a", large), (200, b""))
        finally:
            answered.set()

    def post_on(name):
        with service.connect() as peer:
            while not answered.is_set():
                start = time.monotonic()
                check("a small post", service.post(name, body(1, 1), peer), (200, b""))
                times[name].append((start, time.monotonic()))

    in_threads(post_large, lambda: post_on("b"), lambda: post_on("c"))
    start, end = max(times["c"], key=lambda post: post[1] - post[0])
    return sum(start < first and last < start + (end - start) * 3 / 4 for first, last in times["b"])


def without_files(folder):
    """While the process may open no file more, a receiver that is free takes no connection, and who has one is served;
    once it may, who waited is served."""
    with BackEnd() as back_end, Service(folder, [tenant("a", back_end, policies=ERRORS)], receivers=2) as service:
        process = service.run.pid
        with service.connect() as first:
            check("a post", service.post("a", body(1, 1), first), (200, b""))
            # Meanwhile the other receiver begins to wait for a connection, for which it sets a place aside.
            time.sleep(0.3)
            wait_for(service.is_asleep, "it waits")
            most = resource.prlimit(process, resource.RLIMIT_NOFILE)
            used = set(os.listdir(f"/proc/{process}/fd"))
            free = next(number for number in itertools.count() if str(number) not in used)
            resource.prlimit(process, resource.RLIMIT_NOFILE, (free, most[1]))
            # Who waits for a connection has the place for one already.
            check("the last one", service.post("a", body(3, 1)), (200, b""))
            with service.connect() as late:
                late.sendall(LENGTH)
                late.settimeout(0.3)
                check("nobody takes it", raises(TimeoutError, lambda: late.recv(1)), True)
                check("who has one", service.post("a", body(2, 1), first), (200, b""))
                resource.prlimit(process, resource.RLIMIT_NOFILE, most)
                late.settimeout(MOST)
                check("it is taken", read_message(late.recv), REPLY)
        check("the end", service.end(), (0, line_of("a", accepted=4, not_sampled=4), b""))


def raises(kind, work):
    """Whether the work ends so."""
    try:
        work()
    except kind:
        return True
    return False


def no_room_to_wait(folder):
    """Where the one receiver is held, and no more connections can wait for it, the end isn't held up: what was taken is
    sent, and the reports are printed."""
    with BackEnd() as back_end, Service(
            folder, [tenant("a", back_end, wait=86_400_000)], receivers=1) as service:
        with ExitStack() as stack:
            kept = stack.enter_context(service.connect())
            check("a post", service.post("a", body(1, 1), kept), (200, b""))
            for _ in range(CONNECTIONS):
                peer = stack.enter_context(socket.socket())
                peer.setblocking(False)
                peer.connect_ex(("127.0.0.1", service.port))
            start = time.monotonic()
            service.run.stdin.close()
            check("the report", service.hear(), line_of("a", accepted=1, exported=1))
            check("it isn't held up", time.monotonic() - start < SOON, True)
        check("the end", service.end(), (0, "", b""))


TESTS = (cut, gone, in_pieces, half_a_request, sends_all_first, never_stops, many_clients, a_long_step,
         without_files, no_room_to_wait)
