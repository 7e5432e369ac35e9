"""Back ends that count, that break off, that are busy, and that never answer."""

import time
from contextlib import ExitStack

from replay.make_script import piece
from serving.talk import BUSY, TAKEN, BackEnd, Service, body, check, in_threads, line_of, request, tenant, wait_for

BROKEN = (b"", b"HTTP/1.1 200 OK\r\nContent-Len", b"HTTP/1.1 200 OK\r\nContent-Length: 9\r\n\r\n12345678",
          b"HTTP/1.1 200 OK\r\nTransfer-Encoding: chunked\r\n\r\n3\r\n123\r\n", b"HTTP/1.1 99\r\n\r\n")


def each_job_once(folder):
    """Many jobs of several tenants, taken by several senders: each is one post."""
    with BackEnd() as ones, BackEnd() as others:
        sections = [tenant("a", ones, consumers=4), tenant("b", others, consumers=4), tenant("c", ones, consumers=4)]
        with Service(folder, sections, senders=4) as service:
            def send(name, traces):
                with service.connect() as peer:
                    for trace in traces:
                        check("a post", service.post(name, body(trace, 1), peer), (200, b""))

            in_threads(lambda: send("a", range(1, 61)), lambda: send("b", range(1, 61)),
                       lambda: send("c", range(101, 161)))
            done = "".join(line_of(name, accepted=60, exported=60) for name in "abc")
            check("the end", service.end(), (0, done, b""))
        wanted = [body(trace, 1) for trace in (*range(1, 61), *range(101, 161))]
        check("a's and c's posts", sorted(ones.bodies()), sorted(wanted))
        check("b's posts", sorted(others.bodies()), sorted(wanted[:60]))


def breaking_off(folder):
    """Who closes within a head or a body, or breaks HTTP, is posted the same again; who is busy too, and not before
    its `Retry-After`. Another tenant's jobs don't wait for it."""
    late = BUSY.replace(b"\r\n\r\n", b"\r\nRetry-After: 1\r\n\r\n")
    first = [(reply,) for reply in BROKEN] + [(BUSY, BUSY, BUSY), (late,), ()]
    with ExitStack() as stack:
        ends = [stack.enter_context(BackEnd(lambda at, told=told: [*told, TAKEN][min(at, len(told) + 1) - 1]))
                for told in first]
        names = [f"t{number}" for number in range(len(ends))]
        with Service(folder, map(tenant, names, ends)) as service:
            for number, name in enumerate(names):
                check("a post", service.post(name, body(number + 1, 1)), (200, b""))
            wait_for(lambda: [len(end.posts) for end in ends] == [len(told) + 1 for told in first], "all are sent again")
            done = "".join(line_of(name, accepted=1, exported=1) for name in names)
            check("the end", service.end(), (0, done, b""))
        for number, (end, told) in enumerate(zip(ends, first)):
            check("the same again", end.bodies(), [body(number + 1, 1)] * (len(told) + 1))
        times = [when for _, _, when in ends[-2].posts]
        check("a second and no less", times[1] - times[0] > 0.998, True)


def not_there(folder):
    """Who isn't there yet, and who closes a connection without reading a large job, is posted it again."""
    large = request((b"\1" * 16, b"\1" * 8, piece(5, b"n" * 9_000_000)))
    late = BackEnd()
    with BackEnd(unread=3) as closing, Service(folder, [tenant("a", late), tenant("b", closing)]) as service:
        check("posts", (service.post("a", body(1, 1)), service.post("b", large)), ((200, b""), (200, b"")))
        wait_for(lambda: service.report("a") == line_of("a", accepted=1, active=1), "a's job is tried")
        with late:
            wait_for(lambda: late.posts and closing.posts, "both come")
            done = line_of("a", accepted=1, exported=1) + line_of("b", accepted=1, exported=1)
            check("the end", service.end(), (0, done, b""))
        check("each once", (late.bodies() == [body(1, 1)], closing.bodies() == [large]), (True, True))


def what_is_answered(folder):
    """A back end's partial success and its refusal are counted; a refused batch isn't sent again."""
    partial = b"HTTP/1.1 200 OK\r\nContent-Length: 4\r\n\r\n\x0a\x02\x08\x02"
    with BackEnd(partial) as ones, BackEnd(b"HTTP/1.1 404 \r\n\r\n") as others, Service(
            folder, [tenant("a", ones), tenant("b", others)]) as service:
        three = request(*((b"\1" * 16, bytes([at]) * 8, b"") for at in (1, 2, 3)))
        check("three spans", (service.post("a", three), service.post("b", three)), ((200, b""), (200, b"")))
        done = line_of("a", accepted=3, exported=1, back_end_rejected=2) + line_of("b", accepted=3, back_end_refused=3)
        check("the end", service.end(), (0, done, b""))
        check("posts", (ones.bodies(), others.bodies()), ([three], [three]))


def never_answering(folder):
    """Who takes a post and never answers holds a sender and its own jobs; posts, reports, another shard's jobs and
    another tenant's of the same shard go on. The end waits for it."""
    with BackEnd(None) as never, BackEnd() as good:
        sections = [tenant("a", never), tenant("b", good), tenant("c", good)]
        with Service(folder, sections) as service, service.connect() as kept:
            check("a's post", service.post("a", body(1, 1)), (200, b""))
            wait_for(lambda: never.posts, "it has a's job")
            for number in range(1, 11):
                for name in "abc":
                    check("more posts", service.post(name, body(16 * number + ord(name) - 97, 1))[0], 200)
            for name in "bc":
                wait_for(lambda n=name: service.report(n) == line_of(n, accepted=10, exported=10), "others' jobs go on")
            behind = line_of("a", accepted=11, queued=10, active=1)
            wait_for(lambda: service.report("a") == behind, "a's jobs wait")
            service.run.stdin.close()
            wait_for(lambda: service.post("c", body(99, 9), kept)[0] == 503, "the service ends")
            check("what is told then", service.post("c", body(99, 9), kept), (503, b"\x12\x0dshutting down"))
            check("it waits for a's job", (service.run.poll(), len(never.posts)), (None, 1))
            never.release()
            lines = [service.hear() for _ in range(3)]
            # What c was told 200 in between has left too.
            count = sum(text.count(bytes([99]) * 16) for text in good.bodies())
            check("reports", lines, [line_of("a", accepted=11, exported=11), line_of("b", accepted=10, exported=10),
                                     line_of("c", accepted=10 + count, exported=10 + count)])
            check("who keeps a connection keeps the service", service.post("c", body(99, 9), kept)[0], 503)
            kept.close()
            check("the end", service.end(), (0, "", b""))


def reading_nothing(folder):
    """Who takes a connection and reads nothing of a large job holds a sender, and no lock: posts, reports and jobs of
    the same shard go on."""
    large = request((b"\1" * 16, b"\1" * 8, piece(5, b"n" * 19_000_000)))
    with BackEnd() as slow, BackEnd() as good:
        slow.reads.clear()
        with Service(folder, [tenant("a", slow), tenant("b", good)], shards=1) as service:
            check("a large post", service.post("a", large), (200, b""))
            wait_for(lambda: slow.came, "the sender has its connection")
            for number in range(1, 4):
                check("posts", (service.post("a", body(number, 2)), service.post("b", body(number, 2))),
                      ((200, b""), (200, b"")))
            wait_for(lambda: service.report("b") == line_of("b", accepted=3, exported=3), "b's jobs go on")
            wait_for(lambda: service.report("a") == line_of("a", accepted=4, queued=3, active=1), "a's jobs wait")
            slow.reads.set()
            done = line_of("a", accepted=4, exported=4) + line_of("b", accepted=3, exported=3)
            check("the end", service.end(), (0, done, b""))
        check("the large job", slow.bodies()[0] == large, True)


def an_idle_service(folder):
    """Nobody asks anything: a decision, a batch's timer and a retry come when they are due, in each shard. So does what
    is posted after a rest that is longer than the wait."""
    with BackEnd() as decided, BackEnd() as timed, BackEnd(lambda count: BUSY if count == 1 else TAKEN) as busy:
        sections = [tenant("a", decided, wait=400), tenant("b", timed, wait=200, timeout=200),
                    tenant("c", busy, retry=400)]
        with Service(folder, sections, shards=3) as service:
            start = time.monotonic()
            for name in "abc":
                check("a post", service.post(name, body(1, 1)), (200, b""))
            wait_for(lambda: decided.posts and timed.posts and len(busy.posts) == 2, "all three come")
            times = [decided.posts[0][2] - start, timed.posts[0][2] - start, busy.posts[1][2] - busy.posts[0][2]]
            check("none before it was due", [time > 0.398 for time in times], [True] * 3)
            time.sleep(0.5)
            start = time.monotonic()
            check("a post", service.post("a", body(2, 1)), (200, b""))
            wait_for(lambda: len(decided.posts) == 2, "the next comes")
            check("the next not before it was due", decided.posts[1][2] - start > 0.398, True)
            check("the end", service.end(), (0, line_of("a", accepted=2, exported=2)
                                             + line_of("b", accepted=1, exported=1)
                                             + line_of("c", accepted=1, exported=1), b""))


TESTS = (each_job_once, breaking_off, not_there, what_is_answered, never_answering, reading_nothing, an_idle_service)
