"""What the options of `serve` limit: how long clients and back ends may rest, and how many are served at a time."""

import os
import resource
import socket
import subprocess
import sys
import threading
import time
from contextlib import ExitStack, suppress
from pathlib import Path

from replay.make_script import piece
from serving.loopback import HEAD, REPLY
from serving.talk import (ERRORS, EXPECT, GO_ON, MOST, SOON, TAKEN, BackEnd, Service, body, check, head_of, in_threads, line_of, read_message,
                          request, tenant, wait_for)

WHOLE = head_of("a", 34) + body(18, 1)
# Behind this head the service says that the body is to come.
ASKING = head_of("a", 34, EXPECT)
# So many milliseconds of rest are too many for a client. A client that isn't to rest has all of them for what takes a moment:
# on a busy machine that may be seconds.
LIMIT = 5_000
LIMITED = ("--client-timeout", str(LIMIT))
# So many are too many for a back end, which is to do what takes longer, and is tried again where it doesn't.
REST = 2_000
# So many seconds are between two pieces of what never ends: well within the limit.
DROP = 0.03
WHOLE_IN_TIME = ("--request-timeout", str(LIMIT))
CONNECTIONS = 300
# With its descriptors it is within 4,096, above which some systems let no process.
MANY = 4_080
# So many descriptors a service has that is to have too few: its standard ones, its listener, and 12 more.
FEW = 16


def heard(peer):
    """What comes from the service until it closes, and after how many seconds it closed."""
    start = time.monotonic()
    peer.settimeout(MOST)
    text = b""
    while True:
        more = peer.recv(1 << 16)
        if not more:
            return text, time.monotonic() - start
        text += more


def is_late(seconds, limit):
    """Whether so much time is about the limit, or more."""
    return seconds > 0.9 * limit / 1000


def closes(what, peer, wanted=b""):
    """The service closes it, not before the limit, and has told it this."""
    text, after = heard(peer)
    check(what, (text, is_late(after, LIMIT)), (wanted, True))


def resting_clients(folder):
    """Who rests before its request, in its head and in its body is let go after the limit, is told nothing and counts for
    nothing; others are served meanwhile, and then in its place. A connection rests between two requests too."""
    with BackEnd() as back_end, Service(folder, [tenant("a", back_end, policies=ERRORS)], *LIMITED) as service:
        with ExitStack() as stack:
            silent, in_head, in_body = (stack.enter_context(service.connect()) for _ in range(3))
            in_head.sendall(HEAD)
            in_body.sendall(WHOLE[:-1])
            check("another client", service.post("a", body(1, 1)), (200, b""))
            for what, peer in (("one that sends nothing", silent), ("one in its head", in_head), ("one in its body", in_body)):
                text, _ = heard(peer)
                check(what, text, b"")
        for what, begun in (("before a request", b""), ("in a head", WHOLE[:9]), ("in a body", WHOLE[:-1])):
            with service.connect() as peer:
                peer.sendall(begun)
                closes(f"resting {what}", peer)
            with service.connect() as peer:
                peer.sendall(WHOLE)
                check("a reply", read_message(peer.recv), REPLY)
                peer.sendall(begun)
                closes(f"resting {what}, after another", peer)
        check("the end", service.end(), (0, line_of("a", accepted=4, not_sampled=4), b""))


def slow_clients(folder):
    """Who sends something before the limit each time isn't let go, however long it takes in all, and who rests for less
    between requests neither."""
    with BackEnd() as back_end, Service(folder, [tenant("a", back_end, policies=ERRORS)], *LIMITED) as service:
        with service.connect() as peer:
            for text in (WHOLE, WHOLE):
                step = len(text) // 20 + 1
                for at in range(0, len(text), step):
                    peer.sendall(text[at:at + step])
                    time.sleep(LIMIT / 1000 / 15)
                check("a reply", read_message(peer.recv), REPLY)
        check("the end", service.end(), (0, line_of("a", accepted=2, not_sampled=2), b""))


def dripped(peer, text):
    """After how many seconds the service closes who sends a byte of a text twenty times within the limit, and what it is
    told; None where it doesn't."""
    start = time.monotonic()
    peer.settimeout(LIMIT / 1000 / 20)
    for at in range(len(text)):
        try:
            peer.sendall(text[at:at + 1])
            return peer.recv(1), time.monotonic() - start
        except TimeoutError:
            pass
        except OSError:
            # It closed while more was on its way.
            return b"", time.monotonic() - start
    return None


def slow_requests(folder):
    """A request that isn't whole in time is let go, however often something of it comes, and counts for nothing. The time
    begins with its first byte: who rests before, between and behind requests isn't let go. Nor does such a client keep the
    service at its end."""
    rest, at = 1.5 * LIMIT / 1000, WHOLE.index(b"\r\n\r\n") + 4
    with BackEnd() as back_end, Service(folder, [tenant("a", back_end, policies=ERRORS)], *WHOLE_IN_TIME) as service:
        def drips(what, begun, more, before):
            with service.connect() as peer:
                time.sleep(rest)
                if before:
                    peer.sendall(before)
                    check("a reply", read_message(peer.recv), REPLY)
                    time.sleep(rest)
                peer.sendall(begun)
                told, after = dripped(peer, more) or (None, 0)
                check(f"slow {what}", (told, is_late(after, LIMIT)), (b"", True))

        in_threads(*(lambda how=how: drips(*how) for before in (b"", WHOLE)
                     for how in (("in a head", WHOLE[:1], WHOLE[1:], before),
                                 ("in a body", head_of("a", 1_000), bytes(1_000), before))))
        with service.connect() as peer, service.connect() as slow:
            for _ in range(3):
                # Each has its own time.
                for part in (WHOLE[:at], WHOLE[at:]):
                    peer.sendall(part)
                    time.sleep(0.2 * LIMIT / 1000)
                check("a reply", read_message(peer.recv), REPLY)
            peer.close()
            slow.sendall(head_of("a", 1_000_000))
            service.run.stdin.close()
            told, _ = dripped(slow, bytes(1_000_000)) or (None, 0)
            check("at the end", told, b"")
            check("the end", service.end(), (0, line_of("a", accepted=5, not_sampled=5), b""))


def slow_behind_leave(folder):
    """The time begins anew with the leave to send a body: who sends none of it, or not all, is let go after the limit, counts
    for nothing, and doesn't keep the service at its end. A body that comes in time behind it is taken, also where its head
    took most of a limit, and who rests behind the reply isn't let go."""
    rest, part = 1.5 * LIMIT / 1000, 0.55 * LIMIT / 1000
    with BackEnd() as back_end, Service(folder, [tenant("a", back_end, policies=ERRORS)], *WHOLE_IN_TIME) as service:
        def asked(peer):
            peer.sendall(ASKING[:9])
            time.sleep(part)
            peer.sendall(ASKING[9:])
            check("it is to go on", read_message(peer.recv), GO_ON)

        with service.connect() as silent, service.connect() as slow:
            asked(silent)
            closes("nothing behind it", silent)
            asked(slow)
            slow.sendall(body(18, 1)[:-1])
            closes("a part behind it", slow)
        with service.connect() as peer:
            for _ in range(2):
                asked(peer)
                time.sleep(part)
                peer.sendall(body(18, 1))
                check("a reply", read_message(peer.recv), REPLY)
                time.sleep(rest)
        with service.connect() as last:
            asked(last)
            service.run.stdin.close()
            closes("at the end", last)
            check("the end", service.end(), (0, line_of("a", accepted=2, not_sampled=2), b""))


def both_limits(folder):
    """With both limits who rests is let go after the one, and who drips after the other."""
    options = ("--client-timeout", str(LIMIT), "--request-timeout", str(3 * LIMIT))
    with BackEnd() as back_end, Service(folder, [tenant("a", back_end, policies=ERRORS)], *options) as service:
        with service.connect() as peer:
            peer.sendall(WHOLE + WHOLE[:9])
            check("a reply", read_message(peer.recv), REPLY)
            text, after = heard(peer)
            check("resting", (text, is_late(after, LIMIT), is_late(after, 3 * LIMIT)), (b"", True, False))
        with service.connect() as peer:
            told, after = dripped(peer, head_of("a", 1_000_000)) or (None, 0)
            check("dripping", (told, is_late(after, 3 * LIMIT)), (b"", True))
        with service.connect() as peer:
            for _ in range(2):
                peer.sendall(WHOLE)
                check("a reply", read_message(peer.recv), REPLY)
            closes("between requests", peer)
        check("the end", service.end(), (0, line_of("a", accepted=3, not_sampled=3), b""))


def unread_replies(folder):
    """Who sends on and never reads its replies is let go once there is no more room for them: the one receiver serves the
    next client, who waited until then. When its own system tells it so isn't looked at: that may be minutes later."""
    with BackEnd() as back_end, Service(folder, [tenant("a", back_end)], *LIMITED, receivers=1) as service:
        start = time.monotonic()
        # Its room for replies stays as the system made it. Where it is made smaller than a window that was told before, the
        # client's system may refuse all that lies beyond, acknowledgements too: then its requests no longer arrive, and it
        # is let go for its rest.
        with service.connect() as peer:
            def sends_on():
                with suppress(OSError):
                    while True:
                        peer.sendall(b"GET / HTTP/1.1\r\nHost: c\r\n\r\n" * 1000)

            def comes_next():
                check("the next client", service.post("a", body(1, 1)), (200, b""))
                check("not before the limit", is_late(time.monotonic() - start, LIMIT), True)
                with suppress(OSError):
                    peer.shutdown(socket.SHUT_RDWR)

            in_threads(sends_on, comes_next)
        check("the end", service.end(), (0, line_of("a", accepted=1, exported=1), b""))


def the_end_of_resting(folder):
    """A client that keeps its connection doesn't keep the service for longer than the limit."""
    with BackEnd() as back_end, Service(folder, [tenant("a", back_end)], *LIMITED) as service, service.connect() as peer:
        check("a post", service.post("a", body(1, 1), peer), (200, b""))
        check("the end", service.end(), (0, line_of("a", accepted=1, exported=1), b""))
        check("its connection", peer.recv(1), b"")


def back_ends_that_rest(folder):
    """A back end that takes a post and never answers, that answers the half, that never reads a large job, and that takes
    no connection: each is tried again after the limit, until it answers; with one sender another tenant's jobs go on."""
    large = request((b"\1" * 16, b"\1" * 8, piece(5, b"n" * 9_000_000)))
    half = TAKEN[:-1]
    with ExitStack() as stack:
        good, silent = stack.enter_context(BackEnd()), stack.enter_context(BackEnd(None))
        # It keeps the connection open after the half.
        cut = stack.enter_context(BackEnd(None))
        unread = stack.enter_context(BackEnd())
        unread.reads.clear()
        sections = [tenant("a", silent), tenant("b", cut), tenant("c", unread), tenant("d", good)]
        service = stack.enter_context(Service(folder, sections, "--senders", "1", "--back-end-timeout", str(REST)))
        for name, text in (("a", body(1, 1)), ("b", body(2, 1)), ("c", large)):
            check("a post", service.post(name, text), (200, b""))
        wait_for(lambda: len(silent.posts) >= 2 and len(cut.posts) >= 2 and unread.came >= 2, "all are tried again")
        for peer in cut.held[-1:]:
            with suppress(OSError):
                peer.sendall(half)
        check("a post", service.post("d", body(4, 1)), (200, b""))
        wait_for(lambda: service.report("d") == line_of("d", accepted=1, exported=1), "another's job goes on")
        for name in "abc":
            check("not given up", service.report(name), line_of(name, accepted=1, active=1))
        times = [when for _, _, when in silent.posts]
        # A busy machine takes a post late.
        check("not long before the limit", max(later - sooner for sooner, later in zip(times, times[1:])) > 0.6 * REST / 1000, True)
        silent.release()
        cut.release()
        unread.reads.set()
        done = "".join(line_of(name, accepted=1, exported=1) for name in "abcd")
        check("the end", service.end(), (0, done, b""))
        check("the same again", (set(silent.bodies()), set(cut.bodies())), ({body(1, 1)}, {body(2, 1)}))
        # What came of an attempt that was given up is its front.
        read = unread.bodies()
        check("the large one again", large in read and all(large.startswith(part) for part in read), True)


class Endless(BackEnd):
    """Answers each post with a front, and goes on with one piece more again and again, for as long as anybody is there.
    Where it is told a size it reads so many bytes at a time in place of that."""

    def __init__(self, front, more, size=None):
        super().__init__()
        if size is not None:
            self.listener.setsockopt(socket.SOL_SOCKET, socket.SO_RCVBUF, size)
        self.front = front
        self.more = more
        self.size = size

    def serve(self, peer):
        began = time.monotonic()
        with suppress(OSError), peer:
            if self.size is not None:
                self.posts.append((b"", None, began))
                while peer.recv(self.size):
                    time.sleep(DROP)
                return
            self.posts.append((read_message(peer.recv), None, began))
            peer.sendall(self.front)
            while True:
                peer.sendall(self.more)
                time.sleep(DROP)


def answers_without_end(folder):
    """A back end whose answer never ends, in its head, in its body or in chunks, though something of it comes in time each
    time, and one that reads a large job drop by drop: each attempt takes as long as the limit, and no longer, and has
    failed, so that the job is tried again until its retries end. Meanwhile senders come free for another tenant's jobs,
    and at the end of the input the service ends."""
    head = b"HTTP/1.1 200 OK\r\n"
    large = request((b"\1" * 16, b"\1" * 8, piece(5, b"n" * 9_000_000)))
    kinds = {"with a length": Endless(head + b"Content-Length: 1000000\r\n\r\n", b"a"),
             "in its head": Endless(head + b"X: ", b"a"),
             "in chunks": Endless(head + b"Transfer-Encoding: chunked\r\n\r\n", b"1\r\na\r\n"),
             "as fast as it can": Endless(head + b"\r\n", b"a" * 65_536),
             "drop by drop": Endless(b"", b"", size=4096)}
    retries = f"max_elapsed_time_ms = {5 * REST}\n"
    with ExitStack() as stack:
        good = stack.enter_context(BackEnd())
        sections = [tenant(f"t{number}", stack.enter_context(back_end)) + retries
                    for number, back_end in enumerate(kinds.values())]
        service = stack.enter_context(Service(folder, [*sections, tenant("u", good)], "--back-end-timeout", str(REST),
                                              senders=len(kinds)))
        for number, kind in enumerate(kinds):
            text = large if kind == "drop by drop" else body(1, 1)
            check("a post", service.post(f"t{number}", text), (200, b""))
        wait_for(lambda: all(back_end.posts for back_end in kinds.values()), "each sender has a job")
        check("a post", service.post("u", body(9, 1)), (200, b""))
        wait_for(lambda: service.report("u") == line_of("u", accepted=1, exported=1), "another's job is done")
        wait_for(lambda: all(len(back_end.posts) >= 2 for back_end in kinds.values()), "all are tried again")
        lost = "".join(line_of(f"t{number}", accepted=1, retry_exhausted=1) for number in range(len(kinds)))
        check("the end", service.end(), (0, lost + line_of("u", accepted=1, exported=1), b""))
        for kind, back_end in kinds.items():
            times = [when for _, _, when in back_end.posts]
            took = [later - sooner for sooner, later in zip(times, times[1:])]
            # A busy machine takes a post late.
            check(f"{kind}: not long before the limit", max(took) > 0.6 * REST / 1000, True)
            check(f"{kind}: not long after it", min(took) < REST / 1000 + SOON, True)
            if kind != "drop by drop":
                check(f"{kind}: the same again", set(back_end.bodies()), {body(1, 1)})


def no_connection(folder):
    """A back end whose queue of connections is full isn't waited for beyond the limit, and is tried again."""
    with BackEnd() as good, socket.create_server(("127.0.0.1", 0), backlog=0) as full, ExitStack() as stack:
        port = full.getsockname()[1]
        # The first one fills the queue.
        for _ in range(3):
            peer = stack.enter_context(socket.socket())
            peer.setblocking(False)
            peer.connect_ex(("127.0.0.1", port))
        away = tenant("a", good).replace(f"127.0.0.1:{good.port}", f"127.0.0.1:{port}")
        with Service(folder, [away, tenant("b", good)], "--back-end-timeout", str(REST), senders=1) as service:
            for name in "ab":
                check("a post", service.post(name, body(1, 1)), (200, b""))
            wait_for(lambda: service.report("b") == line_of("b", accepted=1, exported=1), "another's job goes on")
            # The other's job may have been handed out first.
            wait_for(lambda: service.report("a") == line_of("a", accepted=1, active=1), "not given up")
            stack.close()
            texts = []

            def take():
                with suppress(OSError):
                    while True:
                        taken, _ = full.accept()
                        with taken, suppress(OSError):
                            texts.append(read_message(taken.recv))
                            taken.sendall(TAKEN)

            threading.Thread(target=take, daemon=True).start()
            done = "".join(line_of(name, accepted=1, exported=1) for name in "ab")
            check("the end", service.end(), (0, done, b""))
            full.shutdown(socket.SHUT_RDWR)
            # Of a connection that was given up nothing comes.
            check("the job", {text.partition(b"\r\n\r\n")[2] for text in texts if text}, {body(1, 1)})


def many_connections(folder):
    """With --connections so many clients keep their connections and are served, though there are fewer receivers in the
    settings; one more waits until one of them goes."""
    with BackEnd() as back_end, ExitStack() as stack, Service(
            folder, [tenant("a", back_end, policies=ERRORS)], "--connections", str(CONNECTIONS), receivers=1) as service:
        peers = [stack.enter_context(service.connect()) for _ in range(CONNECTIONS)]
        for _ in range(2):
            for peer in peers:
                check("a post", service.post("a", body(1, 1), peer), (200, b""))
        with service.connect() as more:
            more.sendall(WHOLE)
            more.settimeout(0.3)
            try:
                check("one more", more.recv(1), None)
            except TimeoutError:
                pass
            more.settimeout(MOST)
            peers[0].close()
            check("in its place", read_message(more.recv), REPLY)
        service.run.stdin.close()
        stack.close()
        check("the end", service.end(), (0, line_of("a", accepted=601, not_sampled=601), b""))


def many_threads(folder):
    """Thousands of connections are served at a time where one processor is shared with others' work, which starting takes as
    long as it may."""
    shell = ("/bin/sh", "-c", 'ulimit -S -n "$(ulimit -H -n)" && exec "$0" "$@"')
    busy = [sys.executable, "-c", "while True: pass"]
    with BackEnd() as back_end, ExitStack() as stack:
        others = [stack.enter_context(subprocess.Popen(busy)) for _ in range(2)]
        processor = min(os.sched_getaffinity(0))
        try:
            for other in others:
                os.sched_setaffinity(other.pid, {processor})
            under = ("taskset", "-c", str(processor), *shell)
            with Service(folder, [tenant("a", back_end)], "--connections", str(MANY), under=under) as service:
                check("a post", service.post("a", body(1, 1)), (200, b""))
                threads = len(list(Path(f"/proc/{service.run.pid}/task").iterdir()))
                check("its threads", threads > MANY, True)
                check("the end", service.end(), (0, line_of("a", accepted=1, exported=1), b""))
        finally:
            for other in others:
                other.kill()


def seconds_of(service):
    """How much processor time the service took."""
    words = Path(f"/proc/{service.run.pid}/stat").read_text().rpartition(")")[2].split()
    return (int(words[11]) + int(words[12])) / os.sysconf("SC_CLK_TCK")


def few_descriptors(folder):
    """Where descriptors become fewer than receivers, idle ones take none, so that jobs are sent. Once clients have taken
    them all nothing spins; who comes then is served once others go, jobs are sent again, and the service ends."""
    with BackEnd() as back_end, ExitStack() as stack, Service(
            folder, [tenant("a", back_end)], "--connections", "64", shards=1, senders=1) as service:
        resource.prlimit(service.run.pid, resource.RLIMIT_NOFILE, (FEW, FEW))
        check("a post", service.post("a", body(1, 1)), (200, b""))
        wait_for(lambda: service.report("a") == line_of("a", accepted=1, exported=1), "it is sent")
        first = stack.enter_context(service.connect())
        check("a post", service.post("a", body(2, 1), first), (200, b""))
        wait_for(lambda: len(back_end.posts) == 2, "it is sent")
        peers = [stack.enter_context(service.connect()) for _ in range(2 * FEW)]
        wait_for(lambda: len(list(Path(f"/proc/{service.run.pid}/fd").iterdir())) == FEW, "all are taken")
        before = seconds_of(service)
        time.sleep(1)
        check("it rests", seconds_of(service) - before < 0.1, True)
        check("a post", service.post("a", body(3, 1), first), (200, b""))
        wait_for(lambda: service.report("a") == line_of("a", accepted=3, active=1, exported=2), "it can't be sent")
        for peer in peers[:-1]:
            peer.close()
        check("who came last", service.post("a", body(4, 1), peers[-1]), (200, b""))
        wait_for(lambda: service.report("a") == line_of("a", accepted=4, exported=4), "all is sent")
        peers = [stack.enter_context(service.connect()) for _ in range(2 * FEW)]
        wait_for(lambda: len(list(Path(f"/proc/{service.run.pid}/fd").iterdir())) == FEW, "all are taken again")
        service.run.stdin.close()
        check("a report", service.hear(), line_of("a", accepted=4, exported=4))
        stack.close()
        check("the end", service.end(), (0, "", b""))


def no_descriptor_at_the_end(folder):
    """Where clients have all descriptors but the one that is kept for who comes next, the service ends once they go."""
    with BackEnd() as back_end, ExitStack() as stack, Service(
            folder, [tenant("a", back_end)], "--connections", "64", shards=1, senders=1) as service:
        resource.prlimit(service.run.pid, resource.RLIMIT_NOFILE, (FEW, FEW))
        while len(list(Path(f"/proc/{service.run.pid}/fd").iterdir())) < FEW - 1:
            check("no request", service.post("a", b"\1", stack.enter_context(service.connect()))[0], 400)
        service.run.stdin.close()
        check("a report", service.hear(), line_of("a"))
        time.sleep(0.2)
        stack.close()
        check("the end", service.end(), (0, "", b""))


# Those hardly do anything but wait.
WAITING = (resting_clients, slow_clients, slow_requests, slow_behind_leave, both_limits, the_end_of_resting)
TESTS = (*WAITING, unread_replies, back_ends_that_rest, answers_without_end, no_connection, many_connections, many_threads,
         few_descriptors, no_descriptor_at_the_end)
