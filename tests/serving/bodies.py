"""How many bytes of clients' bodies may be on their way at a time, where `--body-memory` says."""

import select
import socket
import struct
from contextlib import ExitStack

from replay.make_script import piece
from serving.loopback import HEAD, REPLY, refused
from serving.memory import LARGEST, SHAPES, SMALL, bytes_of
from serving.talk import (ERRORS, EXPECT, GO_ON, BackEnd, Service, body, check, head_of, in_threads, line_of,
                          read_message, tenant, wait_for)

BOUND = ("--body-memory", str(LARGEST))
# Of so many bytes a service has read most, and so their head, once they were sent: sockets take fewer.
LARGE = 15_000_000
LEFT = LARGEST - LARGE
# So many bytes don't come in one read with their head, of which nothing is claimed.
PARTED = 5_000
# So often is tried what a busy machine may hide.
TRIES = 5
TOO_MUCH = refused(503, "Service Unavailable", "out of memory")
FULL = (503, piece(2, b"out of memory"))
DONE = (200, b"")
CHUNKS = HEAD + b"Transfer-Encoding: chunked\r\n\r\n"


def unknown(length):
    """A request of so many bytes without a span."""
    return piece(2, bytes(length - (2 if length < 130 else 3 if length < 16_387 else 5)))


def begin(stack, service, text):
    """Over a connection of its own all of a text comes but for its last byte."""
    peer = stack.enter_context(service.connect())
    peer.sendall(text[:-1])
    return peer


def whole(length):
    return head_of("a", length) + unknown(length)


def is_exact(what, service):
    """Of 20,971,520 bytes 15,000,000 are on their way. As many as are left are taken, and one more is refused, once its
    body was read: its connection goes on. Small bodies are taken. Once the first one is whole, all are free again, also
    while its client keeps its connection."""
    with ExitStack() as stack:
        first = begin(stack, service, whole(LARGE))
        second = stack.enter_context(service.connect())
        for length, wanted in ((LEFT + 1, FULL), (LARGEST, FULL), (LEFT, DONE), (LEFT + 1, FULL), (PARTED, DONE)):
            check(f"{what}: {length} bytes beside it", service.post("a", unknown(length), second), wanted)
        third = begin(stack, service, whole(LEFT - PARTED))
        wait_for(lambda: service.has_read(third) and service.is_asleep(), "so many are on their way")
        check(f"{what}: what both leave", service.post("a", unknown(PARTED), second), DONE)
        check(f"{what}: one more than both leave", service.post("a", unknown(PARTED + 1), second), FULL)
        # Who was refused holds nothing while the body comes.
        refused_one = begin(stack, service, whole(LARGE))
        check(f"{what}: beside one that is refused", service.post("a", unknown(PARTED), second), DONE)
        check(f"{what}: bodies that come with their heads", service.post("a", body(1, 1), second), DONE)
        for peer, wanted in ((first, REPLY), (third, REPLY), (refused_one, TOO_MUCH)):
            peer.sendall(b"\0")
            check(f"{what}: its end", read_message(peer.recv), wanted)
        check(f"{what}: the longest one, behind these", service.post("a", unknown(LARGEST), second), DONE)
        for peer in (refused_one, first, second, third):
            check(f"{what}: the longest one over each", service.post("a", unknown(LARGEST), peer), DONE)


def one_at_a_time(folder):
    """The least bound has room for the longest body, and is exact, twice over."""
    with BackEnd() as back_end, Service(folder, [tenant("a", back_end, policies=ERRORS)], *BOUND, receivers=5) as service:
        is_exact("at first", service)
        is_exact("again", service)
        check("the end", service.end(), (0, line_of("a", accepted=2, not_sampled=2), b""))


def hang_up(peer, _other):
    peer.shutdown(socket.SHUT_WR)
    check("who hangs up is told", read_message(peer.recv), b"")


def reset(peer, _other):
    peer.setsockopt(socket.SOL_SOCKET, socket.SO_LINGER, struct.pack("ii", 1, 0))
    peer.close()


def rest(peer, other):
    """Who posts beside it doesn't rest as long."""
    while not select.select([peer], [], [], 1)[0]:
        other.sendall(whole(PARTED))
        check("beside who rests", read_message(other.recv), REPLY)
    check("who rests is told", read_message(peer.recv), b"")


def says(text, status):
    """What comes then, and what is told."""
    def go_on(peer, _other):
        peer.sendall(text)
        check(text, int(read_message(peer.recv)[9:12]), status)
    return go_on


CHUNK = b"%x\r\n" % LARGE + bytes(LARGE) + b"\r\n"
# Those who don't rest have all of it for what they do, which may be seconds on a busy machine.
RESTS = ("--client-timeout", "10000")
ENDED = ("--request-timeout", "15000")
# What comes of a body that has come in part, and what ends it.
ENDS = {
    "who hangs up": (whole(LARGE)[:-1], hang_up),
    "who goes with a reset": (whole(LARGE)[:-1], reset),
    "who hangs up in a chunk": (CHUNKS + CHUNK, hang_up),
    "a bad chunk": (CHUNKS + CHUNK, says(b"x", 400)),
    "too many chunks": (CHUNKS + CHUNK, says(b"%x\r\n" % (LEFT + 1), 413)),
    "a body without a value": (head_of("a", LARGE) + bytes(LARGE - 1), says(b"\0", 400)),
    "a body in chunks without a value": (CHUNKS + CHUNK, says(b"0\r\n\r\n", 400)),
}


def ends(service, what, begun, end):
    """The longest body is taken once this one has ended so, and not before. It is posted over a connection that was there
    before: else the thread that read this one might take it, and give back only then what it had kept."""
    with service.connect() as other, service.connect() as peer:
        check(f"before {what}", service.post("a", unknown(PARTED), other), DONE)
        peer.sendall(begun)
        check(f"before the end of {what}", service.post("a", unknown(LARGEST), other), FULL)
        end(peer, other)
        wait_for(lambda: service.post("a", unknown(LARGEST), other) == DONE, f"{what} holds nothing")


def each_end(folder):
    """A body that isn't taken, however its message or its connection ends, is on its way no longer. Behind all of these no
    byte more is taken than before."""
    with BackEnd() as back_end, Service(folder, [tenant("a", back_end, policies=ERRORS)], *BOUND, receivers=5) as service:
        for what, (begun, end) in ENDS.items():
            ends(service, what, begun, end)
        is_exact("behind each end", service)
        check("the end", service.end(), (0, line_of("a", accepted=1, not_sampled=1), b""))


def a_resting_body(folder):
    """So it is where a client rests in its body for longer than it may."""
    with BackEnd() as back_end, Service(folder, [tenant("a", back_end)], *BOUND, *RESTS) as service:
        ends(service, "who rests", whole(LARGE)[:-1], rest)
        check("the end", service.end(), (0, line_of("a"), b""))


def a_body_that_never_comes(folder):
    """So it is where a client has leave to send its body and sends none of it for longer than a request may take: posts of
    other tenants are taken then, though it stays."""
    with BackEnd() as back_end, Service(folder, [tenant(name, back_end) for name in "ab"], *BOUND, *ENDED) as service:
        with service.connect() as other, service.connect() as peer:
            check("before it", service.post("b", unknown(LARGEST), other), DONE)
            peer.sendall(head_of("a", LARGE, EXPECT))
            check("it is to go on", read_message(peer.recv), GO_ON)
            wait_for(lambda: service.post("b", unknown(LARGEST), other) == FULL, "it counts")
            check("it is told", read_message(peer.recv), b"")
            wait_for(lambda: service.post("b", unknown(LARGEST), other) == DONE, "it counts no more")
        check("the end", service.end(), (0, line_of("a") + line_of("b"), b""))


def heads_that_claim_nothing(folder):
    """A body whose head settles that it goes to no tenant counts for nothing while it comes. One in chunks counts as the
    longest from its head on, and small ones that come with their heads are taken nevertheless."""
    with BackEnd() as back_end, ExitStack() as stack, Service(
            folder, [tenant("a", back_end, policies=ERRORS)], *BOUND, receivers=4) as service:
        nobody = begin(stack, service, head_of("b", LARGE) + unknown(LARGE))
        check("beside a body that nobody wants", service.post("a", unknown(LARGEST)), DONE)
        chunks = stack.enter_context(service.connect())
        chunks.sendall(CHUNKS + CHUNK)
        check("beside chunks", service.post("a", unknown(PARTED)), FULL)
        check("beside chunks, with its head", service.post("a", body(1, 1)), DONE)
        nobody.sendall(b"\0")
        check("a body that nobody wants", int(read_message(nobody.recv)[9:12]), 403)
        check("still beside chunks", service.post("a", unknown(PARTED), nobody), FULL)
        says(b"0\r\n\r\n", 400)(chunks, nobody)
        check("behind them", service.post("a", unknown(LARGEST), nobody), DONE)
        stack.close()
        check("the end", service.end(), (0, line_of("a", accepted=1, not_sampled=1), b""))


def gone_meanwhile(folder):
    """A body whose tenant goes while it comes is refused, and is on its way no longer, though its client stays."""
    with BackEnd() as back_end, ExitStack() as stack, Service(
            folder, [tenant(name, back_end) for name in "ab"], *BOUND) as service:
        late = begin(stack, service, head_of("b", LARGE) + unknown(LARGE))
        service.say("retire b\n")
        check("it goes", service.hear(), line_of("b"))
        check("while its body comes", service.post("a", unknown(LARGEST)), FULL)
        late.sendall(b"\0")
        check("its body", int(read_message(late.recv)[9:12]), 403)
        check("behind it", service.post("a", unknown(LARGEST)), DONE)
        stack.close()
        check("the end", service.end(), (0, line_of("a"), b""))


def while_it_is_made_ready(folder):
    """A body is on its way until it was posted, also while it is made ready, which takes this one a while."""
    again, round_it, _ = SHAPES["resource spans of a span"]
    text = round_it(again * (LARGEST // len(again)))
    with BackEnd() as back_end, Service(folder, [tenant("a", back_end, policies=ERRORS, most=1)], *BOUND) as service:
        with service.connect() as first, service.connect() as second:
            # Another one's head may come late where the machine is busy.
            for _ in range(TRIES):
                first.sendall(head_of("a", len(text)) + text)
                wait_for(lambda: service.has_read(first), "all of it has come")
                told = service.post("a", unknown(PARTED), second)
                read_message(first.recv)
                if told == FULL:
                    break
            check("beside one that is made ready", told, FULL)
            check("behind it", service.post("a", unknown(LARGEST), second), DONE)


def many_small_ones(folder):
    """None of many bodies is refused that together are more than the bound, and never more at a time."""
    clients, posts, length = 8, 40, 100_000
    told = []

    def go(service, stays):
        with ExitStack() as stack:
            peer = stack.enter_context(service.connect()) if stays else None
            for _ in range(posts):
                told.append(service.post("a", unknown(length), peer))

    with BackEnd() as back_end, Service(folder, [tenant("a", back_end)], *BOUND, receivers=clients) as service:
        in_threads(*(lambda stays=number % 2: go(service, stays) for number in range(clients)))
        check("all are taken", (len(told), set(told)), (clients * posts, {DONE}))
        check("the end", service.end(), (0, line_of("a"), b""))


def what_they_hold(folder):
    """Twelve clients send the longest body at once, but for its last byte: one holds it, and the others next to nothing.
    Behind that byte the one is taken and the others are told so, and posts over the same connections are taken."""
    clients = 12
    with BackEnd() as back_end, ExitStack() as stack, Service(
            folder, [tenant("a", back_end)], *BOUND, receivers=clients) as service:
        before = bytes_of(service.run.pid, "VmHWM")
        peers = [stack.enter_context(service.connect()) for _ in range(clients)]
        text = whole(LARGEST)
        in_threads(*(lambda peer=peer: peer.sendall(text[:-1]) for peer in peers))
        more = bytes_of(service.run.pid, "VmHWM") - before
        check(f"{more} bytes more at most", more <= 1.2 * LARGEST + SMALL, True)
        for peer in peers:
            peer.sendall(b"\0")
        told = sorted(read_message(peer.recv) for peer in peers)
        check("what they are told", told, [REPLY] + [TOO_MUCH] * (clients - 1))
        for peer in peers:
            check("the next one", service.post("a", unknown(LARGEST), peer), DONE)
        stack.close()
        check("the end", service.end(), (0, line_of("a"), b""))


def without_a_bound(folder):
    """Without the option six of the longest bodies are on their way at a time."""
    with BackEnd() as back_end, ExitStack() as stack, Service(folder, [tenant("a", back_end)], receivers=7) as service:
        peers = [begin(stack, service, whole(LARGEST)) for _ in range(6)]
        check("one more", service.post("a", unknown(LARGEST)), DONE)
        for peer in peers:
            peer.sendall(b"\0")
            check("its end", read_message(peer.recv), REPLY)
        stack.close()
        check("the end", service.end(), (0, line_of("a"), b""))


def answered_before_another(folder, bodies):
    """How many of so many of the longest bodies of one tenant, which are made ready one after another, are answered from
    when another tenant's is whole until it is answered; all, where it says nothing since most were answered before."""
    longest = b"\x12\x00" * ((LARGEST - 20) // 2)
    text, later = piece(1, piece(2, longest)), piece(2, bytes(20 * PARTED))
    with BackEnd() as back_end, ExitStack() as stack, Service(
            folder, [tenant(name, back_end) for name in "ab"], receivers=bodies + 1) as service:
        peers = [begin(stack, service, head_of("a", len(text)) + text) for _ in range(bodies)]
        other = begin(stack, service, head_of("b", len(later)) + later)
        for peer in peers:
            peer.sendall(text[-1:])
        wait_for(lambda: select.select(peers, [], [], 0)[0], "the first one is answered")
        before = len(select.select(peers, [], [], 0)[0])
        other.sendall(b"\0")
        check("the other's", read_message(other.recv), REPLY)
        meanwhile = len(select.select(peers, [], [], 0)[0]) - before
        return meanwhile if before <= bodies // 2 else bodies


def behind_few_of_another(folder):
    """Eight of one tenant's longest bodies are made ready one after another. Another tenant's body that isn't small
    waits for the one that has begun, maybe for the next, and not for all that were there before it. Where the machine is
    busy it may look so, so it is tried some times."""
    bodies, told = 8, []
    while len(told) < TRIES and min(told, default=bodies) > 2:
        told.append(answered_before_another(folder, bodies))
    check(f"{told} of {bodies} were answered before it", min(told) <= 2, True)


# Those hardly do anything but wait.
WAITING = (a_resting_body, a_body_that_never_comes)
TESTS = (one_at_a_time, each_end, *WAITING, heads_that_claim_nothing, gone_meanwhile,
         while_it_is_made_ready, many_small_ones, what_they_hold, without_a_bound, behind_few_of_another)
