"""Peers that acknowledge late what comes to them, as a system does that waits for something to send along. Nothing that
is written waits for that."""

import socket
import time

from serving.loopback import REPLY
from serving.talk import TAKEN, BackEnd, Service, body, check, head_of, line_of, read_message, tenant, wait_for

TIMES = 20
# An acknowledgement is 40 milliseconds late then, each time. Processors may be so too, but seldom half of the time, and not in
# each of some rounds.
LATE = 0.02
ROUNDS = 5


def acknowledge_late(line):
    line.setsockopt(socket.IPPROTO_TCP, socket.TCP_QUICKACK, 0)


def noting(line, moments):
    """Reads, and notes when."""
    def receive(most):
        text = line.recv(most)
        moments.append(time.monotonic())
        return text

    return receive


class LateBackEnd(BackEnd):
    """Notes how long after its first bytes the last ones of each post came."""

    def __init__(self):
        super().__init__()
        self.gaps = []

    def __enter__(self):
        super().__enter__()
        # Its connections have this from it.
        acknowledge_late(self.listener)
        return self

    def serve(self, peer):
        moments = []
        self.posts.append((read_message(noting(peer, moments)), TAKEN, moments[-1]))
        self.gaps.append(moments[-1] - moments[0])
        peer.sendall(TAKEN)
        peer.close()


def check_gaps(what, gaps_of_a_round):
    """How many rounds it took until no more than half of the gaps of one were late."""
    for count in range(1, ROUNDS + 1):
        late = [f"{gap:.3f} s" for gap in gaps_of_a_round() if gap > LATE]
        if len(late) <= TIMES // 2:
            break
    check(f"{what}, {len(late)} of {TIMES} late: {late[:3]}", len(late) <= TIMES // 2, True)
    return count


def posts_go_on(folder):
    """A post's payload doesn't wait until its head is acknowledged."""
    with LateBackEnd() as back_end, Service(folder, [tenant("a", back_end)]) as service:
        def gaps():
            before = len(back_end.gaps)
            for number in range(1, TIMES + 1):
                check("a post", service.post("a", body(number, 1)), (200, b""))
                wait_for(lambda count=before + number: len(back_end.gaps) == count, "it comes")
            return back_end.gaps[before:]

        count = TIMES * check_gaps("payloads", gaps)
        check("the end", service.end(), (0, line_of("a", accepted=count, exported=count), b""))


def replies_go_on(folder):
    """Of requests that come together no reply waits until the one before it is acknowledged."""
    text = body(1, 1)
    two = 2 * (head_of("a", len(text)) + text)
    with BackEnd() as back_end, Service(folder, [tenant("a", back_end)]) as service:
        def gap():
            with service.connect() as peer:
                acknowledge_late(peer)
                peer.sendall(two)
                moments, told = [], b""
                receive = noting(peer, moments)
                while len(told) < 2 * len(REPLY):
                    told += receive(1 << 10)
                check("two replies", told, 2 * REPLY)
                return moments[-1] - moments[0]

        count = 2 * TIMES * check_gaps("replies", lambda: [gap() for _ in range(TIMES)])
        check("the end", service.end(), (0, line_of("a", accepted=count, exported=count), b""))


TESTS = (posts_go_on, replies_go_on)
