"""What the tests of the service talk with: the started program, its back ends, its clients, and what is expected."""

import os
import socket
import subprocess
import threading
import time
from contextlib import suppress
from pathlib import Path

from replay.make_script import piece

# No single wait is longer, and no service is there for longer than ten times that, unless a test says how long (`lives_for`).
# Of what is to come soon it is asked whether it comes within the half: how soon is the machine's to say.
MOST = 60
SOON = MOST / 2
TAKEN = b"HTTP/1.1 200 OK\r\nContent-Length: 0\r\n\r\n"
BUSY = b"HTTP/1.1 503 Service Unavailable\r\nContent-Length: 0\r\n\r\n"
# A field by which a client asks for leave to send its body, and the leave.
EXPECT = "Expect: 100-continue\r\n"
GO_ON = b"HTTP/1.1 100 Continue\r\n\r\n"
ALL = '[[tenant.tail_sampling.policy]]\ntype = "always_sample"\n'
ERRORS = '[[tenant.tail_sampling.policy]]\ntype = "status_code"\nstatus_codes = ["ERROR"]\n'
ERROR = b"\x7a\x02\x18\x02"
NAMES = ("accepted", "undecided", "pending", "queued", "active", "exported", "not_sampled", "too_early", "queue_full",
         "retry_exhausted", "back_end_refused", "back_end_rejected", "invalid", "over_budget")
program = None
faults = []


def check(what, got, wanted):
    if got != wanted:
        faults.append(f"{what}: got {got!r}, expected {wanted!r}")


def wait_for(is_so, what):
    end = time.monotonic() + MOST
    while not is_so():
        if time.monotonic() > end:
            raise TimeoutError(f"waited in vain until {what}")
        time.sleep(0.005)


def free_port():
    """A port at which nobody listens now, for programs that can't have the system choose one."""
    with socket.socket() as probe:
        probe.bind(("127.0.0.1", 0))
        return probe.getsockname()[1]


def in_threads(*works):
    """All of them at a time, to their ends. What one raises is a fault."""
    def guarded(work):
        try:
            work()
        except Exception as fault:  # pylint: disable=broad-except
            faults.append(f"a client: {fault!r}")

    threads = [threading.Thread(target=guarded, args=(work,)) for work in works]
    for thread in threads:
        thread.start()
    for thread in threads:
        thread.join()


def body(trace, span):
    """A request with one span, of this byte sixteen times as its trace and that byte eight times as its own id."""
    return b"\x0a\x20\x12\x1e\x12\x1c\x0a\x10" + bytes([trace]) * 16 + b"\x12\x08" + bytes([span]) * 8


def request(*spans):
    """A request with these spans in one scope; each is its trace's id, its own id and its other fields."""
    texts = (piece(1, trace) + piece(2, span) + more for trace, span, more in spans)
    return piece(1, piece(2, b"".join(piece(2, text) for text in texts)))


def line_of(tenant, **counts):
    return f"report {tenant} " + " ".join(f"{name}={counts.get(name, 0)}" for name in NAMES) + "\n"


def read_message(receive):
    """A head, and as many bytes as its Content-Length says; less where no more comes."""
    text = bytearray()
    length = None
    while length is None or len(text) < length:
        more = receive(1 << 20)
        if not more:
            break
        text += more
        if length is None and b"\r\n\r\n" in text:
            head = bytes(text[:text.index(b"\r\n\r\n")])
            lengths = [line[15:] for line in head.split(b"\r\n") if line.lower().startswith(b"content-length:")]
            length = len(head) + 4 + int(lengths[0] if lengths else 0)
    return bytes(text)


class BackEnd:
    """Listens at a free port, reads one post of each connection, and answers it by `reply`: bytes, or what gives them
    for the post's number, from 1. None says that it isn't answered until `release`. While `reads` isn't set it takes
    connections and reads nothing; the first `unread` ones it closes. Before a `with` it isn't there."""

    def __init__(self, reply=TAKEN, unread=0):
        self.reply = reply
        self.unread = unread
        # each post, what it was answered, and when it came
        self.posts = []
        self.held = []
        self.came = 0
        self.reads = threading.Event()
        self.reads.set()
        self.lock = threading.Lock()
        self.listener = socket.socket()
        self.listener.bind(("127.0.0.1", 0))
        self.port = self.listener.getsockname()[1]

    def __enter__(self):
        self.listener.listen(256)
        threading.Thread(target=self.listen, daemon=True).start()
        return self

    def __exit__(self, *_):
        # A thread that waits in accept would take one connection more.
        self.listener.shutdown(socket.SHUT_RDWR)
        self.listener.close()
        for peer in self.held:
            peer.close()

    def listen(self):
        while True:
            try:
                peer, _ = self.listener.accept()
            except OSError:
                return
            self.came += 1
            threading.Thread(target=self.serve, args=(peer,), daemon=True).start()

    def serve(self, peer):
        self.reads.wait(MOST)
        if self.came <= self.unread:
            peer.close()
            return
        text = read_message(peer.recv)
        with self.lock:
            reply = self.reply(len(self.posts) + 1) if callable(self.reply) else self.reply
            if reply is None:
                self.held.append(peer)
            self.posts.append((text, reply, time.monotonic()))
        if reply is not None:
            peer.sendall(reply)
            peer.close()

    def release(self, reply=TAKEN):
        """Answers what it held, and all that comes."""
        with self.lock:
            self.reply, held, self.held = reply, self.held, []
        for peer in held:
            # who waited may have given up
            with suppress(OSError):
                peer.sendall(reply)
            peer.close()

    def bodies(self):
        return [text.partition(b"\r\n\r\n")[2] for text, _, _ in self.posts]


def tenant(name, back_end, wait=1, timeout=0, consumers=1, retry=20, policies=ALL, batch=8192, most=100_000,
           queue=1000):
    """A tenant's section."""
    return (f'[[tenant]]\nname = "{name}"\nendpoint = "127.0.0.1:{back_end.port}"\nmax_spans = {most}\n'
            f"[tenant.tail_sampling]\ndecision_wait_ms = {wait}\n{policies}"
            f"[tenant.batch]\ntimeout_ms = {timeout}\nsend_batch_size = {batch}\n"
            f"[tenant.sending_queue]\nnum_consumers = {consumers}\nqueue_size = {queue}\n[tenant.retry_on_failure]\n"
            f"initial_interval_ms = {retry}\nmax_interval_ms = {retry}\nrandomization_factor = 0\n")


def globals_of(port=0, shards=2, receivers=4, senders=2, parts=2):
    return (f'[global]\nlisten = "127.0.0.1:{port}"\nshards = {shards}\nreceivers = {receivers}\nsenders = {senders}\n'
            f"parts = {parts}\n")


class Service:
    """The program with these tenants' sections, until `end`, and at most until the end of a `with`. What stands in
    `under` starts it."""

    def __init__(self, folder, tenants, *options, under=(), **how):
        file = Path(folder, "settings.toml")
        file.write_text(globals_of(**how) + "".join(tenants))
        pipe = subprocess.PIPE
        words = [*under, program, "serve", str(file), *options]
        self.run = subprocess.Popen(words, stdin=pipe, stdout=pipe, stderr=pipe)
        self.watch = None
        self.lives_for(10 * MOST)
        self.port = None
        self.ended = None

    def __enter__(self):
        wait_for(self.is_up, "the service listens")
        return self

    def __exit__(self, *_):
        self.watch.cancel()
        self.run.kill()
        self.run.wait()
        for file in (self.run.stdin, self.run.stdout, self.run.stderr):
            file.close()

    def lives_for(self, seconds):
        """It is killed so many seconds from now, so that whoever waits for what it prints waits no longer."""
        if self.watch is not None:
            self.watch.cancel()
        self.watch = threading.Timer(seconds, self.run.kill)
        self.watch.daemon = True
        self.watch.start()

    def is_up(self):
        if self.run.poll() is not None:
            raise RuntimeError(f"the service ended with {self.run.returncode}: {self.run.stderr.read()}")
        self.port = listening_port(self.run.pid)
        return self.port is not None

    def connect(self):
        peer = socket.create_connection(("127.0.0.1", self.port), timeout=MOST)
        peer.setsockopt(socket.IPPROTO_TCP, socket.TCP_NODELAY, 1)
        return peer

    def post(self, name, text, peer=None, more=""):
        """The status of the reply to a body, and the reply's body."""
        line = peer or self.connect()
        line.sendall(head_of(name, len(text), more) + text)
        reply = read_message(line.recv)
        if peer is None:
            line.close()
        return int(reply.split(b" ")[1] if reply else 0), reply.partition(b"\r\n\r\n")[2]

    def say(self, text):
        self.run.stdin.write(text.encode())
        self.run.stdin.flush()

    def is_asleep(self):
        """Whether all its threads wait for something, so that none is about to do what it has begun."""
        states = (file.read_text().rpartition(")")[2].split()[0] for file in Path(f"/proc/{self.run.pid}/task").glob("*/stat"))
        return all(state == "S" for state in states)

    def has_read(self, peer):
        """Whether it has read all that a client sent over this connection."""
        ends = peer.getsockname()[1], self.port
        lines = (line.split() for line in Path(f"/proc/{self.run.pid}/net/tcp").read_text().splitlines()[1:])
        waits = {tuple(int(word.rpartition(":")[2], 16) for word in words[1:3]): words[4] for words in lines}
        # So many bytes wait at its end to be sent, and at the service's to be read.
        return [int(waits.get(*way).split(":")[at], 16) for at, way in enumerate(((ends, "0:0"), (ends[::-1], "0:0")))] == [0, 0]

    def hear(self):
        """The next line that it prints."""
        return self.run.stdout.readline().decode()

    def report(self, name):
        self.say(f"report {name}\n")
        return self.hear()

    def end(self):
        """Its status, what it printed since it was last heard, and its standard error, after its input ended."""
        if not self.run.stdin.closed:
            self.run.stdin.close()
        out = self.run.stdout.read().decode()
        return self.run.wait(), out, self.run.stderr.read()


def head_of(name, length, more=""):
    return (f"POST /v1/traces HTTP/1.1\r\nHost: c\r\nX-Scope-OrgID: {name}\r\n{more}"
            f"Content-Type: application/x-protobuf\r\nContent-Length: {length}\r\n\r\n").encode()


def listening_ports(pid):
    """Where a process listens, as the system tells, in the order in which it began to."""
    mine = {}
    for file in Path(f"/proc/{pid}/fd").iterdir():
        with suppress(OSError):
            mine[os.readlink(file)] = int(file.name)
    found = []
    for line in Path(f"/proc/{pid}/net/tcp").read_text().splitlines()[1:]:
        words = line.split()
        if words[3] == "0A" and f"socket:[{words[9]}]" in mine:
            found.append((mine[f"socket:[{words[9]}]"], int(words[1].rpartition(":")[2], 16)))
    return [port for _, port in sorted(found)]


def listening_port(pid):
    """The first of them; none while it doesn't listen."""
    return next(iter(listening_ports(pid)), None)
