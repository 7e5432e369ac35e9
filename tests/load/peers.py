"""Clients that rest or drip, and the program with the options that it is given: what the measurements beside this file
share."""

import os
import resource
import selectors
import socket
import subprocess
import sys
import tempfile
import threading
import time
from pathlib import Path

import measure
from comings import Served
from measure import MOST, numbers, on, wait_for

sys.path.insert(0, str(measure.HERE.parent))
from serving import talk  # pylint: disable=wrong-import-position

EMPTY = talk.head_of("tenant-0", 0)
# So many faults are printed.
SHOWN = 40
TAKEN = b"HTTP/1.1 200 OK\r\nContent-Type: application/x-protobuf\r\nContent-Length: 0\r\n\r\n"


def raise_open_files():
    """As many files as this process may open, and who it starts."""
    _, most = resource.getrlimit(resource.RLIMIT_NOFILE)
    resource.setrlimit(resource.RLIMIT_NOFILE, (most, most))


def each_part(words, work, faults):
    """Has `work` done for each part that is asked for, and ends with 1 where there are faults then."""
    raise_open_files()
    with tempfile.TemporaryDirectory() as folder:
        words.load = measure.built(folder)
        for name in words.parts:
            print(f"\n{name}\n")
            work(name)
    for fault in faults[:SHOWN]:
        print(fault, file=sys.stderr)
    sys.exit(min(len(faults), 1))


def globals_of(port, shards=2, receivers=4, senders=4):
    return (f'[global]\nlisten = "127.0.0.1:{port}"\nshards = {shards}\nparts = 1\nreceivers = {receivers}\n'
            f"senders = {senders}\n")


def plain_section(number, back_end, wait=1000):
    """A tenant with its defaults, but for how long it waits."""
    return (f'[[tenant]]\nname = "tenant-{number}"\nendpoint = "127.0.0.1:{back_end}"\n'
            f'[tenant.tail_sampling]\ndecision_wait_ms = {wait}\n{talk.ALL}')


class Measured(Served):
    """The program as a service under these settings, with these options, at the port that the settings name."""

    def __init__(self, words, folder, port, settings, options, under=()):
        file = Path(folder, "settings.toml")
        file.write_text(settings)
        super().__init__(words.own, port, *under, os.path.abspath(words.program), "serve", file, *options)

    def __enter__(self):
        try:
            wait_for(self.is_up, "the service is up")
        except (RuntimeError, TimeoutError):
            self.__exit__()
            raise
        return super().__enter__()

    def threads(self):
        return [int(name) for name in os.listdir(f"/proc/{self.run.pid}/task")]

    def used(self):
        """Seconds of a processor that its threads have had, to the nanosecond, and how often one of them gave it up."""
        seconds, waits = 0, 0
        for thread in self.threads():
            place = Path(f"/proc/{self.run.pid}/task/{thread}")
            seconds += int(Path(place, "schedstat").read_text().split()[0]) / 1e9
            waits += numbers(Path(place, "status").read_text().replace(":\t", "="))["voluntary_ctxt_switches"]
        return seconds, waits

    def kilobytes(self, name):
        """A line of /proc/PID/status, as VmRSS or VmSize."""
        status = Path(f"/proc/{self.run.pid}/status").read_text()
        return next(int(line.split()[1]) for line in status.splitlines() if line.startswith(name + ":"))


class Heard:
    """The lines that a service prints, each with when it came, read by a thread until there are no more."""

    def __init__(self, service):
        self.service = service
        self.lines = []
        self.thread = threading.Thread(target=self.read, daemon=True)
        self.thread.start()

    def read(self):
        for line in self.service.run.stdout:
            self.lines.append((time.monotonic(), line))

    def ask(self, line):
        """Says a line, once all before it are answered. Which line that is printed answers it."""
        place = len(self.lines)
        self.service.run.stdin.write(line + "\n")
        self.service.run.stdin.flush()
        return place

    def ended(self, seconds):
        """Closes the input. When the service has ended within so many seconds, and its status then; it is killed if it
        hasn't."""
        run = self.service.run
        try:
            run.stdin.close()
        except OSError:
            # It was gone before.
            pass
        run.stdin = None
        try:
            status = run.wait(seconds)
            at = time.monotonic()
        except subprocess.TimeoutExpired:
            at, status = None, None
            run.kill()
        self.thread.join()
        return at, status


def post(words, load, *numbers_of_it, wait=MOST):
    """What `load post` says in its one line, or nothing if it isn't done in time."""
    run = subprocess.Popen(on(words.others, load, "post", *map(str, numbers_of_it)), stdout=subprocess.PIPE, text=True)
    with run:
        try:
            out, _ = run.communicate(timeout=wait)
            return numbers(out)
        except subprocess.TimeoutExpired:
            run.kill()
            return {}


class Resting:
    """Clients that post a body of nothing, read its reply, and keep their connection, until the end of a `with`."""

    def __init__(self, port, count):
        self.peers = []
        self.port = port
        self.count = count

    def __enter__(self):
        for _ in range(self.count):
            peer = socket.socket()
            peer.setblocking(False)
            peer.connect_ex(("127.0.0.1", self.port))
            self.peers.append(peer)
        return self

    def __exit__(self, *_):
        for peer in self.peers:
            peer.close()

    def answered(self, seconds):
        """How many are answered a post of nothing by 200 within that time; those whose connection is gone aren't."""
        end = time.monotonic() + seconds
        count, left = 0, len(self.peers)
        with selectors.DefaultSelector() as waiting:
            for peer in self.peers:
                waiting.register(peer, selectors.EVENT_WRITE)
            while left and time.monotonic() < end:
                for key, _ in waiting.select(end - time.monotonic()):
                    told = self.go_on(waiting, key)
                    count += told == TAKEN
                    left -= told is not None
        return count

    @staticmethod
    def go_on(waiting, key):
        """Sends, or reads a reply. None if there is none yet."""
        try:
            if key.events == selectors.EVENT_WRITE:
                key.fileobj.sendall(EMPTY)
                waiting.modify(key.fileobj, selectors.EVENT_READ)
                return None
            told = key.fileobj.recv(len(TAKEN))
        except OSError:
            told = b""
        waiting.unregister(key.fileobj)
        return told


class Dripping:
    """Clients that send a request, a byte each in a second, until the end of a `with` or of their connection."""

    def __init__(self, port, count):
        self.port = port
        self.count = count
        self.over = threading.Event()
        self.peers = []
        self.thread = threading.Thread(target=self.drip, daemon=True)

    def __enter__(self):
        self.thread.start()
        return self

    def __exit__(self, *_):
        self.over.set()
        self.thread.join()
        for peer in self.peers:
            peer.close()

    def drip(self):
        text = talk.head_of("tenant-0", 34) + talk.body(1, 1)
        for _ in range(self.count):
            peer = socket.socket()
            peer.setblocking(False)
            peer.connect_ex(("127.0.0.1", self.port))
            self.peers.append(peer)
        left = dict.fromkeys(self.peers, 0)
        while not self.over.wait(1):
            for peer, at in list(left.items()):
                try:
                    left[peer] += peer.send(text[at:at + 1])
                except BlockingIOError:
                    pass
                except OSError:
                    del left[peer]

    def gone(self):
        """How many were let go: their connection is at its end."""
        count = 0
        for peer in self.peers:
            try:
                count += peer.recv(1, socket.MSG_PEEK) == b""
            except BlockingIOError:
                pass
            except OSError:
                count += 1
        return count
