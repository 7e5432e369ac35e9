#!/usr/bin/env python3
"""Three collectors behind HAProxy, under load: `python3 examples/scale-out/run.py [PROGRAM]`.

Takes the program's path, `./trace_collector` if there is none. Eight tenants' clients post all the while, and again
what they weren't told is taken. One collector is drained and replaced, one tenant is moved, one collector is killed.
After each of these it shows who took whose spans, and at the end which spans that were taken didn't come: of the
collectors that were drained there is none, of the one that was killed what it held. It ends with 1 where that isn't so.
HAProxy has to be installed.
"""

import http.client
import json
import re
import shutil
import socket
import subprocess
import sys
import tempfile
import threading
import time
from collections import Counter
from http.server import BaseHTTPRequestHandler, ThreadingHTTPServer
from pathlib import Path

HERE = Path(__file__).resolve().parent
COLLECTORS = {"one": "127.0.0.11", "two": "127.0.0.12", "three": "127.0.0.13"}
PROXY, OTLP, ADMIN, BACK_END = 9999, 4318, 9464, 4401
SETTINGS = (HERE / "settings.toml").read_text()
TENANTS = re.findall('^name = "(.*)"$', SETTINGS, re.MULTILINE)
OPTIONS = ("--connections", "100", "--client-timeout", "3000", "--request-timeout", "60000")
SPANS, BETWEEN, LOOK, MOST = 5, 0.005, 3, 60
SPAN = re.compile(rb"\x0a\x10([0-9a-f]{16})\x12\x08([0-9a-f]{8})")
arrived = Counter()
lock = threading.Lock()


class BackEnd(BaseHTTPRequestHandler):
    """Counts each span that comes."""

    def do_POST(self):
        spans = SPAN.findall(self.rfile.read(int(self.headers["Content-Length"])))
        with lock:
            arrived.update(spans)
        self.send_response(200)
        self.send_header("Content-Length", "0")
        self.end_headers()

    def log_message(self, *_):
        pass


def field(number, content):
    """A field of a message, whose length is that of its content."""
    size, rest = b"", len(content)
    while rest > 127:
        size, rest = size + bytes([rest % 128 + 128]), rest // 128
    return bytes([number << 3 | 2]) + size + bytes([rest]) + content


def body(spans):
    """A request of these spans, each its trace's id and its own."""
    return field(1, field(2, b"".join(field(2, field(1, trace) + field(2, span)) for trace, span in spans)))


class Client(threading.Thread):
    """Posts a tenant's traces until it is told to stop, and again what it wasn't told is taken."""

    def __init__(self, number):
        super().__init__(daemon=True)
        self.number, self.name, self.goes_on = number, TENANTS[number], True
        # each span that was taken, and by which collector; how often it was told to come again
        self.taken, self.again, self.given_up = {}, Counter(), 0

    def run(self):
        count, line = 0, None
        while self.goes_on:
            count += 1
            spans = [(f"{self.number:04x}{count:012x}".encode(), f"{at:08x}".encode()) for at in range(SPANS)]
            status = None
            while status is None:
                line = line or http.client.HTTPConnection("127.0.0.1", OTLP, timeout=MOST)
                status, line = self.post(line, spans)
            time.sleep(BETWEEN)

    def post(self, line, spans):
        """The status of a post, none where it has to come again, and the connection while it is there."""
        try:
            line.request("POST", "/v1/traces", body(spans),
                         {"Content-Type": "application/x-protobuf", "X-Scope-OrgID": self.name})
            reply = line.getresponse()
            reply.read()
        except (OSError, http.client.HTTPException) as fault:
            line.close()
            self.again[type(fault).__name__] += 1
            time.sleep(0.05)
            return None, None
        if reply.status in (429, 502, 503, 504):
            self.again[reply.status] += 1
            time.sleep(0.05)
            return None, line
        if reply.status == 200:
            self.taken.update(dict.fromkeys(spans, reply.headers["x-collector"]))
        else:
            self.given_up += 1
        return reply.status, line


class Collector:
    """One of the three, at an address of its own."""

    def __init__(self, program, folder, name):
        self.name, self.address = name, COLLECTORS[name]
        file = Path(folder, f"{name}.toml")
        file.write_text(SETTINGS.replace(COLLECTORS["one"], self.address))
        self.run = subprocess.Popen([program, "serve", file, "--admin", f"{self.address}:{ADMIN}", *OPTIONS],
                                    stdin=subprocess.DEVNULL, stdout=subprocess.PIPE, text=True)
        wait_for(lambda: self.run.poll() is not None or is_up(self.address, ADMIN), f"collector {name} is there")

    def ask(self, method, path):
        line = http.client.HTTPConnection(self.address, ADMIN, timeout=MOST)
        line.request(method, path)
        told = json.loads(line.getresponse().read())
        line.close()
        return told

    def drained(self):
        """How many spans it says that it took and sent, once it has ended in order."""
        self.ask("POST", "/drain")
        out = self.run.communicate(timeout=MOST)[0]
        sums = Counter()
        for line in out.splitlines():
            if line.startswith("report "):
                sums.update({name: int(count) for name, count in re.findall(r"(\w+)=(\d+)", line)})
        return sums["accepted"], sums["exported"]


def is_up(address, port):
    try:
        socket.create_connection((address, port), timeout=1).close()
        return True
    except OSError:
        return False


def wait_for(is_so, what):
    end = time.monotonic() + MOST
    while not is_so():
        if time.monotonic() > end:
            raise TimeoutError(f"waited in vain until {what}")
        time.sleep(0.05)


def tell(line):
    """What the proxy says to a line of its own commands."""
    with socket.create_connection(("127.0.0.1", PROXY), timeout=MOST) as peer:
        peer.sendall(line.encode() + b"\n")
        told = b""
        while piece := peer.recv(1 << 16):
            told += piece
    return told.decode()


def is_served(name):
    """Whether the proxy has a collector take posts."""
    lines = (line.split(",") for line in tell("show stat").splitlines())
    return any(line[:2] == ["collectors", name] and line[17].startswith("UP") for line in lines)


def show(clients, what, before):
    """Who took whose spans since the last look."""
    print(f"\n{what}\n{'tenant':12}" + "".join(f"{name:28}" for name in COLLECTORS).rstrip())
    for client in clients:
        counts = Counter(client.taken.values())
        new = counts - before.get(client.name, Counter())
        before[client.name] = counts
        most = max(new.values(), default=1)
        bars = (f"{'#' * -(-20 * new[name] // most):20} {new[name] or '-':<6} " for name in COLLECTORS)
        print(f"{client.name:12}" + "".join(bars).rstrip(), flush=True)


def is_drained(collectors, clients, before, start):
    """The one with most tenants is drained, and another one takes its place. What it said that it took and sent."""
    name = Counter(name for client in clients for name in set(client.taken.values())).most_common(1)[0][0]
    print(f"\n`{name}` is drained: POST /drain.", flush=True)
    told = collectors[name].drained()
    wait_for(lambda: not is_served(name), "the proxy leaves it alone")
    time.sleep(LOOK)
    show(clients, "It has sent all and ended; its tenants have gone to the others.", before)
    collectors[name] = start(name)
    wait_for(lambda: is_served(name), "the proxy has it again")
    time.sleep(LOOK)
    show(clients, "Another one is in its place, and its tenants are back.", before)
    return told


def is_moved(collectors, clients, before):
    """The first tenant goes to another collector. That one's name."""
    name, place = clients[0].name, list(clients[0].taken.values())[-1]
    to = next(other for other in COLLECTORS if other != place)
    print(f"\n{name} is moved from `{place}` to `{to}`: the proxy is turned, then it leaves there:")
    tell(f"add map moved.map {name} {to}")
    told = collectors[place].ask("DELETE", f"/tenants/{name}")
    print(json.dumps({word: count for word, count in told.items() if count}), flush=True)
    time.sleep(LOOK)
    show(clients, "So it is served there.", before)
    return to


def is_killed(collectors, clients, before, spared):
    """One is killed, but not that one. Its name."""
    name = next(name for name in COLLECTORS if name != spared)
    held = sum(tenant[word] for tenant in collectors[name].ask("GET", "/tenants")["tenants"]
               for word in ("undecided", "pending", "queued", "active"))
    collectors[name].run.kill()
    collectors[name].run.wait()
    print(f"\n`{name}` is killed, and held {held} spans.", flush=True)
    time.sleep(LOOK)
    show(clients, "Its tenants have gone to the others.", before)
    return name


def account(collectors, clients, killed, told):
    """Whether each span that was taken came, but for those of the one that was killed."""
    for name, collector in collectors.items():
        if name != killed:
            told.append(collector.drained())
    taken = {span: name for client in clients for span, name in client.taken.items()}
    lost = Counter(name for span, name in taken.items() if span not in arrived)
    print(f"\n{'collector':12}{'spans taken':>14}{'that never came':>18}")
    for name, count in Counter(taken.values()).items():
        print(f"{name:12}{count:14}{lost[name]:18}  {'killed' if name == killed else 'drained'}")
    again = sum((client.again for client in clients), Counter())
    given_up = sum(client.given_up for client in clients)
    print(f"posts that were told to come again: {dict(again)}; given up: {given_up}; spans that came twice: "
          f"{sum(count > 1 for count in arrived.values())}")
    return set(lost) <= {killed} and all(accepted == exported for accepted, exported in told) and not given_up


def story(collectors, clients, start):
    """What happens while the clients post, and whether it went as it has to."""
    before = {}
    for client in clients:
        client.start()
    time.sleep(LOOK)
    show(clients, "Three collectors, each with the tenants that their names give it.", before)
    told = is_drained(collectors, clients, before, start)
    spared = is_moved(collectors, clients, before)
    killed = is_killed(collectors, clients, before, spared)
    for client in clients:
        client.goes_on = False
    for client in clients:
        client.join()
    return account(collectors, clients, killed, [told])


def main(program):
    back_end = ThreadingHTTPServer(("127.0.0.1", BACK_END), BackEnd)
    threading.Thread(target=back_end.serve_forever, daemon=True).start()
    with tempfile.TemporaryDirectory() as folder:
        def start(name):
            return Collector(program, folder, name)

        collectors = {name: start(name) for name in COLLECTORS}
        proxy = subprocess.Popen(["haproxy", "-db", "-f", "haproxy.cfg"], cwd=HERE, stderr=subprocess.DEVNULL,
                                 stdout=subprocess.DEVNULL)
        clients = [Client(number) for number in range(len(TENANTS))]
        try:
            wait_for(lambda: is_up("127.0.0.1", PROXY) and all(map(is_served, COLLECTORS)), "the proxy has all three")
            return 0 if story(collectors, clients, start) else 1
        finally:
            for run in (proxy, *(collector.run for collector in collectors.values())):
                run.kill()
                run.wait()


if __name__ == "__main__":
    if not shutil.which("haproxy"):
        sys.exit("haproxy: not installed")
    sys.exit(main(sys.argv[1] if len(sys.argv) > 1 else HERE.parent.parent / "trace_collector"))
