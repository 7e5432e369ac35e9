#!/usr/bin/env python3
"""Has the built program talk with programs that others wrote: `make trace_collector && python3 tests/strangers.py`.

    python3 tests/strangers.py [PROGRAM] [NAME..]     # all, or those of these names

Takes the program's path, `./trace_collector` if there is none. `curl`, `ab`, `wrk`, `h2load`, `nghttp`, `nginx` (with `openssl`), `haproxy`,
`apache2`, `varnishd`, `promtool`, `prometheus`, `go` and its OpenTelemetry SDK, `node`, and the Python library h11, a strict reader and writer of HTTP/1.1,
are used where they are installed; it says which aren't. h11 posts ten thousand messages that are made by chance, and is a
back end that answers as many by chance; Go's net/http and Node's http do so with three thousand (tests/strangers/). What has to come is what docs/HTTP.md says, and docs/RUNBOOK.md of metrics. It prints what is wrong, and
ends with 1 where something is.
"""

import base64
import http.client
import json
import os
import random
import re
import shutil
import socket
import subprocess
import sys
import threading
from collections import Counter
from pathlib import Path

from serving import runs, talk
from serving.agreement import SPAN
from serving.proxied import Proxy, between_nginx
from serving.scraping import by_prometheus, by_promtool
from serving.talk import MOST, BackEnd, Service, body, check, free_port, line_of, request, tenant, wait_for

try:
    import h11
except ImportError:
    h11 = None

HERE = Path(__file__).resolve().parent.parent
STRANGERS = HERE / "tests" / "strangers"
SEED = 20251126
MESSAGES, JOBS, POSTS = 10_000, 10_000, 200
PEER_MESSAGES, PEER_JOBS = 3_000, 3_000
# So many seconds are enough for ten thousand messages, also on a machine that is busy with other work.
TEN_THOUSAND = 20 * MOST
TYPE, FIELD = "Content-Type: application/x-protobuf", "X-Scope-OrgID: a"
URL = "http://127.0.0.1:{}/v1/traces"
# Where Debian's packages have what is written in Go.
GOCODE = "/usr/share/gocode"
TRACES, SCHEMA = 1_000, b"https://opentelemetry.io/schemas/1.4.0"


def curl(service, text, *words, path="/v1/traces", fields=(TYPE, FIELD)):
    """What curl says of one post: its own status, the reply's, how many connections it made, and how long it took."""
    heads = [word for field in fields for word in ("-H", field)]
    command = ["curl", "-sS", "-o", os.devnull, "-w", "%{http_code} %{num_connects} %{time_total}\n", "--data-binary",
               "@-", *heads, *words, f"http://127.0.0.1:{service.port}{path}"]
    done = subprocess.run(command, input=text, capture_output=True, timeout=MOST, check=False)
    code, connects, took = done.stdout.split()[-3:] if done.stdout.split() else (b"0", b"0", b"0")
    return (done.returncode, int(code), int(connects)), float(took)


def by_curl(folder):
    """As curl sends it: with a length, in chunks, with and without waiting for leave to go on, by HTTP/1.0, with an
    offer of HTTP/2, many at once, and refused for each reason."""
    one = body(1, 1)
    large = request((b"\2" * 16, b"\2" * 8, talk.piece(5, b"n" * 5_000_000)))
    chunks = ("-H", "Transfer-Encoding: chunked")
    with BackEnd() as back_end, Service(folder, [tenant("a", back_end, policies=talk.ERRORS)], receivers=60) as service:
        good = (0, 200, 1)
        taken = 0
        for text, words in ((one, ()), (one, chunks), (large, ("-H", "Expect:")), (large, ("-H", "Expect:", *chunks)),
                            (one, ("--http1.0",)), (one, ("--http2",)), (one, ("-H", "Connection: close"))):
            check(f"curl {words}", curl(service, text, *words)[0], good)
            taken += 1
        for words in ((), chunks):
            told, took = curl(service, large, *words)
            check("curl has its leave to go on", (told, took < 1), (good, True))
            taken += 1
        too_long = bytes(21_000_000)
        for words in ((), ("-H", "Expect:"), chunks, ("-H", "Expect:", *chunks)):
            check(f"too long, {words}", curl(service, too_long, *words)[0], (0, 413, 1))
        for status, words, how in (
                (404, (), {"path": "/v1/metrics"}), (405, ("-X", "PUT"), {}), (403, (), {"fields": (TYPE,)}),
                (415, (), {"fields": (FIELD, "Content-Type: application/json")}), (400, (), {}),
                (415, ("-H", "Content-Encoding: gzip"), {})):
            check(f"curl is told {status}", curl(service, one[:-1], *words, **how)[0], (0, status, 1))
        done = subprocess.run(["curl", "-sS", "-I", URL.format(service.port)], capture_output=True, timeout=MOST,
                              check=False)
        check("the head of a reply", (done.returncode, done.stdout[:13]), (0, b"HTTP/1.1 405 "))
        taken += many_by_curl(folder, service, one)
        check("the end", service.end(), (0, line_of("a", accepted=taken, not_sampled=taken), b""))


def many_by_curl(folder, service, text):
    """Twenty posts over one connection, and sixty at a time. How many posts these are."""
    file = Path(folder, "body")
    file.write_bytes(text)
    one = f'url = "{URL.format(service.port)}"\ndata-binary = "@{file}"\nheader = "{TYPE}"\nheader = "{FIELD}"\n' \
        f'output = "{os.devnull}"\nwrite-out = "%{{http_code}} %{{num_connects}}\\n"\nsilent\n'
    for count, more, wanted in ((20, [], [b"200 1"] + [b"200 0"] * 19), (60, ["-Z", "--parallel-immediate"], None)):
        done = subprocess.run(["curl", *more, "-K", "-"], input="next\n".join([one] * count).encode(),
                              capture_output=True, timeout=MOST, check=False)
        lines = done.stdout.splitlines()
        check(f"{count} by curl", (done.returncode, lines if wanted else [line[:3] for line in lines]),
              (0, wanted or [b"200"] * count))
    return 80


def by_ab(folder):
    """Two thousand posts over twenty connections that are kept, and as many over new ones."""
    file = Path(folder, "body")
    file.write_bytes(body(1, 1))
    with BackEnd() as back_end, Service(folder, [tenant("a", back_end, policies=talk.ERRORS)], receivers=20) as service:
        for keep in (["-k"], []):
            words = ["ab", "-q", *keep, "-n", "2000", "-c", "20", "-p", str(file), "-T", "application/x-protobuf", "-H",
                     FIELD, URL.format(service.port)]
            said = subprocess.run(words, capture_output=True, text=True, timeout=MOST, check=False).stdout
            found = {name: int(count) for name, count in re.findall(r"(Complete|Failed|Non-2xx|Keep-Alive) \w+:\s+(\d+)",
                                                                    said)}
            # Whoever asks by HTTP/1.0, as it does, is answered once a connection.
            check(f"ab {keep}", found, {"Complete": 2000, "Failed": 0} | ({"Keep-Alive": 0} if keep else {}))
        check("the end", service.end(), (0, line_of("a", accepted=4000, not_sampled=4000), b""))


def by_wrk(folder):
    """Fifty connections post for two seconds: nothing fails, and what was taken is what was answered, but for what was
    on its way at the end."""
    script = Path(folder, "post.lua")
    text = "".join(f"\\{byte:03}" for byte in body(1, 1))
    script.write_text(f'wrk.method = "POST"\nwrk.body = "{text}"\n'
                      'wrk.headers["Content-Type"] = "application/x-protobuf"\nwrk.headers["X-Scope-OrgID"] = "a"\n')
    with BackEnd() as back_end, Service(
            folder, [tenant("a", back_end, policies=talk.ERRORS, most=10_000_000)], receivers=50) as service:
        words = ["wrk", "-t", "2", "-c", "50", "-d", "2", "-s", str(script), URL.format(service.port)]
        said = subprocess.run(words, capture_output=True, text=True, timeout=MOST, check=False).stdout
        count = int(re.search(r"(\d+) requests in", said)[1])
        check("what wrk says of faults", re.findall("Socket errors.*|Non-2xx.*", said), [])
        status, out, err = service.end()
        accepted = int(re.search(r"accepted=(\d+)", out)[1])
        check("the end", (status, err, out), (0, b"", line_of("a", accepted=accepted, not_sampled=accepted)))
        check(f"{count} are answered, {accepted} taken", 0 < count <= accepted <= count + 50, True)


def by_h2load(folder):
    """Two thousand posts over twenty connections that are kept, one after another and up to ten at once, and HTTP/2, which is
    refused."""
    file = Path(folder, "body")
    file.write_bytes(body(1, 1))
    with BackEnd() as back_end, Service(folder, [tenant("a", back_end, policies=talk.ERRORS)], receivers=20) as service:
        for words, good in ((["--h1"], 2000), (["--h1", "-m", "10"], 2000), ([], 0)):
            command = ["h2load", *words, "-n", "2000", "-c", "20", "-d", str(file), "-H", TYPE, "-H", FIELD,
                       URL.format(service.port)]
            said = subprocess.run(command, capture_output=True, text=True, timeout=MOST, check=False).stdout
            check(f"h2load {words}", (f" {good} succeeded, {2000 - good} failed" in said, f" {good} 2xx" in said), (True, True))
        check("the end", service.end(), (0, line_of("a", accepted=4000, not_sampled=4000), b""))


def by_nghttp(folder):
    """HTTP/2 is refused, with an offer of it and without, and nothing is taken."""
    file = Path(folder, "body")
    file.write_bytes(body(1, 1))
    with BackEnd() as back_end, Service(folder, [tenant("a", back_end)]) as service:
        for words, told in (([], b"HTTP/2"), (["-d", str(file)], b"HTTP/2"), (["-u"], b" 405 Method Not Allowed\r\n")):
            done = subprocess.run(["nghttp", "-v", *words, "-H", TYPE, "-H", FIELD, URL.format(service.port)],
                                  capture_output=True, timeout=MOST, check=False)
            check(f"nghttp {words}", (b"processed=0" in done.stdout + done.stderr, told in done.stdout + done.stderr),
                  (True, True))
        check("the end", service.end(), (0, line_of("a"), b""))


NGINX = """daemon off; master_process off; pid {folder}/pid; error_log stderr; events {{ worker_connections 256; }}
http {{
    access_log off; client_max_body_size 30m; client_body_temp_path {folder}/body; proxy_temp_path {folder}/proxy;
    fastcgi_temp_path {folder}/f; uwsgi_temp_path {folder}/u; scgi_temp_path {folder}/s;
    upstream collector {{ server 127.0.0.1:{to}; keepalive 8; }}
    server {{
        listen 127.0.0.1:{port};
        location / {{
            proxy_pass http://collector; proxy_http_version 1.1; proxy_set_header Connection "";
            proxy_request_buffering off;
        }}
    }}
}}
"""
HAPROXY = """defaults
    mode http
    timeout connect 5s
    timeout client 60s
    timeout server 60s
    http-reuse always
listen collector
    bind 127.0.0.1:{port}
    server one 127.0.0.1:{to} maxconn 8
"""


APACHE = """ServerRoot {folder}
ServerName 127.0.0.1
PidFile {folder}/pid
ErrorLog {folder}/error
Listen 127.0.0.1:{port}
LoadModule mpm_event_module /usr/lib/apache2/modules/mod_mpm_event.so
LoadModule authz_core_module /usr/lib/apache2/modules/mod_authz_core.so
LoadModule proxy_module /usr/lib/apache2/modules/mod_proxy.so
LoadModule proxy_http_module /usr/lib/apache2/modules/mod_proxy_http.so
User www-data
Group www-data
ProxyPass / http://127.0.0.1:{to}/ enablereuse=on max=8
"""
VARNISH = """vcl 4.1;
backend collector {{ .host = "127.0.0.1"; .port = "{to}"; .max_connections = 8; }}
sub vcl_recv {{ return (pass); }}
"""


def behind(folder, settings, *words):
    """Eight clients post through a proxy that keeps its connections, with lengths and in chunks, small bodies and large
    ones: each is told what it has to be, what was taken came, and few connections were made for it."""
    with BackEnd() as back_end, Service(
            folder, [tenant("a", back_end, batch=100, timeout=100)], receivers=8) as service, \
            Proxy(folder, settings, service.port, *words) as proxy:
        spans = Counter()

        def post(client):
            chance = random.Random(SEED + client)
            line = http.client.HTTPConnection("127.0.0.1", proxy.port, timeout=MOST)
            for number in range(POSTS):
                ids = (f"{client:08x}{number:08x}".encode(), f"{number:08x}".encode())
                size = chance.choice((1, 100, 3_000, 40_000, 9 if number % 50 else 1_000_000))
                name, coding, status = chance.choice((("a", "identity", 200),) * 8 + (("b", "identity", 403), ("a", "gzip", 415)))
                fields = {"Content-Type": "application/x-protobuf", "X-Scope-OrgID": name, "Content-Encoding": coding}
                text = request((*ids, talk.piece(5, b"n" * size)))
                cut = chance.randrange(1, len(text))
                chunked = chance.random() < 0.5
                line.request("POST", "/v1/traces", iter((text[:cut], text[cut:])) if chunked else text, fields)
                reply = line.getresponse()
                reply.read()
                check(f"post {number} of client {client}", reply.status, status)
                spans[ids] += status == 200
            line.close()

        talk.in_threads(*(lambda c=client: post(c) for client in range(1, 9)))
        made = sum(line.split()[1].endswith(f":{service.port:04X}") for line in
                   Path("/proc/net/tcp").read_text().splitlines()[1:])
        check(f"few connections, {made}, for {8 * POSTS} posts", 0 < made < POSTS, True)
        proxy.run.kill()
        taken = spans.total()
        check("the end", service.end(), (0, line_of("a", accepted=taken, exported=taken), b""))
        came = Counter(span for text in back_end.bodies() for span in SPAN.findall(text))
        check("what came", (len(came), came.total()), (taken, taken))


def behind_nginx(folder):
    """nginx, which passes on what it reads as it reads it."""
    behind(folder, NGINX, "nginx", "-c")


def behind_haproxy(folder):
    """HAProxy, which shares the connections that it keeps."""
    behind(folder, HAPROXY, "haproxy", "-db", "-f")


def behind_apache2(folder):
    """Apache's httpd."""
    behind(folder, APACHE, "apache2", "-X", "-f")


def behind_varnishd(folder):
    """Varnish, which passes all on."""
    behind(folder, VARNISH, "varnishd", "-j", "none", "-F", "-n", "{folder}/varnish", "-a", "127.0.0.1:{port}", "-f")


class Message:
    """A message by chance, how it is to be answered, and the spans that it brings if it is taken."""

    def __init__(self, chance, number):
        self.name = chance.choice("ab")
        self.ids = [(f"{number:016}".encode(), f"{at:08}".encode()) for at in range(1, 1 + chance.randrange(20))]
        self.text = request(*((trace, span, b"") for trace, span in self.ids)) if self.ids else b""
        path, self.method = b"/v1/traces", b"POST"
        kinds, names, encodings = [b"application/x-protobuf"], [self.name.encode()], []
        self.status = 200
        fault = chance.choice((200,) * 12 + (400, 403, 403, 404, 404, 405, 405, 415, 415, 415))
        if fault == 400:
            # a field without a length, of more bytes than follow, and of no known kind
            self.text += chance.choice((b"\x0a", b"\x0a\x7f", b"\x0f"))
        elif fault == 403:
            names = chance.choice(([], [b"c"], [b"a", b"b"], [b"a", b"a"], [b"A"], [b"a b"]))
        elif fault == 404:
            path = chance.choice((b"/", b"/v1/metrics", b"/v1/traces/", b"/V1/traces", b"/v1%2Ftraces", b"*"))
        elif fault == 405:
            self.method = chance.choice((b"GET", b"PUT", b"HEAD", b"OPTIONS", b"DELETE", b"post", b"X-Y"))
        elif fault == 415:
            kinds, encodings = chance.choice((
                ([], []), ([b"application/json"], []), (kinds * 2, []), (kinds, [b"gzip"]),
                (kinds, [b"identity, gzip"]), (kinds, [b"identity", b"br"])))
        else:
            path = chance.choice((path, path, path + b"?a=b", b"http://c/v1/traces", b"HTTPS://x:1/v1/traces?"))
            kinds = [chance.choice((kinds[0], kinds[0].upper(), kinds[0] + b"; charset=x", kinds[0] + b" ;y"))]
            encodings = [b"Identity"] * chance.randrange(3)
        self.status = fault
        fields = [(b"Content-Type", kind) for kind in kinds] + [(b"X-Scope-OrgID", name) for name in names]
        fields += [(b"Content-Encoding", coding) for coding in encodings] + [(b"Host", b"c")]
        fields += others(chance, chance.choice((0, 3, 30)))
        self.waits = chance.random() < 0.1
        fields += [(b"Expect", chance.choice((b"100-continue", b"100-Continue")))] * self.waits
        self.chunked = chance.random() < 0.5
        fields.append((b"Transfer-Encoding", b"chunked") if self.chunked else (b"Content-Length", b"%d" % len(self.text)))
        self.closes = chance.random() < 0.02
        fields += [(b"Connection", chance.choice((b"close", b"x, Close")))] * self.closes
        chance.shuffle(fields)
        self.number, self.path = number, path
        self.fields = [(chance.choice((name, name.lower(), name.upper())), value) for name, value in fields]


def others(chance, most):
    """Fields that nobody heeds."""
    letters = bytes(range(0x21, 0x7f)) + b" \t" + bytes(range(0x80, 0x100))
    return [(b"X-%d" % chance.randrange(1000), bytes(chance.choices(letters, k=chance.randrange(60))).strip())
            for _ in range(chance.randrange(most + 1))]


class Client:
    """h11 over a connection: what it raises is a fault of the service."""

    def __init__(self, service, chance):
        self.service = service
        self.chance = chance
        self.peer = None
        self.state = None

    def send(self, event):
        """An event's bytes, in up to three pieces."""
        text = self.state.send(event)
        cuts = sorted(self.chance.randrange(len(text) + 1) for _ in range(self.chance.randrange(3)))
        for start, end in zip([0, *cuts], [*cuts, len(text)]):
            if start < end:
                self.peer.sendall(text[start:end])

    def event(self):
        while (event := self.state.next_event()) is h11.NEED_DATA:
            self.state.receive_data(self.peer.recv(65536))
        return event

    def told(self, message):
        """The status of the reply to a message, or of what stands there else."""
        if self.peer is None:
            self.peer, self.state = self.service.connect(), h11.Connection(h11.CLIENT)
        self.send(h11.Request(method=message.method, target=message.path, headers=message.fields))
        if message.waits:
            check("leave to go on", self.event().status_code, 100)
        text = message.text
        while text:
            size = self.chance.choice((1, 7, 100, len(text))) if message.chunked else len(text)
            self.send(h11.Data(data=text[:size]))
            text = text[size:]
        self.send(h11.EndOfMessage(headers=others(self.chance, 3) if message.chunked else []))
        reply = self.event()
        content = b""
        while isinstance(event := self.event(), h11.Data):
            content += event.data
        check("a reply's end", type(event), h11.EndOfMessage)
        check("a reply's type", dict(reply.headers).get(b"content-type"), b"application/x-protobuf")
        check("its content", bool(content), reply.status_code != 200 and message.method != b"HEAD")
        self.go_on(message)
        return reply.status_code

    def go_on(self, message):
        """To the next message, or to the end of the connection where one was asked for."""
        if message.closes:
            check("the end of a connection", self.peer.recv(1), b"")
            self.close()
        else:
            self.state.start_next_cycle()

    def close(self):
        if self.peer:
            self.peer.close()
        self.peer = None


def by_h11(folder):
    """Messages by chance, over connections that are kept until one says otherwise: each is answered as it has to be, and
    what is taken comes, each span once."""
    chance = random.Random(SEED)
    with BackEnd() as ones, BackEnd() as twos, Service(
            folder, [tenant("a", ones, batch=100, timeout=100), tenant("b", twos, batch=100, timeout=100)]) as service:
        service.lives_for(TEN_THOUSAND)
        client = Client(service, chance)
        taken = {"a": Counter(), "b": Counter()}
        told = Counter()
        for number in range(MESSAGES):
            message = Message(chance, number)
            status = client.told(message)
            check(f"message {number}, {message.method} {message.path} {message.fields}", status, message.status)
            told[status] += 1
            if status == 200:
                taken[message.name].update(message.ids)
        client.close()
        check("each kind came", sorted(told), [200, 400, 403, 404, 405, 415])
        all_came(service, taken, {"a": ones, "b": twos})


def all_came(service, taken, back_ends):
    """The service ends, has counted the spans that were taken of each tenant, and its back end has each once."""
    done = "".join(line_of(name, accepted=taken[name].total(), exported=taken[name].total()) for name in back_ends)
    check("the end", service.end(), (0, done, b""))
    for name, back_end in back_ends.items():
        came = Counter(span for text in back_end.bodies() for span in SPAN.findall(text))
        check(f"{name}'s spans that didn't come once", ((taken[name] - came).total(), (came - taken[name]).total()),
              (0, 0))


class Answering:
    """A back end by h11, whose answers are made by chance."""

    def __init__(self):
        self.chance = random.Random(SEED + 1)
        self.lock = threading.Lock()
        # by span, each status that it was answered
        self.told = {}
        self.listener = socket.create_server(("127.0.0.1", 0), backlog=256)
        self.port = self.listener.getsockname()[1]

    def __enter__(self):
        threading.Thread(target=self.listen, daemon=True).start()
        return self

    def __exit__(self, *_):
        self.listener.shutdown(socket.SHUT_RDWR)
        self.listener.close()

    def listen(self):
        while True:
            try:
                peer, _ = self.listener.accept()
            except OSError:
                return
            threading.Thread(target=self.serve, args=(peer,), daemon=True).start()

    def serve(self, peer):
        try:
            with peer:
                self.answer(peer)
        except (h11.ProtocolError, OSError, AssertionError) as fault:
            talk.faults.append(f"a post to h11: {fault!r}")

    def answer(self, peer):
        state = h11.Connection(h11.SERVER)
        head, text = None, b""
        while not isinstance(event := state.next_event(), h11.EndOfMessage):
            if event is h11.NEED_DATA:
                state.receive_data(peer.recv(65536))
            elif isinstance(event, h11.Request):
                head = event
            else:
                assert isinstance(event, h11.Data), event
                text += event.data
        fields = dict(head.headers)
        wanted = {b"host": b"127.0.0.1:%d" % self.port, b"content-type": b"application/x-protobuf",
                  b"content-length": b"%d" % len(text), b"connection": b"close"}
        check("a post", (head.method, head.target, fields), (b"POST", b"/v1/traces", wanted))
        with self.lock:
            chance = random.Random(self.chance.random())
            status = chance.choice((200,) * 8 + (429, 502, 503, 504, 400, 500, 301))
            for span in SPAN.findall(text):
                self.told.setdefault(span, []).append(status)
        for event in reply(chance, status):
            self.send(chance, peer, state.send(event))

    @staticmethod
    def send(chance, peer, text):
        cut = chance.randrange(len(text) + 1)
        for part in (text[:cut], text[cut:]):
            if part:
                peer.sendall(part)


def reply(chance, status):
    """An answer by chance: interim ones, fields that nobody heeds, a body with a length or in chunks."""
    for _ in range(chance.choice((0, 0, 1, 16))):
        yield h11.InformationalResponse(status_code=chance.choice((100, 102, 103)), headers=others(chance, 2))
    # An empty partial success.
    text = b"" if status != 200 or chance.random() < 0.5 else b"\x0a\x00"
    text = text or (b"" if status == 200 else bytes(chance.randrange(300)))
    chunked = chance.random() < 0.5
    framing = (b"Transfer-Encoding", b"chunked") if chunked else (b"Content-Length", b"%d" % len(text))
    yield h11.Response(status_code=status, reason=b"As it is", headers=[framing, *others(chance, 20)])
    while text:
        size = chance.choice((1, 50, len(text))) if chunked else len(text)
        yield h11.Data(data=text[:size])
        text = text[size:]
    yield h11.EndOfMessage(headers=others(chance, 3) if chunked else [])


def to_h11(folder):
    """Jobs to h11, which answers by chance."""
    with Answering() as end:
        to_end(folder, end, JOBS)


def to_end(folder, end, jobs):
    """Jobs to a back end that answers by chance: each post is read, an answer that says so is posted again, and each span
    is counted as it was answered last."""
    sections = [tenant(name, end, consumers=4, queue=jobs) for name in "abcd"]
    with Service(folder, sections, senders=8) as service:
        service.lives_for(TEN_THOUSAND)
        with service.connect() as peer:
            for number in range(jobs):
                text = request((f"{number:016}".encode(), b"00000001", b""))
                check("a post", service.post("abcd"[number % 4], text, peer), (200, b""))
        status, out, err = service.end()
    told = end.told
    last = Counter(statuses[-1] for statuses in told.values())
    again = {status for statuses in told.values() for status in statuses[:-1]}
    check("all came", last.total(), jobs)
    check("what is posted again", again, {429, 502, 503, 504})
    counts = Counter()
    for line in out.splitlines():
        counts.update({name: int(count) for name, count in re.findall(r"(\w+)=(\d+)", line)})
    wanted = {"accepted": jobs, "exported": last[200], "back_end_refused": jobs - last[200]}
    check("what is counted", {name: count for name, count in counts.items() if count}, wanted)
    check("status and standard error", (status, err), (0, b""))


def built_by_go(folder, name, **more):
    """A program of tests/strangers/, built by Go."""
    program = Path(folder, name)
    run = subprocess.run(["go", "build", "-o", program, STRANGERS / f"{name}.go"],
                         env={**os.environ, "GO111MODULE": "off", "GOFLAGS": "", **more}, check=False)
    check("go build", run.returncode, 0)
    return program


def as_json(message):
    """A message for tests/strangers/peer.go."""
    def text(some):
        return base64.b64encode(some).decode()

    return json.dumps({
        "Number": message.number, "Method": message.method.decode(), "Target": message.path.decode(),
        "Fields": [(text(name), text(value)) for name, value in message.fields], "Body": text(message.text),
        "Chunked": message.chunked, "Close": message.closes}) + "\n"


def by_go(folder):
    """Messages by chance from Go's net/http."""
    by_peer(folder, built_by_go(folder, "peer"))


def by_node(folder):
    """The same from Node's http, which writes no method in small letters."""
    by_peer(folder, "node", STRANGERS / "peer.js")


def by_peer(folder, *words):
    """Messages by chance, four at a time over connections that are kept: each is answered as it has to be, and what is
    taken comes, each span once."""
    chance = random.Random(SEED + 2)
    messages = [Message(chance, number) for number in range(PEER_MESSAGES)]
    messages = [message for message in messages if message.method.isupper()]
    # It keeps more connections than it uses at a time.
    with BackEnd() as ones, BackEnd() as twos, Service(
            folder, [tenant("a", ones, batch=100, timeout=100), tenant("b", twos, batch=100, timeout=100)],
            receivers=16) as service:
        run = subprocess.run([*words, "send", f"127.0.0.1:{service.port}"], capture_output=True,
                             input="".join(map(as_json, messages)).encode(), timeout=2 * MOST, check=False)
        check("the peer", (run.returncode, run.stderr), (0, b""))
        told = {answer["Number"]: answer for answer in map(json.loads, run.stdout.splitlines())}
        taken = {"a": Counter(), "b": Counter()}
        for message in messages:
            answer = told.get(message.number, {})
            wanted = {"Number": message.number, "Status": message.status, "Type": "application/x-protobuf", "Error": ""}
            check(f"message {message.number}, {message.method} {message.path} {message.fields}",
                  {name: answer.get(name) for name in wanted}, wanted)
            check("its content", answer.get("Length", 0) > 0, message.status != 200 and message.method != b"HEAD")
            check("it closes", answer.get("Closes", False) or not message.closes, True)
            if message.status == 200:
                taken[message.name].update(message.ids)
        all_came(service, taken, {"a": ones, "b": twos})


class PeerEnd:
    """A back end of a program of tests/strangers/, whose answers are made by chance."""

    def __init__(self, *words):
        self.run = subprocess.Popen([*words, "serve", str(SEED)], stdin=subprocess.PIPE, stdout=subprocess.PIPE)
        self.port = int(self.run.stdout.readline())
        # by span, each status that it was answered
        self.answered = {}
        self.listener = threading.Thread(target=self.listen)
        self.listener.start()

    def __enter__(self):
        return self

    def __exit__(self, *_):
        self.run.kill()
        self.run.wait()

    def listen(self):
        for post in map(json.loads, self.run.stdout):
            text = base64.b64decode(post["Body"])
            fields = {name.lower(): values for name, values in post["Fields"].items() if name.lower() != "host"}
            wanted = {"content-type": ["application/x-protobuf"], "content-length": [str(len(text))], "connection": ["close"]}
            check("a post", (post["Head"], fields), (f"POST /v1/traces HTTP/1.1 127.0.0.1:{self.port}", wanted))
            for span in SPAN.findall(text):
                self.answered.setdefault(span, []).append(post["Status"])

    @property
    def told(self):
        """Once it has ended."""
        self.run.stdin.close()
        self.listener.join()
        return self.answered


def to_go(folder):
    """Jobs to Go's net/http, which answers by chance."""
    with PeerEnd(built_by_go(folder, "peer")) as end:
        to_end(folder, end, PEER_JOBS)


def to_node(folder):
    """Jobs to Node's http, which answers by chance."""
    with PeerEnd("node", STRANGERS / "peer.js") as end:
        to_end(folder, end, PEER_JOBS)


def parts(text, number):
    """The texts of this field of a message whose fields are all texts."""
    at, found = 0, []
    while at < len(text):
        tag, length, shift = text[at], 0, 0
        at += 1
        while True:
            byte = text[at]
            at += 1
            length |= (byte & 127) << shift
            shift += 7
            if byte < 128:
                break
        if tag == number << 3 | 2:
            found.append(text[at:at + length])
        at += length
    return found


def by_sdk(folder):
    """Spans of OpenTelemetry's Go SDK, with attributes, events, links and limits: each that its exporter was told is taken
    comes, to the byte, under the SDK's resource and scope."""
    program = built_by_go(folder, "sdk", GOPATH=GOCODE)
    with BackEnd() as back_end, Service(
            folder, [tenant("a", back_end, batch=100, timeout=20, most=1_000_000)], shards=1) as service:
        run = subprocess.run([program, URL.format(service.port), "a", str(TRACES), str(SEED)], capture_output=True,
                             timeout=2 * MOST, check=False)
        check("the SDK", (run.returncode, run.stderr), (0, b""))
        told = Counter(map(bytes.fromhex, run.stdout.decode().split()))
        check("it makes many spans, each once", told.total() >= TRACES and max(told.values()) == 1, True)
        check("the end", service.end(), (0, line_of("a", accepted=told.total(), exported=told.total()), b""))
        groups = [group for text in back_end.bodies() for group in parts(text, 1)]
        check("schemas", {part for group in groups for part in parts(group, 3)}, {SCHEMA})
        check("resources", {part for group in groups for part in parts(group, 1)},
              {talk.piece(1, talk.piece(1, b"service.name") + talk.piece(2, talk.piece(1, b"tried")))})
        scopes = [scope for group in groups for scope in parts(group, 2)]
        check("scopes", {part for scope in scopes for part in parts(scope, 1)},
              {talk.piece(1, b"tests/strangers") + talk.piece(2, b"1")})
        came = Counter(span for scope in scopes for span in parts(scope, 2))
        check("spans that didn't come as they are", ((told - came).total(), (came - told).total()), (0, 0))


TESTS = {test.__name__: test for test in (
    by_curl, by_ab, by_wrk, by_h2load, by_nghttp, behind_nginx, between_nginx, behind_haproxy, behind_apache2, behind_varnishd, by_h11, to_h11,
    by_go, to_go, by_sdk, by_node, to_node, by_promtool, by_prometheus)}


def is_there(name):
    word = name.rpartition("_")[2]
    if word == "sdk":
        return shutil.which("go") is not None and Path(GOCODE, "src/go.opentelemetry.io/otel/sdk").exists()
    return h11 is not None if word == "h11" else shutil.which(word) is not None


def main():
    words = sys.argv[1:]
    talk.program = os.path.abspath(words.pop(0) if words and words[0] not in TESTS else HERE / "trace_collector")
    for name in words or TESTS:
        if not is_there(name):
            print(f"{name}: not installed")
            continue
        print(f"{name}: {runs.run(name, TESTS[name]):.1f} s", flush=True)
    runs.end("it does as it has to")


if __name__ == "__main__":
    main()
