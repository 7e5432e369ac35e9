"""What the admin port does."""

import json
import select
import socket
import subprocess
import threading
import time
from contextlib import suppress
from pathlib import Path

from serving import talk
from serving.exposition import families
from serving.memory import bytes_of
from serving.talk import (ALL, BUSY, EXPECT, GO_ON, MOST, NAMES, SOON, BackEnd, Service, body, check, in_threads, line_of,
                          listening_ports, read_message, tenant, wait_for)

TOKEN = "Zm9yIHRlc3RzIGFsb25l"
# What is there of a tenant without spans whose settings have the defaults, and what may be there (docs/SETTINGS.md).
EMPTY = {"rows": 0, "undecided_rows": 0, "rows_limit": 50_000, "spans_limit": 100_000, "queued_batches": 0,
         "queued_batches_limit": 1000, "queued_bytes": 0, "queued_bytes_limit": 2 ** 42}
JSON = "application/json"


class AdminService(Service):
    """The service with an admin port."""

    def __init__(self, folder, tenants, *options, **how):
        self.admin = None
        super().__init__(folder, tenants, "--admin", "127.0.0.1:0", *options, **how)

    def is_up(self):
        """It listens for clients first, and then for operators."""
        if super().is_up():
            self.admin = next(iter(listening_ports(self.run.pid)[1:]), None)
        return self.admin is not None

    def to_admin(self):
        return socket.create_connection(("127.0.0.1", self.admin), timeout=MOST)

    def ask(self, target, method="GET", text=b"", more="", peer=None):
        """The status of the reply, its fields in lower case, and its content."""
        line = peer or self.to_admin()
        head = f"{method} {target} HTTP/1.1\r\nHost: admin\r\n{more}"
        if text or method == "POST":
            head += f"Content-Length: {len(text)}\r\n"
        line.sendall(head.encode() + b"\r\n" + text)
        if method == "HEAD":
            line.shutdown(socket.SHUT_WR)
            reply = b""
            while piece := line.recv(1 << 20):
                reply += piece
        else:
            reply = read_message(line.recv)
        if peer is None:
            line.close()
        head, _, content = reply.partition(b"\r\n\r\n")
        lines = head.decode().split("\r\n")
        fields = dict((name.lower(), value.strip()) for name, _, value in (line.partition(":") for line in lines[1:]))
        return int(lines[0].split(" ")[1]), fields, content

    def told(self, target, method="GET", text=b"", more=""):
        """The status of the reply, and what its JSON says."""
        status, fields, content = self.ask(target, method, text, more)
        check(f"{method} {target} is JSON", fields["content-type"], JSON)
        return status, json.loads(content)

    def metric(self, name, **labels):
        """The figure of a metric with these labels."""
        return families(self.ask("/metrics")[2].decode())[name].samples[tuple(labels.items())]

    def requests(self):
        """How many requests were answered with each status."""
        found = families(self.ask("/metrics")[2].decode())["nimchaes_requests_total"].samples
        return {dict(labels)["code"]: count for labels, count in found.items()}

    def drained(self):
        """Its end after a drain."""
        check("a drain", self.told("/drain", "POST"), (200, {"state": "draining"}))
        out = self.run.stdout.read().decode()
        return self.run.wait(), out, self.run.stderr.read()


def figures(name, usage=EMPTY, **counts):
    """What JSON tells of a tenant that is so full, of which nothing waits, and whose back end wasn't asked yet."""
    return {"tenant": name, **{word: counts.get(word, 0) for word in NAMES}, **usage, "ready_at_ms": None,
            "back_end_status": None, "back_end_status_at_ms": None}


def gone(name, **counts):
    """What JSON tells of a tenant that has gone: its last counters alone."""
    return {"tenant": name, **{word: counts.get(word, 0) for word in NAMES}}


def looked_at(folder):
    """Each path, its content's type, and what it takes."""
    with BackEnd() as back_end, AdminService(folder, [tenant("a", back_end), tenant("b", back_end)]) as service:
        for target, media in (("/", "text/html; charset=utf-8"), ("/metrics", "text/plain; version=0.0.4"),
                              ("/healthz", JSON), ("/readyz", JSON), ("/tenants", JSON), ("/tenants/b", JSON)):
            status, fields, content = service.ask(target)
            check(f"GET {target}", (status, fields["content-type"], len(content)),
                  (200, media, int(fields["content-length"])))
            check(f"HEAD {target}", service.ask(target, "HEAD")[0::2], (200, b""))
            check(f"with a query {target}", service.ask(target + "?x=/tenants")[0], 200)
            check(f"with a host {target}", service.ask("http://admin" + target)[0], 200)
        check("healthz", service.told("/healthz"), (200, {"state": "ok"}))
        check("readyz", service.told("/readyz"), (200, {"state": "ready"}))
        check("tenants", service.told("/tenants"), (200, {"tenants": [figures("a"), figures("b")]}))
        status, told = service.told("/tenants/b")
        check("a tenant", (status, {word: told[word] for word in figures("b")}), (200, figures("b")))
        for target in ("/tenants/c", "/tenants/a%62", "/tenants/%FF"):
            check(f"nobody at {target}", service.told(target), (404, {"error": "unknown tenant"}))
            check(f"nobody goes at {target}", service.told(target, "DELETE"), (404, {"error": "unknown tenant"}))
        for target in ("/tenants/", "/metrics/", "/v1/traces", "/Tenants"):
            check(f"nothing at {target}", service.told(target), (404, {"error": "no such path"}))
        for target, method, allow in (("/", "POST", "GET, HEAD"), ("/metrics", "PUT", "GET, HEAD"),
                                      ("/healthz", "DELETE", "GET, HEAD"), ("/drain", "GET", "POST"),
                                      ("/tenants", "DELETE", "GET, HEAD, POST"),
                                      ("/tenants/a", "POST", "GET, HEAD, DELETE")):
            status, fields, content = service.ask(target, method)
            check(f"{method} {target}", (status, fields.get("allow"), fields["content-type"], content),
                  (405, allow, JSON, b'{"error":"method not allowed"}'))
        check("one connection", [service.ask("/healthz", peer=peer)[0] for peer in [service.to_admin()] * 3], [200] * 3)
        check("no spans come in there", service.ask("/v1/traces", "POST", body(1, 1))[0], 404)
        with service.connect() as peer:
            peer.sendall(b"GET /metrics HTTP/1.1\r\nHost: a\r\n\r\n")
            check("none of it where spans come in", read_message(peer.recv).split(b" ")[1], b"404")
        check("the end", service.drained(), (0, line_of("a") + line_of("b"), b""))


def with_token(folder):
    """Whoever asks has to have the token, but for the page, and whether it runs and is ready."""
    file = Path(folder, "token")
    file.write_text(TOKEN + "\n")
    with BackEnd() as back_end, \
            AdminService(folder, [tenant("a", back_end)], "--admin-token-file", str(file)) as service:
        wrong = ("", f"Authorization: Bearer {TOKEN}x\r\n", f"Authorization: Bearer {TOKEN[:-1]}\r\n",
                 f"Authorization: Basic {TOKEN}\r\n", "Authorization: Bearer \r\n", "Authorization: \r\n",
                 f"Authorization: Bearer {TOKEN[:-1]}M\r\n", f"Authorization: Bearer {TOKEN}\r\n" * 2,
                 f"Authorization: Bearer{TOKEN}\r\n", f"Authorization: Bearer\t{TOKEN}\r\n",
                 f"Authorization: Bearer \t{TOKEN}\r\n", f"Authorization: Bearer  {TOKEN} x\r\n", "Authorization: Bearer   \r\n")
        for more in wrong:
            for target, method in (("/metrics", "GET"), ("/tenants", "GET"), ("/tenants/a", "DELETE"),
                                   ("/drain", "POST"), ("/tenants", "POST"), ("/nothing", "GET"),
                                   ("/drain", "GET")):
                status, fields, content = service.ask(target, method, more=more)
                check(f"{method} {target} with {more!r}",
                      (status, fields.get("www-authenticate"), fields["content-type"], content),
                      (401, 'Bearer realm="nimchaes"', JSON, b'{"error":"the token is missing or another"}'))
        for target in ("/", "/healthz", "/readyz"):
            check(f"{target} without", service.ask(target)[0], 200)
        for scheme in ("Bearer ", "bearer   ", "Bearer", "bearer", "BEARER"):
            right = f"Authorization: {scheme} {TOKEN}\r\n"
            check("with it", service.told("/tenants", more=right), (200, {"tenants": [figures("a")]}))
        check("a drain", service.ask("/drain", "POST", more=right)[0], 200)
        check("the end", (service.run.stdout.read().decode(), service.run.wait()), (line_of("a"), 0))


def without_token(folder):
    """Where everybody could ask, where the token is short, is none or isn't there, and where the options don't fit."""
    short, none = Path(folder, "short"), Path(folder, "none")
    short.write_text("0123456789abcde\n")
    with BackEnd() as back_end:
        settings = Path(folder, "settings.toml")
        settings.write_text(talk.globals_of() + tenant("a", back_end))
        for options, status, words in (
                (("--admin", "0.0.0.0:0"), 1, b"--admin-token-file"), (("--admin", "no address"), 1, b"\nno address: "),
                (("--admin", "127.0.0.1:0", "--admin-token-file", str(short)), 1, b"16 bytes"),
                (("--admin", "127.0.0.1:0", "--admin-token-file", str(none)), 1, f"\n{none}: No such file".encode()),
                (("--admin-token-file", str(short)), 2, b"usage"), (("--admin",), 2, b"usage"),
                (("--admin", "127.0.0.1:0", "--admin", "127.0.0.1:0"), 2, b"usage")):
            run = subprocess.run([talk.program, "serve", str(settings), *options], stdin=subprocess.DEVNULL,
                                 capture_output=True, timeout=MOST, check=False)
            check(f"with {options}", (run.returncode, run.stdout, words in run.stderr), (status, b"", True))
        wrong = Path(folder, "wrong")
        for text in (f"{TOKEN} ", f"{TOKEN} \n", f"{TOKEN}\t", f" {TOKEN}\n", f"{TOKEN} {TOKEN}", f"{TOKEN}\n\n", f"{TOKEN}\n{TOKEN}\n",
                     f"{TOKEN}\r{TOKEN}", f"{TOKEN}=a", f"={TOKEN}", "=" * 16, f"{TOKEN}!", f"{TOKEN}\0", f"{TOKEN}\u00e9",
                     f'"{TOKEN}"', f"Bearer {TOKEN}"):
            wrong.write_text(text)
            run = subprocess.run([talk.program, "serve", str(settings), "--admin", "127.0.0.1:0", "--admin-token-file", str(wrong)],
                                 stdin=subprocess.DEVNULL, capture_output=True, timeout=MOST, check=False)
            told = f"input or output fault\n{wrong}: a token is one line of letters, digits and - . _ ~ + /, with = at its end alone\n"
            check(f"with {text!r}", (run.returncode, run.stdout, run.stderr.decode()), (1, b"", told))


def no_page_changes_anything(folder):
    """A page of any site can have a browser post to this machine, and says so by `Origin`: it changes nothing, and may
    ask for what can be seen. With a token it may change what whoever has the token may."""
    file = Path(folder, "token")
    file.write_text(TOKEN + "\n")
    with BackEnd() as back_end:
        document = tenant("new", back_end).encode()
        for page in ("Origin: https://site.example\r\n", "Origin: null\r\n", "origin: http://127.0.0.1:9464\r\n", "Origin:\r\n",
                     "Origin: https://site.example\r\nOrigin: https://site.example\r\n"):
            with AdminService(folder, [tenant("a", back_end)]) as service:
                for target, method, content in (("/drain", "POST", b""), ("/tenants", "POST", document), ("/tenants/a", "DELETE", b"")):
                    status, fields, told = service.ask(target, method, content, more=page)
                    check(f"{method} {target} of a page", (status, fields.get("www-authenticate"), told),
                          (403, None, b'{"error":"a change from a page needs a token, and none is configured"}'))
                check("it looks", service.told("/tenants", more=page), (200, {"tenants": [figures("a")]}))
                check("it is ready", service.ask("/readyz", more=page)[0], 200)
                check("the end", service.drained()[0], 0)
        with AdminService(folder, [tenant("a", back_end)], "--admin-token-file", str(file)) as service:
            right = f"Authorization: Bearer {TOKEN}\r\nOrigin: https://site.example\r\n"
            check("with the token", service.ask("/tenants", "POST", document, more=right)[0], 201)
            check("a drain", service.ask("/drain", "POST", more=right)[0], 200)
            check("the end", service.run.wait(MOST), 0)


def with_each_token(folder):
    """A token has any characters that one may have, and may end with a line."""
    file = Path(folder, "token")
    with BackEnd() as back_end:
        for token, end in (("abcdefghijklmnopqrstuvwxyz", ""), ("ABCDEFGHIJKLMNOPQRSTUVWXYZ==", "\n"), ("0123456789-._~+/===", "\r\n")):
            file.write_bytes((token + end).encode())
            with AdminService(folder, [tenant("a", back_end)], "--admin-token-file", str(file)) as service:
                check("another", service.ask("/tenants", more=f"Authorization: Bearer {token}=\r\n")[0], 401)
                right = f"Authorization: Bearer {token}\r\n"
                check("with it", service.ask("/tenants", more=right)[0], 200)
                check("a drain", service.ask("/drain", "POST", more=right)[0], 200)
                check("the end", service.run.wait(MOST), 0)


def refused_in_json(folder):
    """A message that isn't read whole is refused as JSON, like all that is refused there."""
    with BackEnd() as back_end, AdminService(folder, [tenant("a", back_end)]) as service:
        for message, status, words in ((b"no head\r\n\r\n", "400 Bad Request", "bad request"),
                                       (b"GET /metrics HTTP/1.1\r\n" + b"a: b\r\n" * 65 + b"\r\n",
                                        "431 Request Header Fields Too Large", "too many header fields"),
                                       (b"POST /tenants HTTP/1.1\r\nHost: admin\r\nContent-Length: 20971521\r\n\r\n",
                                        "413 Content Too Large", "body too large")):
            told = f'{{"error":"{words}"}}'
            wanted = f"HTTP/1.1 {status}\r\nContent-Type: {JSON}\r\nConnection: close\r\nContent-Length: {len(told)}\r\n\r\n{told}"
            with service.to_admin() as peer:
                peer.sendall(message)
                check(status, read_message(peer.recv), wanted.encode())
        check("the end", service.drained()[0], 0)


def in_bytes(folder):
    """A request has no more bytes than it may, its head among them, also behind the leave to send its body. Who sends more is
    told so, with the token or without, and of whoever has no token nothing is held."""
    most = 262_144
    words = '{"error":"body too large"}'
    refused = (f"HTTP/1.1 413 Content Too Large\r\nContent-Type: {JSON}\r\nConnection: close\r\n"
               f"Content-Length: {len(words)}\r\n\r\n{words}").encode()
    file = Path(folder, "token")
    file.write_text(TOKEN + "\n")

    def told(service, message, behind=b""):
        with suppress(ConnectionError), service.to_admin() as peer:
            peer.sendall(message)
            if behind:
                check("it is to go on", read_message(peer.recv), GO_ON)
                peer.sendall(behind)
            return read_message(peer.recv)
        return b""

    with BackEnd() as back_end, AdminService(folder, [tenant("a", back_end)], "--admin-token-file", str(file)) as service:
        right = f"Authorization: Bearer {TOKEN}\r\n"
        head = f"POST /tenants HTTP/1.1\r\nHost: admin\r\n{right}"
        room = most - len(f"{head}Content-Length: {most - 200}\r\n\r\n")
        for length, reply in ((room, b"HTTP/1.1 201"), (room + 1, refused)):
            document = tenant("new", back_end).encode().ljust(length, b"#")
            message = f"{head}Content-Length: {length}\r\n\r\n".encode() + document
            check(f"a document of {length} bytes", told(service, message)[:len(reply)], reply)
        chunk = b"10000\r\n" + b"#" * 65_536 + b"\r\n"
        check("chunks without an end", told(service, f"{head}Transfer-Encoding: chunked\r\n\r\n".encode() + chunk * 32), refused)
        check("it came", service.hear(), "added new 1\n")
        room -= len(EXPECT)
        for length, reply in ((room, b"HTTP/1.1 409"), (room + 1, refused)):
            message = f"{head}{EXPECT}Content-Length: {length}\r\n\r\n".encode()
            check(f"{length} bytes behind leave", told(service, message, document[:length])[:len(reply)], reply)
        check("it was there", service.hear(), "refused add 14\n")
        before = bytes_of(service.run.pid, "VmHWM")
        large = b"POST /tenants HTTP/1.1\r\nHost: admin\r\nContent-Length: 20000000\r\n\r\n" + b"#" * 20_000_000
        in_threads(*[lambda: check("20 MB without the token", told(service, large), refused)] * 8)
        taken = bytes_of(service.run.pid, "VmHWM") - before
        check(f"memory for eight of them: {taken}", taken < 1_048_576, True)
        check("with it", service.ask("/drain", "POST", more=right)[0], 200)
        check("the end", (service.run.stdout.read().decode(), service.run.wait(MOST)), (line_of("a") + line_of("new"), 0))


def asked_in(folder):
    """A tenant comes by its document and goes again, and what is wrong with a document is told in words."""
    with BackEnd() as back_end, AdminService(folder, [tenant("a", back_end)]) as service:
        check("unknown", service.post("new", body(1, 1))[0], 403)
        document = tenant("new", back_end).encode()
        check("it comes", service.told("/tenants", "POST", document), (201, {"tenant": "new"}))
        check("that is printed", service.hear(), "added new 1\n")
        check("a post", service.post("new", body(1, 1)), (200, b""))
        check("again", service.told("/tenants", "POST", document)[0], 409)
        check("that is printed", service.hear(), "refused add 14\n")
        for text, words in ((b"", "tenant"), (b"[[tenant]]\n", "name"), (b"\xff", "UTF-8"), (b"[[", "TOML"),
                            (tenant("other", back_end).replace("= 100000", "= true", 1).encode(), "max_spans")):
            status, told = service.told("/tenants", "POST", text)
            check(f"of {text[:20]!r}: {told}", (status, words in told["error"]), (422, True))
            check("that is printed", service.hear()[:12], "refused add ")
        for text, words in ((tenant("many", back_end, policies=ALL * 65), "tenant 1 (many), more than 64 policies"),
                            (tenant("big", back_end, most=2_147_483_000), "there would be more tenants, or more spans")):
            status, told = service.told("/tenants", "POST", text.encode())
            check(f"too much: {told}", (status, words in told["error"]), (422, True))
            check("that is printed", service.hear(), "refused add 15\n")
        two = tenant("x", back_end) + tenant("y", back_end)
        check("two of them", service.told("/tenants", "POST", two.encode())[0], 422)
        service.hear()
        wait_for(lambda: service.told("/tenants/new")[1]["exported"] == 1, "it is sent")
        check("it goes", service.told("/tenants/new", "DELETE"), (200, gone("new", accepted=1, exported=1)))
        check("that is printed", service.hear(), line_of("new", accepted=1, exported=1))
        check("it has gone", service.told("/tenants/new", "DELETE"), (404, {"error": "unknown tenant"}))
        check("nobody", service.told("/tenants"), (200, {"tenants": [figures("a")]}))
        check("unknown", service.post("new", body(2, 2))[0], 403)
        check("the end", service.drained(), (0, line_of("a"), b""))


def warned(folder):
    """Keys of a posted document that no setting has are told beside the name of its tenant, and what is told beside
    a fault stays one member."""
    with BackEnd() as back_end, AdminService(folder, [tenant("a", back_end)]) as service:
        plain = tenant("plain", back_end).encode()
        check("none", service.ask("/tenants", "POST", plain)[0::2], (201, b'{"tenant":"plain"}'))
        slips = b"gobal = 1\n" + tenant("slips", back_end).replace("max_spans", "spans = 1\nmax_spans").encode()
        slips += b"[tenant.batch2]\n" + b'"a\\"b\\n" = 1\n'
        lines = ("# warning: the document: no setting has the key gobal, so it is ignored",
                 "# warning: tenant 1 (slips): no setting has the key batch2, so it is ignored",
                 "# warning: tenant 1 (slips): no setting has the key spans, so it is ignored")
        check("a line each", service.told("/tenants", "POST", slips),
              (201, {"tenant": "slips", "warnings": "\n".join(lines)}))
        check("its name again", service.told("/tenants", "POST", slips),
              (409, {"error": "a tenant of that name is present"}))
        mark = tenant("mark", back_end).encode() + b'[tenant."# the settings in force"]\n'
        check("a key like the line behind warnings", service.told("/tenants", "POST", mark),
              (201, {"tenant": "mark", "warnings": "# warning: tenant 1 (mark): no setting has the key "
                                                   "# the settings in force, so it is ignored"}))
        both = b"gobal = 1\n" + tenant("faulty", back_end).replace("= 100000", "= true", 1).encode()
        status, told = service.told("/tenants", "POST", both)
        check("of a fault", (status, list(told), "max_spans" in told["error"]), (422, ["error"], True))
        check("two of them", service.told("/tenants", "POST", plain + tenant("b", back_end).encode()),
              (422, {"error": "the document doesn't have exactly one tenant"}))
        for name in ("plain", "slips", "mark"):
            check("it goes", service.told(f"/tenants/{name}", "DELETE"), (200, gone(name)))
        check("the end", service.drained()[0], 0)


def asked_out_late(folder):
    """A tenant that waits for its back end is told to be going, and meanwhile other things are answered but changes."""
    with BackEnd() as back_end, BackEnd(BUSY) as busy, \
            AdminService(folder, [tenant("a", back_end), tenant("slow", busy)]) as service:
        check("a post", service.post("slow", body(1, 1)), (200, b""))
        told = []
        asking = threading.Thread(target=lambda: told.append(service.told("/tenants/slow", "DELETE")))
        asking.start()
        wait_for(lambda: service.post("slow", b"")[0] == 503, "it goes")
        check("health", service.told("/healthz")[0], 200)
        check("figures", len(service.told("/tenants")[1]["tenants"]), 2)
        going = (503, {"error": "the tenant slow is going: try again"})
        check("another change", service.told("/tenants/a", "DELETE"), going)
        check("one that comes", service.told("/tenants", "POST", tenant("new", back_end).encode()), going)
        check("the same change", service.told("/tenants/slow", "DELETE"), going)
        # Who asked first is told after five seconds that it isn't done yet.
        check("at once", told, [])
        asking.join()
        check("it goes on", told, [(202, {"state": "it is being done"})])
        check("another change still", service.told("/tenants/a", "DELETE"), going)
        busy.reply = talk.TAKEN
        check("it went", service.hear(), line_of("slow", accepted=1, exported=1))
        wait_for(lambda: service.told("/tenants/a", "DELETE")[0] == 200, "the other may go")
        check("the end", service.drained()[0], 0)


def drained_beside_one_that_goes(folder):
    """A tenant that goes and whose back end doesn't answer keeps no other from being drained: it stays."""
    with BackEnd() as back_end, BackEnd(None) as held, \
            AdminService(folder, [tenant("a", back_end, wait=86_400_000), tenant("held", held)]) as service:
        for name in ("a", "held"):
            check("a post", service.post(name, body(1, 1)), (200, b""))
        wait_for(lambda: held.posts, "it is sent")
        told = []
        asking = threading.Thread(target=lambda: told.append(service.told("/tenants/held", "DELETE")))
        asking.start()
        wait_for(lambda: service.post("held", b"")[0] == 503, "it goes")
        check("a drain", service.told("/drain", "POST"), (200, {"state": "draining"}))
        wait_for(lambda: back_end.posts, "the other is drained")
        asking.join(MOST)
        check("it stays", told, [(409, {"error": "the tenant stays: it holds spans"})])
        held.release()
        check("the end", (service.run.stdout.read().decode(), service.run.wait(MOST)),
              ("refused held 26\n" + line_of("a", accepted=1, exported=1) + line_of("held", accepted=1, exported=1), 0))


def drained_by_call(folder):
    """A drain under load loses nothing: ledgers, back ends and clients agree."""
    with BackEnd() as back_end, BackEnd(None) as held:
        sections = [tenant(name, back_end, wait=5, timeout=20, consumers=4) for name in "abc"] + [tenant("held", held)]
        with AdminService(folder, sections, receivers=8) as service:
            taken = dict.fromkeys("abc", 0)
            check("a post", service.post("held", body(9, 9)), (200, b""))
            wait_for(lambda: held.posts, "it is sent")

            def load(name, trace):
                with service.connect() as peer:
                    while (told := service.post(name, body(trace, taken[name] % 255 + 1), peer)) == (200, b""):
                        taken[name] += 1
                        time.sleep(0.002)
                check("what is told", told, (503, b"\x12\x0dshutting down"))

            def drain():
                wait_for(lambda: min(taken.values()) > 10, "some are taken")
                for _ in range(2):
                    check("a drain", service.told("/drain", "POST"), (200, {"state": "draining"}))
                check("readyz", service.told("/readyz"), (503, {"state": "draining"}))
                check("healthz", service.told("/healthz")[0], 200)
                check("a change", service.told("/tenants/a", "DELETE"), (503, {"error": "shutting down"}))
                check("metrics", families(service.ask("/metrics")[2].decode())["nimchaes_draining"].samples, {(): 1.0})
                held.release()

            in_threads(*(lambda n=name, t=trace: load(n, t) for trace, name in enumerate("abc", 1)), drain)
            ledgers = "".join(line_of(name, accepted=taken[name], exported=taken[name]) for name in "abc")
            check("ledgers", service.run.stdout.read().decode(), ledgers + line_of("held", accepted=1, exported=1))
            check("status", service.run.wait(), 0)
        spans = b"".join(back_end.bodies()).count(b"\x12\x1c\x0a\x10")
        check("spans", spans, sum(taken.values()))


def slow_lookers(folder):
    """Those who read slowly, send slowly or send nothing hold up nobody, and not the end for long."""
    with BackEnd() as back_end:
        with AdminService(folder, [tenant(f"tenant-{n}", back_end) for n in range(400)]) as service:
            reads_not, halves, idle = service.to_admin(), service.to_admin(), service.to_admin()
            reads_not.setsockopt(socket.SOL_SOCKET, socket.SO_RCVBUF, 4096)
            reads_not.sendall(b"GET /metrics HTTP/1.1\r\nHost: a\r\n\r\n" * 40)
            halves.sendall(b"GET /metrics HT")
            time.sleep(0.2)
            check("another", len(service.told("/tenants")[1]["tenants"]), 400)
            check("spans", service.post("tenant-7", body(1, 1)), (200, b""))
            # That has five seconds.
            check("before half a request is let go", select.select([halves], [], [], 0)[0], [])
            begun = time.monotonic()
            check("half a request is let go", halves.recv(1 << 16), b"")
            check("within its limit", time.monotonic() - begun < SOON, True)
            late = service.to_admin()
            late.sendall(b"GET /tenants")
            start = time.monotonic()
            check("the end", service.drained()[0], 0)
            check("within its limits", time.monotonic() - start < SOON, True)
            for peer in (reads_not, halves, idle, late):
                peer.close()


def asked_to_the_end(folder):
    """Who asks again and again over one connection doesn't keep the service from ending: once the work is over it is let
    go behind an answer."""
    with BackEnd(None) as held, AdminService(folder, [tenant("a", held)]) as service:
        check("a post", service.post("a", body(1, 1)), (200, b""))
        wait_for(lambda: held.posts, "it is sent")
        over, statuses = threading.Event(), []

        def scrape():
            with suppress(ConnectionError), service.to_admin() as peer:
                while not over.wait(0.3):
                    peer.sendall(b"GET /metrics HTTP/1.1\r\nHost: admin\r\n\r\n")
                    if not (reply := read_message(peer.recv)):
                        return
                    statuses.append(reply.split(b" ")[1])

        def scrape_on():
            # Who rests for a second is let go too, and on a busy machine it may.
            while not over.wait(0.3):
                scrape()

        scraper = threading.Thread(target=scrape_on)
        scraper.start()
        check("a drain", service.told("/drain", "POST"), (200, {"state": "draining"}))
        before = len(statuses)
        wait_for(lambda: len(statuses) > before + 2, "it is told until all is sent")
        held.release()
        try:
            status = service.run.wait(SOON)
        except subprocess.TimeoutExpired:
            status = None
        check("it ends", status, 0)
        over.set()
        scraper.join()
        check("what is told", set(statuses), {b"200"})


def without_input(folder):
    """An input that ends at once ends nothing, and isn't read."""
    with BackEnd() as back_end:
        settings = Path(folder, "settings.toml")
        settings.write_text(talk.globals_of() + tenant("a", back_end))
        run = subprocess.Popen([talk.program, "serve", str(settings), "--admin", "127.0.0.1:0"],
                               stdin=subprocess.DEVNULL, stdout=subprocess.PIPE)
        try:
            wait_for(lambda: len(listening_ports(run.pid)) == 2, "it listens")
            time.sleep(0.5)
            check("it serves", run.poll(), None)
            with socket.create_connection(("127.0.0.1", listening_ports(run.pid)[1]), timeout=MOST) as peer:
                peer.sendall(b"POST /drain HTTP/1.1\r\nHost: a\r\nContent-Length: 0\r\nConnection: close\r\n\r\n")
                check("a drain", read_message(peer.recv).split(b"\r\n")[0], b"HTTP/1.1 200 OK")
            check("the end", (run.stdout.read().decode(), run.wait(MOST)), (line_of("a"), 0))
        finally:
            run.kill()
            run.stdout.close()


def few_files(folder):
    """With one file fewer than the port and its connections need beside all else the service doesn't start. With as
    many as that each receiver, each sender and each of the eight has one."""
    need = 4 + 2 + 10 + 5
    limited = [("/bin/sh", "-c", f'ulimit -n {most} && exec "$0" "$@"') for most in (need - 1, need)]
    with BackEnd(None) as slow:
        section = tenant("a", slow, consumers=2)
        settings = Path(folder, "settings.toml")
        settings.write_text(talk.globals_of() + section)
        run = subprocess.run([*limited[0], talk.program, "serve", str(settings), "--admin", "127.0.0.1:0"],
                             stdin=subprocess.DEVNULL, capture_output=True, timeout=MOST, check=False)
        check("one too few", (run.returncode, run.stdout, f"need {need}:".encode() in run.stderr), (1, b"", True))
        with AdminService(folder, [section], under=limited[1]) as service:
            kept = [service.connect() for _ in range(4)]
            for number, client in enumerate(kept, 1):
                check("a post", service.post("a", body(number, number), client), (200, b""))
            wait_for(lambda: len(slow.posts) == 2, "each sender waits for its answer")
            lookers = [service.to_admin() for _ in range(8)]
            check("each looks", [service.ask("/healthz", peer=looker)[0] for looker in lookers], [200] * 8)
            for peer in kept + lookers:
                peer.close()
            slow.release()
            check("the end", service.drained()[:2], (0, line_of("a", accepted=4, exported=4)))


def told_of_back_ends(folder):
    """With --verbose standard error is told of each answer of a back end but 2xx, whose it is and its status, or that
    none came; else of none."""
    choices, none = (b"HTTP/1.1 %d None\r\nContent-Length: 0\r\n\r\n" % status for status in (300, 204))
    for verbose in (True, False):
        with BackEnd(lambda number: (BUSY, choices)[number > 1]) as bank, BackEnd(none, unread=2) as shop, \
                AdminService(folder, [tenant("bank", bank), tenant("shop", shop)], *["--verbose"][:verbose]) as service:
            check("a post", service.post("bank", body(1, 1)), (200, b""))
            wait_for(lambda: service.told("/tenants/bank")[1]["back_end_refused"] == 1, "it is refused")
            check("a post", service.post("shop", body(2, 2)), (200, b""))
            wait_for(lambda: service.told("/tenants/shop")[1]["exported"] == 1, "it is taken")
            status, _, told = service.drained()
            lines = [line for line in told.splitlines() if line.startswith(b"back end")]
            due = [b"back end of bank: 503", b"back end of bank: 300"] + [b"back end of shop: no answer"] * 2
            check("the end", (status, lines), (0, due if verbose else []))


TESTS = (looked_at, with_token, without_token, no_page_changes_anything, with_each_token, refused_in_json, in_bytes, asked_in,
         warned, asked_out_late, drained_beside_one_that_goes, drained_by_call, slow_lookers, asked_to_the_end, without_input,
         few_files, told_of_back_ends)
