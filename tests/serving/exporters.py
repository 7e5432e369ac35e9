"""Exporters that are set up wrongly, and the responses by which docs/RUNBOOK.md ("Clients") knows them."""

import gzip
import ssl
from contextlib import suppress

from replay.make_script import piece
from serving.talk import MOST, BackEnd, Service, body, check, line_of, read_message, tenant

PROTOBUF, GZIP = "application/x-protobuf", "Content-Encoding: gzip\r\n"
MOMENT = (1_764_288_000_000_000_000).to_bytes(8, "little")
# A gauge with one point, and a line of a log, as OTLP's metrics.proto and logs.proto have them. Where a span has its name the
# first has bytes that are no text; the second has no ids, since its field 1 is a number.
METRIC = piece(1, b"requests") + piece(5, piece(1, b"\x19" + MOMENT + b"\x21" + bytes(8)))
LINE = b"\x09" + MOMENT + piece(3, b"INFO") + piece(5, piece(1, b"hello"))
# What a client of HTTP/2 begins with that knows its server (RFC 9113, section 3.4), and empty settings behind it.
PREFACE = b"PRI * HTTP/2.0\r\n\r\nSM\r\n\r\n" + b"\0\0\0\4\0\0\0\0\0"
UPGRADE = "Connection: Upgrade, HTTP2-Settings\r\nUpgrade: h2c\r\nHTTP2-Settings: AAMAAABkAAQCAAAAAAIAAAAA\r\n"
# HAProxy's `send-proxy`.
PROXY = b"PROXY TCP4 192.0.2.1 192.0.2.2 4317 4318\r\n"


def post(text=body(1, 1), path="/v1/traces", media=PROTOBUF, more="", method="POST", tenants=("a",), host="Host: c\r\n"):
    fields = "".join(f"X-Scope-OrgID: {name}\r\n" for name in tenants) + (f"Content-Type: {media}\r\n" if media else "")
    return f"{method} {path} HTTP/1.1\r\n{host}{fields}{more}Content-Length: {len(text)}\r\n\r\n".encode() + text


def inside(message):
    """A request with this message where a span, a metric or a line of a log stands."""
    return piece(1, piece(2, piece(2, message)))


def hello():
    """What a client of TLS begins with."""
    coming, going = ssl.MemoryBIO(), ssl.MemoryBIO()
    client = ssl.create_default_context().wrap_bio(coming, going, server_hostname="collector")
    with suppress(ssl.SSLWantReadError):
        client.do_handshake()
    return going.read()


def wrong_exporters(folder):
    """Each is told its refusal, in its words, and nothing of it is taken but as spans without ids; the right one is taken."""
    kinds = (
        ("200", b"", post()), ("200", b"", post(path="/v1/traces?a=b")), ("200", b"", post(b"")),
        ("200", b"", post(b"", more=UPGRADE)),
        ("415", b"unsupported content encoding", post(gzip.compress(body(1, 1)), more=GZIP)),
        ("415", b"unsupported content type", post(b'{"resourceSpans":[]}', media="application/json")),
        ("415", b"unsupported content type", post(media="application/protobuf")),
        ("415", b"unsupported content type", post(media="")),
        ("400", b"bad protobuf", post(gzip.compress(body(1, 1)))), ("400", b"bad protobuf", post(b'{"resourceSpans":[]}')),
        ("400", b"bad protobuf", post(inside(METRIC))), ("200", b"rejected: 1 invalid", post(inside(LINE))),
        ("403", b"unknown tenant", post(tenants=())), ("403", b"unknown tenant", post(tenants=("a", "a"))),
        ("403", b"unknown tenant", post(tenants=("A",))), ("403", b"unknown tenant", post(tenants=('"a"',))),
        ("404", b"no such path", post(path="/")), ("404", b"no such path", post(path="/v1/traces/")),
        ("404", b"no such path", post(path="//v1/traces")), ("404", b"no such path", post(path="/v1/metrics")),
        ("405", b"method not allowed", post(b"", method="GET")), ("405", b"method not allowed", post(b"", method="OPTIONS")),
        ("431", b"too many header fields", post(more="X-A: 1\r\n" * 64)),
        ("431", b"too many header fields", post(more=f"Cookie: {'c' * 65_536}\r\n")),
        ("400", b"bad request", hello()), ("400", b"bad request", PREFACE), ("400", b"bad request", PROXY + post()),
        ("400", b"bad request", post(host="")), ("400", b"bad request", post(more="Content-Length: 34\r\n")))
    with BackEnd() as back_end, Service(folder, [tenant("a", back_end)]) as service:
        for status, words, message in kinds:
            with service.connect() as peer:
                peer.settimeout(MOST)
                peer.sendall(message)
                reply = read_message(peer.recv)
                check(f"{message[:60]!r}, {reply!r}", (reply[9:12].decode(), words in reply), (status, True))
        check("the end", service.end(), (0, line_of("a", accepted=2, exported=2, invalid=1), b""))


TESTS = (wrong_exporters,)
