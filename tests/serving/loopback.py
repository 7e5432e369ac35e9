"""The service and its neighbours on this machine: bytes in, bytes out, what is counted, and what can't be started."""

import socket
import subprocess
from pathlib import Path

from replay.make_script import piece
from serving import talk
from serving.talk import (ERROR, ERRORS, EXPECT, GO_ON, MOST, BackEnd, Service, body, check, globals_of, head_of,
                          line_of, read_message, request, tenant, wait_for)

HEAD = b"POST /v1/traces HTTP/1.1\r\nHost: c\r\nX-Scope-OrgID: a\r\nContent-Type: application/x-protobuf\r\n"
CHUNKED = HEAD + b"Transfer-Encoding: chunked\r\n\r\n22\r\n" + body(17, 33) + b"\r\n0\r\n\r\n"
NO_PORT = "doesn't end with a colon and a port from 0 to 65535"
SCHEME = "has a scheme, where a host, a colon and a port are wanted"
REPLY = b"HTTP/1.1 200 OK\r\nContent-Type: application/x-protobuf\r\nContent-Length: 0\r\n\r\n"


def refused(status, phrase, message, more=""):
    """The reply to who is refused so."""
    text = piece(2, message.encode())
    return (f"HTTP/1.1 {status} {phrase}\r\nContent-Type: application/x-protobuf\r\n{more}"
            f"Content-Length: {len(text)}\r\n\r\n").encode() + text


def a_span_each(folder, *options):
    """Each tenant's spans arrive at its own back end as one post of its own, and are counted once. With an audit each
    shard has a line."""
    with BackEnd() as ones, BackEnd() as others, Service(
            folder, [tenant("a", ones), tenant("b", others)], *options) as service:
        with service.connect() as peer:
            peer.sendall(CHUNKED)
            check("a post in chunks", read_message(peer.recv), REPLY)
        check("a post", service.post("b", body(18, 34)), (200, b""))
        wait_for(lambda: ones.posts and others.posts, "both spans are sent")
        wanted = f"POST /v1/traces HTTP/1.1\r\nHost: 127.0.0.1:{ones.port}\r\nContent-Type: application/x-protobuf\r\n" \
            "Content-Length: 34\r\nConnection: close\r\n\r\n".encode() + body(17, 33)
        check("what a's back end is sent", [text for text, _, _ in ones.posts], [wanted])
        check("what b's back end is sent", others.bodies(), [body(18, 34)])
        status, out, err = service.end()
        lines = out.splitlines(keepends=True)
        reports = [line_of("a", accepted=1, exported=1), line_of("b", accepted=1, exported=1)]
        check("the reports at the end", lines[:2], reports)
        check("status and standard error", (status, err), (0, b""))
        words = [line.split(" ") for line in lines[2:]]
        check("lines of the audit", [word[:2] for word in words], [["audit", "0"], ["audit", "1"]] if options else [])
        # A post, a job, its answer, a drain and a report.
        check("entries", [int(word[2]) >= 5 and word[2].endswith("\n") for word in words], [True] * len(words))
        check("each is sent once", (len(ones.posts), len(others.posts)), (1, 1))


def a_span_each_with_an_audit(folder):
    a_span_each(folder, "--audit")


def replies(folder):
    """What clients are told, to the byte; only what was taken is counted."""
    two = request((b"\1" * 16, b"\1" * 8, b""), (b"\2" * 16, b"\2" * 8, b""))
    partial = piece(1, b"\x08\x01" + piece(2, b"rejected: 0 invalid, 1 over budget"))
    post = HEAD + b"Content-Length: "
    gone = "\r\nConnection: close"
    exhausted = refused(429, "Too Many Requests", "span budget exhausted", "Retry-After: 1\r\n")
    talks = [
        (post + b"34\r\nContent-Encoding: gzip\r\n\r\n" + body(17, 1),
         refused(415, "Unsupported Media Type", "unsupported content encoding")),
        (post.replace(b"/x-protobuf", b"/json") + b"34\r\n\r\n" + body(17, 1),
         refused(415, "Unsupported Media Type", "unsupported content type")),
        (post.replace(b"OrgID: a", b"OrgID: c") + b"34\r\n\r\n" + body(17, 1),
         refused(403, "Forbidden", "unknown tenant")),
        (post.replace(b"X-Scope-OrgID: a\r\n", b"") + b"34\r\n\r\n" + body(17, 1),
         refused(403, "Forbidden", "unknown tenant")),
        (post.replace(b"traces", b"metrics") + b"34\r\n\r\n" + body(17, 1), refused(404, "Not Found", "no such path")),
        (post.replace(b"POST", b"PUT") + b"34\r\n\r\n" + body(17, 1),
         refused(405, "Method Not Allowed", "method not allowed", "Allow: POST\r\n")),
        (post + b"33\r\n\r\n" + body(17, 1)[:33], refused(400, "Bad Request", "bad protobuf")),
        (post + b"1\r\n\r\n\x0a", refused(400, "Bad Request", "bad protobuf")),
        (post + b"1\r\nContent-Encoding: gzip\r\n\r\n\x0a",
         refused(415, "Unsupported Media Type", "unsupported content encoding")),
        (post + b"0\r\n\r\n", REPLY),
        (post + b"%d\r\n\r\n" % len(two) + two, REPLY.replace(b"h: 0", b"h: %d" % len(partial)) + partial),
        (post + b"34\r\n\r\n" + body(17, 2), exhausted),
        (post + b"20971521\r\n\r\n", refused(413, "Content Too Large", "body too large", gone[2:] + "\r\n")),
    ]
    with BackEnd() as back_end, Service(folder, [tenant("a", back_end, wait=86_400_000, most=1)]) as service:
        with service.connect() as peer:
            for text, wanted in talks:
                peer.sendall(text)
                check(text[:300], read_message(peer.recv), wanted)
            check("the end after it", peer.recv(1), b"")
        with service.connect() as peer:
            peer.sendall(post + b"34\r\n" + EXPECT.encode() + b"\r\n")
            check("leave to go on", peer.recv(len(GO_ON), socket.MSG_WAITALL), GO_ON)
            peer.sendall(body(17, 2))
            check("the reply behind it", read_message(peer.recv), exhausted)
        check("the end", service.end(), (0, line_of("a", accepted=1, exported=1, over_budget=1), b""))


def longest_body(folder):
    """A body of 20,971,520 bytes is read, a longer one isn't."""
    with BackEnd() as back_end, Service(folder, [tenant("a", back_end)]) as service:
        unknown = piece(2, bytes(20_971_520 - 5))
        check("a request without spans", (len(unknown), service.post("a", unknown)), (20_971_520, (200, b"")))
        with service.connect() as peer:
            peer.sendall(head_of("a", 20_971_521))
            check("a byte more", read_message(peer.recv)[:26], b"HTTP/1.1 413 Content Too L")
        check("the end", service.end(), (0, line_of("a"), b""))


def reports(folder):
    """A line `report NAME` prints that tenant's counters at once, and any other line nothing, however long it is."""
    with BackEnd(None) as back_end, BackEnd() as others, Service(
            folder, [tenant("zeta", back_end, policies=ERRORS), tenant("alpha", others, wait=86_400_000)]) as service:
        check("a new tenant's", service.report("zeta"), line_of("zeta"))
        for number in range(3):
            text = request((bytes([number + 1]) * 16, b"\1" * 8, ERROR if number == 1 else b""))
            check("a post", service.post("zeta", text), (200, b""))
        check("a post", service.post("alpha", body(17, 1)), (200, b""))
        wait_for(lambda: back_end.posts, "the job is sent")
        sent = line_of("zeta", accepted=3, active=1, not_sampled=2)
        wait_for(lambda: service.report("zeta") == sent, "the others are dropped")
        service.say("report beta\nreport\n\nanything\nreport zeta \nreport  zeta\nREPORT zeta\nreport al")
        service.say("pha\nreport zeta\n" + "report " + "zeta" * 100_000 + "\nreport zeta" + " " * 61 + "\nreport alpha\n")
        waiting = line_of("alpha", accepted=1, undecided=1)
        check("many lines", [service.hear() for _ in range(3)], [waiting, sent, waiting])
        back_end.release()
        done = line_of("zeta", accepted=3, exported=1, not_sampled=2) + line_of("alpha", accepted=1, exported=1)
        check("the end", service.end(), (0, done, b""))


def faulty_starts(folder):
    """A port that is in use, an address that isn't one, settings that aren't any, and arguments: in this order what is
    wrong is told, in one line, and with --verbose behind it of an address what it lacks."""
    def started(settings, *options):
        file = Path(folder, "settings.toml")
        file.write_text(settings)
        done = subprocess.run([talk.program, "serve", str(file), *options], input=b"", capture_output=True,
                              timeout=MOST, check=False)
        return done.returncode, done.stdout, done.stderr

    fault = (1, b"", b"input or output fault\n")
    with BackEnd() as back_end, socket.create_server(("127.0.0.1", 0)) as taken:
        port = taken.getsockname()[1]
        section = tenant("a", back_end)
        for options in ((), ("--audit",)):
            check("a port in use", started(globals_of(port) + section, *options), fault)
        check("a port in use, and settings", started(globals_of(port) + tenant("a", back_end, wait=0)),
              (1, b"", b"settings fault 13 decision_wait_ms\n"))
        check("two of a name", started(globals_of() + section + section), (1, b"", b"settings fault 14 a\n"))
        check("no tenant", started("tenant = 1\n"), (1, b"", b"settings fault 12 tenant\n"))
        check("no address", started('[global]\nlisten = "nowhere"\n' + section), fault)
        for address, lacks in (("nowhere", NO_PORT), ("127.0.0.1", NO_PORT), ("http://127.0.0.1:4318", SCHEME),
                               ("127.0.0.1:4318/v1/traces", NO_PORT), ("http://127.0.0.1:4318/v1/traces", SCHEME),
                               ("127.0.0.1:65536", NO_PORT)):
            check(f"at {address}", started(f'[global]\nlisten = "{address}"\n{section}', "--verbose"),
                  (1, b"", f"input or output fault\n{address}: {lacks}\n".encode()))
        done = subprocess.run([talk.program, "serve", str(Path(folder, "missing"))], input=b"", capture_output=True,
                              timeout=MOST, check=False)
        check("no file", (done.returncode, done.stdout, done.stderr), fault)
        check("nothing to do", started(globals_of() + section), (0, line_of("a").encode(), b""))


def without_room(folder):
    """Where threads can't be started the service ends and says so, though others wait for them, ten seconds at most."""
    file = Path(folder, "settings.toml")
    with BackEnd() as back_end:
        file.write_text(globals_of(shards=64, receivers=64, senders=64) + tenant("a", back_end))
        # 192 threads don't go into 200 MB.
        words = ["/bin/sh", "-c", 'ulimit -v 200000 && exec "$0" "$@"', talk.program, "serve", str(file)]
        done = subprocess.run(words, stdin=subprocess.DEVNULL, capture_output=True, timeout=MOST, check=False)
        check("no thread", (done.returncode, done.stdout, done.stderr), (3, b"", b"out of memory\n"))


def the_most_of_all(folder):
    """A thousand tenants, sixty-four shards, receivers and senders."""
    with BackEnd() as back_end:
        names = [f"t{number}" for number in range(1000)]
        sections = [tenant(name, back_end) for name in names]
        with Service(folder, sections, shards=64, receivers=64, senders=64) as service:
            with service.connect() as peer:
                for number, name in enumerate(names):
                    check("a post", service.post(name, body(1 + number % 250, 1), peer), (200, b""))
            wanted = "".join(line_of(name, accepted=1, exported=1) for name in names)
            check("the end", service.end() == (0, wanted, b""), True)
        check("posts", sorted(back_end.bodies()) == sorted([body(1 + at, 1) for at in range(250)] * 4), True)


TESTS = (a_span_each, a_span_each_with_an_audit, replies, longest_body, reports, faulty_starts, without_room,
         the_most_of_all)
