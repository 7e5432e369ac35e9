"""Tenants that come and go while the service runs, by lines of its input."""

import threading
import time
from collections import Counter
from pathlib import Path
from types import SimpleNamespace

from serving.agreement import SPAN, body_of, compare
from serving.talk import (ERRORS, EXPECT, GO_ON, BackEnd, Service, body, check, head_of, in_threads, line_of, read_message,
                          request, tenant, wait_for)

# So many come and go, one after the other, in the test of memory, and beside others.
ROUNDS = 200
BESIDE = 30
# So often a tenant comes whose document has about so many bytes.
LARGE_ROUNDS = 8
LARGE = 1_000_000
# Pages that one round may leave behind, in kB: a tenant without spans takes 4, its span 10.
MOST_A_ROUND = 1
FORBIDDEN = (403, b"\x12\x0eunknown tenant")
SHUTTING_DOWN = (503, b"\x12\x0dshutting down")


def document(folder, text, name="tenant.toml"):
    """The path of a file with this text."""
    file = Path(folder, name)
    file.write_text(text)
    return file


def added(service, path):
    """What the service says of a document."""
    service.say(f"add {path}\n")
    return service.hear()


def retired(service, name):
    """What the service says of a tenant that is to go."""
    service.say(f"retire {name}\n")
    return service.hear()


def without_spans(folder):
    """A tenant that comes and goes at once: its counters are told as it goes, and not at the end."""
    with BackEnd() as back_end, Service(folder, [tenant("a", back_end), tenant("b", back_end)]) as service:
        path = document(folder, tenant("c", back_end))
        service.say(f"add {path}\nretire c\n")
        check("it comes and goes", (service.hear(), service.hear()), ("added c 2\n", line_of("c")))
        check("the end", service.end(), (0, line_of("a") + line_of("b"), b""))


def with_spans(folder, *options):
    """A tenant that comes takes spans, which arrive at its own back end; one that is to go sends what waits, and is
    told its counters once that is done. Then nobody knows it, and who comes under its name is another."""
    with BackEnd() as ones, BackEnd() as others, Service(folder, [tenant("a", ones)], *options) as service:
        section = tenant("c", others, wait=86_400_000)
        path = document(folder, section)
        check("before it comes", service.post("c", body(1, 1)), FORBIDDEN)
        check("it comes", added(service, path), "added c 1\n")
        check("a post", service.post("c", body(1, 1)), (200, b""))
        check("another's", service.post("a", body(2, 2)), (200, b""))
        check("its counters", service.report("c"), line_of("c", accepted=1, undecided=1))
        check("it goes", retired(service, "c"), line_of("c", accepted=1, exported=1))
        check("what was sent", others.bodies(), [body(1, 1)])
        check("after it went", service.post("c", body(3, 3)), FORBIDDEN)
        service.say("report c\nretire c\n")
        check("it comes again", added(service, path), "added c 2\n")
        check("its counters", service.report("c"), line_of("c"))
        check("a post", service.post("c", body(4, 4)), (200, b""))
        status, out, err = service.end()
        wanted = line_of("a", accepted=1, exported=1) + line_of("c", accepted=1, exported=1)
        check("the end", (status, out[:len(wanted)], err), (0, wanted, b""))
        check("the audit's lines", len(out[len(wanted):].splitlines()), 2 if options else 0)
        check("each is sent once", others.bodies(), [body(1, 1), body(4, 4)])


def with_an_audit(folder):
    with_spans(folder, "--audit")


def refused_documents(folder):
    """Documents that let nobody come, by the number of what is wrong with them, and a line that asks for nothing."""
    with BackEnd() as back_end, Service(folder, [tenant("a", back_end)]) as service:
        one, other = tenant("c", back_end), tenant("d", back_end)
        for text, number in (("[tenant", 10), ("", 11), ("tenant = 1\n", 12), (one + other, 13),
                             (one.replace("max_spans = 100000", "max_spans = 0"), 13), (tenant("a", back_end), 14),
                             (tenant("c", back_end, most=2_147_483_648), 15)):
            check(f"{number}", added(service, document(folder, text)), f"refused add {number}\n")
        check("no file", added(service, Path(folder, "missing")), "refused add 10\n")
        check("a folder", added(service, folder), "refused add 10\n")
        Path(folder, "bytes").write_bytes(b"\xff")
        check("no text", added(service, Path(folder, "bytes")), "refused add 10\n")
        check("no path", added(service, ""), "refused add 10\n")
        check("a long path", added(service, "x" * 5000), "refused add 10\n")
        service.say(f"add\nADD {folder}\nretire\nretire c\nretire  a\n")
        check("who comes", added(service, document(folder, one)), "added c 1\n")
        check("the end", service.end(), (0, line_of("a") + line_of("c"), b""))


def while_it_goes(folder):
    """Each post to a tenant at the very moment at which it goes is taken and counted, or refused: never neither. Others
    are served meanwhile, and what comes for the next of its name is not taken for it."""
    with BackEnd() as back_end, Service(folder, [tenant("a", back_end)], receivers=8) as service:
        path = document(folder, tenant("c", back_end))
        for number in range(20):
            check("it comes", added(service, path), f"added c {number + 1}\n")
            before = len(back_end.posts)
            told, gone = [], threading.Event()

            def client(own, told=told, gone=gone):
                with service.connect() as peer:
                    last = False
                    while not last:
                        last = gone.is_set()
                        told.append(service.post("c", body(own + 1, 1), peer))

            def leave(told=told, gone=gone, before=before):
                wait_for(lambda: len(told) >= 8, "posts come")
                line = retired(service, "c")
                taken = told.count((200, b""))
                gone.set()
                counts = dict(word.split("=") for word in line.split()[2:])
                check("it is told", line[:9], "report c ")
                check("all is sent", counts["accepted"], counts["exported"])
                check("some are taken", 0 < int(counts["accepted"]) <= taken + 4, True)
                told.append(int(counts["accepted"]))
                wait_for(lambda: len(back_end.posts) > before, "spans arrive")

            in_threads(leave, *(lambda own=own: client(own) for own in range(4)))
            counted = [count for count in told if isinstance(count, int)]
            replies = [reply for reply in told if not isinstance(reply, int)]
            check("taken and counted, or refused", counted, [replies.count((200, b""))])
            check("what else is told", set(replies) - {(200, b"")} <= {FORBIDDEN, SHUTTING_DOWN}, True)
            check("after it went", service.post("c", body(9, 9)), FORBIDDEN)
            check("another's", service.post("a", body(7, 7)), (200, b""))
        check("the end", service.end(), (0, line_of("a", accepted=20, exported=20), b""))


def begun(service, text):
    """A connection over which a post to c begins: its head was read, and the body, as long as this text, is to come."""
    peer = service.connect()
    peer.sendall(head_of("c", len(text), EXPECT))
    check("it is to go on", read_message(peer.recv), GO_ON)
    # That is written right before the head is looked at.
    time.sleep(0.1)
    wait_for(service.is_asleep, "the head was looked at")
    return peer


def while_its_body_comes(folder):
    """A head is looked at by the tenants that there are then, so a body is refused whose tenant comes while it comes. So
    is one whose tenant goes meanwhile. The next post over the same connection is as any other."""
    text = body(1, 1)

    def ended(peer):
        peer.sendall(text)
        reply = read_message(peer.recv)
        return int(reply.split(b" ")[1]), reply.partition(b"\r\n\r\n")[2]

    with BackEnd() as back_end, Service(folder, [tenant("a", back_end)]) as service:
        path = document(folder, tenant("c", back_end))
        with begun(service, text) as early:
            check("it comes", added(service, path), "added c 1\n")
            with begun(service, text) as late:
                check("a body for a tenant that came meanwhile", ended(early), FORBIDDEN)
                check("the next one", service.post("c", body(2, 2), early), (200, b""))
                check("it goes", retired(service, "c"), line_of("c", accepted=1, exported=1))
                check("a body for a tenant that went meanwhile", ended(late), FORBIDDEN)
                check("the next one", service.post("a", body(3, 3), late), (200, b""))
        check("the end", service.end(), (0, line_of("a", accepted=1, exported=1), b""))
        check("what was sent", back_end.bodies(), [body(2, 2), body(3, 3)])


def beside_others(folder):
    """While clients of two tenants post without a rest, others come, take spans and go. Of each tenant, those that went
    too, the spans that clients were told are taken, its last counters, and what came to its back end are the same."""
    told, over = {"a": [], "b": [], "c": []}, threading.Event()
    with BackEnd() as ones, BackEnd() as others, BackEnd() as guests:
        sections = [tenant(name, end, wait=20, timeout=20, batch=64, most=10_000_000)
                    for name, end in (("a", ones), ("b", others))]
        path = document(folder, tenant("c", guests, wait=86_400_000))
        with Service(folder, sections) as service:
            def post(name, number, peer):
                text, ids = body_of(name, 0, number)
                check("a post", service.post(name, text, peer), (200, b""))
                told[name] += ids
                return len(ids)

            def steady(name):
                with service.connect() as peer:
                    number = 0
                    while not over.is_set():
                        post(name, number, peer)
                        number += 1

            def come_and_go():
                try:
                    with service.connect() as peer:
                        for number in range(BESIDE):
                            check("it comes", added(service, path), f"added c {number + 2}\n")
                            count = post("c", number, peer)
                            check("it goes", retired(service, "c"), line_of("c", accepted=count, exported=count))
                finally:
                    over.set()

            in_threads(come_and_go, lambda: steady("a"), lambda: steady("b"))
            status, out, err = service.end()
        check("status and standard error", (status, err), (0, b""))
        for name, line, end in zip("ab", out.splitlines(keepends=True), (ones, others)):
            compare(name, line, [SimpleNamespace(spans=told)], end)
        found = Counter(span for text in guests.bodies() for span in SPAN.findall(text))
        check("what came of those that went", found == Counter(told["c"]), True)


def large(section):
    """A document of this section and of keys that no setting has."""
    keys = (f"k{number} = [1, 2, 3, 4, 5, 6, 7, 8, 9]\n" for number in range(LARGE // 33))
    return section + "[unread]\n" + "".join(keys)


def longest_wait(waits, begin, end):
    """For how much of the time from `begin` to `end` a single one of these waits was on."""
    return max(min(last, end) - max(first, begin) for first, last in waits)


def beside_a_large_document(folder):
    """While a large document is parsed no message of another tenant waits for it: in most rounds no post waits for half
    as long as the tenant of the document takes to come."""
    rounds, waits, over = [], [], threading.Event()
    with BackEnd() as back_end, Service(folder, [tenant("a", back_end, policies=ERRORS)]) as service:
        path = document(folder, large(tenant("c", back_end)))

        def steady():
            with service.connect() as peer:
                while not over.is_set():
                    begin = time.monotonic()
                    check("a post", service.post("a", body(1, 1), peer), (200, b""))
                    waits.append((begin, time.monotonic()))

        def come_and_go():
            try:
                wait_for(lambda: waits, "posts are answered")
                for number in range(LARGE_ROUNDS):
                    begin = time.monotonic()
                    check("it comes", added(service, path), f"added c {number + 1}\n")
                    rounds.append((begin, time.monotonic()))
                    check("it goes", retired(service, "c"), line_of("c"))
            finally:
                over.set()

        in_threads(come_and_go, steady)
        check("the end", service.end(), (0, line_of("a", accepted=len(waits), not_sampled=len(waits)), b""))
    shares = [longest_wait(waits, *times) / (times[1] - times[0]) for times in rounds]
    brief = sum(share < 0.5 for share in shares)
    check(f"how much of each coming one post waited: {shares}", brief > LARGE_ROUNDS // 2, True)


def memory_of(service):
    """How much memory the process has, in kB."""
    status = Path(f"/proc/{service.run.pid}/status").read_text()
    return int(status.split("VmRSS:")[1].split()[0])


def many(folder, rounds):
    """So many tenants come, take a span of ten thousand bytes each, send it and go: the memory that the process has
    once a hundred, or a tenth of them, have gone, and at the end, in kB."""
    text = request((b"\1" * 16, b"\1" * 8, b"\x2a\x90\x4e" + b"n" * 10_000))
    with BackEnd() as back_end, Service(folder, [tenant("a", back_end)]) as service, service.connect() as peer:
        path = document(folder, tenant("c", back_end, wait=86_400_000))
        first = 0
        for number in range(rounds):
            check("it comes", added(service, path), f"added c {number + 1}\n")
            check("a post", service.post("c", text, peer), (200, b""))
            check("it goes", retired(service, "c"), line_of("c", accepted=1, exported=1))
            back_end.posts.clear()
            if number + 1 == min(max(rounds // 10, 1), 100):
                first = memory_of(service)
        last = memory_of(service)
        peer.close()
        check("the end", service.end(), (0, line_of("a"), b""))
    return first, last


def memory_comes_back(folder):
    """Tenants that come, take spans, send them and go leave no memory behind."""
    first, last = many(folder, ROUNDS)
    check(f"memory that {ROUNDS} left, {last - first} kB", last - first <= ROUNDS * MOST_A_ROUND, True)


def memory_of_many(folder, rounds):
    """The same of so many, which may leave a tenth more than the first hundred of them."""
    first, last = many(folder, rounds)
    check(f"memory rose from {first} to {last} kB", last * 10 <= first * 11, True)
    print(f"{first} kB once the first had gone, {last} kB at the end", flush=True)


TESTS = (without_spans, with_spans, with_an_audit, refused_documents, while_it_goes, while_its_body_comes, beside_others,
         beside_a_large_document, memory_comes_back)
