"""Bodies for which there is no memory."""

import re
import resource
from itertools import count, cycle
from pathlib import Path
from time import sleep

from replay.make_script import number_field, piece
from serving.talk import ERRORS, MOST, BackEnd, Service, body, check, in_threads, line_of, read_message, tenant, wait_for

# Each of these spans has a resource of its own, so that a body takes many times its bytes while it is made ready, and more
# than what the service keeps back.
SPANS = 400_000
ROOMS = [int(8_000_000 * 1.4 ** step) for step in range(16)]

BODY = 1_000_000
# Each body's trace: how long it waits, in milliseconds, and how many spans its tenant has room for, so that there is room
# for one when the body comes.
WAITS, ISNT_SAMPLED = (60_000, 2), (1, 1)
# So many of these are more than are made ready at a time.
LARGE, MANY, AT_A_TIME = 10_000_000, 12, 20_971_520
IDS = piece(1, b"\1" * 16) + piece(2, b"\2" * 8)
SPAN = piece(2, IDS)
EMPTY = piece(1, b"")
URL = piece(3, b"u")
# A count of 1 in two bytes, of a resource and of a scope, so that neither is canonical.
LONG_COUNT, LONG_COUNT_OF_SCOPE = b"\x10\x81\x00", b"\x20\x81\x00"
# Two values of an attribute, of which the last is put, or one that is made of both; a bool that isn't written as one; an
# array before a text in one value; and two arrays in one, for which what it stands in is read as a message.
TWO_VALUES = piece(1, b"k") + 2 * piece(2, piece(1, b"v"))
TWO_VALUES_JOINED = piece(1, b"k") + piece(2, piece(5, b"")) + piece(2, piece(1, b"v"))
BOOL_OF_TWO = piece(1, b"k") + piece(2, number_field(2, 2))
AN_ARRAY_AND_A_TEXT = piece(1, b"k") + piece(2, piece(5, b"") + piece(1, b"v"))
TWO_ARRAYS = piece(1, b"k") + piece(2, 2 * piece(5, b""))
# An array in each of two values, for which this attribute alone is read as a message.
AN_ARRAY_IN_EACH = piece(1, b"k") + 2 * piece(2, piece(5, b""))
TWICE_COUNTED = 2 * number_field(4, 1)


def alone(text):
    return text


def in_resource(text):
    return piece(1, text)


def in_scope(text):
    return piece(1, piece(2, text))


def under(more):
    """What puts a span under a resource of a text's attributes, and of this behind them."""
    return lambda text: piece(1, piece(1, text + more) + piece(2, SPAN))


def in_long_scope(text):
    """A span in a scope of these attributes, whose count isn't as short as it can be."""
    return piece(1, piece(2, piece(1, text + LONG_COUNT_OF_SCOPE) + SPAN))


def in_span(before=b"", number=None, behind=b""):
    """What puts a text into a span, behind and before these fields, or with those behind it into one of this number."""
    def span(text):
        return in_scope(piece(2, IDS + before + (piece(number, text + behind) if number else text + behind)))

    return span


def lists(number, levels=19):
    """An attribute, in a field of this number, of so many lists of one in one another."""
    value = b""
    for _ in range(levels):
        value = piece(6, piece(1, piece(2, value)))
    return piece(number, piece(2, value))


def in_lists_of_two_values(text, levels=31):
    """A span of one attribute, of a text in so many lists in one another, each in the first of two values."""
    value = piece(1, text)
    for _ in range(levels):
        value = piece(6, piece(1, piece(1, b"k") + piece(2, value) + piece(2, b"")))
    return in_span(number=9)(piece(2, value))


def of_another_resource(number):
    """A resource spans of a span, whose resource is that of no other number: so many attributes were left out."""
    return piece(1, piece(1, number_field(2, number)) + piece(2, SPAN))


def of_another_scope(number):
    """The same, and its scope is that of no other number too."""
    return piece(1, piece(1, number_field(2, number)) + piece(2, piece(1, number_field(4, number)) + SPAN))


def of_four_other_texts(number):
    """The same, each text longer, and the URLs of both schemas are those of no other number too."""
    text = b"%d" % number
    resource = piece(1, piece(1, piece(1, text)))
    return piece(1, piece(1, resource) + piece(2, piece(1, piece(1, text)) + SPAN + piece(3, text)) + piece(3, text))


# What a body has again and again, or what makes it of each number from 1 on; what stands round it; and how many times its
# bytes the body takes at most while it is made ready, of which it is one itself. There is room for one of its spans.
SHAPES = {
    "empty resource spans": (piece(1, b""), alone, 4),
    "resource spans of an empty scope spans": (piece(1, piece(2, b"")), alone, 4),
    "empty scope spans": (piece(2, b""), in_resource, 4),
    "resource spans of an empty span": (piece(1, piece(2, piece(2, b""))), alone, 4),
    "empty spans": (piece(2, b""), in_scope, 4),
    "resource spans of a span": (piece(1, piece(2, SPAN)), alone, 8),
    "the same, with a resource and a scope": (piece(1, EMPTY + piece(2, EMPTY + SPAN)), alone, 8),
    "the same, with schemas too": (piece(1, EMPTY + piece(2, EMPTY + SPAN + URL) + URL), alone, 8),
    "scope spans of a span": (piece(2, SPAN), in_resource, 8),
    "the same, with a scope and a schema": (piece(2, EMPTY + SPAN + URL), in_resource, 8),
    "spans": (SPAN, in_scope, 8),
    "spans that are written anew": (piece(2, IDS + piece(3, b"")), in_scope, 8),
    "resource spans of a span, each of another resource": (of_another_resource, alone, 8),
    "resource spans of a span, each of another resource and scope": (of_another_scope, alone, 8),
    "the same, each text another": (of_four_other_texts, alone, 8),
    "attributes of a resource that isn't canonical": (EMPTY, under(LONG_COUNT), 5),
    "lists in lists of a resource that isn't canonical": (lists(1), under(LONG_COUNT), 5),
    "attributes of a scope that isn't canonical": (piece(3, b""), in_long_scope, 5),
    "attributes of an event whose count stands twice": (piece(3, b""), in_span(number=11, behind=TWICE_COUNTED), 5),
    "attributes of a link whose count stands twice": (piece(4, b""), in_span(number=13, behind=2 * number_field(5, 1)), 5),
    "attributes of two values": (piece(9, TWO_VALUES), in_span(), 5),
    "attributes of two values that are joined": (piece(9, TWO_VALUES_JOINED), in_span(), 5),
    "attributes beside two of two values": (piece(9, b""), in_span(before=2 * piece(9, TWO_VALUES_JOINED)), 5),
    "lists in lists beside two of two values": (lists(9), in_span(before=2 * piece(9, TWO_VALUES_JOINED)), 5),
    "attributes of a resource with a bool of two": (EMPTY, under(piece(1, BOOL_OF_TWO)), 5),
    "attributes of an event with a bool of two": (piece(3, b""), in_span(number=11, behind=piece(3, BOOL_OF_TWO)), 5),
    "attributes of a resource with an array and a text": (EMPTY, under(piece(1, AN_ARRAY_AND_A_TEXT)), 5),
    "attributes beside two of an array and a text": (piece(9, b""), in_span(before=2 * piece(9, AN_ARRAY_AND_A_TEXT)), 5),
    "attributes before an event with a bool of two": (
        piece(9, b""), in_span(behind=piece(11, TWICE_COUNTED + piece(3, BOOL_OF_TWO))), 5),
    "attributes behind one that is read alone": (piece(9, b""), in_span(before=piece(9, AN_ARRAY_IN_EACH)), 5),
    "one text in lists of two values": (b"v", in_lists_of_two_values, 7),
    "attributes of a resource that is read": (EMPTY, under(piece(1, TWO_ARRAYS)), 76),
    "lists in lists of a resource that is read": (lists(1), under(piece(1, TWO_ARRAYS)), 32),
    "attributes of a span that is read": (piece(9, b""), in_span(before=2 * piece(9, TWO_ARRAYS)), 76),
}


def body_of(again):
    """So many of them as a body has."""
    if isinstance(again, bytes):
        return again * (BODY // len(again))
    made, numbers = bytearray(), count(1)
    while len(made) < BODY:
        made += again(next(numbers))
    return bytes(made)


def bytes_of(process, name):
    """What the system says of a process's memory under this name, in bytes."""
    status = Path(f"/proc/{process}/status").read_text()
    return 1024 * int(re.search(rf"{name}:\s*(\d+)", status)[1])


def addresses(process):
    """How many bytes of addresses a process has."""
    return bytes_of(process, "VmSize")


def accepted(service):
    """How many spans a's report counts, once all are decided."""
    counts = {}

    def is_decided():
        counts.update(re.findall(r"(\w+)=(\d+)", service.report("a")))
        return counts["undecided"] == "0"

    wait_for(is_decided, "all are decided")
    return int(counts["accepted"])


def refused_while_made_ready(folder):
    """A body is posted again and again, each time with room for more addresses, from hardly enough for its bytes to
    what it takes. Who is told 200 has all its spans counted. Before that memory is refused, also while it is made
    ready: the client is told 503, and with the same room one span is taken, so what the body took was given back.
    That is asked of a service that is up, as one is that has replied once: while it starts its threads there has to be
    room for them, else it ends, and who is connected already is told nothing."""
    text = body(1, 1) * SPANS
    with BackEnd() as back_end, Service(folder, [tenant("a", back_end, policies=ERRORS, most=10 * SPANS)], shards=1,
                                        receivers=1, senders=1, parts=1) as service:
        check("it is up", service.post("a", body(3, 3)), (200, b""))
        process = service.run.pid
        most = resource.prlimit(process, resource.RLIMIT_AS)
        counted, refused, status = accepted(service), 0, 0
        for room in ROOMS:
            resource.prlimit(process, resource.RLIMIT_AS, (addresses(process) + room, most[1]))
            status, _ = service.post("a", text)
            small, _ = service.post("a", body(2, 2)) if status == 503 else (200, b"")
            resource.prlimit(process, resource.RLIMIT_AS, most)
            check(f"what a client is told with room for {room}", (status in (200, 503), small), (True, 200))
            more = accepted(service) - counted
            counted += more
            check(f"spans counted with room for {room}", more, SPANS if status == 200 else 1)
            if status == 200:
                break
            refused += 1
        check("it is taken in the end", status, 200)
        check(f"refused {refused} times", refused >= 4, True)
        check("the end", service.end()[::2], (0, b""))


def times_its_bytes(folder, back_end, text, trace):
    """How many times its bytes a service has more at most while it makes a body ready, and the status of the reply. A
    span of the body's trace came before, and there is room for another one."""
    wait, most = trace
    with Service(folder, [tenant("a", back_end, wait=wait, policies=ERRORS, most=most)], shards=1, receivers=1, senders=1,
                 parts=1) as service:
        service.post("a", body(1, 1))
        if trace == ISNT_SAMPLED:
            accepted(service)
        process = service.run.pid
        before = bytes_of(process, "VmHWM")
        status, _ = service.post("a", text)
        return (bytes_of(process, "VmHWM") - before) / len(text), status


def most_while_made_ready(folder):
    """What a body takes while it is made ready is bounded by its bytes, whatever it is made of."""
    with BackEnd() as back_end:
        for shape, (again, round_it, most) in SHAPES.items():
            text = round_it(body_of(again))
            for trace, told in ((WAITS, "waits"), (ISNT_SAMPLED, "isn't sampled")):
                times, status = times_its_bytes(folder, back_end, text, trace)
                check(f"{shape}, of a trace that {told}: {times:.1f} times its bytes, at most {most}", times <= most, True)
                check(f"{shape}, of a trace that {told}: answered", status, 200)


def many_large_bodies(folder):
    """Twelve bodies of three tenants at once, each of which takes seven times its bytes while it is made ready, take no
    more than as many bytes as are made ready at a time do, beside their own. A small one is answered too. Threads share
    their memory, so that what one gave back isn't kept for it alone."""
    again, round_it, most = SHAPES["resource spans of a span"]
    text = round_it(again * (LARGE // len(again)))
    told = []
    with BackEnd() as back_end, Service(folder, [tenant(name, back_end, policies=ERRORS, most=1) for name in "abc"], shards=1,
                                        receivers=MANY + 1, senders=1, parts=1,
                                        under=("env", "MALLOC_ARENA_MAX=1")) as service:
        service.post("a", body(1, 1))
        before = bytes_of(service.run.pid, "VmHWM")

        def client(name, text):
            with service.connect() as peer:
                # The last one waits for all others.
                peer.settimeout(MANY * MOST)
                told.append(service.post(name, text, peer)[0])

        in_threads(*(lambda name=name, text=text: client(name, text)
                     for name, text in zip(cycle("abc"), (*[text] * MANY, body(2, 2)))))
        more = bytes_of(service.run.pid, "VmHWM") - before
    check("how many are answered", len([status for status in told if status in (200, 429)]), MANY + 1)
    check(f"{more} bytes more at most", more <= MANY * len(text) + AT_A_TIME * most, True)


# What a head says that settles its reply, and the reply's status.
FOR_A = "X-Scope-OrgID: a\r\n"
PROTOBUF = "Content-Type: application/x-protobuf\r\n"
SETTLED = {
    "another path": ("POST /v1/metrics", FOR_A + PROTOBUF, 404),
    "another method": ("PUT /v1/traces", FOR_A + PROTOBUF, 405),
    "a tenant that nobody is": ("POST /v1/traces", "X-Scope-OrgID: nobody\r\n" + PROTOBUF, 403),
    "another type": ("POST /v1/traces", FOR_A + "Content-Type: application/json\r\n", 415),
    "a body that is compressed": ("POST /v1/traces", FOR_A + PROTOBUF + "Content-Encoding: gzip\r\n", 415),
}
# How the end of a body is found: what stands before it, and behind it.
LARGEST = 20_971_520
FRAMED = {
    "by its length": (f"Content-Length: {LARGEST}\r\n\r\n", b""),
    "in chunks": (f"Transfer-Encoding: chunked\r\n\r\n{LARGEST:x}\r\n", b"\r\n0\r\n\r\n"),
}
# What connections may take, whatever is sent over them.
SMALL = 8_000_000


def bodies_that_nobody_wants(folder):
    """Clients whose heads settle their replies send the largest body there may be, but for its last byte, all at once:
    the service has hardly more for it. Behind that byte each is told why it is refused, and posts over the same
    connection."""
    ways = [(f"{why}, {how}", *settled, *framed) for why, settled in SETTLED.items() for how, framed in FRAMED.items()]
    with BackEnd() as back_end, Service(folder, [tenant("a", back_end)], receivers=len(ways) + 1) as service:
        service.post("a", body(1, 1))
        before = bytes_of(service.run.pid, "VmHWM")
        peers = [service.connect() for _ in ways]
        in_threads(*(lambda peer=peer, way=way: peer.sendall(
            f"{way[1]} HTTP/1.1\r\nHost: c\r\n{way[2]}{way[4]}".encode() + b"a" * (LARGEST - 1))
            for peer, way in zip(peers, ways)))
        more = bytes_of(service.run.pid, "VmHWM") - before
        check(f"{more} bytes more, at most {SMALL}", more <= SMALL, True)
        for number, (peer, (what, _, _, status, _, tail)) in enumerate(zip(peers, ways), 2):
            peer.sendall(b"a" + tail)
            check(what, int(read_message(peer.recv).split(b" ")[1]), status)
            check(f"a post behind {what}", service.post("a", body(number, 1), peer), (200, b""))
            peer.close()
        check("spans that were taken", accepted(service), len(ways) + 1)


# A tenant that remembers two traces that it decided, and has one row. With these policies none is sampled.
REMEMBERS = f"num_traces = 1\n[tenant.tail_sampling.decision_cache]\nnon_sampled_cache_size = 2\n{ERRORS}"
# So many bytes more than behind the second tenant's late spans a process may have behind the last one's: for the late spans
# of one tenant was room of as many.
KEPT = 8_000_000


def late_spans_leave_nothing(folder):
    """Tenants post hundreds of thousands of spans each of a trace that they decided and of which only its id is left.
    Behind the replies nothing is kept of them."""
    names = [f"a{number}" for number in range(6)]
    late, told = in_scope(SPAN * (LARGE // len(SPAN))), []
    with BackEnd() as back_end:
        sections = [tenant(name, back_end, policies=REMEMBERS, most=10) for name in names]
        with Service(folder, sections, shards=1, receivers=1, senders=1, parts=1,
                     under=("env", "MALLOC_ARENA_MAX=1")) as service:
            for name in names:
                for trace in (1, 2):
                    check(f"trace {trace} of {name}", service.post(name, body(trace, 2)), (200, b""))
                    wait_for(lambda name=name: "undecided=0" in service.report(name), "it is decided")
                check(f"late spans of {name}", service.post(name, late), (200, b""))
                told.append(bytes_of(service.run.pid, "VmRSS"))
    check(f"{told[-1] - told[1]} bytes more, at most {KEPT}", told[-1] - told[1] <= KEPT, True)


# A resource of so many bytes has two scopes that take turns, so many times, with a span each. Where room for the batch were
# asked for by scopes, this were 820 MB; so many bytes of addresses more it may take, which threads' heaps reserve too.
RESOURCE, TURNS, ADDRESSES = 100_000, 4_096, 400_000_000


def a_resource_has_room_once(folder):
    """A batch in which two scopes of a large resource take turns leaves, and room was asked for its resource once."""
    resource = piece(1, piece(1, piece(1, b"a" * RESOURCE)))
    scopes = b"".join(piece(2, piece(1, piece(1, name)) + SPAN) for name in (b"one", b"other"))
    with BackEnd() as back_end, Service(folder, [tenant("a", back_end)], shards=1, receivers=1, senders=1, parts=1) as service:
        service.post("a", body(2, 2))
        wait_for(lambda: "exported=1 " in service.report("a"), "the first batch is sent")
        before = bytes_of(service.run.pid, "VmPeak")
        check("it is taken", service.post("a", piece(1, resource + scopes * TURNS)), (200, b""))
        wait_for(lambda: f"exported={2 * TURNS + 1} " in service.report("a"), "it is sent")
        more = bytes_of(service.run.pid, "VmPeak") - before
    check(f"{more} bytes of addresses more, at most {ADDRESSES}", more <= ADDRESSES, True)


# Each of so many traces has a span under each of two resources of so many bytes, so that a batch of them has the resources
# in turn: 819 MB, of 32 MiB that a batch may have.
TRACES, ONE_RESOURCE = 4_096, 100_000


def two_resources_in_turn(traces=TRACES):
    def under(letter, first):
        spans = (piece(2, piece(1, b"%016d" % trace) + piece(2, b"%08d" % (first + trace))) for trace in range(1, traces + 1))
        return piece(1, piece(1, piece(1, piece(1, letter * ONE_RESOURCE))) + piece(2, b"".join(spans)))

    return under(b"a", 0) + under(b"b", traces)


def a_batch_has_a_bound(folder):
    """A batch that would be larger than any may be isn't written, by a timer or by the drain at the end: its spans are
    dropped as those that meet a full queue, what others send leaves, and the service ends."""
    dropped, text = 2 * TRACES, two_resources_in_turn()
    with BackEnd() as back_end:
        sections = [tenant("a", back_end, timeout=50, batch=2 * dropped), tenant("b", back_end),
                    tenant("c", back_end, timeout=60_000, batch=2 * dropped)]
        with Service(folder, sections, shards=1, receivers=1, senders=1, parts=1) as service:
            check("one span", service.post("b", body(1, 1)), (200, b""))
            wait_for(lambda: "exported=1 " in service.report("b"), "the first batch is sent")
            before = bytes_of(service.run.pid, "VmPeak")
            check("two resources in turn", service.post("a", text), (200, b""))
            wait_for(lambda: f"queue_full={dropped} " in service.report("a"), "the timer dropped the batch")
            check("another's span", service.post("b", body(2, 2)), (200, b""))
            wait_for(lambda: "exported=2 " in service.report("b"), "it is sent")
            check("two resources that wait", service.post("c", text), (200, b""))
            wait_for(lambda: f"pending={dropped} " in service.report("c"), "they are decided")
            more = bytes_of(service.run.pid, "VmPeak") - before
            told = line_of("a", accepted=dropped, queue_full=dropped) + line_of("b", accepted=2, exported=2)
            told += line_of("c", accepted=dropped, queue_full=dropped)
            check("the end", service.end(), (0, told, b""))
    check(f"{more} bytes of addresses more, at most {ADDRESSES}", more <= ADDRESSES, True)


# A batch of so many of these traces has 30 MB.
SOME_TRACES = 150


def a_full_queue_takes_no_memory(folder):
    """Where the queue is full a batch isn't written: what a large one takes is less than half of its bytes."""
    size, spans = 2 * SOME_TRACES * ONE_RESOURCE, 2 * SOME_TRACES
    with BackEnd(None) as back_end, Service(folder, [tenant("a", back_end, timeout=50, batch=2 * spans, queue=1)], shards=1,
                                            receivers=1, senders=1, parts=1) as service:
        for where in ("active", "queued"):
            check(f"the one that is {where}", service.post("a", body(1, 1)), (200, b""))
            wait_for(lambda where=where: f"{where}=1 " in service.report("a"), f"it is {where}")
        before = bytes_of(service.run.pid, "VmHWM")
        check("two resources in turn", service.post("a", two_resources_in_turn(SOME_TRACES)), (200, b""))
        wait_for(lambda: f"queue_full={spans} " in service.report("a"), "the batch is dropped")
        more = bytes_of(service.run.pid, "VmHWM") - before
    check(f"{more} bytes more, less than {size // 2}", more < size // 2, True)


# So many bodies of so many bytes, of one span each under a resource of its own, of which no span is kept; and so many times
# a span each under the same resources, so that some span has them at all times.
BODIES, AGAIN = 8, 12
# A body that goes gives its memory back at once: the C library maps each alone, and no heap keeps it.
MAPPED = ("MALLOC_ARENA_MAX=1", "MALLOC_MMAP_THRESHOLD_=131072")


def bodies_leave_with_their_spans(folder):
    """What a body had beside the texts of its resources is let go with its spans, also while later spans have the same
    resources."""
    def under(number, trace, more=b""):
        span = piece(2, piece(1, b"%016d" % trace) + piece(2, b"%08d" % trace) + more)
        return piece(1, piece(1, piece(1, piece(1, b"%d" % number))) + piece(2, span))

    with BackEnd() as back_end, Service(folder, [tenant("a", back_end, wait=400, policies=ERRORS)], shards=1, receivers=1,
                                        senders=1, parts=1, under=("env", *MAPPED)) as service:
        check("one span", service.post("a", body(1, 1)), (200, b""))
        before = bytes_of(service.run.pid, "VmRSS")
        for number in range(1, BODIES + 1):
            text = under(number, number, piece(5, b"n" * BODY))
            check(f"body {number}", service.post("a", text), (200, b""))
        for time in range(1, AGAIN + 1):
            text = b"".join(under(number, BODIES * time + number) for number in range(1, BODIES + 1))
            check(f"the resources for the {time}th time", service.post("a", text), (200, b""))
            sleep(0.1)
        wait_for(lambda: int(service.report("a").split("not_sampled=")[1].split(" ")[0]) > BODIES, "the large spans are dropped")
        more = bytes_of(service.run.pid, "VmRSS") - before
    check(f"{more} bytes more, at most {BODY * BODIES // 2}", more <= BODY * BODIES // 2, True)


TESTS = (a_batch_has_a_bound, a_full_queue_takes_no_memory, bodies_leave_with_their_spans, a_resource_has_room_once,
         late_spans_leave_nothing, refused_while_made_ready, most_while_made_ready, many_large_bodies, bodies_that_nobody_wants)
