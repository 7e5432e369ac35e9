"""What the admin port tells of tenants and of the whole service, for Prometheus and as JSON."""

import resource
import time
from pathlib import Path

from serving import talk
from serving.admin import EMPTY, AdminService, figures, gone
from serving.exposition import families
from serving.memory import ROOMS, SPANS, addresses
from serving.talk import BUSY, MOST, NAMES, BackEnd, body, check, head_of, read_message, tenant, wait_for

GAUGES = ("undecided", "pending", "queued", "active")
OF_SERVICE = {"gauge": ("nimchaes_build_info", "nimchaes_tenants", "nimchaes_draining", "nimchaes_receivers",
                        "nimchaes_connections_open", "nimchaes_lane_jobs", "nimchaes_lane_capacity",
                        "nimchaes_senders", "nimchaes_senders_busy", "otelcol_process_memory_rss_bytes"),
              "counter": ("otelcol_process_uptime_seconds_total", "nimchaes_memory_refusals_total",
                          "nimchaes_connections_total", "nimchaes_received_bytes_total", "nimchaes_sent_bytes_total",
                          "nimchaes_requests_total", "nimchaes_turns_total", "nimchaes_idle_turns_total",
                          "nimchaes_retries_total", "nimchaes_back_end_answers_total")}
METRICS = {"accepted": "otelcol_receiver_accepted_spans_total", "exported": "otelcol_exporter_sent_spans_total",
           "queue_full": "otelcol_exporter_enqueue_failed_spans_total"}
# Gauges of how full a tenant is, by their words in JSON. The Collector's tail sampling processor has the first of the
# traces that it has in memory, and its exporters have two of the batches in their queues.
USAGE = {"rows": "otelcol_processor_tail_sampling_sampling_traces_on_memory",
         "undecided_rows": "nimchaes_undecided_traces", "rows_limit": "nimchaes_traces_limit",
         "spans_limit": "nimchaes_spans_limit",
         "queued_batches": "otelcol_exporter_queue_size", "queued_batches_limit": "otelcol_exporter_queue_capacity",
         "queued_bytes": "nimchaes_queued_bytes", "queued_bytes_limit": "nimchaes_queued_bytes_limit"}
# What is told where spans come in (docs/HTTP.md), and what all else is counted under.
STATUSES = ("200", "400", "403", "404", "405", "413", "415", "429", "431", "503", "other")
# So many scrapes are measured, one a second, and as many seconds of rest.
SCRAPES = 10


def check_moments(service, family):
    """Something of the one tenant that waits is due a day after its post, which came after the start; by JSON too."""
    check("its moment is", family.kind, "gauge")
    check("its moment has help", bool(family.help), True)
    check("who waits", list(family.samples), [(("tenant", "e"),)])
    moment = family.samples[("tenant", "e"),]
    uptime = service.metric("otelcol_process_uptime_seconds_total")
    check(f"a day after {moment - 86_400} of {uptime}", 86_400 <= moment < 86_400 + uptime + 1, True)
    check("in milliseconds", [row["ready_at_ms"] for row in service.told("/tenants")[1]["tenants"]],
          [None, round(moment * 1000)])
    check("of it alone", service.told("/tenants/e")[1]["ready_at_ms"], round(moment * 1000))


def check_answers(service, found):
    """The one tenant whose spans were sent was told 200 last, and when, in families of their own, which are taken out;
    by JSON too. Of the other, whose back end wasn't asked, there is no sample."""
    status, moment = found.pop("nimchaes_back_end_last_status"), found.pop("nimchaes_back_end_last_status_uptime_seconds")
    for family in (status, moment):
        check("an answer is", family.kind, "gauge")
        check("an answer has help", bool(family.help), True)
    whose = (("tenant", "a.b-c_D"),)
    check("who answered", status.samples, {whose: 200.0})
    check("whose moment", list(moment.samples), [whose])
    uptime = service.metric("otelcol_process_uptime_seconds_total")
    check(f"at {moment.samples[whose]} of {uptime}", 0 < moment.samples[whose] < uptime + 1, True)
    check("answers in JSON", [(row["back_end_status"], row["back_end_status_at_ms"])
                              for row in service.told("/tenants")[1]["tenants"]],
          [(200, round(moment.samples[whose] * 1000)), (None, None)])


def check_usage(service, found, wanted):
    """How full these tenants are, in families of their own, which are taken out; by JSON too."""
    for word, metric in USAGE.items():
        family = found.pop(metric)
        check(f"type of {metric}", family.kind, "gauge")
        check(f"{metric} has help", bool(family.help), True)
        check(metric, family.samples, {(("tenant", name),): float(usage[word]) for name, usage in wanted.items()})
    check("usage in JSON", {row["tenant"]: {word: row[word] for word in USAGE}
                            for row in service.told("/tenants")[1]["tenants"]}, wanted)
    for name, usage in wanted.items():
        told = service.told(f"/tenants/{name}")[1]
        check(f"usage of {name} alone", {word: told[word] for word in USAGE}, usage)


def scraped(folder):
    """Metrics have the form that is documented, and say what reports say."""
    with BackEnd() as back_end, \
            AdminService(folder, [tenant("a.b-c_D", back_end), tenant("e", back_end, wait=86_400_000)]) as service:
        for name, spans in (("a.b-c_D", 3), ("e", 2)):
            for span in range(1, spans + 1):
                check("a post", service.post(name, body(span, span)), (200, b""))
        wait_for(lambda: service.told("/tenants/a.b-c_D")[1]["exported"] == 3, "the first one's are sent")
        found = families(service.ask("/metrics")[2].decode())
        wanted = {"a.b-c_D": {"accepted": 3, "exported": 3}, "e": {"accepted": 2, "undecided": 2}}
        for word in NAMES:
            metric = METRICS.get(word, f"nimchaes_{word}_spans" + ("" if word in GAUGES else "_total"))
            family = found.pop(metric)
            check(f"type of {metric}", family.kind, "gauge" if word in GAUGES else "counter")
            check(f"{metric} has help", bool(family.help), True)
            check(metric, family.samples, {(("tenant", name),): float(counts.get(word, 0))
                                           for name, counts in wanted.items()})
        check_usage(service, found, {"a.b-c_D": EMPTY | {"rows": 3}, "e": EMPTY | {"rows": 2, "undecided_rows": 2}})
        check_moments(service, found.pop("nimchaes_ready_uptime_seconds"))
        check_answers(service, found)
        check("of the service", {name: family.kind for name, family in found.items()},
              {name: kind for kind, names in OF_SERVICE.items() for name in names})
        check("they have help", all(family.help for family in found.values()), True)
        check("tenants", found["nimchaes_tenants"].samples, {(): 2.0})
        check("not draining", found["nimchaes_draining"].samples, {(): 0.0})
        check("what runs", found["nimchaes_build_info"].samples, {(("version", "0.1.0"),): 1.0})
        service.drained()


def filled(folder):
    """A queue is full, in batches or in bytes, rows are, and the budget of spans is, before the next batch, trace or span
    is lost. Once a queue is drained its bytes are told no more, and nothing bounds them. A batch of one span has 34."""
    few = tenant("rows", BackEnd(), wait=86_400_000).replace("decision_wait_ms", "num_traces = 2\ndecision_wait_ms")
    with BackEnd(None) as held, BackEnd(BUSY) as busy, AdminService(
            folder, [tenant("queue", held, queue=2), tenant("bytes", held, queue=3), tenant("again", busy, queue=2, retry=200_000),
                     few, tenant("spans", held, wait=86_400_000, most=3)], "--queue-bytes", "70", senders=4) as service:
        def told(name, *words):
            row = service.told(f"/tenants/{name}")[1]
            return tuple(row[word] for word in words)

        def post(name, number, status=200):
            check(f"post {number} of {name}", service.post(name, body(number, number))[0], status)

        # Each trace is a batch: the first is on its way, two wait, and a further one is dropped.
        queue = ("accepted", "active", "queued_batches", "queued_bytes", "queue_full", "queued_batches_limit", "queued_bytes_limit")
        for name, *limits in (("queue", 2, 70), ("bytes", 3, 70)):
            for number, wanted in enumerate(((1, 1, 0, 0, 0), (2, 1, 1, 34, 0), (3, 1, 2, 68, 0), (4, 1, 2, 68, 1)), 1):
                post(name, number)
                wait_for(lambda: told(name, "undecided", "pending") == (0, 0), "it is decided")
                wait_for(lambda: told(name, *queue) == (*wanted, *limits), f"{number} in a queue")
        # A batch that waits to be sent again has a consumer, and is none that the queue has.
        post("again", 1)
        wait_for(lambda: busy.posts and told("again", "ready_at_ms")[0], "it is to be sent again")
        check("none in the queue", told("again", *queue), (1, 1, 0, 0, 0, 2, 70))
        post("again", 2)
        wait_for(lambda: told("again", *queue) == (2, 1, 1, 34, 0, 2, 70), "the next one waits")
        rows = ("rows", "undecided_rows", "rows_limit", "too_early")
        for number, wanted in enumerate(((1, 1, 2, 0), (2, 2, 2, 0), (2, 2, 2, 1)), 1):
            post("rows", number)
            check(f"{number} traces", told("rows", *rows), wanted)
        spans = ("undecided", "pending", "spans_limit", "over_budget")
        for number, (status, *wanted) in enumerate(((200, 1, 0, 3, 0), (200, 2, 0, 3, 0), (200, 3, 0, 3, 0),
                                                    (429, 3, 0, 3, 0)), 1):
            post("spans", number, status)
            check(f"{number} spans", told("spans", *spans), tuple(wanted))
        for name, *wanted in (("queue", 2.0, 2.0, 68.0, 70.0), ("bytes", 2.0, 3.0, 68.0, 70.0), ("again", 1.0, 2.0, 34.0, 70.0)):
            check(f"{name} by metrics", [service.metric(metric, tenant=name) for word, metric in USAGE.items() if "queued" in word],
                  wanted)
        check("a drain", service.told("/drain", "POST"), (200, {"state": "draining"}))
        wait_for(lambda: told("queue", *queue) == (4, 1, 2, 0, 1, 2, 2 ** 42), "bytes bound nothing then")


def in_force(folder):
    """A tenant's settings are those of its document, and those that it doesn't have are the defaults."""
    document = '''[[tenant]]
name = "new"
max_spans = 7
[tenant.batch]
timeout_ms = 9
[[tenant.tail_sampling.policy]]
type = "string_attribute"
key = "a\\"b"
values = ["x"]
'''
    with BackEnd() as back_end, AdminService(folder, [tenant("a", back_end)]) as service:
        check("its endpoint", service.told("/tenants/a")[1]["settings"]["endpoint"], f"127.0.0.1:{back_end.port}")
        check("it comes", service.told("/tenants", "POST", document.encode())[0], 201)
        service.hear()
        check("all of it", service.told("/tenants/new"), (200, figures("new", EMPTY | {"spans_limit": 7}) | {"settings": {
            "endpoint": "127.0.0.1:4319", "max_spans": 7, "seed": 0,
            "tail_sampling": {"decision_wait_ms": 30000, "num_traces": 50000,
                              "decision_cache": {"sampled_cache_size": 0, "non_sampled_cache_size": 0},
                              "policy": [{"type": "string_attribute", "key": 'a"b', "values": ["x"]}]},
            "batch": {"send_batch_size": 8192, "timeout_ms": 9, "send_batch_max_size": 0},
            "sending_queue": {"queue_size": 1000, "num_consumers": 10},
            "retry_on_failure": {"initial_interval_ms": 5000, "max_interval_ms": 30000, "max_elapsed_time_ms": 300000,
                                 "multiplier": 1500, "randomization_factor": 500}}}))
        check("it goes", service.told("/tenants/new", "DELETE")[0], 200)
        check("nobody", service.told("/tenants/new")[0], 404)
        service.hear()
        check("the end", service.drained()[0], 0)


def count_requests(service):
    """Connections, requests and bytes are those of one client."""
    check("none yet", service.metric("nimchaes_connections_total"), 0.0)
    sent = [head_of("a", len(body(1, span))) + body(1, span) for span in (1, 2)]
    sent.append(b"GET /x HTTP/1.1\r\nHost: a\r\n\r\n")
    with service.connect() as peer:
        got = b""
        for message in sent:
            peer.sendall(message)
            got += read_message(peer.recv)
        wait_for(lambda: service.metric("nimchaes_sent_bytes_total") == len(got), "its replies were sent")
        check("open", service.metric("nimchaes_connections_open"), 1.0)
        check("in", service.metric("nimchaes_received_bytes_total"), float(len(b"".join(sent))))
        peer.sendall(b"no HTTP\r\n\r\n")
        check("bad", read_message(peer.recv).split(b" ")[1], b"400")
    wait_for(lambda: service.metric("nimchaes_connections_open") == 0, "it has ended")
    check("taken", service.metric("nimchaes_connections_total"), 1.0)
    check("by their statuses", service.requests(), {**dict.fromkeys(STATUSES, 0), "200": 2, "404": 1, "400": 1})


def count_batches(service, busy, held):
    """Answers, retries and senders are those that back ends see: one that takes all, a busy one, and one that waits."""
    def answers(kind):
        return service.metric("nimchaes_back_end_answers_total", **{"class": kind})

    wait_for(lambda: answers("2xx") > 0, "it is sent")
    idle, turns = (service.metric(f"nimchaes_{name}_total") for name in ("idle_turns", "turns"))
    check(f"{turns} turns, of which {idle} found nothing", 0 < idle < turns, True)
    check("none again", service.metric("nimchaes_retries_total"), 0.0)
    check("a post", service.post("busy", body(3, 3)), (200, b""))
    wait_for(lambda: service.metric("nimchaes_retries_total") > 1, "it is sent again")
    check("told so", answers("5xx") > 1, True)
    busy.reply = talk.TAKEN
    wait_for(lambda: service.told("/tenants/busy")[1]["exported"] == 1, "it is taken")
    check("a post", service.post("held", body(4, 4)), (200, b""))
    wait_for(lambda: service.metric("nimchaes_senders_busy") == 1, "it is held")
    check("none waits", service.metric("nimchaes_lane_jobs"), 0.0)
    held.release()
    wait_for(lambda: service.metric("nimchaes_senders_busy") == 0, "it is let go")


def counted(folder):
    """What the service counts of its connections, requests, bytes and batches is what its clients and back ends see."""
    with BackEnd() as back_end, BackEnd(BUSY) as busy, BackEnd(None) as held, \
            AdminService(folder, [tenant("a", back_end), tenant("busy", busy), tenant("held", held)]) as service:
        count_requests(service)
        count_batches(service, busy, held)
        resident = int(Path(f"/proc/{service.run.pid}/status").read_text().split("VmRSS:")[1].split()[0]) * 1024
        told = service.metric("otelcol_process_memory_rss_bytes")
        check(f"memory: {told} and {resident}", 0.8 < told / resident < 1.25, True)
        check("the end", service.drained()[0], 0)


class Clients:
    """Clients of a service, and how often they were told each status."""

    def __init__(self, service):
        self.service = service
        self.told = dict.fromkeys(STATUSES, 0)

    def tell(self, status, text, peer=None):
        """Sends a message, over a connection of its own where none is given, which is to be told this status."""
        if peer is None:
            with self.service.connect() as own:
                self.tell(status, text, own)
                return
        peer.sendall(text)
        check(f"told {status}", read_message(peer.recv)[9:12].decode(), status)
        self.told[status] += 1

    def check_counts(self, when):
        """All that was told is counted, and nothing else."""
        wait_for(lambda: sum(self.service.requests().values()) == sum(self.told.values()), f"all are counted {when}")
        check(f"by their statuses {when}", self.service.requests(), self.told)

    def is_told_the_end(self, peer):
        """Whether a post is told by now that the service ends."""
        status, _ = self.service.post("a", body(4, 4), peer)
        self.told[str(status)] += 1
        return status == 503


def without_memory(clients):
    """A large body is told that there is no memory for it, which the service has for little more than it takes at rest."""
    run, large = clients.service.run, body(1, 1) * SPANS
    most = resource.prlimit(run.pid, resource.RLIMIT_AS)
    resource.prlimit(run.pid, resource.RLIMIT_AS, (addresses(run.pid) + ROOMS[0], most[1]))
    clients.tell("503", head_of("a", len(large)) + large)
    resource.prlimit(run.pid, resource.RLIMIT_AS, most)


def each_status(folder):
    """Each status is counted under its own label, as often as clients are told it: of want of memory and after a drain
    too."""
    asked = (("200", head_of("a", 34) + body(1, 1)), ("400", head_of("a", 1) + b"\xff"), ("403", head_of("b", 0)),
             ("404", b"GET /x HTTP/1.1\r\nHost: c\r\n\r\n"), ("405", b"GET /v1/traces HTTP/1.1\r\nHost: c\r\n\r\n"),
             ("413", head_of("a", 20_971_521)), ("415", head_of("a", 0, "Content-Encoding: gzip\r\n")),
             ("429", head_of("full", 34) + body(2, 2)), ("431", b"GET / HTTP/1.1\r\n" + b"a: b\r\n" * 65 + b"\r\n"))
    with BackEnd() as back_end, BackEnd(None) as held, AdminService(
            folder, [tenant("a", back_end), tenant("full", back_end, wait=86_400_000, most=1), tenant("held", held)],
            parts=1) as service:
        clients = Clients(service)
        check("none yet", list(service.requests().items()), list(clients.told.items()))
        with service.connect() as kept:
            for name, times in (("full", 1), ("held", 1), ("a", 12)):
                for _ in range(times):
                    clients.tell("200", head_of(name, 34) + body(3, 3), kept)
            # Each a number of times of its own.
            for times, (status, text) in enumerate(asked, 1):
                for _ in range(times):
                    clients.tell(status, text)
            clients.check_counts("of each")
            without_memory(clients)
            clients.check_counts("without memory")
            wait_for(lambda: held.posts, "a batch is held")
            check("a drain", service.told("/drain", "POST"), (200, {"state": "draining"}))
            wait_for(lambda: clients.is_told_the_end(kept), "the service ends")
            clients.check_counts("after a drain")
        held.release()
        check("the end", service.run.wait(MOST), 0)


def last_answer(service, name):
    """What the back end of the tenant of this name answered last, and when."""
    row = service.told(f"/tenants/{name}")[1]
    return row["back_end_status"], row["back_end_status_at_ms"]


def answers_in_turn(service, bank):
    """Of a back end that is busy, then refuses, and then takes what comes each answer is told, with a later moment."""
    missing = b"HTTP/1.1 404 Not Found\r\nContent-Length: 0\r\n\r\n"
    moments = [0]
    for number, (reply, status, place) in enumerate(((BUSY, 503, "active"), (missing, 404, "back_end_refused"),
                                                     (talk.TAKEN, 200, "exported")), 1):
        bank.reply = reply
        # The batch that was answered 503 is sent again, and then refused.
        if status != 404:
            check("a post", service.post("bank", body(number, number)), (200, b""))
        wait_for(lambda s=status, p=place: last_answer(service, "bank")[0] == s
                 and service.told("/tenants/bank")[1][p] == 1, f"it is told {status}")
        if status != 503:
            moments.append(last_answer(service, "bank")[1])
    check("later and later", 0 < moments[1] < moments[2], True)
    uptime = service.metric("otelcol_process_uptime_seconds_total")
    check(f"{moments[2]} of {uptime}", moments[2] < 1000 * (uptime + 1), True)


def answered_last(folder):
    """What a tenant's back end answered last is told of this tenant, and when: a status, or 0 where it ended early or
    isn't there. Of one that comes under the name of one that went nothing is told."""
    with BackEnd(BUSY) as bank, BackEnd(unread=1 << 30) as early:
        nobody = BackEnd()
        sections = {name: tenant(name, back_end) for name, back_end in
                    (("bank", bank), ("early", early), ("nobody", nobody), ("idle", bank))}
        with AdminService(folder, sections.values()) as service:
            for name in sections:
                check(f"nothing of {name}", last_answer(service, name), (None, None))
            answers_in_turn(service, bank)
            for name in ("early", "nobody"):
                check("a post", service.post(name, body(9, 9)), (200, b""))
                wait_for(lambda n=name: last_answer(service, n)[0] == 0, f"{name} gave no whole answer")
                check("at a moment", last_answer(service, name)[1] > 0, True)
            check("of nobody else", (last_answer(service, "bank")[0], last_answer(service, "idle")), (200, (None, None)))
            check("it goes", service.told("/tenants/bank", "DELETE"), (200, gone("bank", accepted=2, exported=1,
                                                                               back_end_refused=1)))
            check("it comes", service.told("/tenants", "POST", sections["bank"].encode()), (201, {"tenant": "bank"}))
            check("nothing of it", last_answer(service, "bank"), (None, None))
            early.unread = 0
            with nobody:
                check("the end", service.drained()[0], 0)


def scraped_often(folder):
    """A thousand tenants scraped each second cost less than 2 of 100 of a processor: prints how much, beside rest."""
    with BackEnd() as back_end, AdminService(folder, [tenant(f"tenant-{n}", back_end) for n in range(1000)]) as service:
        # The clock of the processor time of all its threads, to the nanosecond: clock_getcpuclockid(3).
        clock = ~service.run.pid << 3 | 2
        start = time.clock_gettime(clock)
        time.sleep(SCRAPES)
        rest, start = time.clock_gettime(clock) - start, time.clock_gettime(clock)
        longest = 0
        for _ in range(SCRAPES):
            begun = time.monotonic()
            content = service.ask("/metrics")[2].decode()
            took = time.monotonic() - begun
            longest = max(longest, took)
            time.sleep(max(0, 1 - took))
        cost = (time.clock_gettime(clock) - start - rest) / SCRAPES
        print(f"1,000 tenants: {100 * cost:.2f} of 100 of a processor for a scrape of {len(content):,} bytes a second, "
              f"{100 * rest / SCRAPES:.2f} at rest, {longest:.3f} s the longest")
        check("less than 2 of 100", cost < 0.02, True)
        check("all are there", len(families(content)["nimchaes_pending_spans"].samples), 1000)
        check("the end", service.drained()[0], 0)


TESTS = (scraped, filled, in_force, counted, each_status, answered_last)
BY_HAND = (scraped_often,)
