"""Settings, scripts, and the lines that a replay of them has to print, by chance from a seed."""

from model import toml
from model.bodies import Origin, Span
from model.pipeline import CACHES, DAY, Pipeline, Shards
from replay.make_script import piece

# What an answer's body says of spans that weren't taken. The last ones are no responses, or say nothing of spans.
REJECTED = {b"": 0, b"\x0a\x02\x08\x01": 1, b"\x0a\x02\x08\x05": 5, b"\x0a\x02\x08\x03\x0a\x02\x08\x02": 2,
            b"\x0a\x05\x08\x02\x12\x01z": 2, b"\x0a\x0b\x08" + b"\xff" * 9 + b"\x01": 0, b"\x0a": 0, b"\x08\x01": 0,
            b"\x0a\x05\x08\x02\x12\x01\xff": 0}
START = 10**15
LAST_MOMENTS = (2**62, 2**62 + 1, 10**19 - 1)
TABLES = {"tail_sampling": ("decision_wait_ms", "num_traces", "decision_cache", "policy"),
          "batch": ("send_batch_size", "timeout_ms", "send_batch_max_size"),
          "sending_queue": ("queue_size", "num_consumers"),
          "retry_on_failure": ("initial_interval_ms", "max_interval_ms", "max_elapsed_time_ms", "multiplier",
                               "randomization_factor")}


def leaf(chance):
    kind = chance.choice(("always_sample", "always_sample", "latency", "status_code", "string_attribute",
                          "numeric_attribute"))
    policy = {"type": kind}
    if kind == "latency":
        policy["threshold_ms"] = chance.choice((0, 1, 2, 1000))
    elif kind == "status_code":
        policy["status_codes"] = chance.sample(("OK", "ERROR", "UNSET"), chance.randint(1, 3))
    elif kind == "string_attribute":
        policy |= {"key": chance.choice("km"), "values": chance.sample(("v", "w", "", "1"), chance.randint(1, 2))}
    elif kind == "numeric_attribute":
        least, most = chance.choice(((0, 5), (-2**63, -1), (1, 2**63 - 1), (3, 2), (0, 0)))
        policy |= {"key": chance.choice("km"), "min_value": least, "max_value": most}
    return policy


def policy_of(chance):
    if chance.random() < 0.75:
        return leaf(chance)
    return {"type": "and", "and_sub_policy": [leaf(chance) for _ in range(chance.randint(1, 3))]}


def decision_cache(chance):
    return {name: chance.choice((0, 1, 2, 3)) for name in CACHES.values() if chance.random() < 0.8}


def tenant_settings(chance):
    """Small ones, so that each limit is met within a few steps."""
    size = chance.choice((1, 2, 3, 4, 8, 8192))
    return {"max_spans": chance.choice((1, 2, 5, 20, 100, 1000)), "decision_wait_ms": chance.choice((1, 5, 10, 1000)),
            "num_traces": chance.choice((1, 2, 3, 5, 100, 100)), "decision_cache": decision_cache(chance),
            "policy": [policy_of(chance) for _ in range(chance.randint(1, 2))],
            "send_batch_size": size, "timeout_ms": chance.choice((0, 1, 5, 20, 50, 200)),
            "send_batch_max_size": chance.choice((0, size, size, size + 1)),
            "queue_size": chance.choice((1, 2, 3, 1000)), "num_consumers": chance.choice((1, 1, 2, 10)),
            "initial_interval_ms": chance.choice((1, 5, 1000)), "max_interval_ms": chance.choice((1, 7, 30_000)),
            "max_elapsed_time_ms": chance.choice((0, 0, 10, 50, 300_000)),
            "multiplier": chance.choice((1000, 1500, 2001)), "randomization_factor": chance.choice((0, 333, 500, 1000))}


def tables(pipelines):
    return [{"name": one.name, "max_spans": one.how["max_spans"],
             **{table: {key: one.how[key] for key in keys} for table, keys in TABLES.items()}} for one in pipelines]


def document(pipelines, shards, parts):
    return toml.document({"global": {"shards": shards, "parts": parts}, "tenant": tables(pipelines)})


def any_origin(chance):
    resource = chance.choice((None, None, [], [("k", "v")], [("m", 1), ("k", "w")]))
    scope = chance.choice((None, None, b"", piece(1, b"s")))
    return Origin(resource, chance.choice((b"", b"", b"u")), scope, chance.choice((b"", b"", b"x")))


def any_span(chance, origin):
    """One of four traces; one in twelve has no sound id."""
    trace, own = bytes([chance.randint(1, 4)]) * 16, bytes([chance.randint(1, 250)]) * 8
    which = chance.randrange(24)
    if which == 0:
        trace = chance.choice((b"", bytes(16), b"\1" * 15, b"\1" * 17))
    elif which == 1:
        own = chance.choice((b"", bytes(8), b"\1" * 7, b"\1" * 9))
    start = chance.choice((0, START, START + 999_999, START + 1_000_000))
    end = chance.choice((0, start, start + 999_999, start + 1_000_000, start + 2_000_000, start + 10**9))
    values = ("v", "w", "", 0, 1, 5, -1, 2**63 - 1, -2**63, b"", b"\x10\x01")
    count = chance.choice((0, 0, 1, 2, 3))
    attributes = [(chance.choice(("k", "m", "kk")), chance.choice(values)) for _ in range(count)]
    return Span(origin, trace, own, (start, end), chance.choice((None, None, 0, 1, 2, 3, -1)), attributes)


def any_body(chance):
    """A body's bytes and spans. Some spans have an id twice, of which the last counts."""
    text, spans = b"", []
    for _ in range(chance.choice((0, 1, 1, 1, 2))):
        origin = any_origin(chance)
        some = [any_span(chance, origin) for _ in range(chance.choice((0, 1, 1, 2, 3, 8)))]
        texts = [piece(2, b"\7" * 8) + span.text if span.own and chance.random() < 0.1 else span.text for span in some]
        scope = piece(2, origin.open_scope() + b"".join(piece(2, one) for one in texts) + piece(3, origin.scope[1]))
        text += piece(1, origin.open_resource() + scope + piece(3, origin.resource[1]))
        spans += some
    return text, spans


class Story:
    """A script that grows, with the lines that it has to print."""

    def __init__(self, chance):
        self.chance = chance
        self.pipelines = [Pipeline(name, tenant_settings(chance)) for name in "abcd"[:chance.randint(1, 4)]]
        self.present = list(self.pipelines)
        self.count = chance.randint(1, 3)
        self.shards = Shards(self.pipelines, self.count)
        self.settings = document(self.pipelines, self.count, chance.choice((1, 2, 3, 16)))
        self.now = 0
        self.script, self.lines = [], []
        for _ in range(chance.randint(20, 200)):
            self.step()
        for one in self.present:
            self.report(one, self.now)
        if chance.random() < 0.3:
            self.stray()

    def put(self, command, line):
        self.script.append(command)
        self.lines.append(line)

    def moment(self):
        """Mostly the next one, at times an earlier or a much later one; now and then a day has gone."""
        chance = self.chance
        self.now += chance.choice((0, 0, 0, 1, 1, 2, 4, 5, 5, 10, 50, 1000))
        which = chance.randrange(500)
        if which == 0:
            return chance.choice(LAST_MOMENTS)
        if which < 4:
            self.now += 1000 * DAY
        return chance.choice((0, max(0, self.now - 7), self.now + 20)) if which < 50 else self.now

    def step(self):
        which = self.chance.randrange(220)
        if which >= 212 or not self.present:
            self.add()
            return
        one, moment = self.chance.choice(self.present), self.moment()
        if which < 90:
            self.post(one, moment)
        elif which < 144:
            shard = self.chance.randrange(self.count)
            self.put(f"turn {shard} {moment}", self.shards.turn(shard, moment))
        elif which < 183:
            self.answer(one, moment)
        elif which < 199:
            self.report(one, moment)
        elif which < 203:
            one.drain(moment)
            self.put(f"drain {one.name} {moment}", f"done {one.name}")
        else:
            self.retire(self.chance.choice([one for one in self.present if one.drained] or [one]), moment)

    def post(self, one, moment):
        if self.chance.random() < 0.03:
            self.put(f"post {one.name} {moment} 0a", f"reply {one.name} 400 {piece(2, b'bad protobuf').hex()}")
            return
        text, spans = any_body(self.chance)
        status, body = one.post(moment, spans)
        self.put(f"post {one.name} {moment} {text.hex() or '-'}", f"reply {one.name} {status} {body.hex() or '-'}")

    def answer(self, one, moment):
        """Mostly to a job that is out."""
        chance = self.chance
        out = [batch.ticket for batch in one.active if batch.due is None]
        ticket = chance.choice(out) if out and chance.random() < 0.85 else chance.randint(0, one.tickets + 1)
        word = chance.choice((0, 2**32 - 1, chance.randrange(2**32)))
        status = chance.choice((200, 200, 204, 299, 400, 301, 101, 100, 999, 429, 503, 502, 504, 500, "failed",
                                "failed"))
        after, body = ("-", b"") if status == "failed" else (
            chance.choice(("-", "-", 0, 1, 40, 86_400, 86_401, 10**18)), chance.choice(list(REJECTED)))
        heard = one.answer(moment, ticket, word, status, 0 if after == "-" else after, REJECTED[body])
        self.put(f"answer {one.name} {moment} {ticket} {word} {status} {after} {body.hex() or '-'}",
                 f"done {one.name}" if heard else f"refused {one.name} 21")

    def names_that_left(self):
        return sorted({one.name for one in self.pipelines} - {one.name for one in self.present})

    def add(self):
        """A tenant, mostly under a name of one that left, or else one of six names. At times no document."""
        chance, left = self.chance, self.names_that_left()
        name = chance.choice(left if left and chance.random() < 0.7 else "abcdef")
        one, tenants = Pipeline(name, tenant_settings(chance)), chance.choice((0, 1, 1, 1, 1, 1, 1, 1, 2))
        text = toml.document({"tenant": tables([one] * tenants)})
        if chance.random() < 0.1:
            self.put(f"add {chance.choice(('ff', '5b'))}", "refused add 10")
        elif tenants != 1:
            self.put(f"add {text.encode().hex()}", f"refused add {13 if tenants else 11}")
        elif one.name in [other.name for other in self.present]:
            self.put(f"add {text.encode().hex()}", "refused add 14")
        else:
            self.put(f"add {text.encode().hex()}", f"added {one.name} {self.shards.join(one)}")
            self.pipelines.append(one)
            self.present.append(one)

    def retire(self, one, moment):
        report = one.retire(moment)
        if report is None:
            self.put(f"retire {one.name} {moment}", f"refused {one.name} 26")
            return
        self.put(f"retire {one.name} {moment}", f"report {one.name} {report}")
        self.present.remove(one)
        self.shards.leave(one)

    def stray(self):
        """Names a tenant that left, or one that never came, which ends the replay."""
        name = self.chance.choice(self.names_that_left() or ["g"])
        command = self.chance.choice(("post {} {} -", "answer {} {} 1 0 200 - -", "report {} {}", "drain {} {}", "retire {} {}"))
        self.put(command.format(name, self.now), f"status 1 script fault at line {len(self.script) + 1}\n")
        self.script.append("turn 0 0")

    def report(self, one, moment):
        self.put(f"report {one.name} {moment}", f"report {one.name} {one.report(moment)}")
