"""One tenant's rules, over plain lists: what a tenant is told of its posts, turns, answers, reports, drains and retirement."""

from model.bodies import batch_of
from replay.make_script import number_field, piece
from serving.talk import NAMES

LATEST = 2**62
STATUSES = {"UNSET": 0, "OK": 1, "ERROR": 2}
AGAIN = (429, 502, 503, 504, "failed")
DAY = 86_400
CACHES = {True: "sampled_cache_size", False: "non_sampled_cache_size"}


def keeps(policy, spans):
    kind = policy["type"]
    if kind == "and":
        return all(keeps(one, spans) for one in policy["and_sub_policy"])
    if kind == "latency":
        longest = max(span.end for span in spans) - min(span.start for span in spans)
        return max(longest, 0) // 1_000_000 >= policy["threshold_ms"]
    if kind == "status_code":
        return any(span.status == STATUSES[name] for span in spans for name in policy["status_codes"])
    if kind == "always_sample":
        return True
    values = [value for span in spans for value in span.values_of(policy["key"])]
    if kind == "string_attribute":
        return any(isinstance(value, str) and value in policy["values"] for value in values)
    return any(isinstance(value, int) and policy["min_value"] <= value <= policy["max_value"] for value in values)


class Row:
    """A trace that waits for its verdict, or has it."""

    def __init__(self, trace, due):
        self.trace, self.due = trace, due
        self.spans = []
        self.kept = None
        self.decided = False


class Batch:
    """A batch that formed. On its way it has a ticket, and while it waits for a retry the moment of that."""

    def __init__(self, spans, formed, interval):
        self.spans, self.formed, self.interval = spans, formed, interval
        self.first = self.ticket = self.due = None


class Pipeline:
    """One tenant. `how` has its settings by their names."""

    def __init__(self, name, how):
        self.name, self.how = name, how
        self.clock = self.opened = self.tickets = 0
        self.rows, self.latest = {}, {}
        self.caches = {kept: [] for kept in CACHES}
        self.sizes = {kept: how.get("decision_cache", {}).get(name, 0) for kept, name in CACHES.items()}
        self.pending, self.started = [], None
        self.queue, self.active = [], []
        self.drained = False
        self.counts = dict.fromkeys(NAMES, 0)
        self.followed = dict.fromkeys(CACHES, 0)

    def move(self, here, there, count):
        self.counts[here] -= count
        self.counts[there] += count

    def is_present(self, number):
        return number > self.opened - self.how["num_traces"]

    def undecided(self):
        return [number for number, row in self.rows.items() if self.is_present(number) and not row.decided]

    def held(self):
        return sum(len(self.rows[number].spans) for number in self.undecided()) + len(self.pending)

    def timer_due(self):
        return None if self.started is None else self.started + self.how["timeout_ms"]

    # batches

    def form(self, count, moment):
        spans, self.pending = self.pending[:count], self.pending[count:]
        room = len(self.queue) < self.how["queue_size"]
        if room:
            self.queue.append(Batch(spans, moment, self.how["initial_interval_ms"]))
        self.move("pending", "queued" if room else "queue_full", len(spans))
        self.started = moment if self.pending else None

    def cut(self, moment):
        most = self.how["send_batch_max_size"] or len(self.pending)
        self.form(min(most, len(self.pending)), moment)

    def cut_all(self, moment):
        while self.pending:
            self.cut(moment)

    def group(self, spans, moment):
        if not self.pending:
            self.started = moment
        self.pending += spans
        if self.how["timeout_ms"] == 0:
            self.cut_all(moment)
        while len(self.pending) >= self.how["send_batch_size"]:
            self.cut(moment)

    # decisions that outlive their rows: ids, the one that was used last at the end

    def use(self, trace, kept):
        ids = [one for one in self.caches[kept] if one != trace] + [trace]
        self.caches[kept] = ids[max(0, len(ids) - self.sizes[kept]):]

    def known(self, trace):
        """Whether the trace was kept, where a cache has it."""
        return next((kept for kept, ids in self.caches.items() if trace in ids), None)

    # rows

    def follow(self, spans, kept, moment):
        self.move("undecided", "pending" if kept else "not_sampled", len(spans))
        if kept:
            self.group(spans, moment)

    def decide(self, number, moment):
        row = self.rows[number]
        row.decided, row.kept = True, any(keeps(policy, row.spans) for policy in self.how["policy"])
        self.follow(row.spans, row.kept, moment)

    def open_row(self, span):
        self.opened += 1
        self.rows[self.opened] = Row(span.trace, self.clock + self.how["decision_wait_ms"])
        self.latest[span.trace] = self.opened
        last = self.rows.get(self.opened - self.how["num_traces"])
        if last is not None and not last.decided:
            self.move("undecided", "too_early", len(last.spans))

    def place(self, span):
        self.counts["accepted"] += 1
        self.counts["undecided"] += 1
        if not self.is_present(self.latest.get(span.trace, -LATEST)):
            kept = self.known(span.trace)
            if kept is not None:
                self.followed[kept] += 1
                self.use(span.trace, kept)
                self.follow([span], kept, self.clock)
                return
            self.open_row(span)
        row = self.rows[self.latest[span.trace]]
        if row.decided:
            self.follow([span], row.kept, self.clock)
        else:
            row.spans.append(span)

    # steps

    def come(self, moment):
        """The tenant's clock, and what was due until then: the batch's timer first, then decisions."""
        self.clock = max(self.clock, min(moment, LATEST))
        while True:
            due = [(self.rows[number].due, number) for number in self.undecided()]
            if self.started is not None:
                due.append((self.timer_due(), 0))
            moment, number = min(due, default=(LATEST + 1, 0))
            if moment > self.clock:
                return
            if number == 0:
                self.form(len(self.pending), moment)
            else:
                self.decide(number, moment)
                self.use(self.rows[number].trace, self.rows[number].kept)

    def post(self, moment, spans):
        """The reply's status and body."""
        self.come(moment)
        if self.drained:
            return 503, piece(2, b"shutting down")
        valid = [span for span in spans if span.is_valid()]
        over = 0
        for span in valid:
            if self.held() < self.how["max_spans"]:
                self.place(span)
            else:
                over += 1
        if valid and over == len(valid):
            return 429, piece(2, b"span budget exhausted")
        invalid = len(spans) - len(valid)
        self.counts["invalid"] += invalid
        self.counts["over_budget"] += over
        if invalid + over == 0:
            return 200, b""
        text = f"rejected: {invalid} invalid, {over} over budget"
        return 200, piece(1, number_field(1, invalid + over) + piece(2, text.encode()))

    def has_free_consumer(self):
        return len(self.active) < self.how["num_consumers"]

    def ready(self):
        """When a turn has something to do here, if ever."""
        moments = [self.rows[number].due for number in self.undecided()]
        moments += [batch.due for batch in self.active if batch.due is not None]
        if self.started is not None:
            moments.append(self.timer_due())
        if self.has_free_consumer() and self.queue:
            moments.append(self.queue[0].formed)
        return min(moments, default=None)

    def turn(self, moment):
        """The job's ticket and bytes, if there is one."""
        self.come(moment)
        waiting = [batch for batch in self.active if batch.due is not None and batch.due <= self.clock]
        if waiting:
            batch = min(waiting, key=lambda batch: (batch.due, batch.ticket))
        elif self.has_free_consumer() and self.queue:
            batch = self.queue.pop(0)
            batch.first = self.clock
            self.active.append(batch)
            self.move("queued", "active", len(batch.spans))
        else:
            return None
        self.tickets += 1
        batch.ticket, batch.due = self.tickets, None
        return batch.ticket, batch_of(batch.spans)

    def answer(self, moment, ticket, word, status, after, rejected):
        """Whether such a job is out. `rejected` is what the answer's body says of spans that it didn't take."""
        self.come(moment)
        batch = next((one for one in self.active if one.ticket == ticket and one.due is None), None)
        if batch is None:
            return False
        count = len(batch.spans)
        if status in AGAIN:
            batch.due = self.clock + self.delay(batch, word, after if status in (429, 503) else 0)
            longest = self.how["max_elapsed_time_ms"]
            if longest == 0 or batch.due - batch.first <= longest:
                return True
            self.move("active", "retry_exhausted", count)
        elif 200 <= status <= 299:
            self.move("active", "back_end_rejected", min(rejected, count))
            self.move("active", "exported", count - min(rejected, count))
        else:
            self.move("active", "back_end_refused", count)
        self.active.remove(batch)
        return True

    def delay(self, batch, word, after):
        interval = batch.interval
        spread = interval * self.how["randomization_factor"] // 1000
        batch.interval = min(interval * self.how["multiplier"] // 1000, self.how["max_interval_ms"])
        return max(interval - spread + (2 * spread + 1) * word // 2**32, 1000 * min(after, DAY))

    def report(self, moment):
        self.come(moment)
        return " ".join(f"{name}={count}" for name, count in self.counts.items())

    def drain(self, moment):
        self.come(moment)
        if not self.drained:
            for number in self.undecided():
                self.decide(number, self.clock)
            self.cut_all(self.clock)
            self.drained = True

    def retire(self, moment):
        """The last report, if the tenant may leave: once it was drained and no span waits for anything."""
        report = self.report(moment)
        waits = any(self.counts[name] for name in ("undecided", "pending", "queued", "active"))
        return report if self.drained and not waits else None


class Shards:
    """All tenants, each in the shard of its number. Numbers are those of places in the settings, and then the next ones."""

    def __init__(self, pipelines, count):
        self.members = [[] for _ in range(count)]
        self.next = 0
        for one in pipelines:
            self.join(one)

    def join(self, one):
        """The number of who comes."""
        number, self.next = self.next, self.next + 1
        self.members[number % len(self.members)].append(one)
        return number

    def leave(self, one):
        for members in self.members:
            if one in members:
                members.remove(one)

    def turn(self, shard, moment):
        """The line that a turn prints: of who is ready first, and of equals the one with the least number."""
        ready = [(member.ready(), at) for at, member in enumerate(self.members[shard]) if member.ready() is not None]
        first, at = min(ready, default=(LATEST + 1, 0))
        if first > min(moment, LATEST):
            return f"idle {shard}"
        member = self.members[shard][at]
        job = member.turn(moment)
        return f"worked {member.name}" if job is None else f"job {member.name} {job[0]} {job[1].hex() or '-'}"
