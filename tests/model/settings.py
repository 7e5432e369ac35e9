"""What a settings document is told, as docs/SETTINGS.md has keys, ranges and the order in which they are looked at; and
documents by chance, most of them with a fault."""

import datetime

TEXT = "abcdefghijklmnopqrstuvwxyz0123456789-"
NUMBERS = {"shards": (1, 64), "parts": (1, 16), "receivers": (1, 64), "senders": (1, 64), "lane_size": (1, 4096),
           "max_spans": (1, 2**31), "seed": (0, 2**62), "decision_wait_ms": (1, 86_400_000),
           "num_traces": (1, 1_000_000), "sampled_cache_size": (0, 1_000_000), "non_sampled_cache_size": (0, 1_000_000),
           "send_batch_size": (1, 1_000_000), "timeout_ms": (0, 86_400_000), "send_batch_max_size": (0, 1_000_000),
           "queue_size": (1, 100_000), "num_consumers": (1, 1000), "initial_interval_ms": (1, 86_400_000),
           "max_interval_ms": (1, 86_400_000), "max_elapsed_time_ms": (0, 2**40), "multiplier": (1000, 100_000),
           "randomization_factor": (0, 1000)}
GLOBAL = ("shards", "parts", "receivers", "senders", "lane_size")
CACHE = ("sampled_cache_size", "non_sampled_cache_size")
QUEUE = ("queue_size", "num_consumers")
RETRY = ("initial_interval_ms", "max_interval_ms", "max_elapsed_time_ms", "multiplier", "randomization_factor")
ANY_NUMBER = (-2**63, 2**63 - 1)


class Fault(Exception):
    """A fault's number, and its key or name."""

    def __str__(self):
        return " ".join(map(str, ("settings fault", *self.args)))


def number(table, key, span=None):
    """A whole number in its range; one that isn't there is its default, unless a range is named."""
    if key not in table:
        if span:
            raise Fault(11, key)
        return None
    value = table[key]
    if not isinstance(value, int) or isinstance(value, bool):
        raise Fault(12, key)
    least, most = span or NUMBERS[key]
    if not least <= value <= most:
        raise Fault(13, key)
    return value


def text(table, key, is_good, wanted=False):
    if key not in table:
        if wanted:
            raise Fault(11, key)
        return None
    if not isinstance(table[key], str):
        raise Fault(12, key)
    if not is_good(table[key]):
        raise Fault(13, key)
    return table[key]


def is_endpoint(value):
    return 1 <= len(value.encode()) <= 255 and all(33 <= byte <= 126 for byte in value.encode())


def is_header(value):
    return 1 <= len(value) <= 64 and set(value) <= set(TEXT)


def is_name(value):
    return 1 <= len(value) <= 64 and set(value) <= set(TEXT + TEXT.upper() + "_.")


def is_key(value):
    return 1 <= len(value.encode()) <= 256


def array(table, key, kind, empty=13, most=None):
    """An array of one or more members of this kind."""
    if key not in table:
        raise Fault(11, key)
    value = table[key]
    if not isinstance(value, list) or not all(isinstance(member, kind) for member in value):
        raise Fault(12, key)
    if not value:
        raise Fault(empty, key)
    if most is not None and len(value) > most:
        raise Fault(13, key)
    return value


def inside(table, key):
    value = table.get(key, {})
    if not isinstance(value, dict):
        raise Fault(12, key)
    return value


def leaves(policy, in_and=False):
    """How many policies that hold no other it is or holds."""
    kind = text(policy, "type", lambda _: True, True)
    if kind == "and" and not in_and:
        return sum(leaves(one, True) for one in array(policy, "and_sub_policy", dict))
    if kind == "latency":
        number(policy, "threshold_ms", (0, 2**40))
    elif kind == "status_code":
        if not set(array(policy, "status_codes", str)) <= {"OK", "ERROR", "UNSET"}:
            raise Fault(13, "status_codes")
    elif kind == "string_attribute":
        text(policy, "key", is_key, True)
        array(policy, "values", str, most=64)
    elif kind == "numeric_attribute":
        text(policy, "key", is_key, True)
        number(policy, "min_value", ANY_NUMBER)
        number(policy, "max_value", ANY_NUMBER)
    elif kind != "always_sample":
        raise Fault(13, "type")
    return 1


def numbers(table, keys):
    for key in keys:
        number(table, key)


def tenant(table, names):
    """Its `max_spans`."""
    name = text(table, "name", is_name, True)
    if name in names:
        raise Fault(14, name)
    names.add(name)
    text(table, "endpoint", is_endpoint)
    most = number(table, "max_spans")
    number(table, "seed")
    sampling = inside(table, "tail_sampling")
    numbers(sampling, ("decision_wait_ms", "num_traces"))
    numbers(inside(sampling, "decision_cache"), CACHE)
    if sum(leaves(policy) for policy in array(sampling, "policy", dict)) > 64:
        raise Fault(15)
    batch = inside(table, "batch")
    size = number(batch, "send_batch_size")
    number(batch, "timeout_ms")
    if 0 < (number(batch, "send_batch_max_size") or 0) < (8192 if size is None else size):
        raise Fault(13, "send_batch_max_size")
    numbers(inside(table, "sending_queue"), QUEUE)
    numbers(inside(table, "retry_on_failure"), RETRY)
    return 100_000 if most is None else most


def first_fault(document):
    """The words of its first fault; none where it is good."""
    try:
        table = inside(document, "global")
        numbers(table, GLOBAL)
        text(table, "listen", is_endpoint)
        text(table, "tenant_header", is_header)
        tenants = array(document, "tenant", dict, empty=11)
        names = set()
        if len(tenants) > 1000 or sum([tenant(one, names) for one in tenants]) > 2**31:
            raise Fault(15)
    except Fault as fault:
        return str(fault)
    return ""


class Documents:
    """Documents by chance."""

    def __init__(self, chance):
        self.chance = chance

    def one_in(self, count):
        return self.chance.randrange(count) == 0

    def other(self):
        """A value of any kind."""
        return self.chance.choice(("x", "", 0, 1, -1, 2**63 - 1, True, 1.5, [], [1], ["a"], [{}], {}, {"a": 1},
                                   datetime.date(2020, 1, 1)))

    def spoilt(self, table, rarity):
        """Now and then without one of its keys, or with a value of another kind."""
        if table and self.one_in(rarity):
            key = self.chance.choice(list(table))
            if self.one_in(2):
                del table[key]
            else:
                table[key] = self.other()
        return table

    def numbers(self, keys):
        """Some of these keys, at the ends of their ranges or beyond at times."""
        table = {}
        for key in keys:
            least, most = NUMBERS[key]
            if self.one_in(3):
                table[key] = self.chance.randint(least, most)
            if self.one_in(20):
                table[key] = self.chance.choice((least - 1, least, most, most + 1, -2**63, 2**63 - 1))
        return table

    def or_rarely(self, usual, *rare):
        return self.chance.choice(rare) if self.one_in(8) else usual

    def leaf(self):
        kinds = ("always_sample", "latency", "status_code", "string_attribute", "numeric_attribute")
        policy = {"type": self.or_rarely(self.chance.choice(kinds), "and", "probabilistic", "", *kinds)}
        if policy["type"] == "latency":
            policy["threshold_ms"] = self.or_rarely(5, 0, 2**40, 2**40 + 1, -1)
        elif policy["type"] == "status_code":
            policy["status_codes"] = self.or_rarely(["ERROR"], ["OK", "UNSET", "OK"], ["ok"], [], ["OK", 1], ["no", 1],
                                                    "OK")
        elif policy["type"] in ("string_attribute", "numeric_attribute"):
            policy["key"] = self.or_rarely("k", "", "k" * 256, "k" * 257, "é" * 128, "é" * 129)
            if policy["type"] == "string_attribute":
                policy["values"] = self.or_rarely(["v"], [], ["v"] * 64, ["v"] * 65, [""], ["v", 1], "v")
            else:
                policy |= {"min_value": self.or_rarely(0, *ANY_NUMBER), "max_value": self.or_rarely(0, *ANY_NUMBER)}
        return self.spoilt(policy, 16)

    def policy(self):
        if not self.one_in(5):
            return self.leaf()
        count = self.or_rarely(2, 0, 1, 3, 40)
        return self.spoilt({"type": "and", "and_sub_policy": [self.leaf() for _ in range(count)]}, 16)

    def tenant(self, at):
        table = {"name": self.or_rarely(f"t{at}", "a", "a", "x" * 64, "x" * 65, "", "ä", "a b", "A.b-_9")}
        if self.one_in(4):
            table["endpoint"] = self.or_rarely("h:1", "", "x" * 255, "x" * 256, "h 1", "é", "!~", "\x7f")
        table |= self.numbers(("max_spans", "seed"))
        policies = [self.policy() for _ in range(self.or_rarely(1, 2, 3, 33, 64, 65))]
        policies += self.or_rarely([], [1], ["x"], [])
        sampling = {**self.numbers(("decision_wait_ms", "num_traces")), "policy": policies}
        if self.one_in(3):
            sampling["decision_cache"] = self.spoilt(self.numbers(CACHE), 10)
        table["tail_sampling"] = self.spoilt(sampling, 20)
        for name, keys in (("batch", ("send_batch_size", "timeout_ms", "send_batch_max_size")),
                           ("sending_queue", QUEUE), ("retry_on_failure", RETRY)):
            if self.one_in(3):
                table[name] = self.numbers(keys)
        return self.spoilt(table, 20)

    def document(self):
        document = {"of a later version": 1} if self.one_in(10) else {}
        if self.one_in(3):
            document["global"] = self.numbers(GLOBAL)
            if self.one_in(3):
                document["global"]["listen"] = self.or_rarely("[::1]:80", "", "x" * 255, "x" * 256, "h 1", "é")
            if self.one_in(3):
                document["global"]["tenant_header"] = self.or_rarely("a-1", "x", "", "X", "a" * 64, "a" * 65, "a_b",
                                                                     "é")
            self.spoilt(document["global"], 20)
        document["tenant"] = [self.tenant(at) for at in range(self.or_rarely(self.chance.randint(1, 3), 0, 1))]
        document["tenant"] += self.or_rarely([], [], [], [1])
        return self.spoilt(document, 20)
