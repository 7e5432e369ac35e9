#!/usr/bin/env python3
"""Makes a large script for `trace_collector replay`, and the settings that it is for.

    python3 tests/replay/make_script.py POSTS SPANS TENANTS TURNS FOLDER

writes FOLDER/settings.toml and FOLDER/script: POSTS bodies of SPANS spans each, from TENANTS tenants in turn, and after
each body TURNS turns of the one shard. Nothing is random, so the same numbers make the same files.

Each body is one request in OTLP's protobuf (tests/otlp/trace.proto): one resource with five attributes, one scope, and
spans of eight attributes, every second span with an event. Each span is the next of its tenant's; twelve in a row are a
trace, so some traces are posted in two bodies, of two services. Posts come 10 milliseconds apart, and a tenant decides
after a second. One span in 48 has the status ERROR, and a trace with such a span is kept: one trace in four.
"""

import functools
import sys
from pathlib import Path

START = 1_700_000_000_000_000_000
TRACE = 12
SERVICES = ("front", "cart", "checkout", "payment", "shipping", "search", "mail")

SETTINGS = """
[[tenant]]
name = "tenant-{}"

[tenant.tail_sampling]
decision_wait_ms = 1000

[[tenant.tail_sampling.policy]]
type = "latency"
threshold_ms = 5000

[[tenant.tail_sampling.policy]]
type = "string_attribute"
key = "customer.tier"
values = ["gold", "platinum"]

[[tenant.tail_sampling.policy]]
type = "numeric_attribute"
key = "http.response.status_code"
min_value = 500
max_value = 599

[[tenant.tail_sampling.policy]]
type = "status_code"
status_codes = ["ERROR"]
"""


def varint(value):
    text = bytearray()
    while value >= 128:
        text.append(value & 127 | 128)
        value >>= 7
    text.append(value)
    return bytes(text)


def piece(number, text):
    """A field of bytes."""
    return varint(number << 3 | 2) + varint(len(text)) + text


def number_field(number, value):
    return varint(number << 3) + varint(value)


def time_field(number, nanoseconds):
    """A fixed64."""
    return varint(number << 3 | 1) + nanoseconds.to_bytes(8, "little")


@functools.cache
def attribute(field, key, value):
    """A field with a KeyValue whose value is a text, a truth value or a whole number."""
    if isinstance(value, str):
        value = piece(1, value.encode())
    elif isinstance(value, bool):
        value = number_field(2, int(value))
    else:
        value = number_field(3, value)
    return piece(field, piece(1, key.encode()) + piece(2, value))


@functools.cache
def resource(service):
    """A resource with five attributes."""
    attributes = (("service.name", SERVICES[service]), ("service.version", f"1.{service}.0"),
                  ("deployment.environment.name", "production"), ("host.name", f"{SERVICES[service]}-7d9f8b6c5-x2x4z"),
                  ("telemetry.sdk.language", "rust"))
    return b"".join(attribute(1, key, value) for key, value in attributes)


def event(at, begin):
    name = piece(2, b"retry")
    return piece(11, time_field(1, begin + 100_000) + name + attribute(3, "retry.attempt", at % 5))


def span(tenant, at):
    """The tenant's span of that number, with eight attributes."""
    begin = START + at * 1_000_000
    parent = piece(4, (at - at % TRACE + 1).to_bytes(8, "big")) if at % TRACE else b""
    has_error = at % 48 == 40
    attributes = (("http.request.method", ("GET", "POST")[at % 2]), ("http.route", "/orders/{id}/lines"),
                  ("url.path", f"/orders/{at % 1000}/lines"), ("server.address", "shop.example.com"), ("server.port", 8443),
                  ("http.response.status_code", 200), ("user_agent.original", "Mozilla/5.0 (X11; Linux x86_64)"),
                  ("cache.hit", at % 3 == 0))
    return b"".join((
        piece(1, (tenant + 1).to_bytes(8, "big") + (at // TRACE + 1).to_bytes(8, "big")),
        piece(2, (at + 1).to_bytes(8, "big")),
        parent,
        piece(5, b"GET /orders/{id}/lines"),
        number_field(6, 1 + at % 5),
        time_field(7, begin),
        time_field(8, begin + 750_000),
        *(attribute(9, key, value) for key, value in attributes),
        event(at, begin) if at % 2 == 0 else b"",
        piece(15, number_field(3, 2)) if has_error else b"",
    ))


def body(tenant, first, spans, service):
    """A request with so many of the tenant's spans."""
    scope = piece(1, piece(1, b"http.server") + piece(2, b"0.9.1"))
    here = b"".join(piece(2, span(tenant, at)) for at in range(first, first + spans))
    return piece(1, piece(1, resource(service)) + piece(2, scope + here))


def main():
    posts, spans, tenants, turns = map(int, sys.argv[1:5])
    folder = Path(sys.argv[5])
    settings = "[global]\nshards = 1\n" + "".join(SETTINGS.format(tenant) for tenant in range(tenants))
    (folder / "settings.toml").write_text(settings)
    total = 0
    with open(folder / "script", "w", encoding="ascii") as script:
        for post in range(posts):
            tenant, round_of_all = post % tenants, post // tenants
            text = body(tenant, round_of_all * spans, spans, round_of_all % len(SERVICES))
            total += len(text)
            script.write(f"post tenant-{tenant} {post * 10} {text.hex()}\n")
            script.write(f"turn 0 {post * 10}\n" * turns)
    print(f"{posts} bodies of {total} bytes in all, {posts * spans} spans, {posts * turns} turns")


if __name__ == "__main__":
    main()
