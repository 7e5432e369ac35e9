#!/usr/bin/python3
"""Makes request bodies to measure with: one of ordinary spans, and shapes on which a reader could take time that grows
faster than the body.

Run by hand, with Debian's protobuf-compiler and python3-protobuf (README.md names the versions):

    /usr/bin/python3 tests/otlp/make_body.py SHAPE COUNT PATH

    /usr/bin/python3 tests/otlp/make_body.py spans 240 crates/collector_bench/data/request.pb

Nothing here was made by this project's reader or writer: ordinary spans are written by Protocol Buffers' own Python
library, whose text is canonical where no field is unknown. The other shapes are composed of fields by hand, and the
library has to read each.
"""

import struct
import subprocess
import sys
import tempfile
from pathlib import Path

HERE = Path(__file__).resolve().parent
START = 1_700_000_000_000_000_000


def compiled():
    """The classes of trace.proto, compiled into a folder that is then removed."""
    with tempfile.TemporaryDirectory() as folder:
        subprocess.run(["protoc", f"--proto_path={HERE}", f"--python_out={folder}", "trace.proto"], check=True)
        sys.path.insert(0, folder)
        sys.dont_write_bytecode = True
        import trace_pb2
        sys.path.remove(folder)
    return trace_pb2


T = compiled()


def varint(value):
    text = bytearray()
    while value >= 128:
        text.append(value & 127 | 128)
        value >>= 7
    return bytes(text) + bytes([value])


def piece(number, text):
    """A field of bytes."""
    return varint(number << 3 | 2) + varint(len(text)) + text


def in_resource_spans(text):
    return piece(1, text)


def in_span(text):
    return in_resource_spans(piece(2, piece(2, text)))


def add_attributes(owner, at):
    """Attributes of each kind that HTTP spans carry."""
    for key, value in (("http.request.method", ("GET", "POST")[at % 2]), ("url.path", f"/orders/{at}"),
                       ("server.address", "shop.example")):
        owner.add(key=key).value.string_value = value
    owner.add(key="http.response.status_code").value.int_value = 500 if at % 20 == 0 else 200
    owner.add(key="cache.hit").value.bool_value = at % 3 == 0


def fill_span(span, at):
    """A server's span, with an event in every second one and a link in every tenth."""
    span.trace_id = struct.pack(">QQ", 1, at // 8 + 1)
    span.span_id = struct.pack(">Q", at + 1)
    if at % 8:
        span.parent_span_id = struct.pack(">Q", at // 8 * 8 + 1)
    span.name = "GET /orders/{id}"
    span.kind = 1 + at % 5
    span.start_time_unix_nano = START + at * 1_000_000
    span.end_time_unix_nano = START + at * 1_000_000 + 750_000
    span.flags = 0x101
    add_attributes(span.attributes, at)
    if at % 2 == 0:
        event = span.events.add(time_unix_nano=START + at * 1_000_000 + 500_000, name="exception")
        event.attributes.add(key="exception.message").value.string_value = "time is up"
    if at % 10 == 0:
        link = span.links.add(trace_id=struct.pack(">QQ", 2, at + 1), span_id=struct.pack(">Q", at + 1))
        link.attributes.add(key="ratio").value.double_value = at / 4
    if at % 20 == 0:
        span.status.code = 2
        span.status.message = "internal error"


def spans(count):
    """So many spans, 60 of a resource, half of them of a second scope."""
    request = T.ExportTraceServiceRequest()
    for first in range(0, count, 60):
        here = request.resource_spans.add(schema_url="https://opentelemetry.io/schemas/1.26.0")
        here.resource.attributes.add(key="service.name").value.string_value = f"shop-{first // 60}"
        tags = here.resource.attributes.add(key="tags").value.array_value
        tags.values.add().string_value = "blue"
        tags.values.add().int_value = -1
        for half in (0, 1):
            group = here.scope_spans.add()
            group.scope.name, group.scope.version = f"library.{half}", "1.2.3"
            for at in range(first + half * 30, min(count, first + half * 30 + 30)):
                fill_span(group.spans.add(), at)
    return request.SerializeToString()


def resource_again(count):
    """One ResourceSpans whose resource stands so many times, each with one attribute, and is merged."""
    attribute = T.KeyValue(key="k")
    attribute.value.int_value = 1
    return in_resource_spans(piece(1, piece(1, attribute.SerializeToString())) * count)


def attributes(count):
    """One span of so many attributes."""
    span = T.Span()
    for at in range(count):
        span.attributes.add(key=f"key.{at % 1000}").value.int_value = at
    return in_span(span.SerializeToString())


def name_again(count):
    """One span whose name stands so many times, of which the last counts."""
    return in_span(piece(5, b"GET /orders") * count)


def unknown(count):
    """One span with so many fields that no version of OTLP has."""
    return in_span((varint(1000 << 3) + varint(150)) * count)


def nested(count):
    """So many attributes, each with arrays in arrays down to depth 100, the last: a span's attribute value stands at 5."""
    value = piece(5, b"")
    for _ in range(47):
        value = piece(5, piece(1, value))
    return in_span(piece(9, piece(1, b"deep") + piece(2, value)) * count)


def deep_text(count):
    """A string of so many bytes at depth 99, in 47 arrays."""
    value = piece(1, b"x" * count)
    for _ in range(47):
        value = piece(5, piece(1, value))
    return in_span(piece(9, piece(1, b"deep") + piece(2, value)))


def wide(count):
    """So many spans in one ScopeSpans."""
    return in_resource_spans(piece(2, piece(2, piece(5, b"a")) * count))


def resources(count):
    """So many ResourceSpans of one span each."""
    return in_span(piece(5, b"a")) * count


SHAPES = {shape.__name__: shape for shape in (spans, resource_again, attributes, name_again, unknown, nested, deep_text,
                                              wide, resources)}


def main():
    shape, count, path = sys.argv[1], int(sys.argv[2]), sys.argv[3]
    body = SHAPES[shape](count)
    read = T.ExportTraceServiceRequest.FromString(body)
    again = read.SerializeToString()
    canonical = "canonical" if again == body else "not canonical"
    if shape == "spans":
        assert again == body, "the library writes it otherwise"
    Path(path).write_bytes(body)
    total = sum(len(group.spans) for here in read.resource_spans for group in here.scope_spans)
    print(f"{len(body)} bytes, {total} spans, {canonical}")


main()
