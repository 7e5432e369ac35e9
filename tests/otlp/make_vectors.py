#!/usr/bin/python3
"""Makes the test vectors of OTLP trace bodies: vectors.txt, responses.txt and faults.txt, beside this file.

Run by hand, with Debian's protobuf-compiler and python3-protobuf (README.md names the versions):

    /usr/bin/python3 tests/otlp/make_vectors.py [crates/otlp_vectors/src/vectors.rt]

A crate's tests can't read a file. With a path the same lines are written there too, as constants.

The expected texts come from Protocol Buffers' own Python library, which parses each body by trace.proto and writes it
again. Nothing here was made by this project's reader or writer. The library has two independent backends, one over the
C++ library and one in Python alone. Both have to give the same text, or refuse the body, but for the vectors and faults
that name a backend. `assert_canonical` then holds each text against the rules for canonical text.

Where this project's rules and the library differ:
- Unknown fields of a request, ResourceSpans, ScopeSpans, a response and its partial success are dropped here; the
  library keeps them. `without_unknown` discards them from those messages alone.
- Unknown fields are kept as they were spelled; the C++ backend writes their varints anew. Where that tells, the Python
  backend is the witness.
- A tag may be spelled longer than needed; the Python backend takes such a tag for that of an unknown field. Where that
  tells, the C++ backend is the witness.
- A tag or a length may take up to ten bytes, its bits past 64 dropped; the C++ backend refuses more than five bytes.
  For a length and for an unknown field's tag the Python backend is the witness; for a known field's tag there is none.
- A tag of 2^32 or more is refused; the C++ backend cuts it to 32 bits, the Python one takes it for an unknown field's.
- Depth 100 is the last, of messages and groups together; the Python backend counts the groups apart from the messages,
  and takes fewer than 100 groups.
- The bits of a NaN are kept; the Python backend writes another NaN. Where that tells, the C++ backend is the witness.
- At the top of a body, 00 and the end of a group that didn't start are faults; the C++ backend stops there and warns.
  The warning is taken for a refusal here.
"""

import os
import struct
import subprocess
import sys
import tempfile
import warnings
from pathlib import Path

HERE = Path(__file__).resolve().parent


def compiled():
    """The classes of trace.proto, compiled into a folder that is then removed."""
    with tempfile.TemporaryDirectory() as folder:
        subprocess.run(["protoc", f"--proto_path={HERE}", f"--python_out={folder}", "trace.proto"], check=True)
        sys.path.insert(0, folder)
        sys.dont_write_bytecode = True
        import trace_pb2
        sys.path.remove(folder)
    return trace_pb2


T = compiled()
from google.protobuf.internal import api_implementation
from google.protobuf.message import DecodeError

# Wire text by hand, for bodies that a library wouldn't write.

VARINT, EIGHT, BYTES, START, END, FOUR = range(6)


def varint(value, size=1):
    """A varint, least group first, spelled with at least so many bytes."""
    text = bytearray()
    while value >= 128 or len(text) + 1 < size:
        text.append(value & 127 | 128)
        value >>= 7
    return bytes(text) + bytes([value])


def tag(number, kind, size=1):
    return varint(number << 3 | kind, size)


def num(number, value):
    return tag(number, VARINT) + varint(value % 2**64)


def eight(number, value):
    return tag(number, EIGHT) + struct.pack("<Q", value)


def four(number, value):
    return tag(number, FOUR) + struct.pack("<I", value)


def piece(number, text):
    text = text.encode() if isinstance(text, str) else text
    return tag(number, BYTES) + varint(len(text)) + text


def group(number, *content):
    return tag(number, START) + b"".join(content) + tag(number, END)


def hexed(text):
    return bytes.fromhex(text)


# A body with one message that has these bytes.

def in_request(text):
    return text


def in_resource_spans(text):
    return piece(1, text)


def in_resource(text):
    return in_resource_spans(piece(1, text))


def in_scope_spans(text):
    return in_resource_spans(piece(2, text))


def in_scope(text):
    return in_scope_spans(piece(1, text))


def in_span(text):
    return in_scope_spans(piece(2, text))


def in_event(text):
    return in_span(piece(11, text))


def in_link(text):
    return in_span(piece(13, text))


def in_status(text):
    return in_span(piece(15, text))


def in_attribute(text):
    return in_span(piece(9, text))


def in_value(text):
    return in_attribute(piece(2, text))


def in_array(text):
    return in_value(piece(5, text))


def in_list(text):
    return in_value(piece(6, text))


# By its name in the vectors': where a message stands, and its class.
PLACES = {
    "request": (in_request, T.ExportTraceServiceRequest),
    "resource_spans": (in_resource_spans, T.ResourceSpans),
    "resource": (in_resource, T.Resource),
    "scope_spans": (in_scope_spans, T.ScopeSpans),
    "scope": (in_scope, T.InstrumentationScope),
    "span": (in_span, T.Span),
    "event": (in_event, T.Span.Event),
    "link": (in_link, T.Span.Link),
    "status": (in_status, T.Status),
    "attribute": (in_attribute, T.KeyValue),
    "value": (in_value, T.AnyValue),
    "array": (in_array, T.ArrayValue),
    "list": (in_list, T.KeyValueList),
}

# The wire types of the field types that trace.proto has.
KINDS = {"TYPE_STRING": BYTES, "TYPE_BYTES": BYTES, "TYPE_MESSAGE": BYTES, "TYPE_FIXED64": EIGHT, "TYPE_DOUBLE": EIGHT,
         "TYPE_FIXED32": FOUR, "TYPE_UINT32": VARINT, "TYPE_INT64": VARINT, "TYPE_BOOL": VARINT, "TYPE_ENUM": VARINT}


def kind_of(field):
    name = next(n for n in KINDS if getattr(field, n) == field.type)
    return KINDS[name]


def fields_of(message):
    return sorted(message.DESCRIPTOR.fields, key=lambda field: field.number)


vectors, responses, faults = {}, {}, {}
witnesses = {}


def add(table, name, body, by=None):
    """Adds a body. `by` names the one backend that is its witness, where the other differs."""
    assert name not in vectors and name not in responses and name not in faults, name
    table[name] = body.SerializeToString() if hasattr(body, "SerializeToString") else body
    if by:
        witnesses[name] = by


def good(name, body, by=None):
    add(vectors, name, body, by)


def response(name, body):
    add(responses, name, body)


def bad(name, number, body, by=None):
    """A body with a fault. `by` names the one backend that refuses it, "neither" where none does."""
    add(faults, name, body, by)
    faults[name] = (number, body)


def request_of(*resource_spans):
    return T.ExportTraceServiceRequest(resource_spans=resource_spans)


def span_request(**fields):
    return request_of(T.ResourceSpans(scope_spans=[T.ScopeSpans(spans=[T.Span(**fields)])]))


def text_value(key, text):
    return T.KeyValue(key=key, value=T.AnyValue(string_value=text))


def guide():
    """The encoding guide's own examples, on OTLP's messages."""
    good("guide_varint_150", in_value(hexed("189601")))
    good("guide_varint_150_in_tag_1", in_attribute(hexed("089601")))
    good("guide_string_testing", in_event(hexed("120774657374696e67")))
    good("guide_string_testing_in_status", in_status(hexed("120774657374696e67")))
    good("guide_embedded_150", in_event(hexed("1a03089601")))
    good("guide_embedded_150_in_scope", in_scope(hexed("1a03089601")))
    good("guide_packed", in_span(hexed("3206038e029ea705")))
    good("guide_interleaved", in_span(hexed("30013002220568656c6c6f3003")))
    good("guide_minus_two", in_value(hexed("18feffffffffffffffff01")))
    good("guide_group", in_span(hexed("c301089601220568656c6c6fc401")))
    good("guide_last_string_wins", in_span(piece(5, "first") + piece(5, "second")))
    good("guide_last_empty_string_wins", in_span(piece(5, "first") + piece(5, "")))
    good("guide_last_bytes_win", in_span(piece(1, b"\x01" * 16) + piece(1, b"\x02" * 16)))
    good("guide_last_number_wins", in_span(eight(7, 5) + eight(7, 6) + four(16, 1) + four(16, 0)))
    good("guide_last_member_wins", in_value(num(3, 7) + piece(1, "seven") + num(2, 1)))
    good("guide_messages_merge", in_resource_spans(piece(1, num(2, 3)) + piece(1, piece(1, piece(1, "k")))))
    good("guide_repeated_messages_do_not_merge", in_resource(num(2, 3)) + in_resource(num(2, 4)))


def example():
    """The trace of opentelemetry-proto's examples/trace.json."""
    span = T.Span(
        trace_id=hexed("5B8EFFF798038103D269B633813FC60C"), span_id=hexed("EEE19B7EC3C1B174"),
        parent_span_id=hexed("EEE19B7EC3C1B173"), name="I'm a server span", kind=2,
        start_time_unix_nano=1544712660000000000, end_time_unix_nano=1544712661000000000,
        attributes=[text_value("my.span.attr", "some value")])
    scope = T.InstrumentationScope(
        name="my.library", version="1.0.0", attributes=[text_value("my.scope.attribute", "some scope attribute")])
    resource = T.Resource(attributes=[text_value("service.name", "my.service")])
    body = request_of(T.ResourceSpans(resource=resource, scope_spans=[T.ScopeSpans(scope=scope, spans=[span])]))
    good("otlp_example_trace", body)
    good("otlp_example_trace_twice", body.SerializeToString() * 2)


# Plain and extreme values of each field type; the seed keeps a message's fields apart.
DEFAULT = {BYTES: b"", VARINT: 0, EIGHT: 0, FOUR: 0}


def spelled(field, value):
    kind = kind_of(field)
    return {BYTES: piece, VARINT: num, EIGHT: eight, FOUR: four}[kind](field.number, value)


def plain(field):
    kind, seed = kind_of(field), field.number
    if kind == BYTES:
        return bytes(range(seed, seed + 16)) if field.type == field.TYPE_BYTES else f"{field.name} {seed}"
    number = 1 + seed % 3 if field.type == field.TYPE_ENUM else 100 + seed
    return {VARINT: number, EIGHT: 10**18 + seed, FOUR: 256 + seed}[kind]


def extreme(field):
    kind = kind_of(field)
    if kind == BYTES:
        edges = "\0\x7f\x80\u07ff\u0800\ud7ff\ue000\uffff\U00010000\U0010ffff"
        return b"\xff\x00\x80" if field.type == field.TYPE_BYTES else edges
    number = 2**31 - 1 if field.type == field.TYPE_ENUM else 2**32 - 1
    return {VARINT: number, EIGHT: 2**64 - 1, FOUR: 2**32 - 1}[kind]


def every_field():
    """Each message's scalar fields at their defaults, at plain values and at their extremes; the oneof's members."""
    for name, (place, message) in PLACES.items():
        scalars = [field for field in fields_of(message) if field.message_type is None]
        if name == "value" or not scalars:
            continue
        good(f"defaults_in_{name}", place(b"".join(spelled(f, DEFAULT[kind_of(f)]) for f in scalars)))
        good(f"plain_in_{name}", place(b"".join(spelled(f, plain(f)) for f in scalars)))
        good(f"extremes_in_{name}", place(b"".join(spelled(f, extreme(f)) for f in scalars)))
    members = {
        "no_member": b"",
        "empty_string": piece(1, ""), "string": piece(1, "text"),
        "false": num(2, 0), "true": num(2, 1),
        "int_0": num(3, 0), "int_minus_1": num(3, -1), "int_least": num(3, -2**63), "int_greatest": num(3, 2**63 - 1),
        "double_0": eight(4, 0), "double_minus_0": eight(4, 1 << 63), "double_1": eight(4, 0x3FF << 52),
        "double_least": eight(4, 1), "double_infinite": eight(4, 0xFFF << 52),
        "quiet_nan_with_payload": eight(4, 0x7FF8DEADBEEF0001),
        "signalling_nan_with_payload": eight(4, 0xFFF0000000000005),
        "empty_array": piece(5, b""), "empty_list": piece(6, b""),
        "empty_bytes": piece(7, b""), "bytes": piece(7, b"\x00\xff\xc0\x80")}
    for name, text in members.items():
        good(f"value_{name}", in_value(text), by="cpp" if "payload" in name else None)


def numbers():
    """Numbers that are wider than their field, and open enums."""
    good("kind_minus_1_in_ten_bytes", in_span(hexed("30ffffffffffffffffff01")))
    good("kind_minus_1_in_five_bytes", in_span(hexed("30ffffffff0f")))
    good("kind_least", in_span(num(6, 2**31)))
    good("kind_least_in_ten_bytes", in_span(num(6, -2**31)))
    good("kind_beyond_the_known", in_span(num(6, 6)))
    good("kind_low_bits_are_0", in_span(num(6, 2**32)))
    good("kind_low_bits_are_3", in_span(num(6, 2**63 + 3)))
    good("code_minus_1", in_status(hexed("18ffffffffffffffffff01")))
    good("code_minus_1_in_five_bytes", in_status(hexed("18ffffffff0f")))
    good("code_beyond_the_known", in_status(num(3, 3)))
    good("code_low_bits_are_2", in_status(num(3, 2**40 + 2)))
    good("count_low_bits_count", in_span(num(10, 2**32 + 5) + num(12, 2**32) + num(14, -1)))
    good("count_low_bits_count_elsewhere", in_resource(num(2, 2**35 + 1)) + in_scope(num(4, 2**36 + 2))
         + in_event(num(4, 2**37 + 3)) + in_link(num(5, 2**38 + 4)))
    good("bool_two", in_value(num(2, 2)))
    good("bool_low_bits_are_0", in_value(num(2, 2**32)))
    good("bool_top_bit", in_value(num(2, 2**63)))
    good("bool_false_in_three_bytes", in_value(hexed("10808000")))
    good("bool_bits_past_64", in_value(hexed("10" + "80" * 9 + "7e")))
    good("int_bits_past_64", in_value(hexed("18ffffffffffffffffff7f")))
    good("kind_bits_past_64", in_span(hexed("3082" + "80" * 8 + "7e")))


def merging():
    """Embedded messages that stand more than once, and the oneof rule."""
    resource = lambda text: piece(1, text)
    pair = lambda key: piece(1, piece(1, key))
    good("resource_twice", in_resource_spans(resource(pair("a") + num(2, 1)) + resource(pair("b"))))
    good("resource_twice_with_spans_between",
         in_resource_spans(resource(pair("a")) + piece(2, b"") + resource(num(2, 9)) + piece(2, piece(3, "url"))))
    good("resource_twice_the_second_empty", in_resource_spans(resource(num(2, 1)) + resource(b"")))
    good("resource_twice_with_unknown",
         in_resource_spans(resource(num(9, 1) + num(2, 1)) + resource(num(8, 2) + pair("b"))))
    good("scope_twice", in_scope_spans(piece(1, piece(1, "a") + piece(2, "1")) + piece(1, piece(2, "2") + piece(3, b""))))
    good("scope_twice_with_unknown", in_scope_spans(piece(1, num(9, 1)) + piece(2, b"") + piece(1, num(8, 2) + num(4, 4))))
    good("status_twice", in_span(piece(15, piece(2, "first") + num(3, 1)) + piece(15, num(3, 2))))
    good("status_twice_with_unknown", in_span(piece(15, num(1, 7) + num(3, 1)) + num(6, 1) + piece(15, num(9, 2))))
    one, two = piece(1, num(3, 1)), piece(1, num(3, 2))
    pairs_one, pairs_two = piece(1, piece(1, "a")), piece(1, piece(1, "b"))
    value = lambda *texts: in_attribute(b"".join(piece(2, text) for text in texts))
    good("value_twice_same_array", value(piece(5, one), piece(5, two)))
    good("value_twice_same_list", value(piece(6, pairs_one), piece(6, pairs_two)))
    good("value_twice_string_wins", value(piece(5, one), piece(1, "s")))
    good("value_thrice_another_between", value(piece(5, one), num(3, 0), piece(5, two)))
    good("value_thrice_list_between", value(piece(5, one), piece(6, pairs_one), piece(5, two)))
    good("value_twice_the_second_empty", value(piece(5, one), b""))
    good("value_twice_key_between", in_attribute(piece(2, piece(5, one)) + piece(1, "key") + piece(2, piece(5, two))))
    good("array_twice_in_one_value", in_value(piece(5, one) + piece(5, two)))
    good("list_twice_in_one_value", in_value(piece(6, pairs_one) + piece(6, pairs_two)))
    good("array_twice_another_between", in_value(piece(5, one) + piece(7, b"b") + piece(5, two)))
    good("list_twice_array_between", in_value(piece(6, pairs_one) + piece(5, b"") + piece(6, pairs_two)))
    good("array_twice_unknown_between", in_value(piece(5, one) + num(9, 1) + piece(5, two)))
    good("array_twice_wrong_type_between", in_value(piece(5, one) + piece(3, b"") + piece(5, two)))
    good("array_then_string_last", in_value(piece(5, one) + piece(1, "")))
    good("replaced_member_takes_its_unknown", in_value(piece(5, num(9, 1) + one) + num(8, 2) + num(2, 1)))
    good("merged_member_joins_its_unknown",
         value(piece(5, num(9, 1) + one) + num(8, 3), piece(5, two + num(9, 2)) + num(8, 4)))
    good("same_scalar_member_twice", in_value(piece(1, "a") + piece(1, "b")))
    good("nested_values_merge_only_at_the_top",
         value(piece(5, piece(1, piece(5, one))), piece(5, piece(1, piece(5, two)))))


def spellings():
    """Fields in other order, and varints longer than needed."""
    good("span_fields_backwards", in_span(b"".join(spelled(f, plain(f) if f.message_type is None else b"")
                                                   for f in reversed(fields_of(T.Span)))))
    good("event_fields_backwards", in_event(
        num(4, 4) + piece(3, piece(1, "b")) + piece(3, piece(1, "a")) + piece(2, "n") + eight(1, 1)))
    good("link_fields_backwards", in_link(
        four(6, 6) + num(5, 5) + piece(4, b"") + piece(3, "s") + piece(2, b"2") + piece(1, b"1")))
    good("scope_fields_backwards", in_scope(num(4, 4) + piece(3, piece(1, "k")) + piece(2, "v") + piece(1, "n")))
    good("attribute_fields_backwards", in_attribute(piece(2, num(3, 5)) + piece(1, "key")))
    good("resource_behind_spans", in_resource_spans(
        piece(3, "url") + piece(2, piece(3, "u") + piece(2, b"") + piece(1, b"")) + piece(1, num(2, 1))))
    good("repeated_fields_interleaved", in_span(piece(9, piece(1, "a")) + piece(13, b"") + piece(11, piece(2, "e"))
                                                + piece(9, piece(1, "b")) + piece(11, b"") + piece(13, piece(3, "s"))))
    good("tag_in_two_bytes", tag(1, BYTES, 2) + varint(0), by="cpp")
    good("tag_in_five_bytes", in_span(
        tag(5, BYTES, 5) + varint(3) + b"abc" + tag(16, FOUR, 5) + bytes(3) + b"\x01"), by="cpp")
    good("tags_in_three_bytes_throughout",
         tag(1, BYTES, 3) + varint(18) + tag(2, BYTES, 3) + varint(14) + tag(2, BYTES, 3) + varint(10)
         + tag(9, BYTES, 3) + varint(6) + tag(2, BYTES, 3) + varint(2) + num(2, 1), by="cpp")
    good("length_in_two_bytes", in_span(tag(5, BYTES) + varint(2, 2) + b"ab"))
    good("length_in_five_bytes", tag(1, BYTES) + varint(4, 5) + piece(2, piece(2, b"")))
    good("length_in_six_bytes", in_span(tag(1, BYTES) + varint(2, 6) + b"ab"), by="python")
    good("length_bits_past_64", in_span(tag(1, BYTES) + hexed("82" + "80" * 8 + "7e") + b"ab"), by="python")
    good("value_in_ten_bytes", in_value(tag(3, VARINT) + varint(5, 10)))
    good("zero_in_ten_bytes", in_span(tag(6, VARINT) + varint(0, 10) + tag(10, VARINT) + varint(0, 10)))
    good("count_in_two_to_four_bytes", in_span(tag(10, VARINT) + varint(1, 2) + tag(12, VARINT) + varint(2, 3)
                                               + tag(14, VARINT) + varint(3, 4)))
    for size in (127, 128, 300):
        good(f"string_of_{size}_bytes", in_span(piece(5, "n" * size)))
    good("span_of_128_bytes", in_span(piece(5, "n" * 126)))


UNKNOWN = (num(50, 1) + eight(51, 2) + piece(52, b"\x03\xff\x00") + group(53, num(1, 4), group(2, four(3, 5)), group(7))
           + four(54, 6) + num(2**29 - 1, 7))


def unknown():
    """Unknown fields of each wire type, and known numbers with another wire type, in each message."""
    for name, (place, message) in PLACES.items():
        fields = fields_of(message)
        first = spelled(fields[0], plain(fields[0]) if fields[0].message_type is None else b"")
        good(f"unknown_in_{name}", place(UNKNOWN + first + num(60, 8)))
        other = [num(f.number, f.number) if kind_of(f) != VARINT else piece(f.number, b"\x01") for f in fields]
        good(f"other_type_in_{name}", place(b"".join(other)))
    good("every_other_type_of_a_string", in_span(
        num(5, 1) + eight(5, 2) + group(5, num(5, 3)) + four(5, 4) + piece(5, "name")))
    good("every_other_type_of_a_fixed_number", in_span(num(7, 1) + piece(7, b"2") + group(7) + four(7, 4) + eight(16, 5)))
    good("entity_refs_of_a_resource", in_resource(piece(3, piece(2, "service")) + piece(1, b"")))
    good("string_index_of_a_value", in_value(num(8, 3)))
    good("old_code_of_a_status", in_status(num(1, 2) + num(3, 2)))
    good("old_instrumentation_library_spans", in_resource_spans(piece(1000, piece(2, b"")) + piece(2, b"")))
    good("unknown_bytes_are_not_entered", in_span(piece(40, b"\x0b\xff\x00") + piece(41, b"\xff")))
    good("group_that_holds_known_numbers", in_span(group(20, piece(5, b"\xff"), num(9, 1), piece(15, b"\x00"))))
    good("groups_of_one_number", in_span(group(20, group(20, group(20))) + group(20)))
    good("unknown_tag_of_five_bytes", in_status(piece(2**29 - 1, b"x") + group(2**28)))
    good("kept_as_spelled", in_span(
        tag(20, VARINT, 3) + varint(0, 2) + num(6, 1) + tag(21, BYTES) + varint(1, 3) + b"x"), by="python")
    good("kept_tag_in_ten_bytes", in_span(hexed("a081" + "80" * 7 + "7e01") + num(6, 1)), by="python")
    good("kept_group_as_spelled", in_status(
        tag(20, START) + tag(1, VARINT) + varint(1, 10) + tag(20, END) + num(3, 2)), by="python")
    good("kept_other_type_as_spelled", in_attribute(tag(1, VARINT) + varint(150, 4) + piece(1, "k")), by="python")


def nested(number, inner, levels):
    """Arrays (5) or lists (6) in one another as the bytes of an AnyValue; a list's pairs have no keys."""
    for _ in range(levels):
        inner = piece(5, piece(1, inner)) if number == 5 else piece(6, piece(1, piece(2, inner)))
    return inner


def nesting():
    """Nested values, and what stands at the greatest depth, 100. A span's attribute has depth 4, its value 5."""
    good("array_of_all_members", in_array(b"".join(piece(1, text) for text in (
        b"", piece(1, "s"), num(2, 1), num(3, -5), eight(4, 1 << 62), piece(5, b""), piece(6, b""), piece(7, b"b")))))
    good("arrays_in_arrays", in_array(
        piece(1, nested(5, num(3, 1), 2)) + piece(1, nested(5, num(3, 2), 1)) + piece(1, num(3, 3))))
    good("lists_in_lists", in_value(nested(6, piece(1, "s"), 3)))
    good("lists_and_arrays", in_value(nested(6, nested(5, nested(6, nested(5, num(2, 0), 1), 1), 1), 1)))
    good("list_of_pairs", in_list(b"".join(piece(1, piece(1, k) + v) for k, v in (
        ("a", b""), ("b", piece(2, b"")), ("a", piece(2, num(3, 1))), ("", piece(2, piece(6, piece(1, piece(1, "c")))))))))
    good("array_at_depth_100", in_value(nested(5, piece(5, b""), 47)))
    good("pair_at_depth_100", in_value(nested(6, piece(6, piece(1, piece(1, "key"))), 31)))
    good("groups_to_depth_100", nest_groups(100), by="cpp")
    good("groups_to_depth_100_in_a_span", in_span(nest_groups(97)))
    good("groups_to_depth_100_in_a_value", in_value(nest_groups(95)))


def nest_groups(levels):
    return tag(20, START) * levels + tag(20, END) * levels


def whole_bodies():
    """Bodies of several spans, scopes and resources, and messages that are present and empty."""
    good("empty_body", b"")
    good("empty_resource_spans", piece(1, b""))
    good("two_empty_resource_spans", piece(1, b"") * 2)
    good("empty_resource", in_resource(b""))
    good("empty_scope_spans", in_scope_spans(b""))
    good("empty_scope", in_scope(b""))
    good("empty_span", in_span(b""))
    good("everything_empty_in_a_span", in_span(b"".join(piece(n, b"") for n in (1, 2, 3, 4, 5, 9, 9, 11, 11, 13, 13, 15))))
    spans = [T.Span(trace_id=bytes([t]) * 16, span_id=bytes([t, s] * 4), name=f"span {t}.{s}", kind=s)
             for t in (1, 2) for s in (1, 2)]
    scopes = [T.InstrumentationScope(name=f"scope {n}") for n in (1, 2)]
    resources = [T.Resource(attributes=[text_value("service.name", f"service {n}")]) for n in (1, 2)]
    good("several_spans", request_of(T.ResourceSpans(scope_spans=[T.ScopeSpans(spans=spans)])))
    good("several_scopes", request_of(T.ResourceSpans(scope_spans=[
        T.ScopeSpans(scope=scopes[0], spans=spans[:1], schema_url="https://opentelemetry.io/schemas/1.21.0"),
        T.ScopeSpans(scope=scopes[1]), T.ScopeSpans(spans=spans[1:2])])))
    good("several_resources", request_of(
        T.ResourceSpans(resource=resources[0], scope_spans=[T.ScopeSpans(scope=scopes[0], spans=spans[:1])], schema_url="u1"),
        T.ResourceSpans(resource=resources[1], scope_spans=[T.ScopeSpans(scope=scopes[1], spans=spans[2:3])], schema_url="u2"),
        T.ResourceSpans(scope_spans=[T.ScopeSpans(spans=spans[3:])])))
    event = T.Span.Event(time_unix_nano=1544712660500000000, name="exception", dropped_attributes_count=1,
                         attributes=[text_value("exception.message", "no such file")])
    link = T.Span.Link(trace_id=b"\x03" * 16, span_id=b"\x04" * 8, trace_state="rojo=00f067aa0ba902b7", flags=257,
                       dropped_attributes_count=2, attributes=[T.KeyValue(key="n", value=T.AnyValue(int_value=-7))])
    good("span_with_events_links_and_status", span_request(
        trace_id=b"\x01" * 16, span_id=b"\x02" * 8, name="GET /", kind=T.Span.SPAN_KIND_CLIENT, events=[event, event],
        links=[link], status=T.Status(message="failed", code=T.Status.STATUS_CODE_ERROR), flags=769,
        dropped_attributes_count=1, dropped_events_count=2, dropped_links_count=3))


def answers():
    """Bodies of a back end's answers."""
    partial = lambda **fields: T.ExportTraceServiceResponse(partial_success=T.ExportTracePartialSuccess(**fields))
    response("response_empty", b"")
    response("response_empty_partial_success", partial())
    response("response_three_rejected", partial(rejected_spans=3, error_message="rejected: 2 invalid, 1 over budget"))
    response("response_warning_alone", partial(error_message="soon full"))
    response("response_number_alone", partial(rejected_spans=2**63 - 1))
    response("response_negative_number", partial(rejected_spans=-1))
    response("response_defaults_spelled", piece(1, num(1, 0) + piece(2, "")))
    response("response_merged", piece(1, num(1, 5) + piece(2, "a")) + piece(1, piece(2, "b")))
    response("response_backwards", piece(1, piece(2, "m") + num(1, 1) + num(1, 2)))
    response("response_unknown_dropped", UNKNOWN + piece(1, UNKNOWN + num(1, 1)) + num(1, 1))
    response("response_other_types_dropped", four(1, 1) + piece(1, piece(1, b"x") + num(2, 3)))


# Bodies that aren't messages, each with the one fault that stands in it, by hand.
TRUNCATED, TOO_LONG, BAD_TAG, MISMATCH, TOO_DEEP, NOT_UTF8 = range(1, 7)


def truncated():
    """A tag, a length or a value goes past the end of the body, of its message or of its group."""
    bad("tag_alone", TRUNCATED, hexed("0a"))
    bad("tag_cut", TRUNCATED, hexed("8a80"))
    bad("length_cut", TRUNCATED, hexed("0a80"))
    bad("length_past_the_end", TRUNCATED, hexed("0a05120012"))
    bad("length_of_2_to_the_63", TRUNCATED, hexed("0a80808080808080808001"))
    bad("length_of_all_ones", TRUNCATED, hexed("0affffffffffffffffff01"))
    bad("length_past_its_message", TRUNCATED, in_span(hexed("2a0361")) + piece(1, b"") * 4)
    bad("unknown_length_past_its_message", TRUNCATED, in_status(hexed("9a060461")))
    bad("varint_cut", TRUNCATED, in_span(hexed("30ff")))
    bad("varint_missing", TRUNCATED, in_value(hexed("18")))
    bad("nine_bytes_that_go_on", TRUNCATED, in_value(hexed("18" + "ff" * 9)))
    bad("seven_of_eight_bytes", TRUNCATED, in_span(tag(7, EIGHT) + bytes(7)))
    bad("three_of_four_bytes", TRUNCATED, in_span(tag(16, FOUR) + bytes(3)))
    bad("group_end_cut", TRUNCATED, hexed("a301a4"))
    bad("unknown_eight_bytes_cut", TRUNCATED, tag(20, EIGHT) + bytes(7))
    bad("value_cut_in_a_group", TRUNCATED, tag(20, START) + tag(1, FOUR) + bytes(3))
    bad("cut_in_an_array", TRUNCATED, in_array(hexed("0a02")))
    bad("cut_behind_a_sound_message", TRUNCATED, piece(1, b"") + hexed("0a0112"))
    bad("cut_in_a_message_that_another_follows", TRUNCATED, in_resource_spans(piece(1, hexed("10")) + piece(1, b"")))


def too_long():
    """The tenth byte of a varint says that another follows."""
    bad("value_in_eleven_bytes", TOO_LONG, in_span(hexed("30" + "80" * 10 + "00")))
    bad("value_of_ten_bytes_that_go_on", TOO_LONG, in_value(hexed("18" + "ff" * 10)))
    bad("unknown_value_in_eleven_bytes", TOO_LONG, hexed("a801" + "ff" * 10 + "01"))
    bad("tag_in_eleven_bytes", TOO_LONG, hexed("8a" + "80" * 9 + "0000"))
    bad("length_in_eleven_bytes", TOO_LONG, hexed("0a" + "80" * 10 + "00"))
    bad("value_in_eleven_bytes_in_a_group", TOO_LONG, group(20, hexed("08" + "80" * 10 + "00")))


def bad_tag():
    """A tag of field number 0, of wire type 6 or 7, or of 2^32 or more."""
    bad("number_0", BAD_TAG, hexed("0000"))
    bad("number_0_of_bytes", BAD_TAG, hexed("0200"))
    bad("number_0_in_two_bytes", BAD_TAG, hexed("800000"))
    bad("number_0_as_a_group", BAD_TAG, hexed("0304"))
    bad("type_6", BAD_TAG, hexed("0e"))
    bad("type_7", BAD_TAG, hexed("0f"))
    bad("type_7_in_a_group", BAD_TAG, group(20, hexed("0f")))
    bad("tag_of_2_to_the_32", BAD_TAG, hexed("8080808010") + b"\x00", by="cpp")
    bad("tag_past_32_bits", BAD_TAG, hexed("8a80808010") + b"\x00", by="neither")
    bad("guide_packed_as_a_list", BAD_TAG, in_value(hexed("3206038e029ea705")))
    for name, (place, _) in PLACES.items():
        if name != "request":
            bad(f"type_6_in_{name}", BAD_TAG, place(hexed("f606")))


def group_mismatch():
    """A group's end without its start, with another number, or missing."""
    bad("end_without_start", MISMATCH, hexed("0c"))
    bad("end_without_start_in_a_span", MISMATCH, in_span(num(6, 1) + tag(20, END)))
    bad("start_without_end", MISMATCH, hexed("0b"))
    bad("start_without_end_in_a_span", MISMATCH, in_span(tag(20, START) + num(1, 1)) + tag(20, END))
    bad("end_of_another_number", MISMATCH, hexed("0b14"))
    bad("ends_exchanged", MISMATCH, tag(20, START) + tag(21, START) + tag(20, END) + tag(21, END))
    bad("one_end_of_two", MISMATCH, tag(20, START) * 2 + tag(20, END))
    bad("one_end_too_many", MISMATCH, group(20) + tag(20, END))


def too_deep():
    """A known message or a group at depth 101, empty ones too."""
    bad("groups_to_depth_101", TOO_DEEP, nest_groups(101))
    bad("groups_to_depth_101_in_a_span", TOO_DEEP, in_span(nest_groups(98)), by="cpp")
    bad("groups_to_depth_101_in_a_value", TOO_DEEP, in_value(nest_groups(96)), by="cpp")
    bad("empty_value_at_depth_101_in_arrays", TOO_DEEP, in_value(nested(5, b"", 48)))
    bad("empty_value_at_depth_101_in_lists", TOO_DEEP, in_value(nested(6, b"", 32)))


def not_utf8():
    """A known string that isn't UTF-8, also one that a later occurrence replaces."""
    for name, (place, message) in PLACES.items():
        for field in fields_of(message):
            if field.type == field.TYPE_STRING:
                bad(f"{field.name}_in_{name}_is_not_utf8", NOT_UTF8, place(piece(field.number, b"a\xff")))
    in_name = lambda text: in_span(piece(5, text))
    bad("utf8_continuation_alone", NOT_UTF8, in_name(b"\x80"))
    bad("utf8_longer_than_needed", NOT_UTF8, in_name(b"\xc0\x80"))
    bad("utf8_longer_than_needed_in_three_bytes", NOT_UTF8, in_name(b"\xe0\x9f\xbf"))
    bad("utf8_longer_than_needed_in_four_bytes", NOT_UTF8, in_name(b"\xf0\x8f\xbf\xbf"))
    bad("utf8_surrogate", NOT_UTF8, in_name(b"\xed\xa0\x80"))
    bad("utf8_above_10ffff", NOT_UTF8, in_name(b"\xf4\x90\x80\x80"))
    bad("utf8_character_cut", NOT_UTF8, in_name(b"\xe2\x82"))
    bad("replaced_string_is_not_utf8", NOT_UTF8, in_span(piece(5, b"\xff") + piece(5, "name")))
    bad("replaced_member_is_not_utf8", NOT_UTF8, in_value(piece(1, b"\xff") + num(3, 1)))


def without_unknown(message):
    """The same request or response, its own unknown fields and those of the envelopes in it discarded."""
    kept = type(message)()
    if isinstance(message, T.ExportTraceServiceResponse):
        if message.HasField("partial_success"):
            kept.partial_success.SetInParent()
            kept.partial_success.rejected_spans = message.partial_success.rejected_spans
            kept.partial_success.error_message = message.partial_success.error_message
        return kept
    for resource_spans in message.resource_spans:
        to = kept.resource_spans.add(schema_url=resource_spans.schema_url)
        if resource_spans.HasField("resource"):
            to.resource.SetInParent()
            to.resource.MergeFrom(resource_spans.resource)
        for scope_spans in resource_spans.scope_spans:
            inner = to.scope_spans.add(schema_url=scope_spans.schema_url, spans=scope_spans.spans)
            if scope_spans.HasField("scope"):
                inner.scope.SetInParent()
                inner.scope.MergeFrom(scope_spans.scope)
    return kept


def answer(message, body):
    """What this process's backend makes of a body: its canonical text, or None where it refuses the body."""
    with warnings.catch_warnings(record=True) as said:
        warnings.simplefilter("always")
        try:
            text = without_unknown(message.FromString(body)).SerializeToString()
        except (DecodeError, UnicodeDecodeError):
            return None
    return None if said else text


def answer_lines():
    """Answers lines of a message's name and a body's digits by lines of a text's digits, or `refused`."""
    for line in sys.stdin:
        name, digits = line.rstrip("\n").split(" ")
        text = answer(getattr(T, name), hexed(digits))
        print("refused" if text is None else text.hex())


def answers_of(backend, bodies):
    """What a backend, in a process of its own, answers to these (message's name, body)."""
    environment = {**os.environ, "PROTOCOL_BUFFERS_PYTHON_IMPLEMENTATION": backend}
    lines = "".join(f"{name} {body.hex()}\n" for name, body in bodies)
    ran = subprocess.run([sys.executable, __file__, "--answer", backend], input=lines, env=environment, text=True,
                         stdout=subprocess.PIPE, stderr=subprocess.DEVNULL, check=True)
    return [None if line == "refused" else hexed(line) for line in ran.stdout.splitlines()]


def read_varint(text):
    value = 0
    for at, byte in enumerate(text):
        value |= (byte & 127) << 7 * at
        if byte < 128:
            return value, text[at + 1:]


def read_field(text):
    """The key and the value of the field at the front, and the rest."""
    key, rest = read_varint(text)
    kind = key & 7
    if kind == VARINT:
        return key, *read_varint(rest)
    if kind == START:
        inner = key
        while inner & 7 != END:
            inner, _, rest = read_field(rest)
    if kind in (START, END):
        return key, None, rest
    size, rest = read_varint(rest) if kind == BYTES else (8 if kind == EIGHT else 4, rest)
    value = rest[:size]
    return key, value if kind == BYTES else int.from_bytes(value, "little"), rest[size:]


# What a canonical varint of each type can be: 32 bits with sign are written as 64 bits with sign.
RANGES = {"TYPE_ENUM": lambda n: n < 2**31 or n >= 2**64 - 2**31, "TYPE_UINT32": lambda n: n < 2**32,
          "TYPE_BOOL": lambda n: n < 2}


def assert_canonical(descriptor, text):
    """Holds that known fields come first, by rising number, minimally spelled and without defaults outside a oneof."""
    latest, known_over, members = 0, False, 0
    while text:
        key, value, rest = read_field(text)
        field = descriptor.fields_by_number.get(key >> 3)
        if field is None or key & 7 != kind_of(field):
            known_over = True
        else:
            repeated = field.label == field.LABEL_REPEATED
            members += field.containing_oneof is not None
            assert not known_over, "a known field behind an unknown one"
            assert text == spelled(field, value) + rest, "a varint is longer than needed"
            assert field.number > latest or repeated and field.number == latest, "fields out of order"
            assert value or field.message_type or field.containing_oneof, "a default is written"
            assert members < 2, "two members of a oneof"
            fits = [it(value) for name, it in RANGES.items() if getattr(field, name) == field.type]
            assert all(fits), "a number is too wide"
            if field.message_type:
                assert_canonical(field.message_type, value)
            latest = field.number
        text = rest


def texts_of(table, message):
    """Each body's canonical text, on which its witnesses agree."""
    bodies = [(message.DESCRIPTOR.name, body) for body in table.values()]
    by_backend = {backend: answers_of(backend, bodies) for backend in ("cpp", "python")}
    texts = {}
    for at, name in enumerate(table):
        found = {backend: given[at] for backend, given in by_backend.items()}
        if name in witnesses:
            assert found["cpp"] != found["python"], f"{name}: both backends agree"
        else:
            assert found["cpp"] == found["python"], f"{name}: {found}"
        texts[name] = found[witnesses.get(name, "cpp")]
        assert texts[name] is not None, f"{name}: refused"
        assert_canonical(message.DESCRIPTOR, texts[name])
    again = [(message.DESCRIPTOR.name, text) for text in texts.values()]
    for backend in ("cpp", "python"):
        for (name, text), given in zip(texts.items(), answers_of(backend, again)):
            assert given == text or witnesses.get(name, backend) != backend, f"{name}: not written back as it is"
    return texts


def assert_refused():
    """Holds that the backends refuse each faulty body, but for those that name which do."""
    bodies = [("ExportTraceServiceRequest", body) for _, body in faults.values()]
    by_backend = {backend: answers_of(backend, bodies) for backend in ("cpp", "python")}
    for at, name in enumerate(faults):
        refuse = {backend for backend, given in by_backend.items() if given[at] is None}
        wanted = {None: {"cpp", "python"}, "neither": set()}.get(witnesses.get(name), {witnesses.get(name)})
        assert refuse == wanted, f"{name}: refused by {refuse}"


def digits(text):
    return text.hex() or "-"


def pair_lines(table, texts):
    return "".join(f"{name} {digits(body)} {digits(texts[name])}\n" for name, body in table.items())


def write_all(texts, response_texts, source_path):
    """Writes the files, and a source file too where a path is given. `rt fmt` leaves that as it is."""
    fault_lines = "".join(f"{name} {number} {digits(body)}\n" for name, (number, body) in faults.items())
    files = {
        "vectors": ("Request bodies, a line each: a name, the body, and its canonical text.", pair_lines(vectors, texts)),
        "responses": ("Response bodies, a line each: a name, the body, and its canonical text.",
                      pair_lines(responses, response_texts)),
        "faults": ("Faulty request bodies, a line each: a name, the fault's number, and the body.", fault_lines)}
    source = "//! Test vectors of OTLP trace bodies, written by tests/otlp/make_vectors.py; change nothing here.\n"
    source += "//! Bytes are hexadecimal digits, `-` for none.\n"
    for name, (about, lines) in files.items():
        (HERE / f"{name}.txt").write_text(lines)
        source += f'\n/// {about}\npub const {name.upper()}: &str = "\\\n{lines}";\n'
    if source_path:
        Path(source_path).write_text(source)


def main():
    if sys.argv[1:2] == ["--answer"]:
        assert api_implementation.Type() == sys.argv[2], f"no backend {sys.argv[2]}"
        return answer_lines()
    for part in (guide, example, every_field, numbers, merging, spellings, unknown, nesting, whole_bodies, answers,
                 truncated, too_long, bad_tag, group_mismatch, too_deep, not_utf8):
        part()
    texts = texts_of(vectors, T.ExportTraceServiceRequest)
    response_texts = texts_of(responses, T.ExportTraceServiceResponse)
    assert_refused()
    write_all(texts, response_texts, sys.argv[1] if sys.argv[1:] else None)
    print(f"{len(vectors)} vectors, {len(responses)} responses, {len(faults)} faults")


main()
