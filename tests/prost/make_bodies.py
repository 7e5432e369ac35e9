#!/usr/bin/env python3
"""make_bodies.py STORED FOLDER: bodies to make ready, and to decode and encode by prost.

request.pb is the stored body. Of its spans each tenth (tenth.pb) or each (anew.pb) has an empty trace state first, so
that its text isn't canonical. A code of 0 is written in each span's status (code.pb), a count of 0 in each event and
link (counts.pb), or both, and three counts of 0 in each span besides (written.pb), and so with the flags before the
name (late.pb). The length of each message in it is written in four bytes, but of attributes' values (long.pb), of
these too (values.pb), or so with each event's name before its time (named.pb) and the flags before the span's name
(client.pb). Half of oneN.pb and scopesN.pb, of some N bytes, is attributes of one resource, half is spans of 30
bytes, in one scope or each in a scope of its own. emptyN.pb is spans of no fields. Each of the others has 100 spans
of some 480 bytes, with 19 fields each: in their order (ordered.pb), with the flags before the name (flags.pb), there
with a count of 0 besides (count.pb), with the name at the end (last.pb), in reverse order (reverse.pb), so with the
name twice (twice.pb), with the end's time twice (time.pb), or the status, empty (status.pb), with a message in one and
a code in the other (apart.pb) or with both in both (statuses.pb), with each attribute's value before its key (keys.pb)
or the lengths of its key and its text in four bytes (texts.pb), with one attribute more, whose value has two members
(members.pb), with two in the value of each (pairs.pb), with a bool before the text in the value of each (bools.pb) or
an array (arrays.pb), with one attribute more that has two values (couple.pb), with two values in each (couples.pb) or
three (triples.pb), with two members in an array that is the value of each (inner.pb) or two values in a list that is
(listed.pb), with two arrays in the value of each (twins.pb), and with a field that isn't known before each key
(unknown.pb) or before the member of each value (within.pb). Each event, link and status of the stored body is written
in reverse order in events.pb. Each span stands under a resource of its own, whose count stands before its attributes,
in resources.pb."""
import pathlib
import struct
import sys


def varint(value):
    text = bytearray()
    while value >= 128:
        text.append(value & 127 | 128)
        value >>= 7
    return bytes(text) + bytes([value])


def piece(number, text):
    return varint(number << 3 | 2) + varint(len(text)) + text


def read_varint(text, at):
    value = shift = 0
    while True:
        byte = text[at]
        value |= (byte & 127) << shift
        shift += 7
        at += 1
        if byte < 128:
            return value, at


def fields(text):
    """Each field's number, what its length stands before, and the field as it is spelled."""
    at, found = 0, []
    while at < len(text):
        tag, behind = read_varint(text, at)
        content = b""
        if tag & 7 == 0:
            end = read_varint(text, behind)[1]
        elif tag & 7 == 1:
            end = behind + 8
        elif tag & 7 == 5:
            end = behind + 4
        else:
            length, start = read_varint(text, behind)
            end = start + length
            content = text[start:end]
        found.append((tag >> 3, content, text[at:end]))
        at = end
    return found


def changed(body, span):
    """The body with each span's text changed so."""
    def scope(text):
        return b"".join(piece(2, span(c)) if n == 2 else s for n, c, s in fields(text))

    def group(text):
        return b"".join(piece(2, scope(c)) if n == 2 else s for n, c, s in fields(text))

    return b"".join(piece(1, group(c)) for _, c, _ in fields(body))


def anew(body, every):
    count = 0

    def span(content):
        nonlocal count
        count += 1
        return b"\x1a\x00" + content if count % every == 0 else content

    return changed(body, span)


def number_of_none(number):
    return number, varint(number << 3) + varint(0)


def in_order(added, content):
    """The fields with those added, by number."""
    known = [(number, text) for number, _, text in fields(content)]
    return b"".join(text for _, text in sorted(known + added, key=lambda field: field[0]))


def with_code(content):
    """A span whose status has a code of 0 written, where it had no status."""
    has = any(number == 15 for number, _, _ in fields(content))
    return content if has else in_order([(15, piece(15, number_of_none(3)[1]))], content)


def with_counts(content):
    """A span whose events and links have a count of 0 written."""
    counts = {11: number_of_none(4), 13: number_of_none(5)}
    return b"".join(piece(number, in_order([counts[number]], text)) if number in counts else spelled
                    for number, text, spelled in fields(content))


def with_all(content):
    """A span with both, and with three counts of 0 of its own."""
    return in_order([number_of_none(number) for number in (10, 12, 14)], with_code(with_counts(content)))


def flags_before_name(content):
    def place(field):
        return 4.5 if field[0] == 16 else field[0]

    return b"".join(text for _, _, text in sorted(fields(content), key=place))


def long_piece(number, text):
    """A field whose length takes four bytes, which some clients leave before they know it."""
    size = len(text)
    return varint(number << 3 | 2) + bytes([size & 127 | 128, size >> 7 & 127 | 128, size >> 14 & 127 | 128,
                                            size >> 21]) + text


MESSAGES = {"request": {1: "group"}, "group": {2: "scope"}, "scope": {2: "span"}, "attribute": {}, "status": {},
            "span": {9: "attribute", 11: "event", 13: "link", 15: "status"}, "event": {3: "attribute"},
            "link": {4: "attribute"}}


def long(text, messages, name="request"):
    """The message with the lengths of those in it in four bytes."""
    return b"".join(long_piece(number, long(content, messages, messages[name][number]))
                    if number in messages[name] else spelled for number, content, spelled in fields(text))


def name_first(content):
    """A span whose events have their name before their time."""
    def event(text):
        return b"".join(spelled for _, _, spelled in sorted(fields(text), key=lambda field: field[0] != 2))

    return b"".join(piece(11, event(text)) if number == 11 else spelled for number, text, spelled in fields(content))


def each_inside(numbers, change):
    """A span with the text of each of these fields changed so."""
    def span(content):
        return b"".join(piece(number, change(text)) if number in numbers else spelled
                        for number, text, spelled in fields(content))

    return span


def reversed_fields(content):
    return b"".join(spelled for _, _, spelled in reversed(fields(content)))


def long_texts(content):
    """An attribute with the lengths of its key and of the text that is its value in four bytes."""
    (_, key, _), (_, value, _) = fields(content)
    return long_piece(1, key) + piece(2, b"".join(long_piece(1, text) for _, text, _ in fields(value)))


UNKNOWN = number_of_none(99)[1]


def unknown_first(content):
    """An attribute with a field that isn't known before its key."""
    return UNKNOWN + content


def unknown_in_value(content):
    """An attribute with a field that isn't known before the member of its value."""
    (_, key, _), (_, value, _) = fields(content)
    return piece(1, key) + piece(2, UNKNOWN + value)


def two_members(content):
    """An attribute whose value has another member behind its text."""
    (_, key, _), (_, value, _) = fields(content)
    return piece(1, key) + piece(2, value + varint(3 << 3) + varint(5))


def of_value(change):
    """An attribute with its value changed so."""
    def attribute_of(content):
        (_, key, _), (_, value, _) = fields(content)
        return piece(1, key) + piece(2, change(value))

    return attribute_of


def beginning_with(member):
    """What puts this member before the text that is an attribute's value."""
    return of_value(lambda value: member + value)


def two_values(content):
    """An attribute with another value behind its own."""
    return content + piece(2, piece(1, b"other"))


def three_values(content):
    """An attribute with its value three times."""
    return content + 2 * fields(content)[1][2]


def two_members_in_array(value):
    """An array of one value, which has a number before the text."""
    return piece(5, piece(1, varint(3 << 3) + varint(5) + value))


def two_values_in_list(value):
    """A list of one attribute, which has this value twice."""
    return piece(6, piece(1, piece(1, b"k") + 2 * piece(2, value)))


def two_arrays(value):
    """Two arrays of this value."""
    return 2 * piece(5, piece(1, value))


def with_couple(content):
    """A span with an attribute more that has two values."""
    return in_order([(9, piece(9, piece(1, b"k") + 2 * piece(2, piece(1, b"v"))))], content)


def some(size, make):
    found, length = [], 0
    while length < size:
        found.append(make(len(found)))
        length += len(found[-1])
    return found


def attribute(index):
    return piece(1, piece(1, b"k%d" % index) + piece(2, piece(1, b"v")))


def span(index):
    ids = piece(1, struct.pack(">QQ", 1, index // 4 + 1)) + piece(2, struct.pack(">Q", index + 1))
    return piece(2, ids)


def one(size):
    resource = b"".join(some(size // 2, attribute))
    return piece(1, piece(1, resource) + piece(2, b"".join(some(size // 2, span))))


def scopes(size):
    resource = b"".join(some(size // 2, attribute))
    return piece(1, piece(1, resource) + b"".join(piece(2, s) for s in some(size // 2, span)))


def empty(size):
    return piece(1, piece(2, piece(2, b"") * (size // 2)))


TEXTS = (("http.request.method", "GET"), ("http.route", "/v1/orders/{order}/items/{item}"), ("url.scheme", "https"),
         ("server.address", "orders.internal.example"), ("network.protocol.version", "1.1"),
         ("customer.tier", "silver"), ("user_agent.original", "orders-client/4.2 (linux)"),
         ("code.function.name", "orders::items::read"), ("url.path", "/v1/orders/1a2b3c4d/items/77"),
         ("thread.name", "pool-1"))


def mixed(number):
    """Another number for each number: the steps of splitmix64, as tests/load/post.rs has them."""
    for shift, factor in ((30, 0xBF58476D1CE4E5B9), (27, 0x94D049BB133111EB), (31, 1)):
        number = (number ^ number >> shift) * factor % 2**64
    return number


def text_attribute(key, value):
    return piece(1, key.encode()) + piece(2, piece(1, value.encode()))


def full_fields(index):
    """A span's 19 fields in their order, each with its number."""
    trace = mixed(1 << 12 | index // 12)
    name = b"GET /v1/orders/{order}/items/{item}"
    ids = [(1, struct.pack(">QQ", trace, mixed(2**64 - 1 - trace))), (2, struct.pack(">Q", mixed(index + 1))),
           (4, struct.pack(">Q", mixed(index + 7))), (5, name)]
    times = [(number, varint(number << 3 | 1) + struct.pack("<Q", moment + index))
             for number, moment in ((7, 1_700_000_000_000_000_000), (8, 1_700_000_000_025_000_000))]
    return [*((number, piece(number, text)) for number, text in ids), (6, varint(6 << 3) + varint(2)), *times,
            *((9, piece(9, text_attribute(key, value))) for key, value in TEXTS), (15, piece(15, b"")),
            (16, varint(16 << 3 | 5) + struct.pack("<I", 1))]


def with_statuses(first, second):
    """The fields with these two in place of the status."""
    def order(fields):
        return fields[:-2] + [(15, piece(15, first)), (15, piece(15, second))] + fields[-1:]

    return order


def with_members(content):
    """A span with an attribute more whose value has two members."""
    value = piece(1, b"v") + varint(3 << 3) + varint(5)
    return in_order([(9, piece(9, piece(1, b"k") + piece(2, value)))], content)


MESSAGE = piece(2, b"deadline exceeded")
CODE = varint(3 << 3) + varint(2)
BOOL = varint(2 << 3) + varint(1)
ARRAY = piece(5, piece(1, piece(1, b"v")))
NO_COUNT = (14, varint(14 << 3) + varint(0))
ORDERS = {
    "ordered": lambda fields: fields,
    "flags": lambda fields: fields[:3] + fields[-1:] + fields[3:-1],
    "count": lambda fields: fields[:3] + fields[-1:] + [NO_COUNT] + fields[3:-1],
    "last": lambda fields: [field for field in fields if field[0] != 5] + fields[3:4],
    "reverse": lambda fields: sorted(fields, key=lambda field: -field[0]),
    "twice": lambda fields: [(5, piece(5, b"n")), *ORDERS["reverse"](fields)],
    "time": lambda fields: fields + [field for field in fields if field[0] == 8],
    "status": with_statuses(b"", b""),
    "apart": with_statuses(MESSAGE, CODE),
    "statuses": with_statuses(MESSAGE + CODE, MESSAGE + CODE),
}


def ordered(order):
    """A body of a hundred such spans, in this order."""
    spans = (b"".join(text for _, text in order(full_fields(index))) for index in range(100))
    resource = piece(1, text_attribute("service.name", "orders"))
    return piece(1, piece(1, resource) + piece(2, b"".join(piece(2, text) for text in spans)))


def of_own_resources():
    """A hundred such spans, each under a resource of its own, with a count before its attributes."""
    attributes = b"".join(piece(1, text_attribute(key, value)) for key, value in TEXTS)
    spans = (b"".join(text for _, text in full_fields(index)) for index in range(100))
    return b"".join(piece(1, piece(1, varint(2 << 3) + varint(index + 1) + attributes) + piece(2, piece(2, text)))
                    for index, text in enumerate(spans))


def main():
    stored, folder = pathlib.Path(sys.argv[1]).read_bytes(), pathlib.Path(sys.argv[2])
    bodies = {"request": stored, "tenth": anew(stored, 10), "anew": anew(stored, 1)}
    bodies |= {"code": changed(stored, with_code), "counts": changed(stored, with_counts),
               "written": changed(stored, with_all)}
    bodies["late"] = changed(bodies["written"], flags_before_name)
    named = changed(stored, name_first)
    bodies |= {"long": long(stored, MESSAGES), "named": long(named, MESSAGES),
               "values": long(stored, MESSAGES | {"attribute": {2: "value"}, "value": {}}),
               "client": long(changed(named, flags_before_name), MESSAGES)}
    for size in (65536, 524288, 4194304):
        bodies[f"one{size}"] = one(size)
        bodies[f"scopes{size}"] = scopes(size)
    bodies["empty4194304"] = empty(4194304)
    bodies |= {name: ordered(order) for name, order in ORDERS.items()}
    bodies |= {"keys": changed(bodies["ordered"], each_inside({9}, reversed_fields)),
               "texts": changed(bodies["ordered"], each_inside({9}, long_texts)),
               "members": changed(bodies["ordered"], with_members),
               "unknown": changed(bodies["ordered"], each_inside({9}, unknown_first)),
               "within": changed(bodies["ordered"], each_inside({9}, unknown_in_value)),
               "pairs": changed(bodies["ordered"], each_inside({9}, two_members)),
               "bools": changed(bodies["ordered"], each_inside({9}, beginning_with(BOOL))),
               "arrays": changed(bodies["ordered"], each_inside({9}, beginning_with(ARRAY))),
               "couple": changed(bodies["ordered"], with_couple),
               "couples": changed(bodies["ordered"], each_inside({9}, two_values)),
               "triples": changed(bodies["ordered"], each_inside({9}, three_values)),
               "inner": changed(bodies["ordered"], each_inside({9}, of_value(two_members_in_array))),
               "listed": changed(bodies["ordered"], each_inside({9}, of_value(two_values_in_list))),
               "twins": changed(bodies["ordered"], each_inside({9}, of_value(two_arrays))),
               "resources": of_own_resources(),
               "events": changed(stored, each_inside({11, 13, 15}, reversed_fields))}
    for name, body in bodies.items():
        (folder / f"{name}.pb").write_bytes(body)
        print(name, len(body))


if __name__ == "__main__":
    main()
