"""Spans, the bodies that they come in, and the batches that they leave in: OTLP's messages in Protocol Buffers."""

from replay.make_script import piece, varint

NEGATIVE = 2**64


def number(field, value):
    """A whole number; one that is negative has ten bytes."""
    return varint(field << 3) + varint(value % NEGATIVE)


def fixed(field, value):
    """Eight bytes, left out where they are zero."""
    return varint(field << 3 | 1) + value.to_bytes(8, "little") if value else b""


def some(field, text):
    """Bytes, left out where there are none."""
    return piece(field, text) if text else b""


def key_value(key, value):
    """An attribute whose value is a text, a whole number, or a value's own bytes."""
    if isinstance(value, str):
        value = piece(1, value.encode())
    elif isinstance(value, int):
        value = number(3, value)
    return some(1, key.encode()) + piece(2, value)


class Origin:
    """What a span shares with its neighbours: attributes of a resource, a scope, and a schema's address of each. No
    resource and no scope are None."""

    def __init__(self, resource, resource_schema, scope, scope_schema):
        self.attributes = resource or []
        text = None if resource is None else b"".join(piece(1, key_value(*each)) for each in resource)
        self.resource = (text, resource_schema)
        self.scope = (scope, scope_schema)

    def open_resource(self):
        return b"" if self.resource[0] is None else piece(1, self.resource[0])

    def open_scope(self):
        return b"" if self.scope[0] is None else piece(1, self.scope[0])


class Span:
    """One span; a status that isn't there is None."""

    def __init__(self, origin, trace, own, times, status, attributes):
        self.origin, self.trace, self.own = origin, trace, own
        self.start, self.end = times
        self.status = status or 0
        self.attributes = attributes
        told = b"" if status is None else piece(15, number(3, status) if status else b"")
        self.text = (some(1, trace) + some(2, own) + fixed(7, self.start) + fixed(8, self.end)
                     + b"".join(piece(9, key_value(*each)) for each in attributes) + told)

    def is_valid(self):
        return len(self.trace) == 16 and any(self.trace) and len(self.own) == 8 and any(self.own)

    def values_of(self, key):
        return [value for name, value in self.attributes + self.origin.attributes if name == key]


def runs(spans, of):
    """Neighbours for which `of` is equal."""
    while spans:
        count = next((at for at, span in enumerate(spans) if of(span) != of(spans[0])), len(spans))
        yield spans[:count]
        spans = spans[count:]


def batch_of(spans):
    """The request in which these spans leave."""
    text = b""
    for of_resource in runs(spans, lambda span: span.origin.resource):
        inside = b""
        for of_scope in runs(of_resource, lambda span: span.origin.scope):
            origin = of_scope[0].origin
            inside += piece(2, origin.open_scope() + b"".join(piece(2, span.text) for span in of_scope)
                            + some(3, origin.scope[1]))
        origin = of_resource[0].origin
        text += piece(1, origin.open_resource() + inside + some(3, origin.resource[1]))
    return text
