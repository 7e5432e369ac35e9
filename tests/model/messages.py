"""What a body of OTLP traces means and how it is written: messages as lists of fields, by Protocol Buffers' encoding,
OTLP's trace.proto, and docs/DECISIONS.md where these leave a choice. Written without a look at the code, and slow."""

from replay.make_script import piece, varint

DEEPEST = 100
BITS = 2**64
VARINT, EIGHT, BYTES, GROUP, END, FOUR = range(6)
# What a field has: a wire type, and what becomes of its value. A message has its fields in place of that.
STRING, OCTETS, UNSIGNED, ENUM, BOOL, INT, EIGHT_BYTES, FOUR_BYTES = range(8)
TYPE_OF = {STRING: BYTES, OCTETS: BYTES, UNSIGNED: VARINT, ENUM: VARINT, BOOL: VARINT, INT: VARINT, EIGHT_BYTES: EIGHT,
           FOUR_BYTES: FOUR}


class Faulty(Exception):
    """The body has no value."""


class Message:
    """A message of the schema: its fields by number, each with its kind and whether it may stand often, and whether
    they are of one oneof."""

    def __init__(self, one_of=False):
        self.fields, self.one_of = {}, one_of

    def having(self, fields, often=()):
        self.fields = {number: (kind, number in often) for number, kind in fields.items()}
        return self


VALUE, PAIR, ARRAY, MAP = Message(one_of=True), Message(), Message(), Message()
VALUE.having({1: STRING, 2: BOOL, 3: INT, 4: EIGHT_BYTES, 5: ARRAY, 6: MAP, 7: OCTETS})
PAIR.having({1: STRING, 2: VALUE})
ARRAY.having({1: VALUE}, often=(1,))
MAP.having({1: PAIR}, often=(1,))
RESOURCE = Message().having({1: PAIR, 2: UNSIGNED}, often=(1,))
SCOPE = Message().having({1: STRING, 2: STRING, 3: PAIR, 4: UNSIGNED}, often=(3,))
STATUS = Message().having({2: STRING, 3: ENUM})
EVENT = Message().having({1: EIGHT_BYTES, 2: STRING, 3: PAIR, 4: UNSIGNED}, often=(3,))
LINK = Message().having({1: OCTETS, 2: OCTETS, 3: STRING, 4: PAIR, 5: UNSIGNED, 6: FOUR_BYTES}, often=(4,))
SPAN = Message().having({1: OCTETS, 2: OCTETS, 3: STRING, 4: OCTETS, 5: STRING, 6: ENUM, 7: EIGHT_BYTES, 8: EIGHT_BYTES,
                         9: PAIR, 10: UNSIGNED, 11: EVENT, 12: UNSIGNED, 13: LINK, 14: UNSIGNED, 15: STATUS,
                         16: FOUR_BYTES}, often=(9, 11, 13))
SCOPE_SPANS = Message().having({1: SCOPE, 2: SPAN, 3: STRING}, often=(2,))
RESOURCE_SPANS = Message().having({1: RESOURCE, 2: SCOPE_SPANS, 3: STRING}, often=(2,))
REQUEST = Message().having({1: RESOURCE_SPANS}, often=(1,))


def type_of(kind):
    return BYTES if isinstance(kind, Message) else TYPE_OF[kind]


# ---- the text as fields

def read_varint(text, at):
    value = 0
    for place in range(10):
        if at == len(text):
            raise Faulty
        value |= (text[at] & 127) << 7 * place
        at += 1
        if text[at - 1] < 128:
            return value % BITS, at
    raise Faulty


def read_bytes(text, at, count):
    if at + count > len(text):
        raise Faulty
    return text[at:at + count], at + count


def read_field(text, at, depth):
    """A field's number, type and value, and where it ends."""
    tag, at = read_varint(text, at)
    number, kind = tag >> 3, tag & 7
    if tag >= 2**32 or number == 0 or kind > FOUR:
        raise Faulty
    if kind == VARINT:
        value, at = read_varint(text, at)
    elif kind == EIGHT:
        value, at = read_bytes(text, at, 8)
    elif kind == FOUR:
        value, at = read_bytes(text, at, 4)
    elif kind == BYTES:
        count, at = read_varint(text, at)
        value, at = read_bytes(text, at, count)
    else:
        value = None
        if kind == GROUP:
            at = past_group(text, at, number, depth + 1)
    return (number, kind, value), at


def past_group(text, at, number, depth):
    if depth > DEEPEST:
        raise Faulty
    while True:
        (ended, kind, _), at = read_field(text, at, depth)
        if kind == END:
            if ended != number:
                raise Faulty
            return at


def fields_of(text, depth):
    """All fields, each with its own bytes behind number, type and value."""
    found, at = [], 0
    while at < len(text):
        field, end = read_field(text, at, depth)
        if field[1] == END:
            raise Faulty
        found.append((*field, text[at:end]))
        at = end
    return found


# ---- what they mean

def is_known(message, number, kind):
    return number in message.fields and type_of(message.fields[number][0]) == kind


def test(message, text, depth):
    """Each occurrence of a message and of a string has to be sound, also one that another replaces."""
    if depth > DEEPEST:
        raise Faulty
    fields = fields_of(text, depth)
    for number, kind, value, _ in fields:
        if is_known(message, number, kind):
            of = message.fields[number][0]
            if isinstance(of, Message):
                test(of, value, depth + 1)
            elif of == STRING:
                test_string(value)
    return fields


def test_string(text):
    try:
        text.decode()
    except UnicodeDecodeError as error:
        raise Faulty from error


def scalar(kind, value):
    if kind == UNSIGNED:
        return value % 2**32
    if kind == ENUM:
        return (value + 2**31) % 2**32 - 2**31
    if kind == BOOL:
        return min(value, 1)
    return value


def value_of(message, fields):
    """The members of a message by number, and the bytes of what isn't known."""
    members, unknown = {}, b""
    for number, kind, value, own in fields:
        if not is_known(message, number, kind):
            unknown += own
            continue
        if message.one_of:
            members = {other: there for other, there in members.items() if other == number}
        of, is_often = message.fields[number]
        if is_often:
            members.setdefault(number, []).append(value_of(of, fields_of(value, 0)))
        elif isinstance(of, Message):
            members[number] = members.get(number, []) + fields_of(value, 0)
        else:
            members[number] = scalar(of, value)
    for number, there in members.items():
        of, is_often = message.fields[number]
        if isinstance(of, Message) and not is_often:
            members[number] = value_of(of, there)
    return members, unknown


# ---- how they are written

def scalar_text(number, kind, value):
    if type_of(kind) == BYTES:
        return piece(number, value)
    tag = varint(number << 3 | type_of(kind))
    return tag + (varint(value % BITS) if type_of(kind) == VARINT else value)


def is_default(value):
    return not any(value) if isinstance(value, bytes) else value == 0


def text_of(message, value):
    members, unknown = value
    text = b""
    for number in sorted(members):
        (of, is_often), there = message.fields[number], members[number]
        if is_often:
            text += b"".join(piece(number, text_of(of, each)) for each in there)
        elif isinstance(of, Message):
            text += piece(number, text_of(of, there))
        elif message.one_of or not (is_default(there) if type_of(of) != BYTES else there == b""):
            text += scalar_text(number, of, there)
    return text + unknown


# ---- what is posted, and what leaves

def is_id(text, count):
    return len(text) == count and any(text)


def spans_of(body):
    """Each span of a body: its trace, whether it is valid, its text, and those of its scope and its resource, with
    their schemas. What isn't known of the messages around these is dropped."""
    found = []
    for resource_spans, _ in value_of(REQUEST, test(REQUEST, body, 0))[0].get(1, []):
        resource = origin(resource_spans, RESOURCE)
        for scope_spans, _ in resource_spans.get(2, []):
            scope = origin(scope_spans, SCOPE)
            for span in scope_spans.get(2, []):
                trace, own = span[0].get(1, b""), span[0].get(2, b"")
                found.append((trace, is_id(trace, 16) and is_id(own, 8), text_of(SPAN, span), scope, resource))
    return found


def origin(members, message):
    """The text of a scope or a resource, None where there is none, and its schema."""
    return text_of(message, members[1]) if 1 in members else None, members.get(3, b"")


def request_of(spans):
    """The request in which these spans leave: neighbours of one resource stand together, in it those of one scope."""
    resources = []
    for _, _, text, scope, resource in spans:
        if not resources or resources[-1][0] != resource:
            resources.append((resource, []))
        scopes = resources[-1][1]
        if not scopes or scopes[-1][0] != scope:
            scopes.append((scope, []))
        scopes[-1][1].append(text)
    text = b""
    for resource, scopes in resources:
        inside = b"".join(around(scope, b"".join(piece(2, span) for span in texts), 2) for scope, texts in scopes)
        text += around(resource, inside, 1)
    return text


def around(of, inside, field):
    text, schema = of
    return piece(field, (b"" if text is None else piece(1, text)) + inside + (piece(3, schema) if schema else b""))
