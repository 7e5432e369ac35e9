#!/usr/bin/env python3
"""Posts bodies made by chance to the built program, and checks what is refused, what is left out, and what leaves.

    make trace_collector && python3 tests/random_bodies.py [PROGRAM [COUNT [SEED]]]

Takes `./trace_collector`, 500 bodies and seed 1 if nothing is named; the same seed makes the same bodies. What is
expected is of tests/model/messages.py. Bodies have fields in any order and as often as chance has it, fields that
aren't known, groups, numbers that are longer than they need be, and messages as deep as they may be and deeper; some
are damaged. Prints the first line that differs, with its command, and ends with 1; of 500 bodies some have to be
taken whole, some in part and some not at all, and some have to leave.
"""

import os
import random
import subprocess
import sys
import tempfile
from collections import Counter
from pathlib import Path

from model import messages
from model.messages import BITS, Message, Faulty
from replay.make_script import piece, varint

HERE = Path(__file__).resolve().parent.parent
SETTINGS = """[[tenant]]
name = "a"
max_spans = 1000000
[tenant.tail_sampling]
decision_wait_ms = 1
num_traces = 1000000
[[tenant.tail_sampling.policy]]
type = "always_sample"
[tenant.batch]
timeout_ms = 0
[tenant.sending_queue]
queue_size = 100000
"""
BAD = "reply a 400 " + piece(2, b"bad protobuf").hex()
STRINGS = [b"", b"a", b"k", b"\x00", "é€😀".encode()]
NO_STRINGS = [b"\xff", b"\xc0\x80", b"\xed\xa0\x80", b"\xf4\x90\x80\x80"]
# no number, no such types, a tag of 2^32, ends of groups without a start, of another number and none
NO_FIELDS = [b"\x00\x00", b"\xa6\x01", b"\xa7\x01", varint(2**32 + 160) + b"\x00", b"\xa4\x01", b"\xa3\x01\xac\x01",
             b"\xa3\x01"]
NUMBERS = [0, 0, 1, 2, 3, 300, 2**31, 2**32 - 1, 2**32, 2**63, BITS - 1]


class Bodies:
    """Makes bodies; `random` says which."""

    def __init__(self, chance):
        self.chance, self.trace = chance, b""

    def number(self, value):
        """A varint, now and then longer than it need be, with bits that are dropped."""
        text = varint(value)
        spare = 10 - len(text)
        if spare and self.chance.random() < 0.1:
            more = self.chance.randint(1, spare)
            text = text[:-1] + bytes([text[-1] | 128]) + b"\x80" * (more - 1) + b"\x00"
            if more == spare:
                text = text[:-1] + bytes([self.chance.choice([0, 2, 64, 126])])
        return text

    def of_bytes(self, field, text):
        return self.number(field << 3 | messages.BYTES) + self.number(len(text)) + text

    def unknown(self, depth=0):
        """A field that the message may not know, or knows as another type; hardly ever what is no field."""
        if self.chance.random() < 0.001:
            return self.chance.choice(NO_FIELDS)
        field = self.chance.choice([1, 2, 3, 4, 5, 9, 15, 16, 17, 100, 2**29 - 1])
        kind = self.chance.choice([messages.VARINT, messages.EIGHT, messages.BYTES, messages.FOUR, messages.GROUP])
        tag = self.number(field << 3 | kind)
        if kind == messages.VARINT:
            return tag + self.number(self.chance.choice(NUMBERS))
        if kind == messages.BYTES:
            # one of a low number may be a message, and its text none
            field = field if self.chance.random() < 0.02 else field + 16
            return self.of_bytes(min(field, 2**29 - 1), self.chance.choice(STRINGS))
        if kind == messages.GROUP:
            inside = b"".join(self.unknown(depth + 1) for _ in range(self.chance.randint(0, 2 if depth < 3 else 0)))
            return tag + inside + self.number(field << 3 | messages.END)
        return tag + self.chance.randbytes(8 if kind == messages.EIGHT else 4)

    def scalar(self, message, field, kind):
        if message is messages.SPAN and field in (1, 2):
            others = [b"", bytes(16), bytes(8), b"x" * 15, b"y" * 17]
            return self.of_bytes(field, self.chance.choice([self.own_id(field)] * 20 + others))
        if kind == messages.STRING:
            return self.of_bytes(field, self.chance.choice(STRINGS if self.chance.random() < 0.999 else NO_STRINGS))
        if kind == messages.OCTETS:
            return self.of_bytes(field, self.chance.choice([b"", b"\x00", b"abc"]))
        tag = self.number(field << 3 | messages.type_of(kind))
        if messages.type_of(kind) == messages.VARINT:
            return tag + self.number(self.chance.choice(NUMBERS))
        count = 8 if kind == messages.EIGHT_BYTES else 4
        return tag + self.chance.choice([bytes(count), bytes(count - 1) + b"\x80", self.chance.randbytes(count)])

    def own_id(self, field):
        return self.trace if field == 1 else b"\x21" * 8

    def times(self, message, kind, depth):
        """How often a field stands."""
        if isinstance(kind, Message) and depth > 8:
            return 0
        if message is messages.REQUEST:
            return self.chance.randint(1, 3)
        return self.chance.choice([0, 0, 0, 1, 2] if message.one_of else [0, 1, 1, 1, 2, 3])

    def message(self, message, depth=0):
        fields = []
        for field, (kind, _) in message.fields.items():
            for _ in range(self.times(message, kind, depth)):
                if isinstance(kind, Message):
                    fields.append(self.of_bytes(field, self.message(kind, depth + 1)))
                else:
                    fields.append(self.scalar(message, field, kind))
        if self.chance.random() < 0.3:
            fields += [self.unknown() for _ in range(self.chance.randint(1, 2))]
        if self.chance.random() < 0.5:
            self.chance.shuffle(fields)
        return b"".join(fields)

    def deep(self):
        """A span with lists in one another, about as deep as messages may be, and something at the bottom."""
        value = self.chance.choice([b"", piece(1, b"a"), piece(5, b""), piece(6, piece(1, b"")), b"\xa3\x01\xa4\x01",
                                    b"\xa3\x01\xa3\x01\xa4\x01\xa4\x01"])
        for _ in range(self.chance.randint(44, 51)):
            value = piece(5, piece(1, value))
        return self.around(piece(9, piece(1, b"k") + piece(2, value)))

    def around(self, fields):
        return piece(1, piece(2, piece(2, piece(1, self.trace) + piece(2, b"\x21" * 8) + fields)))

    def groups(self):
        count = self.chance.randint(98, 103)
        return b"\x9b\x06" * count + b"\x9c\x06" * count + self.around(b"")

    def damaged(self, body):
        body = bytearray(body)
        for _ in range(self.chance.randint(1, 2)):
            at = self.chance.randrange(len(body))
            body[at:self.chance.choice([at, at + 1, len(body)])] = self.chance.choice([b"", self.chance.randbytes(1)])
            if not body:
                break
        return bytes(body)

    def body(self, number):
        self.trace = b"\x55" * 8 + (number + 1).to_bytes(8, "big")
        choice = self.chance.random()
        if choice < 0.1:
            return self.deep()
        if choice < 0.15:
            return self.groups()
        body = self.message(messages.REQUEST)
        return self.damaged(body) if choice < 0.25 and body else body


def told_of(spans):
    """The reply to a post of these spans."""
    invalid = sum(not is_valid for _, is_valid, *_ in spans)
    if not invalid:
        return "reply a 200 -"
    said = f"rejected: {invalid} invalid, 0 over budget".encode()
    return "reply a 200 " + piece(1, b"\x08" + varint(invalid) + piece(2, said)).hex()


class Script:
    """Bodies that are posted one after another, what is asked then, and the lines that are expected."""

    def __init__(self):
        self.commands, self.lines, self.met = [], [], Counter()
        self.moment = self.tickets = 0

    def post(self, body):
        self.commands.append(f"post a {self.moment} {body.hex() or '-'}")
        try:
            spans = messages.spans_of(body)
        except Faulty:
            self.met["refused"] += 1
            self.lines.append(BAD)
            return
        self.lines.append(told_of(spans))
        self.met["taken whole" if self.lines[-1].endswith("-") else "taken in part"] += 1
        self.send([span for span in spans if span[1]])

    def send(self, spans):
        """All rows are decided a millisecond later, each of which is a batch."""
        self.moment += 1
        rows = {}
        for span in spans:
            rows.setdefault(span[0], []).append(span)
        for row in rows.values():
            self.tickets += 1
            self.met["batches"] += 1
            self.commands += [f"turn 0 {self.moment}", f"answer a {self.moment} {self.tickets} 0 200 - -"]
            self.lines += [f"job a {self.tickets} {messages.request_of(row).hex()}", "done a"]


def replayed(program, commands):
    with tempfile.TemporaryDirectory() as folder:
        settings = Path(folder, "settings.toml")
        settings.write_text(SETTINGS)
        script = "".join(f"{command}\n" for command in commands)
        done = subprocess.run([program, "replay", settings], input=script, capture_output=True, text=True, timeout=600,
                              check=False)
    fault = [f"status {done.returncode} {done.stderr}"] if done.returncode or done.stderr else []
    return done.stdout.splitlines() + fault


def main():
    words = sys.argv[1:]
    program = os.path.abspath(words[0] if words else HERE / "trace_collector")
    count = int(words[1]) if len(words) > 1 else 500
    seed = words[2] if len(words) > 2 else "1"
    script = Script()
    for number in range(count):
        script.post(Bodies(random.Random(f"{seed} {number}")).body(number))
    got = replayed(program, script.commands)
    wrong = [at for at, both in enumerate(zip(got + [None], script.lines + [None])) if both[0] != both[1]]
    if wrong or len(got) != len(script.lines):
        at = wrong[0] if wrong else min(len(got), len(script.lines))
        print(f"line {at + 1}, {(script.commands + ['the end'])[at]}: got {(got + [None])[at]!r}, "
              f"expected {(script.lines + [None])[at]!r}")
    missing = {"refused", "taken whole", "taken in part", "batches"} - set(script.met) if count >= 500 else set()
    if missing:
        print("never met:", *sorted(missing), sep="\n  ")
    print(f"{count} bodies:", ", ".join(f"{what} {script.met[what]}" for what in sorted(script.met)))
    sys.exit(1 if wrong or missing or len(got) != len(script.lines) else 0)


if __name__ == "__main__":
    main()
