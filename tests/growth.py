#!/usr/bin/env python3
"""Tells how many instructions a replay takes at one size and at twice it, for shapes on which it could take time that
grows faster than its input.

    make trace_collector && python3 tests/growth.py [PROGRAM] [SHAPE..]

Takes `./trace_collector` if no program is named, and all shapes if none is. It prints a table of Markdown: the size,
all instructions of the program, those at twice the size, and the ratio. Instructions are valgrind's (callgrind), so
what else runs on the machine has no say. Ends with 1 where a ratio is above 2.2, or where a replay isn't answered as
its shape wants it. Nothing is random, so the same program gives the same table but for addresses.
"""

import hashlib
import os
import re
import socket
import subprocess
import sys
import tempfile
import threading
from pathlib import Path

from replay.make_script import attribute, number_field, piece, span, time_field

ROOT = Path(__file__).resolve().parent.parent
MOST = 2.2
ALL = '[[tenant.tail_sampling.policy]]\ntype = "always_sample"\n'
NONE = '[[tenant.tail_sampling.policy]]\ntype = "status_code"\nstatus_codes = ["ERROR"]\n'
SOME_VALUE = piece(1, b"v")
ERROR = piece(15, number_field(3, 2))
LINK = piece(1, b"\1" * 16) + piece(2, b"\2" * 8)
# of what is posted at moment 0, once its wait is over
DUE = "turn 0 1000\n"


def batches(size, timeout=0, consumers=1000):
    """Batches of so many spans, and a queue with room for all."""
    return (f"[tenant.batch]\nsend_batch_size = {size}\nsend_batch_max_size = {size}\ntimeout_ms = {timeout}\n"
            f"[tenant.sending_queue]\nqueue_size = 100000\nnum_consumers = {consumers}\n")


def tenant(name="a", policies=ALL, wait=1000, traces=1_000_000, more=batches(8192)):
    """A tenant's section with room for all that a shape makes."""
    return (f'[[tenant]]\nname = "{name}"\nmax_spans = 2000000\n[tenant.tail_sampling]\ndecision_wait_ms = {wait}\n'
            f"num_traces = {traces}\n{policies}{more}")


def ids(trace, at):
    """A span's ids: of a trace by number, or by its sixteen bytes."""
    trace = trace if isinstance(trace, bytes) else trace.to_bytes(16, "big")
    return piece(1, trace) + piece(2, (at + 1).to_bytes(8, "big"))


def request(spans, resource=b""):
    """A body with these spans in one scope."""
    return piece(1, piece(1, resource) + piece(2, b"".join(piece(2, text) for text in spans)))


def post(moment, text, name="a"):
    return f"post {name} {moment} {text.hex()}\n"


def resources_and_spans(n):
    """n spans of one trace under a resource with a text of 30 n bytes: a product of both would be four times as much."""
    body = request([ids(1, at) for at in range(n)], attribute(1, "k", "v" * 30 * n))
    return tenant(), post(0, body) + DUE, "job a 1 "


def scopes_and_resource(n):
    """Behind another resource, n scopes of a span each under one with a text of 30 n bytes. Each second span is late, of
    a trace that isn't sampled, so that nothing of its scope is kept."""
    scopes = b"".join(piece(2, piece(2, ids(2, at) if at % 2 else ids(1, at) + ERROR)) for at in range(n))
    text = piece(1, piece(2, piece(2, ids(1, n) + ERROR))) + piece(1, piece(1, attribute(1, "k", "v" * 30 * n)) + scopes)
    script = post(0, request([ids(2, n)])) + DUE + post(1000, text) + "turn 0 2000\n"
    return tenant(policies=NONE), script, "job a 1 "


def attributes(n):
    """One span of n attributes, of which policies look for the last one."""
    last = f"key-{n - 1:08}"
    wanted = "".join(f'[[tenant.tail_sampling.policy]]\ntype = "string_attribute"\nkey = "{last}"\nvalues = ["{value}"]\n'
                     for value in "wxyzv")
    body = request([ids(1, 1) + b"".join(attribute(9, f"key-{at:08}", "v") for at in range(n))])
    return tenant(policies=wanted), post(0, body) + DUE, "job a 1 "


def nesting(n):
    """One span of n attributes, each of arrays within arrays down to depth 99."""
    value = SOME_VALUE
    for _ in range(47):
        value = piece(5, piece(1, value))
    body = request([ids(1, 1) + piece(9, piece(1, b"k") + piece(2, value)) * n])
    return tenant(), post(0, body) + DUE, "job a 1 "


def unknown_fields(n):
    """One span of n unknown fields, which stand before its ids, so that it is written anew."""
    return tenant(), post(0, request([number_field(100, 1) * n + ids(1, 1)])) + DUE, "job a 1 "


def unknown_in_attribute(n):
    """One attribute with n unknown fields before its key, and n in its value, so that both are put anew."""
    unknown = number_field(99, 1) * n
    text = unknown + piece(1, b"k") + piece(2, unknown + SOME_VALUE)
    return tenant(), post(0, request([ids(1, 1) + piece(9, text)])) + DUE, "job a 1 "


def members_of_value(n):
    """One attribute whose value has n members, of which the last counts."""
    text = piece(1, b"k") + piece(2, SOME_VALUE * n)
    return tenant(), post(0, request([ids(1, 1) + piece(9, text)])) + DUE, "job a 1 "


def attributes_to_be_read(n):
    """One span of n attributes with two arrays in each value, for which the whole span is read and written."""
    text = piece(9, piece(1, b"k") + piece(2, 2 * piece(5, piece(1, SOME_VALUE))))
    return tenant(), post(0, request([ids(1, 1) + text * n])) + DUE, "job a 1 "


def attributes_to_be_read_apart(n):
    """The same with another attribute behind each of them, so that each is read and written alone."""
    text = piece(9, piece(1, b"k") + piece(2, 2 * piece(5, piece(1, SOME_VALUE)))) + attribute(9, "k", "v")
    return tenant(), post(0, request([ids(1, 1) + text * n])) + DUE, "job a 1 "


def attributes_of_two_members(n):
    """One span of n attributes whose values have two members each, so that each is put anew."""
    text = piece(9, piece(1, b"k") + piece(2, SOME_VALUE + number_field(3, 5)))
    return tenant(), post(0, request([ids(1, 1) + text * n])) + DUE, "job a 1 "


def attributes_of_an_array_and_a_text(n):
    """The same with an array before a text in each value, which is looked into and left out."""
    text = piece(9, piece(1, b"k") + piece(2, piece(5, piece(1, SOME_VALUE)) + SOME_VALUE))
    return tenant(), post(0, request([ids(1, 1) + text * n])) + DUE, "job a 1 "


def attributes_of_two_values(n):
    """The same with two values each, of which the last is put."""
    text = piece(9, piece(1, b"k") + piece(2, SOME_VALUE) * 2)
    return tenant(), post(0, request([ids(1, 1) + text * n])) + DUE, "job a 1 "


def attributes_of_two_values_joined(n):
    """The same with an array in the first of them, so that one is made of both first."""
    text = piece(9, piece(1, b"k") + piece(2, piece(5, b"")) + piece(2, SOME_VALUE))
    return tenant(), post(0, request([ids(1, 1) + text * n])) + DUE, "job a 1 "


def values_of_attribute(n):
    """One attribute of n values, of which the last is put."""
    text = piece(1, b"k") + piece(2, SOME_VALUE) * n
    return tenant(), post(0, request([ids(1, 1) + piece(9, text)])) + DUE, "job a 1 "


def values_of_attribute_joined(n):
    """The same with an array in the first of them, so that one is made of all first."""
    text = piece(1, b"k") + piece(2, piece(5, b"")) + piece(2, SOME_VALUE) * n
    return tenant(), post(0, request([ids(1, 1) + piece(9, text)])) + DUE, "job a 1 "


def attributes_of_a_resource(n):
    """A resource of n attributes whose count stands before them, so that it is put anew."""
    resource = number_field(2, 1) + attribute(1, "k", "v") * n
    body = piece(1, piece(1, resource) + piece(2, piece(2, ids(1, 1))))
    return tenant(), post(0, body) + DUE, "job a 1 "


def events_of_two_counts(n):
    """One span of n events that have a count twice, so that each is put anew."""
    return tenant(), post(0, request([ids(1, 1) + piece(11, number_field(4, 1) * 2) * n])) + DUE, "job a 1 "


def values_at_each_level(n):
    """One span of n attributes, each of lists in one another, down to 28 of them, in which each attribute has two values."""
    value = b""
    for _ in range(28):
        value = piece(6, piece(1, piece(1, b"k") + piece(2, value) + piece(2, b"")))
    return tenant(), post(0, request([ids(1, 1) + piece(9, piece(1, b"k") + piece(2, value)) * n])) + DUE, "job a 1 "


def last_values_at_each_level(n):
    """The same with a text as the first of both values, which gives place to the list behind it at each level."""
    value = SOME_VALUE
    for _ in range(28):
        value = piece(6, piece(1, piece(1, b"k") + piece(2, SOME_VALUE) + piece(2, value)))
    return tenant(), post(0, request([ids(1, 1) + piece(9, piece(1, b"k") + piece(2, value)) * n])) + DUE, "job a 1 "


def spans_reversed(n):
    """n spans whose fields stand in reverse order, so that each is copied in order."""
    fields = [piece(5, b"name"), number_field(6, 2), time_field(7, 1), time_field(8, 2), attribute(9, "k", "v"), ERROR]
    return tenant(), post(0, request([b"".join([*reversed(fields), ids(1, at)]) for at in range(n)])) + DUE, "job a 1 "


def spans_with_defaults(n):
    """n spans with a trace state of no bytes and a kind of 0, which are copied without them."""
    defaults = piece(3, b"") + number_field(6, 0)
    return tenant(), post(0, request([ids(1, at) + defaults for at in range(n)])) + DUE, "job a 1 "


def spans_with_two_names(n):
    """n spans in reverse order with a name twice, of which each is copied in order, with the last name."""
    name = piece(5, b"name")
    others = name + ERROR + attribute(9, "k", "v") + name
    return tenant(), post(0, request([others + ids(1, at) for at in range(n)])) + DUE, "job a 1 "


def fields_in_turn(n):
    """One span of n attributes, n events, n links and n unknown fields in turn, before its ids."""
    turn = (piece(13, LINK) + number_field(100, 1) + piece(11, time_field(1, 1)) + attribute(9, "k", "v"))
    return tenant(), post(0, request([turn * n + ids(1, 1)])) + DUE, "job a 1 "


def fields_reversed(n):
    """One span of n links, then n events, then n attributes, and then its ids."""
    fields = (piece(13, LINK), piece(11, time_field(1, 1)), attribute(9, "k", "v"))
    return tenant(), post(0, request([b"".join(field * n for field in fields) + ids(1, 1)])) + DUE, "job a 1 "


def resource_again(n):
    """A resource that stands n times, merged."""
    body = piece(1, piece(1, attribute(1, "k", "v")) * n + piece(2, piece(2, ids(1, 1))))
    return tenant(), post(0, body) + DUE, "job a 1 "


def different_resources(n):
    """n resources with a span of a trace each, as long as a resource with a name is; half of them stand twice."""
    body = b"".join(piece(1, piece(1, attribute(1, "k", f"v-{at % (n // 2):08}")) + piece(2, piece(2, ids(1, at))))
                    for at in range(n))
    return tenant(), post(0, body) + DUE, "job a 1 "


def empty_spans(n):
    """n spans of two bytes, none of them valid."""
    return tenant(), post(0, request([b""] * n)), "reply a 200 "


def any_traces(n):
    """n posts, each of one span of a trace of its own; ids as they come."""
    return (tenant(wait=86_400_000),
            "".join(post(0, request([ids(hashlib.md5(b"%d" % at).digest(), at)])) for at in range(n)), "reply a 200 -\n")


def chosen_traces(n):
    """The same with ids that differ in their last bytes alone, the greatest first."""
    return (tenant(wait=86_400_000), "".join(post(0, request([ids(2**127 + n - at, at)])) for at in range(n)),
            "reply a 200 -\n")


def due_at_once(n):
    """n traces of one body, all due in one turn, kept and cut into batches of 100 spans."""
    body = request([ids(at + 1, at) for at in range(n)])
    return tenant(more=batches(100, timeout=200)), post(0, body) + DUE * (n // 100), "job a 1 "


def due_and_pending(n):
    """The same with batches as they are where nothing is said of them, so that all wait for one that isn't full."""
    body = request([ids(at + 1, at) for at in range(n)])
    return tenant(more=""), post(0, body) + "turn 0 1000\nturn 0 1200\n", "job a 1 "


def due_and_turned(n):
    """The same, and as many turns as there are traces, of which all but the first ones find nothing to do."""
    body = request([ids(at + 1, at) for at in range(n)])
    return tenant(more=""), post(0, body) + DUE * n + "turn 0 1200\n" * n, "job a 1 "


def due_and_dropped(n):
    """The same traces, of which the last alone is kept."""
    body = request([*(ids(at + 1, at) for at in range(n)), ids(n + 1, n) + ERROR])
    return tenant(policies=NONE), post(0, body) + DUE, "job a 1 "


def pushed_out(n):
    """n traces in turn where ten are held, so that each pushes one out."""
    return (tenant(traces=10), "".join(post(0, request([ids(at + 1, at)])) for at in range(n)), "reply a 200 -\n")


def late_spans(n):
    """n posts of a span to a trace that was kept already."""
    one = request([ids(1, 1)])
    return tenant(more=batches(1)), post(0, one) + DUE + post(1000, one) * n, "job a 1 "


def remembered(n):
    """n traces of one body that are kept and leave for n others, and a body with a late span of each."""
    cache = "[tenant.tail_sampling.decision_cache]\nsampled_cache_size = 100000\n"
    first, others = (request([ids(at + 1 + more, at) for at in range(n)]) for more in (0, n))
    return (tenant(policies=cache + ALL, traces=n), post(0, first) + post(1000, others) + post(1500, first) + "report a 1500\n",
            f"report a accepted={3 * n} undecided={n} pending=0 queued={2 * n} ")


def posts_of_a_trace(n):
    """n posts of a span to one trace, which is kept."""
    return (tenant(wait=86_400_000), "".join(post(0, request([ids(1, at)])) for at in range(n)) + "turn 0 86400000\n",
            "job a 1 ")


def drained(n):
    """n traces of one body that are drained, into batches of 100 spans."""
    body = request([ids(at + 1, at) for at in range(n)])
    return tenant(more=batches(100, timeout=200)), post(0, body) + "drain a 0\n" + "turn 0 0\n" * (n // 100), "job a 1 "


def many_tenants(n):
    """n tenants in one shard: a post each, and then a turn each."""
    names = [f"tenant-{at}" for at in range(n)]
    return ("".join(tenant(name, traces=1000).replace("2000000", "2000") for name in names),
            "".join(post(0, request([ids(1, 1)]), name) for name in names) + DUE * n, f"job tenant-{n - 1} 1 ")


def many_policies(n):
    """50 spans of eight attributes before n policies of 64 texts each."""
    values = ", ".join(f'"value-{at}"' for at in range(64))
    wanted = "".join(f'[[tenant.tail_sampling.policy]]\ntype = "string_attribute"\nkey = "http.route-{at}"\n'
                     f"values = [{values}]\n" for at in range(n))
    body = request([span(1, at) for at in range(50)])
    return tenant(policies=wanted), post(0, body) * 20 + DUE, "worked a\n"


def many_batches(n):
    """n batches of one span, each handed out and answered before the next."""
    body = request([ids(at + 1, at) for at in range(n)])
    turns = "".join(f"turn 0 1000\nanswer a 1000 {at} 0 200 - -\n" for at in range(1, n + 1))
    return tenant(more=batches(1, consumers=1)), post(0, body) + turns, "done a\n"


def many_retries(n):
    """n batches of one span on their way at a time, refused by a busy back end, sent again at one moment and taken."""
    body = request([ids(at + 1, at) for at in range(n)])
    busy = "".join(f"answer a 1000 {at} 0 503 9 -\n" for at in range(1, n + 1))
    taken = "".join(f"answer a 99000 {at} 0 200 - -\n" for at in range(n + 1, 2 * n + 1))
    return (tenant(more=batches(1)), post(0, body) + DUE * n + busy + "turn 0 99000\n" * n + taken,
            "done a\n")


def small_pieces(n):
    """A post of n spans that comes in pieces of 64 bytes, each a read of its own."""
    return tenant(), post(0, request([ids(at + 1, at) for at in range(n)])), "reply a 200 -\n", 64


def short_lines(n):
    """n lines that are empty or comments, in pieces of 64 bytes, before a turn."""
    return tenant(), "\n# a comment\n" * (n // 2) + "turn 0 0\n", "idle 0\n", 64


# a shape and its smaller size
SHAPES = {
    "resources times spans": (resources_and_spans, 1_000),
    "scopes times resource": (scopes_and_resource, 1_000),
    "attributes of a span": (attributes, 12_500),
    "nested attributes": (nesting, 500),
    "unknown fields": (unknown_fields, 25_000),
    "unknown fields of an attribute": (unknown_in_attribute, 25_000),
    "members of a value": (members_of_value, 50_000),
    "attributes of two arrays": (attributes_to_be_read, 12_500),
    "the same, apart": (attributes_to_be_read_apart, 12_500),
    "attributes of two members": (attributes_of_two_members, 12_500),
    "attributes of an array and a text": (attributes_of_an_array_and_a_text, 12_500),
    "attributes of two values": (attributes_of_two_values, 12_500),
    "the same, joined": (attributes_of_two_values_joined, 12_500),
    "values of an attribute": (values_of_attribute, 50_000),
    "the same, all joined": (values_of_attribute_joined, 50_000),
    "attributes of a resource put anew": (attributes_of_a_resource, 12_500),
    "events of two counts": (events_of_two_counts, 12_500),
    "two values at each level": (values_at_each_level, 250),
    "a text before a list at each level": (last_values_at_each_level, 250),
    "spans in reverse order": (spans_reversed, 4_000),
    "spans with defaults": (spans_with_defaults, 8_000),
    "spans with two names": (spans_with_two_names, 4_000),
    "fields of a span in turn": (fields_in_turn, 8_000),
    "fields of a span reversed": (fields_reversed, 8_000),
    "a resource that stands again": (resource_again, 10_000),
    "different resources": (different_resources, 10_000),
    "empty spans": (empty_spans, 50_000),
    "traces": (any_traces, 4_000),
    "traces of chosen ids": (chosen_traces, 4_000),
    "rows due at once, kept": (due_at_once, 8_000),
    "rows due at once, in no batch": (due_and_pending, 4_000),
    "rows due at once, a turn each": (due_and_turned, 1_000),
    "rows due at once, dropped": (due_and_dropped, 8_000),
    "rows pushed out": (pushed_out, 4_000),
    "late spans": (late_spans, 4_000),
    "late spans that are remembered": (remembered, 4_000),
    "posts of a trace": (posts_of_a_trace, 4_000),
    "traces drained": (drained, 8_000),
    "tenants": (many_tenants, 500),
    "policies": (many_policies, 32),
    "batches": (many_batches, 4_000),
    "retries": (many_retries, 500),
    "small pieces of a line": (small_pieces, 4_000),
    "small pieces of short lines": (short_lines, 20_000),
}


def fed(script, size):
    """A file that gives the script in pieces of so many bytes, each to one read."""
    mine, yours = socket.socketpair(socket.AF_UNIX, socket.SOCK_SEQPACKET)

    def send():
        with mine:
            for at in range(0, len(script), size):
                mine.sendall(script[at:at + size])

    threading.Thread(target=send, daemon=True).start()
    return yours


def instructions(program, folder, settings, script, wanted, size=None):
    """What a replay takes, or None where it isn't answered as it has to be."""
    at, told = folder / "settings.toml", folder / "script"
    at.write_text(settings)
    told.write_text(script)
    words = ["valgrind", "--tool=callgrind", "--callgrind-out-file=/dev/null", program, "replay", at]
    with fed(script.encode(), size) if size else open(told, "rb") as given, open(folder / "answers", "wb") as answers:
        done = subprocess.run(words, stdin=given, stdout=answers, stderr=subprocess.PIPE, text=True, check=False)
    ends = any(line.startswith(wanted) for line in open(folder / "answers", encoding="ascii"))
    if done.returncode != 0 or not ends:
        print(f"ended with {done.returncode}, {wanted!r} wanted: {done.stderr[-300:]}", file=sys.stderr)
        return None
    return int(re.findall(r"Collected : (\d+)", done.stderr)[-1])


def main():
    words = sys.argv[1:]
    program = os.path.abspath(words.pop(0) if words and words[0] not in SHAPES else ROOT / "trace_collector")
    worst = 0
    print("| Shape | Size | Instructions | At twice the size | Ratio |\n|---|---|---|---|---|")
    with tempfile.TemporaryDirectory() as folder:
        for name in words or SHAPES:
            shape, n = SHAPES[name]
            once, twice = (instructions(program, Path(folder), *shape(size)) for size in (n, 2 * n))
            ratio = twice / once if once and twice else float("inf")
            worst = max(worst, ratio)
            print(f"| {name} | {n:,} | {once or 0:,} | {twice or 0:,} | {ratio:.2f} |", flush=True)
    sys.exit(worst > MOST)


if __name__ == "__main__":
    main()
