#!/usr/bin/env python3
"""Replays the stories of tests/stories: `make trace_collector && python3 tests/stories.py [PROGRAM]`.

A story is a list of steps of up to three tenants of one shard, each with what it gives, worked out by hand from OTLP 1.x,
the Protocol Buffers encoding guide (https://protobuf.dev/programming-guides/encoding/), the documents of the OpenTelemetry
Collector's `tail_sampling` and `batch` processors and of its `exporterhelper`, and this project's own rules:

    story NAME: SETTINGS ..         the tables of settings.toml that tenants a, b and c have
    post a 0 11.21+12.22 = reply a 200 -

Left of the sign stands a command of `replay`, right of it the line that it prints, but for this: a turn is that of shard 0,
counters that aren't named are 0, a document that is added is written as its tenant's name and that of its tables, and a body
or a payload is written as its spans (see `span` and `body`), or as its name in bodies.txt. Of each report the spans that were taken have to be as many as stand in all places that one may be in.
"""
import re
import subprocess
import sys
import tempfile
from pathlib import Path

HERE = Path(__file__).resolve().parent
COUNTERS = ("accepted undecided pending queued active exported not_sampled too_early queue_full retry_exhausted "
            "back_end_refused back_end_rejected invalid over_budget").split()
BODIES = dict(line.split(" ") for line in (HERE / "stories/bodies.txt").read_text().splitlines())


def field(tag, content):
    assert len(content) < 128
    return bytes([tag, len(content)]) + content


def span(name):
    """The byte of a trace id, sixteen times, that of a span id, eight times, and any further bytes: `11.21.7a021802`."""
    trace, own, *rest = [bytes.fromhex(part) for part in name.split(".")]
    return field(0x0A, trace * 16) + field(0x12, own * 8) + b"".join(rest)


def resource(text):
    """Spans of one scope, after the bytes of their resource where there is one: `1001:11.21+11.22`."""
    own, colon, spans = text.rpartition(":")
    scope = b"".join(field(0x12, span(name)) for name in spans.split("+"))
    return (field(0x0A, bytes.fromhex(own)) if colon else b"") + field(0x12, scope)


def body(text):
    """The digits of the body of that name, or of resources with their spans, parted by `/`, or `-` where there is none."""
    if text == "-" or text in BODIES:
        return BODIES.get(text, text)
    return b"".join(field(0x0A, resource(part)) for part in text.split("/")).hex()


def tenant(name, section):
    return f'[[tenant]]\nname = "{name}"\n{section}'


def command(step, of):
    words = step.split(" ")
    if words[0] == "turn":
        return f"turn 0 {words[1]}"
    if words[0] == "add":
        return f"add {tenant(words[1], of[words[2]]).encode().hex()}"
    if words[0] == "post":
        words[3] = body(words[3])
    return " ".join(words)


def printed(outcome):
    words = outcome.split(" ")
    if words[0] == "idle":
        return "idle 0"
    if words[0] == "job":
        words[3] = body(words[3])
    if words[0] == "report":
        named = dict(word.split("=") for word in words[2:] if word != "-")
        assert {*named} <= {*COUNTERS}, outcome
        words[2:] = [f"{name}={named.get(name, 0)}" for name in COUNTERS]
    return " ".join(words)


def tables():
    """The text of each table of settings.toml, by its name."""
    found = re.split(r"^\[(\w+)\]\n", (HERE / "stories/settings.toml").read_text(), flags=re.M)
    return dict(zip(found[1::2], (re.sub(r"^(#.*)?\n", "", text, flags=re.M) for text in found[2::2])))


def stories(file):
    """The name, the tables' names and the lines of each story."""
    for part in file.read_text().split("\nstory ")[1:]:
        head, *lines = part.splitlines()
        name, _, of = head.partition(": ")
        yield name, of.split(), [line for line in lines if line and not line.startswith("#")]


def told(program, sections, lines, of):
    """What the program prints for the steps of these lines."""
    settings = "".join(tenant(name, text) for name, text in zip("abc", sections))
    script = "".join(f"{command(line.split(' = ')[0], of)}\n" for line in lines)
    with tempfile.NamedTemporaryFile("w", suffix=".toml") as file:
        file.write(settings)
        file.flush()
        run = subprocess.run([program, "replay", file.name], input=script, capture_output=True, text=True, timeout=600, check=False)
    if run.returncode or run.stderr:
        raise SystemExit(f"status {run.returncode}, {run.stderr!r} of\n{settings}{script}")
    return run.stdout.splitlines()


def is_counted(line):
    """Whether each span that was taken is counted in one place, by a report's line."""
    taken, *places = [int(word.split("=")[1]) for word in line.split(" ")[2:-2]]
    return taken == sum(places)


def main():
    program = str(Path(sys.argv[1] if len(sys.argv) > 1 else HERE.parent / "trace_collector").resolve())
    of, seen, failed = tables(), 0, 0
    for file in sorted((HERE / "stories").glob("*.story")):
        for name, sections, lines in stories(file):
            wanted = [printed(line.split(" = ")[1]) for line in lines]
            found = told(program, [of[section] for section in sections], lines, of)
            seen += 1
            for line in found:
                if line.startswith("report ") and not is_counted(line):
                    failed += 1
                    print(f"{file.name}, {name}: spans are counted in no place or in two: {line}")
            if found != wanted:
                failed += 1
                at = next((i for i, (one, other) in enumerate(zip(found, wanted)) if one != other), min(len(found), len(wanted)))
                print(f"{file.name}, {name}: step {at + 1}, {lines[at:at + 1]}: got {found[at:at + 1]}, expected {wanted[at:at + 1]}")
    print(f"tests/stories.py: {seen} stories, {failed} failed")
    raise SystemExit(1 if failed or not seen else 0)


main()
