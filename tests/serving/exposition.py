"""Reads metrics in Prometheus' text format 0.0.4, by its documentation
(https://prometheus.io/docs/instrumenting/exposition_formats/), and finds what breaks its rules."""

import re

NAME = re.compile(r"[a-zA-Z_:][a-zA-Z0-9_:]*")
LABEL = re.compile(r"[a-zA-Z_][a-zA-Z0-9_]*")
KINDS = ("counter", "gauge", "histogram", "summary", "untyped")
ESCAPES = {"\\": "\\", '"': '"', "n": "\n"}


class Family:
    """What is told of one metric: its type, its help, and its samples by their labels."""

    def __init__(self):
        self.kind = None
        self.help = None
        self.samples = {}


def quoted(line, at):
    """A label's value in quotes that begins here, and the place behind it."""
    value = ""
    at += 1
    while line[at] != '"':
        if line[at] == "\\":
            value += ESCAPES[line[at + 1]]
            at += 2
        else:
            value += line[at]
            at += 1
    return value, at + 1


def labels_of(line, at):
    """The labels of a sample whose brace opens here, and the place behind its end."""
    labels = {}
    at += 1
    while line[at] != "}":
        name = LABEL.match(line, at)
        at = name.end()
        if line[at:at + 2] != '="' or name.group() in labels:
            raise ValueError(f"a label: {line!r}")
        labels[name.group()], at = quoted(line, at + 1)
        if line[at] == ",":
            at += 1
        elif line[at] != "}":
            raise ValueError(f"what is behind a label: {line!r}")
    return labels, at + 1


def sample_of(line):
    """A sample's metric, labels and value."""
    name = NAME.match(line)
    at = name.end()
    labels = {}
    if line[at] == "{":
        labels, at = labels_of(line, at)
    words = line[at:].split()
    if line[at] not in " \t" or len(words) not in (1, 2):
        raise ValueError(f"a sample: {line!r}")
    if len(words) == 2:
        int(words[1])
    return name.group(), labels, float(words[0])


def families(text):
    """Each metric's family, by its name, in their order."""
    if not text.endswith("\n"):
        raise ValueError("the last line has no end")
    found = {}
    open_one = None
    for line in text[:-1].split("\n"):
        if not line.strip():
            continue
        words = line.split(None, 3)
        if words[0] == "#" and len(words) > 2 and words[1] in ("HELP", "TYPE"):
            name = words[2]
            if NAME.fullmatch(name) is None:
                raise ValueError(f"a name: {line!r}")
        elif line.startswith("#"):
            continue
        else:
            name, labels, value = sample_of(line)
        if name != open_one:
            if name in found:
                raise ValueError(f"{name} stands in two groups")
            found[name] = Family()
            open_one = name
        family = found[name]
        if words[0] == "#" and words[1] == "HELP":
            if family.help is not None:
                raise ValueError(f"{name} has two helps")
            family.help = words[3] if len(words) > 3 else ""
        elif words[0] == "#":
            if family.kind is not None or family.samples or words[3] not in KINDS:
                raise ValueError(f"the type of {name}: {line!r}")
            family.kind = words[3]
        else:
            key = tuple(sorted(labels.items()))
            if key in family.samples:
                raise ValueError(f"twice the same sample: {line!r}")
            family.samples[key] = value
    return found
