#!/usr/bin/env python3
"""Checks what the built program replays against a model of its rules, on settings and scripts made by chance.

    make trace_collector && python3 tests/random_scripts.py [PROGRAM [COUNT [SEED]]]

Takes `./trace_collector`, 200 scripts and seed 1 if nothing is named; the same seed makes the same scripts. The model
(tests/model) is of plain lists, and was written without a look at the code. Prints the first line that differs, with
its command and a folder with the script, and ends with 1; 200 scripts have to meet each counter and each kind of line, spans
that follow a decision of each verdict that a cache remembers, tenants that leave and names that come back.
"""

import os
import random
import subprocess
import sys
import tempfile
from collections import Counter
from pathlib import Path

from model.scripts import Story
from serving.talk import NAMES

HERE = Path(__file__).resolve().parent.parent
FOLLOWED = {True: "sampled traces that are remembered", False: "dropped traces that are remembered"}
KINDS = {"reply 200", "reply 400", "reply 429", "reply 503", "job", "worked", "idle", "done", "refused", "report", "added",
         "status"}
GONE, BACK = "tenants that left", "names that came back"


def replayed(program, folder, story):
    """The lines that the program prints, or its fault."""
    file = Path(folder, "settings.toml")
    file.write_text(story.settings)
    script = "".join(f"{command}\n" for command in story.script)
    done = subprocess.run([program, "replay", file], input=script, capture_output=True, text=True, timeout=600,
                          check=False)
    return done.stdout.splitlines() + ([f"status {done.returncode} {done.stderr}"] if done.returncode or done.stderr else [])


def kind_of(line):
    words = line.split(" ")
    return f"reply {words[2]}" if words[0] == "reply" else words[0]


def first_difference(got, wanted):
    for at, (mine, yours) in enumerate(zip(got + [None], wanted + [None])):
        if mine != yours:
            return at
    return None


def told(story, got, number):
    """Says where a script goes wrong, and keeps it."""
    at = first_difference(got, story.lines)
    kept = Path(tempfile.mkdtemp(prefix="random_script_"))
    Path(kept, "settings.toml").write_text(story.settings)
    Path(kept, "script").write_text("".join(f"{command}\n" for command in story.script))
    command = story.script[at] if at < len(story.script) else "the end"
    print(f"script {number} in {kept}, line {at + 1}, {command[:300]}: got {(got + ['nothing'])[at][:300]!r}, "
          f"expected {(story.lines + ['nothing'])[at][:300]!r}")


def main():
    words = sys.argv[1:]
    program = os.path.abspath(words[0] if words else HERE / "trace_collector")
    count = int(words[1]) if len(words) > 1 else 200
    seed = words[2] if len(words) > 2 else "1"
    met, wrong = Counter(), 0
    with tempfile.TemporaryDirectory() as folder:
        for number in range(count):
            story = Story(random.Random(f"{seed} {number}"))
            got = replayed(program, folder, story)
            if got != story.lines:
                told(story, got, number)
                wrong += 1
            met.update(map(kind_of, story.lines))
            met.update(name for one in story.pipelines for name in NAMES if one.counts[name])
            met[GONE] += len(story.pipelines) - len(story.present)
            met[BACK] += len(story.pipelines) - len({one.name for one in story.pipelines})
            for one in story.pipelines:
                met.update({FOLLOWED[kept]: spans for kept, spans in one.followed.items()})
    met = +met
    missing = {*KINDS, *NAMES, *FOLLOWED.values(), GONE, BACK} - set(met) if count >= 200 else set()
    if missing:
        print("never met:", *sorted(missing), sep="\n  ")
    print(f"{count} scripts of {sum(met[kind] for kind in KINDS)} lines, {wrong} wrong;",
          "late spans of", ", ".join(f"{what}: {met[what]}" for what in FOLLOWED.values()))
    sys.exit(min(wrong + len(missing), 1))


if __name__ == "__main__":
    main()
