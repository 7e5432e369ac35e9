#!/usr/bin/env python3
"""Checks which fault the built program tells of settings documents made by chance, against a model of the rules.

    make trace_collector && python3 tests/random_settings.py [PROGRAM [COUNT [SEED]]]

Takes `./trace_collector`, 1,000 documents and seed 1 if nothing is named; the same seed makes the same documents. The
model (tests/model/settings.py) was written without a look at the code. Prints what differs, and ends with 1 then, or
where a thousand documents haven't met each kind of fault.
"""

import os
import random
import subprocess
import sys
import tempfile
from collections import Counter
from pathlib import Path

from model.settings import Documents, first_fault
from model.toml import document as written

HERE = Path(__file__).resolve().parent.parent


def main():
    words = sys.argv[1:]
    program = os.path.abspath(words[0] if words else HERE / "trace_collector")
    count = int(words[1]) if len(words) > 1 else 1000
    documents = Documents(random.Random(words[2] if len(words) > 2 else "1"))
    met, wrong = Counter(), 0
    with tempfile.TemporaryDirectory() as folder:
        file = Path(folder, "settings.toml")
        for _ in range(count):
            document = documents.document()
            file.write_text(written(document))
            fault = first_fault(document)
            done = subprocess.run([program, "replay", file], input="", capture_output=True, text=True, timeout=600,
                                  check=False)
            wanted = (1, "", fault + "\n") if fault else (0, "", "")
            if (done.returncode, done.stdout, done.stderr) != wanted:
                wrong += 1
                print(f"{file.read_text()}got {done.returncode} {done.stdout!r} {done.stderr!r}, expected {wanted}")
            met[fault.split(" ")[2] if fault else "good"] += 1
    missing = {"good", "11", "12", "13", "14", "15"} - set(met) if count >= 1000 else set()
    print(f"{count} documents, {met['good']} good, {wrong} wrong", *(f"never met: {kind}" for kind in sorted(missing)))
    sys.exit(min(wrong + len(missing), 1))


if __name__ == "__main__":
    main()
