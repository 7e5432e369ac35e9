"""Runs tests of the built program, each in a folder of its own, and says what is wrong."""

import sys
import tempfile
import time
import traceback

from serving import talk

# So many faults of a test are printed.
SHOWN = 20


def run(name, test):
    """How long it took. What it raises is a fault of it."""
    start = time.monotonic()
    before = len(talk.faults)
    with tempfile.TemporaryDirectory() as folder:
        try:
            test(folder)
        except Exception:  # pylint: disable=broad-except
            talk.faults.append(traceback.format_exc())
    for fault in talk.faults[before:][:SHOWN]:
        print(f"{name}: {fault}", flush=True)
    return time.monotonic() - start


def end(good):
    """Says so where nothing is wrong, and ends with 1 where something is."""
    print(good if not talk.faults else f"{len(talk.faults)} wrong")
    sys.exit(min(len(talk.faults), 1))
