#!/usr/bin/env python3
"""Measures programs beside one another: `python3 tests/load/compare.py PROGRAM..`, with the options that `--help`
names.

Each row of measure.py that is asked for is measured of each program in turn, as often as is asked for, in the other
order every other time. So whatever else the machine does is done to all. It prints a table of Markdown: of each figure
the median of each program's runs, and in brackets, behind each program but the first, how many times the first one's
it is. Ends with 1 where a run isn't accounted for.
"""

import argparse
import statistics
import sys
import tempfile

import measure

ROWS = ("1,1,0", "1,8,0", "8,8,0", "8,32,0", "8,8,200")
FIGURES = {"Spans a second taken": "{:,.0f}", "come to the back end": "{:,.0f}", "Processor s a million": "{:.1f}",
           "MB": "{:,.0f}", "Median, ms": "{:.1f}", "p99, ms": "{:.1f}"}


def figures(told):
    second = told["millis"] / 1000
    return (told["spans"] / second, told["sent_a_second"], told["processor"] * 1e6 / max(told["spans"], 1),
            told["megabytes"], told["half"] / 1000, told["most_99"] / 1000)


def cells(runs):
    """A cell for each figure, of the runs of each program."""
    for name, spelled, *values in zip(FIGURES, FIGURES.values(), *(zip(*of) for of in runs)):
        medians = [statistics.median(value) for value in values]
        times = [f" ({median / medians[0]:.2f})" if at and medians[0] else "" for at, median in enumerate(medians)]
        yield " / ".join(spelled.format(median) + more for median, more in zip(medians, times))


def compared(words, load, folder, row):
    """The runs of each program, in turns."""
    runs = {program: [] for program in words.programs}
    for turn in range(words.runs):
        for program in words.programs[::1 if turn % 2 == 0 else -1]:
            words.program = program
            told, fault = measure.measured(words, load, folder, *row)
            if fault:
                print(f"{program}, {row}: {fault}", file=sys.stderr)
                words.wrong += 1
            runs[program].append(figures(told))
    return runs.values()


def main():
    asked = argparse.ArgumentParser(description="Measures programs beside one another.")
    asked.add_argument("programs", nargs="+")
    asked.add_argument("--rows", nargs="+", default=ROWS, help="tenants, connections and requests a second, as 8,8,0")
    asked.add_argument("--runs", type=int, default=3)
    asked.add_argument("--seconds", type=int, default=3, help="how long each run posts")
    asked.add_argument("--spans", type=int, default=measure.SPANS, help="spans a body")
    measure.add_processors(asked)
    measure.add_unit(asked)
    words = asked.parse_args()
    words.audit, words.wrong = False, 0
    head = ("Tenants, connections, requests a second", *FIGURES)
    print("| " + " | ".join(head) + " |\n" + "|---" * len(head) + "|")
    with tempfile.TemporaryDirectory() as folder:
        load = measure.built(folder)
        for row in words.rows:
            runs = compared(words, load, folder, [int(number) for number in row.split(",")])
            print(f"| {row} | " + " | ".join(cells(runs)) + " |", flush=True)
    sys.exit(min(words.wrong, 1))


if __name__ == "__main__":
    main()
