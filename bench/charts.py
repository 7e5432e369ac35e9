#!/usr/bin/env python3
"""Draws docs/pictures/throughput.svg and docs/pictures/latency.svg from bench/beside_plain_collector.csv.

python3 bench/charts.py [FOLDER]   writes both charts into FOLDER, docs/pictures if none is named"""
import csv
import math
import sys
from pathlib import Path

HERE = Path(__file__).resolve().parent
PROGRAMS = {"plain_collector": "plain collector", "nimchaes": "Nimchaes"}
WIDTH, LEFT, RIGHT, TOP, ROW = 720, 190, 90, 92, 54
PER_TENANTS = "{} tenant{}, {} connection{}"

STYLE = """
  .ground { fill: #ffffff } .between { stroke: #afb8c1; stroke-width: 3 }
  text { font-family: system-ui, -apple-system, "Segoe UI", Helvetica, Arial, sans-serif }
  text { font-size: 13px; fill: #1f2328 }
  .quiet { fill: #59636e } .grid { stroke: #d1d9e0; stroke-width: 1 } text.title { font-size: 17px; font-weight: 600 }
  .plain_collector { fill: #818b98 } .nimchaes { fill: #0969da }
  @media (prefers-color-scheme: dark) {
    .ground { fill: #0d1117 } text { fill: #e6edf3 } .quiet { fill: #9198a1 } .grid { stroke: #30363d }
    .between { stroke: #484f58 } .plain_collector { fill: #8b949e } .nimchaes { fill: #4493f8 }
  }
"""


def cases(path):
    """The rows of full load: what each is, and the figures of each program."""
    found = {}
    with open(path, newline="") as lines:
        for row in csv.DictReader(lines):
            if row["requests_per_second"] == "0":
                tenants, connections = int(row["tenants"]), int(row["connections"])
                name = PER_TENANTS.format(tenants, "s" * (tenants > 1), connections, "s" * (connections > 1))
                found.setdefault(name, {})[row["program"]] = row
    return found


def frame(title, unit, names, ticks, place, drawn):
    """A chart around what is drawn: its title, unit, key, grid and the names of its rows."""
    bottom = TOP + ROW * len(names)
    lines = [f'<svg xmlns="http://www.w3.org/2000/svg" viewBox="0 0 {WIDTH} {bottom + 40}" width="{WIDTH}" '
             f'height="{bottom + 40}" role="img" aria-label="{title}, {unit}">',
             f"<title>{title}, {unit}</title>", f"<style>{STYLE}</style>",
             '<rect class="ground" width="100%" height="100%" rx="6"/>',
             f'<text class="title" x="20" y="30">{title}</text>',
             f'<text class="quiet" x="20" y="50">{unit}</text>']
    for at, (program, name) in enumerate(PROGRAMS.items()):
        x = LEFT + at * 150
        lines += [f'<rect class="{program}" x="{x}" y="64" width="12" height="12" rx="2"/>',
                  f'<text x="{x + 18}" y="75">{name}</text>']
    for tick, label in ticks:
        x = place(tick)
        lines += [f'<line class="grid" x1="{x:.1f}" y1="{TOP}" x2="{x:.1f}" y2="{bottom}"/>',
                  f'<text class="quiet" x="{x:.1f}" y="{bottom + 20}" text-anchor="middle">{label}</text>']
    for at, name in enumerate(names):
        lines.append(f'<text x="{LEFT - 12}" y="{TOP + ROW * at + ROW / 2 + 4:.1f}" text-anchor="end">{name}</text>')
    return "\n".join([*lines, *drawn, "</svg>", ""])


def throughput(found):
    """Bars: spans a second."""
    most = 1_500_000
    wide = WIDTH - LEFT - RIGHT

    def place(value):
        return LEFT + wide * value / most

    drawn = []
    for at, figures in enumerate(found.values()):
        for line, program in enumerate(PROGRAMS):
            value = float(figures[program]["spans_taken_per_second"])
            y = TOP + ROW * at + 7 + line * 21
            end = place(value)
            drawn += [f'<rect class="{program}" x="{LEFT}" y="{y}" width="{end - LEFT:.1f}" height="18" rx="2"/>',
                      f'<text x="{end + 6:.1f}" y="{y + 13}">{value:,.0f}</text>']
    ticks = [(value, f"{value:,}") for value in range(0, most + 1, 500_000)]
    return frame("Throughput at full load", "spans taken per second, requests of 100 spans; more is better",
                 found, ticks, place, drawn)


def latency(found):
    """Points on a logarithmic scale: p99 of a response."""
    least, most = 0.1, 100
    wide = WIDTH - LEFT - RIGHT

    def place(value):
        return LEFT + wide * math.log(value / least) / math.log(most / least)

    drawn = []
    for at, figures in enumerate(found.values()):
        y = TOP + ROW * at + ROW / 2
        values = {program: float(figures[program]["p99_milliseconds"]) for program in PROGRAMS}
        ends = [place(value) for value in values.values()]
        drawn.append(f'<line class="between" x1="{min(ends):.1f}" y1="{y}" x2="{max(ends):.1f}" y2="{y}"/>')
        for program, value in values.items():
            left = value == min(values.values())
            x = place(value) + (-13 if left else 13)
            drawn += [f'<circle class="{program}" cx="{place(value):.1f}" cy="{y}" r="7"/>',
                      f'<text x="{x:.1f}" y="{y + 4.5}" text-anchor="{"end" if left else "start"}">{value:g}</text>']
    ticks = [(value, f"{value:g}") for value in (0.1, 1, 10, 100)]
    return frame("Latency at full load", "p99 of a response in milliseconds, logarithmic scale; less is better",
                 found, ticks, place, drawn)


def main():
    folder = Path(sys.argv[1]) if len(sys.argv) > 1 else HERE.parent / "docs" / "pictures"
    found = cases(HERE / "beside_plain_collector.csv")
    (folder / "throughput.svg").write_text(throughput(found))
    (folder / "latency.svg").write_text(latency(found))


if __name__ == "__main__":
    main()
