#!/usr/bin/env python3
"""Measures a collector as a service: `python3 tests/load/measure.py PROGRAM`, with the options that `--help` names.

`PROGRAM serve SETTINGS` has to listen where its settings say, to go on until its input ends, and then to print each
tenant's report. The load and the back end that stand beside this file are built with rustc. For 1 to 64 tenants, over 1
to 32 connections, bodies of 100 spans of 460 bytes are posted for ten seconds or as many as are named: once 200
requests a second, for how long a request takes, and once as many as are answered, for how many spans a second are taken
and come to the back end, the latter in the second half of the time, since traces wait a second for their decision. It
prints a table of Markdown.

Processor time is the program's alone, from the first request until the back end has all spans; memory the most that it
had (VmHWM). The program has the first two processors, and load and back end the others where there are any. Ends with
1 where a request isn't taken, a span is lost or the reports say anything else than was posted.
"""

import argparse
import os
import re
import socket
import subprocess
import sys
import tempfile
import time
from pathlib import Path

HERE = Path(__file__).resolve().parent
UNIT = HERE.parent.parent / "packaging/nimchaes.service.in"
SPANS = 100
RATE = 200
TENANTS = (1, 8, 64)
CONNECTIONS = (1, 8, 32)
TICKS = os.sysconf("SC_CLK_TCK")
# the longest that the program may take to come up, to send what it holds, or to end
MOST = 60


def globals_of(port, connections):
    """Each connection has a receiver."""
    return (f'[global]\nlisten = "127.0.0.1:{port}"\nshards = 2\nparts = 1\nreceivers = {max(connections, 4)}\n'
            "senders = 4\n")


def section(name, back_end):
    """All that may come before it is decided has room."""
    return (f'[[tenant]]\nname = "{name}"\nendpoint = "127.0.0.1:{back_end}"\nmax_spans = 30000000\n'
            "[tenant.tail_sampling]\ndecision_wait_ms = 1000\nnum_traces = 1000000\n"
            '[[tenant.tail_sampling.policy]]\ntype = "status_code"\nstatus_codes = ["ERROR", "OK", "UNSET"]\n'
            "[tenant.batch]\nsend_batch_size = 1000\nsend_batch_max_size = 1000\n"
            "[tenant.sending_queue]\nqueue_size = 100000\nnum_consumers = 4\n")


def settings(port, back_end, tenants, connections):
    sections = (section(f"tenant-{number}", back_end) for number in range(tenants))
    return globals_of(port, connections) + "".join(sections)


def free_port():
    with socket.socket() as probe:
        probe.bind(("127.0.0.1", 0))
        return probe.getsockname()[1]


def built(folder):
    """The path of the load and the back end, built in this folder."""
    load = str(Path(folder, "load"))
    subprocess.run(["rustc", "--edition", "2021", "-O", "-o", load, HERE / "main.rs"], check=True)
    return load


def numbers(line):
    """The numbers of a line of `name=number`."""
    return {name: int(value) for name, value in re.findall(r"(\w+)=(\d+)", line)}


def wait_for(is_so, what):
    end = time.monotonic() + MOST
    while not is_so():
        if time.monotonic() > end:
            raise TimeoutError(f"waited {MOST} seconds until {what}")
        time.sleep(0.02)


class Started:
    """A program on these processors that goes on until its input ends, and that nothing is left of behind a `with`."""

    def __init__(self, processors, *words, heaps=()):
        pipe, environment = subprocess.PIPE, {**os.environ, **dict(heaps)}
        words = on(processors, *words)
        self.run = subprocess.Popen(words, stdin=pipe, stdout=pipe, stderr=pipe, text=True, env=environment)

    def __enter__(self):
        return self

    def __exit__(self, *_):
        self.run.kill()
        self.run.communicate()


def on(processors, *words):
    return ["taskset", "-c", processors, *words]


def unit_heaps():
    """What the packaged unit tells the C library of its heaps."""
    return re.findall(r"^Environment=(MALLOC_\w+)=(\S+)$", UNIT.read_text(), re.MULTILINE)


class BackEnd(Started):
    """`load sink`."""

    def __init__(self, processors, load):
        super().__init__(processors, load, "sink")
        self.port = int(self.run.stdout.readline().split()[1])

    def asked(self, line):
        self.run.stdin.write(line + "\n")
        self.run.stdin.flush()
        return numbers(self.run.stdout.readline())

    def spans(self):
        return self.asked("")["spans"]


class Service(Started):
    """The program as a service."""

    def __init__(self, processors, port, *words, heaps=()):
        super().__init__(processors, *words, heaps=heaps)
        self.port = port

    def is_up(self):
        if self.run.poll() is not None:
            raise RuntimeError(f"the service ended with {self.run.returncode}: {self.run.stderr.read()}")
        try:
            socket.create_connection(("127.0.0.1", self.port), timeout=1).close()
            return True
        except OSError:
            return False

    def seconds(self):
        """Of processor time."""
        words = Path(f"/proc/{self.run.pid}/stat").read_text().rpartition(")")[2].split()
        return (int(words[11]) + int(words[12])) / TICKS

    def megabytes(self):
        status = Path(f"/proc/{self.run.pid}/status").read_text()
        return int(re.search(r"VmHWM:\s*(\d+)", status)[1]) / 1000

    def end(self):
        """The sums of its reports, and its status."""
        out, err = self.run.communicate(timeout=MOST)
        sums = {}
        for line in out.splitlines():
            for name, value in numbers(line).items():
                sums[name] = sums.get(name, 0) + value
        if err:
            print(err, file=sys.stderr)
        return sums, self.run.returncode


def measured(words, load, folder, tenants, connections, rate):
    """A row's numbers, and what is wrong."""
    port = free_port()
    file = Path(folder, "settings.toml")
    others = words.others
    with BackEnd(others, load) as back_end:
        file.write_text(settings(port, back_end.port, tenants, connections))
        program = [os.path.abspath(words.program), "serve", file, *(["--audit"] if words.audit else [])]
        with Service(words.own, port, *program, heaps=unit_heaps() if words.unit else ()) as service:
            wait_for(service.is_up, "the service is up")
            before = service.seconds()
            post = on(others, load, "post", *map(str, (port, tenants, connections, rate, words.seconds, words.spans)))
            with subprocess.Popen(post, stdout=subprocess.PIPE, text=True) as run:
                time.sleep(words.seconds / 2)
                half, sent = time.monotonic(), back_end.spans()
                told = numbers(run.communicate()[0])
                told["sent_a_second"] = (back_end.spans() - sent) / (time.monotonic() - half)
            wait_for(lambda: back_end.spans() >= told["spans"], "all spans are sent")
            told["processor"] = service.seconds() - before
            told["megabytes"] = service.megabytes()
            sums, status = service.end()
        got = (sums.get("accepted"), sums.get("exported"), back_end.spans(), told["others"], status)
    wanted = (told["spans"], told["spans"], told["spans"], 0, 0)
    what = "spans accepted, exported and come, requests not taken, the program's status"
    return told, None if got == wanted else f"{what}: {got}, expected {wanted}"


def row(told, tenants, connections):
    second = told["millis"] / 1000
    return (f"| {tenants} | {connections} | {told['requests'] / second:,.0f} | {told['half'] / 1000:.1f} ms "
            f"| {told['most_99'] / 1000:.1f} ms | {told['spans'] / second:,.0f} | {told['sent_a_second']:,.0f} "
            f"| {told['processor'] * 1e6 / max(told['spans'], 1):.2f} | {told['megabytes']:,.0f} |")


def add_processors(asked):
    processors = os.cpu_count() or 1
    asked.add_argument("--own", default="0-1" if processors > 1 else "0", help="the program's processors")
    asked.add_argument("--others", default=f"2-{processors - 1}" if processors > 2 else "0", help="load and back end's")


def add_unit(asked):
    asked.add_argument("--unit", action="store_true", help="the program's heaps are as in the packaged unit")


def main():
    asked = argparse.ArgumentParser(description="Measures a collector as a service.")
    asked.add_argument("program")
    asked.add_argument("--seconds", type=int, default=10, help="how long each row posts")
    asked.add_argument("--audit", action="store_true", help="the program keeps its log")
    asked.add_argument("--tenants", type=int, nargs="+", default=TENANTS)
    asked.add_argument("--connections", type=int, nargs="+", default=CONNECTIONS)
    asked.add_argument("--rates", type=int, nargs="+", default=(RATE, 0), help="requests a second, 0: all it takes")
    asked.add_argument("--spans", type=int, default=SPANS, help="spans a body")
    add_processors(asked)
    add_unit(asked)
    words = asked.parse_args()
    wrong = 0
    print("| Tenants | Connections | Requests a second | half within | 99 of 100 within | Spans a second taken "
          "| come to the back end | Processor seconds for a million | Memory, MB |\n" + "|---" * 9 + "|")
    with tempfile.TemporaryDirectory() as folder:
        load = built(folder)
        for rate in words.rates:
            for tenants in words.tenants:
                for connections in words.connections:
                    told, fault = measured(words, load, folder, tenants, connections, rate)
                    print(row(told, tenants, connections), flush=True)
                    if fault:
                        wrong += 1
                        print(fault, file=sys.stderr)
    sys.exit(min(wrong, 1))


if __name__ == "__main__":
    main()
