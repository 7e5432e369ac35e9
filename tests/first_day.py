#!/usr/bin/env python3
"""Types the commands of the first pages as they stand there: `make trace_collector && python3 tests/first_day.py
[PROGRAM]`.

Takes the program's path, `./trace_collector` if there is none. In a copy of what git has of the repository, with the
program where `make` puts it, it types what README.md and pages of docs/ (PAGES) have behind `$`, and looks
whether what comes is what these pages say. What proves, installs or wants another machine isn't typed: NOT_TYPED says
why of each, and a command that is neither typed nor named there is a fault. Ports 4318 to 4320 and 9464 of this
machine have to be free. It prints what is wrong, and ends with 1 where something is.
"""

import os
import re
import shutil
import subprocess
import sys
import tempfile
from pathlib import Path
from threading import Thread

from serving import talk
from serving.runs import end, run
from serving.talk import MOST, body, check, wait_for

HERE = Path(__file__).resolve().parent.parent
PAGES = ("README.md", *(f"docs/{name}.md" for name in ("OPERATING", "RUNBOOK", "SIZING", "HTTP", "SCRIPT")))
# what isn't typed here, and why
NOT_TYPED = {
    r"make (preview|serve|trace_collector|deb)\b": "builds; what it runs then is typed below, or built by tests/package.py",
    r"sudo|trace_collector check /etc|journalctl |[\s\S]*@/usr/share/": "installed: tests/package.py, tests/booted.py",
    r"curl http://127.0.0.1:9464/tenants$": "of the unit: tests/booted.py",
    r"./trace_collector check my.toml \| diff before": "of the unit: tests/booted.py",
    r"curl -i -u shop:PASSWORD": "a proxy with a certificate: tests/package.py reads its settings",
    r"python3 examples/scale-out": "HAProxy has to be there: it is a test of its own",
}
COUNTS = "accepted=1 undecided=0 pending=0 queued=0 active=0 exported=1 not_sampled=0 "
SENT = 'otelcol_exporter_sent_spans_total{tenant="shop"} 1'
TENANT = """[[tenant]]
name = "shop"
endpoint = "127.0.0.1:4319"
[[tenant.tail_sampling.policy]]
type = "always_sample"
"""
ADMIN = "admin port at 127.0.0.1:9464"
typed = set()


def commands_of(page):
    """Each command of a page, as it stands behind `$`, whose lines go on behind a backslash."""
    text = (HERE / page).read_text()
    return [re.sub(r"\s+# .*", "", found[1]).strip() for found in re.finditer(r"^    \$ ((?:.*\\\n)*.*)$", text, re.M)]


def ran(words, folder):
    """A command's status and what it printed."""
    done = subprocess.run(words, cwd=folder, capture_output=True, text=True, timeout=MOST, check=False)
    return done.returncode, done.stdout + done.stderr


class Terminal:
    """A shell in the copy, in which one command after another is typed."""

    def __init__(self, folder):
        self.folder = folder

    def words(self, command):
        typed.add(command)
        check(f"{command!r} stands in a page", command in ALL, True)
        return ["bash", "-c", command]

    def type(self, command, **changed):
        """Its status and what it printed; `changed` are parts that are another here."""
        words = self.words(command)
        for there, here in changed.get("changed", {}).items():
            words[-1] = words[-1].replace(there, here)
        return ran(words, self.folder)

    def start(self, command):
        return Started(["bash", "-c", "exec " + self.words(command)[-1]], self.folder)


class Started:
    """A command that goes on, whose lines are kept as they come."""

    def __init__(self, words, folder):
        pipe = subprocess.PIPE
        self.run = subprocess.Popen(words, cwd=folder, stdin=pipe, stdout=pipe, stderr=subprocess.STDOUT, text=True)
        self.lines = []
        Thread(target=lambda: self.lines.extend(self.run.stdout), daemon=True).start()

    def __enter__(self):
        return self

    def __exit__(self, *_):
        self.run.kill()
        self.run.wait()

    def type(self, line):
        self.run.stdin.write(line + "\n")
        self.run.stdin.flush()

    def asked(self, line, wanted):
        """Whether the next line that it says begins so, behind this one."""
        before = len(self.lines)
        self.type(line)
        wait_for(lambda: len(self.lines) > before, "an answer")
        return self.lines[-1].startswith(wanted)

    def says(self, text):
        """Whether a line comes that begins so."""
        wait_for(lambda: any(line.startswith(text) for line in list(self.lines)) or self.run.poll() is not None, text)
        check(f"a line {text!r} among {self.lines[-3:]}", any(line.startswith(text) for line in self.lines), True)

    def ended(self):
        self.run.stdin.close()
        return self.run.wait(MOST)


def command(page, begin):
    """The command of a page that begins so."""
    return next(found for found in commands_of(page) if found.startswith(begin))


def by_standard_input(folder):
    """docs/OPERATING.md's quick start without the port: half a second after the post the back end says what came, and lines
    of standard input report counters, add and remove a tenant; their end is a drain."""
    terminal, page = Terminal(folder), "docs/OPERATING.md"
    serve = command(page, "./trace_collector serve examples/service.toml").replace(" --admin 127.0.0.1:9464", "")
    with terminal.start(command(page, "python3 examples/back_end.py")) as back_ends, \
            Started(["bash", "-c", f"exec {serve}"], folder) as service:
        service.says("serving at 127.0.0.1:4318")
        status, said = terminal.type(command(page, "curl -i http://127.0.0.1:4318"))
        check("the post", (status, "HTTP/1.1 200 OK" in said), (0, True))
        back_ends.says("back end at 4319: POST /v1/traces, 214 bytes")
        # The answer is counted a moment after the back end has said what came.
        wait_for(lambda: service.asked("report shop", "report shop " + COUNTS), "the report")
        Path(folder, "new.toml").write_text(TENANT.replace("shop", "new"))
        service.type("add new.toml")
        service.says("added new ")
        service.type("retire shop")
        service.says("report shop accepted=1")
        check("Ctrl-D", service.ended(), 0)


def shown(folder):
    """What `make serve` runs after it has built has the requests that README.md shows under `make preview`."""
    block = re.search(r"^    \$ make preview\n((?:    .*\n)*)", (HERE / "README.md").read_text(), re.M)[1]
    wanted = [line.strip() for line in block.splitlines() if line.strip().startswith(("POST ", "back end at "))]
    check("lines of README.md", len(wanted) >= 2, True)
    status, said = ran([sys.executable, "examples/serve.py"], folder)
    check("its status", status, 0)
    for line in wanted:
        check(f"make serve: {line!r} in {said!r}", any(told.startswith(line) for told in said.splitlines()), True)


def quick_start(folder):
    """docs/OPERATING.md's quick start: three terminals with the admin port, then settings of one's own."""
    terminal, page = Terminal(folder), "docs/OPERATING.md"
    with terminal.start(command(page, "python3 examples/back_end.py")) as back_ends, \
            terminal.start(command(page, "./trace_collector serve examples/service.toml")) as service:
        service.says(ADMIN)
        check("the post", terminal.type(command(page, "curl -i http://127.0.0.1:4318"))[0], 0)
        back_ends.says("back end at 4319: POST /v1/traces, 214 bytes")
        for begin, part in (("curl http://127.0.0.1:9464/tenants/shop", '"accepted":1'),
                            ("curl http://127.0.0.1:9464/metrics", SENT),
                            ("curl -X POST http://127.0.0.1:9464/drain", "")):
            status, said = terminal.type(command(page, begin))
            check(f"{begin}: {part} in {said[:200]}", (status, part in said), (0, True))
        service.says("report shop " + COUNTS)
        check("it ends", service.run.wait(MOST), 0)
    check("a copy", terminal.type(command(page, "cp examples/start.toml"))[0], 0)
    checks = [found for found in commands_of(page) if found.startswith("./trace_collector check my.toml")]
    status, said = terminal.type(checks[0])
    check("check", (status, said.startswith("# the settings in force\n")), (0, True))
    check("no warning", terminal.type(checks[1]), (1, ""))
    file = Path(folder, "my.toml")
    good = file.read_text()
    file.write_text(good.replace("decision_wait_ms = 10000", 'decision_wait = "10s"', 1))
    said = terminal.type(checks[1])[1]
    check(f"a warning: {said}", "table tail_sampling: no setting has the key decision_wait, so it is ignored; perhaps "
          "decision_wait_ms was meant" in said, True)
    file.write_text(good)


def tenants_and_tokens(folder):
    """docs/OPERATING.md: many clients, a tenant that is removed and added, and a token."""
    terminal, page = Terminal(folder), "docs/OPERATING.md"
    status, limit = command(page, "ulimit -n"), command(page, "./trace_collector serve my.toml")
    typed.add(status)
    Path(folder, "tenant.toml").write_text(TENANT)
    check("a token", terminal.type(command(page, "openssl rand"))[0], 0)
    terminal.words(limit)
    with Started(["bash", "-c", f"{status}\nexec {limit} --verbose"], folder) as service:
        service.says(ADMIN)
        go, come = command(page, "curl -i -X DELETE"), command(page, "curl -i --data-binary @tenant.toml")
        check("check", terminal.type(command(page, "./trace_collector check tenant.toml"))[0], 0)
        for what, typing, wanted in (("who is there", come, "HTTP/1.1 409 "), ("one goes", go, "HTTP/1.1 200 "),
                                     ("another comes", come, "HTTP/1.1 201 ")):
            status, said = terminal.type(typing)
            check(f"{what}: {said}", (status, said.partition("HTTP/")[1] + said.partition("HTTP/")[2][:8]), (0, wanted))
        check("a drain", terminal.type(command(page, "curl -X POST http://127.0.0.1:9464/drain"))[0], 0)
        check("it ends", service.run.wait(MOST), 0)
    with_token = limit.replace("127.0.0.1:9464", "127.0.0.1:9464 --admin-token-file token")
    with Started(["bash", "-c", f"ulimit -n 2048\nexec {with_token} --verbose"], folder) as service:
        service.says(ADMIN)
        status, said = terminal.type(command(page, 'curl -H "Authorization: Bearer'), changed={"10.0.0.5": "127.0.0.1"})
        check(f"with the token: {said[:200]}", (status, '"tenant":"shop"' in said), (0, True))
        check("without it", '"tenant":"shop"' in ran(["curl", "-s", "http://127.0.0.1:9464/tenants"], folder)[1], False)


def first_look(folder):
    """docs/RUNBOOK.md: a span without an id, an open connection, and a back end that is down and then up; and each alert is
    there once."""
    terminal, page, first = Terminal(folder), "docs/RUNBOOK.md", "docs/OPERATING.md"
    alerts = re.findall(r"- alert: (\w+)", (HERE / "examples/alerts.yml").read_text())
    check("alerts", sorted(re.findall(r"`(Nimchaes\w+)`", (HERE / page).read_text())), sorted(alerts))
    look, *chosen, client, connected, asks = commands_of(page)
    there = {"ENDPOINT": "127.0.0.1:4319"}
    Path(folder, "body").write_bytes(body(0, 1))
    with terminal.start(command(first, "./trace_collector serve examples/service.toml")) as service:
        service.says(ADMIN)
        post = command(first, "curl -i http://127.0.0.1:4318")
        check("a post", terminal.type(post)[0], 0)
        check("one without ids", terminal.type(post, changed={"examples/trace.pb": "body"})[0], 0)
        service.says("back end of shop: no answer")
        check("a look", terminal.type(look), (0, ""))
        found = [terminal.type(typing)[1].splitlines() for typing in chosen]
        check("what is lost", found[0], ['nimchaes_invalid_spans_total{tenant="shop"} 1'])
        check("whose back end fails", found[1], ['nimchaes_back_end_last_status{tenant="shop"} 0'])
        wanted = {'nimchaes_requests_total{code="200"} 2', "nimchaes_draining 0", "nimchaes_memory_refusals_total 0",
                  "nimchaes_receivers 2", "nimchaes_senders 2", "nimchaes_lane_jobs 0"}
        check("what is told, and what is busy", wanted - set(found[2]), set())
        status, said = terminal.type(client, changed={"HOST": "127.0.0.1"})
        check("a client's request", (status, said.splitlines()[0] if said else said), (0, "HTTP/1.1 200 OK"))
        with talk.socket.create_connection(("127.0.0.1", 4318), timeout=MOST) as peer:
            status, said = terminal.type(connected)
            check("who is connected", (status, said.split()[2:]), (0, ["127.0.0.1:4318", "127.0.0.1:%d" % peer.getsockname()[1]]))
        check("nobody is there", terminal.type(asks, changed=there)[0], 7)
    with terminal.start(command(first, "python3 examples/back_end.py")) as back_ends:
        wait_for(lambda: " 200 OK" in terminal.type(asks, changed=there)[1], "the back end is there")
        back_ends.says("back end at 4319: POST /v1/traces, 0 bytes")


def replayed(folder):
    """docs/SIZING.md's late spans, and docs/SCRIPT.md's body from a file."""
    terminal = Terminal(folder)
    status, said = terminal.type(command("docs/SIZING.md", "./trace_collector replay"))
    last = said.splitlines()[-1]
    wanted = ("active=1 ", "not_sampled=2 ", "too_early=0 ")
    check(f"the last report: {last}", (status, all(word in last for word in wanted)), (0, True))
    page = "docs/SCRIPT.md"
    first, second = commands_of(page)
    behind = (HERE / page).read_text().split(f"$ {second}\n")[1]
    wanted = re.match(r"(?:    .*\n)+", behind)[0].replace("    ", "", 1).replace("\n    ", "\n")
    check("a script", terminal.type(first), (0, ""))
    check("its answers", terminal.type(second), (0, wanted))


TESTS = (shown, by_standard_input, quick_start, tenants_and_tokens, first_look, replayed)
ALL = {found for page in PAGES for found in commands_of(page)}


def copied(folder):
    """What git has of the repository, and the program where `make` puts it."""
    names = ("README.md", "docs", "examples", "crates/trace_collector_program/data")
    for name in filter(None, ran(["git", "ls-files", "-z", *names], HERE)[1].split("\0")):
        Path(folder, name).parent.mkdir(parents=True, exist_ok=True)
        shutil.copy(HERE / name, Path(folder, name))
    shutil.copy(talk.program, Path(folder, "trace_collector"))


def main():
    talk.program = os.path.abspath(sys.argv[1] if len(sys.argv) > 1 else HERE / "trace_collector")
    with tempfile.TemporaryDirectory() as folder:
        copied(folder)
        for test in TESTS:
            print(f"{test.__name__}: {run(test.__name__, lambda _, test=test: test(folder)):.1f} s", flush=True)
    left = sorted(found for found in ALL - typed if not any(re.match(known, found) for known in NOT_TYPED))
    check("commands that are neither typed nor named", left, [])
    for fault in talk.faults[-1:] if left else []:
        print(fault)
    end("what the pages say is what comes")


if __name__ == "__main__":
    main()
