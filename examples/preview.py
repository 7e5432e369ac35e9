#!/usr/bin/env python3
"""Shows the collector in minutes, built without proofs: `make preview`.

    preview.py [OPTIONS]        serves examples/service.toml with a back end for each of its tenants, posts a trace of each, and
                                shows what arrives and what is counted. It serves until Ctrl-C, which drains it. OPTIONS
                                go to `serve`, as `--admin 127.0.0.1:9464` for another admin port
    preview.py COMMAND ..       runs a command of the program, as `check my.toml`. Standard output and the status are its own
"""

import contextlib
import http.client
import itertools
import json
import signal
import subprocess
import sys

from demo import HERE, SETTINGS, are_shown, arrived, is_up, ports, post_all, say, start, start_back_ends, taken, wait_for

sys.path.insert(0, str(HERE / "tests"))
from unproved import NOTICE, is_missing, note, program  # noqa: E402

ADMIN = "127.0.0.1:19464"
LISTEN, TENANTS = ports()


def ask(admin, method, path):
    """Status and body of an answer of the admin port; status 0 if there is none."""
    line = http.client.HTTPConnection(admin, timeout=10)
    try:
        line.request(method, path)
        reply = line.getresponse()
        return reply.status, reply.read().decode()
    except (OSError, http.client.HTTPException):
        return 0, ""
    finally:
        line.close()


def counters(admin, tenant):
    """A tenant's counters that are not zero; in the answer they come before its rows."""
    status, body = ask(admin, "GET", f"/tenants/{tenant}")
    found = json.loads(body) if status == 200 else {}
    return {name: it for name, it in itertools.takewhile(lambda it: it[0] != "rows", found.items()) if name != "tenant" and it}


def explained(status):
    """The status, after a word on 134: a check that failed ends the program so, with a report on standard error."""
    if status == 134:
        note("A check at run time has ended the program. `rt try` names the line of a fault, this report doesn't.")
    return status


def ended(run):
    if run.poll() is None:
        run.kill()
    run.wait()


def status_of(code):
    """As a shell has it: a signal's number and 128 where a signal ended it."""
    return code if code >= 0 else 128 - code


def drain(run, admin):
    """Asks for the end, and waits for it; a second Ctrl-C doesn't wait."""
    if sys.stdout.isatty():
        say("")
    say("POST /drain: what it holds is sent, and each tenant's spans are counted")
    if ask(admin, "POST", "/drain")[0] != 200:
        say("it doesn't answer, and is ended")
        return 1
    with contextlib.suppress(subprocess.TimeoutExpired):
        return status_of(run.wait(15))
    say("it waits for a back end, or for clients that keep their connections open; Ctrl-C ends it at once")
    return status_of(run.wait())


def are_counted(run, admin):
    """Shows what came of a trace of each tenant, and whether it is what is wanted."""
    try:
        post_all(TENANTS)
    except (OSError, http.client.HTTPException) as fault:
        say(f"a post failed: {fault}")
        return False
    all_came = wait_for(lambda: len(arrived) == len(TENANTS), run, 30)
    # An answer is counted a moment after the back end has said what came.
    all_came = wait_for(lambda: all(counters(admin, it).get("exported") for it in TENANTS), run) and all_came
    for tenant in TENANTS:
        say(f"GET /tenants/{tenant}: " + " ".join(f"{name}={it}" for name, it in counters(admin, tenant).items()))
    return all_came


def failed(run, why):
    """Says why, and the status: the program's own if it ends within five seconds, else 1."""
    say(why)
    with contextlib.suppress(subprocess.TimeoutExpired):
        run.wait(5)
    return status_of(run.poll() or 1)


def serve(run, admin):
    """The program's status, once it has ended by itself or by a drain."""
    try:
        if not wait_for(lambda: ask(admin, "GET", "/healthz")[0] == 200, run, 60):
            return failed(run, f"http://{admin}/healthz doesn't answer")
        if not are_counted(run, admin):
            return failed(run, "not all that was posted has arrived")
        say(f"The admin page is http://{admin}/, and posts go to http://127.0.0.1:{LISTEN}/v1/traces. Ctrl-C drains it.")
        status = status_of(run.wait())
        say(f"the program has ended by itself, with status {status}")
        return status
    except (KeyboardInterrupt, SystemExit):
        return drain(run, admin)


def demonstrate(options):
    file = program()
    with contextlib.ExitStack() as ends:
        # Each in a session of its own, so that Ctrl-C comes to this script alone.
        back_ends = start_back_ends(TENANTS, start_new_session=True)
        ends.callback(ended, back_ends)
        if not are_shown(back_ends, TENANTS):
            return 1
        run = start([file, "serve", SETTINGS, *options], stdin=subprocess.DEVNULL, start_new_session=True)
        ends.callback(ended, run)
        return serve(run, options[options.index("--admin") + 1])


def command(words):
    """Runs a command of the program, which reads standard input and writes standard output itself."""
    run = subprocess.Popen([HERE / program(), *words])
    try:
        return status_of(run.wait())
    finally:
        ended(run)


def port_taken(admin):
    """What to say of a port that is in use, or nothing."""
    host, _, port = admin.rpartition(":")
    if not port.isdigit():
        return "--admin takes HOST:PORT, as 127.0.0.1:19464"
    if taken() or not is_up(int(port), host):
        return taken()
    return f"port {port} of this machine is in use: make preview ARGS='--admin 127.0.0.1:PORT' takes another for the admin port"


def main(words):
    if words in (["-h"], ["--help"]):
        print(__doc__.strip())
        return 0
    is_command = bool(words) and not words[0].startswith("-")
    if not is_command and "--admin" not in words:
        words = ["--admin", ADMIN, *words]
    words += [""] * (words[-1:] == ["--admin"])
    fault = is_missing() or ("" if is_command else port_taken(words[words.index("--admin") + 1]))
    if fault:
        note(f"make: {fault}")
        return 1
    note(NOTICE)
    try:
        return explained(command(words) if is_command else demonstrate(words))
    finally:
        note(NOTICE)


if __name__ == "__main__":
    signal.signal(signal.SIGINT, signal.default_int_handler)
    for number in (signal.SIGTERM, signal.SIGHUP):
        signal.signal(number, lambda it, _: sys.exit(128 + it))
    try:
        sys.exit(main(sys.argv[1:]))
    except KeyboardInterrupt:
        sys.exit(130)
