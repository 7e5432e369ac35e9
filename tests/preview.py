#!/usr/bin/env python3
"""How `make preview` ends where it can't build, with an `rt` made here in the place of the toolchain's: seconds, with Python alone.

It says so at once and ends with 1 if there is no `rt`, a port is taken or `rt` fails. While it builds, each signal ends it, and
all processes and temporary files with it, also where the compiler ignores SIGTERM in a session of its own.
"""
import os
import shutil
import signal
import socket
import subprocess
import sys
import tempfile
import time
from pathlib import Path

ROOT = Path(__file__).resolve().parent.parent
PARTS = ("crates.txt", "HANDLES", "tests/build.py", "tests/unproved.py", "examples/service.toml", "examples/demo.py",
         "examples/preview.py")
FAILS = "#!/bin/sh\necho a fault in the crate >&2\nexit 2\n"
HANGS = "#!/bin/sh\ntest \"$1\" = try || exit 0\ntrap '' TERM\nsetsid sh -c 'trap \"\" TERM; echo $$ > \"$PLACE/compiler\"; sleep 60; :'\n"


def check(what, got, wanted):
    if got != wanted:
        sys.exit(f"preview: {what}: {got!r}, and not {wanted!r}")


def copied(place):
    for part in PARTS:
        Path(place, part).parent.mkdir(parents=True, exist_ok=True)
        shutil.copy(ROOT / part, Path(place, part))
    for folder in ("crates/trace_collector_program", "bin", "tmp"):
        Path(place, folder).mkdir(parents=True)


def started(place, rt):
    """The script, with this `rt` or none in its path."""
    file = Path(place, "bin/rt")
    if rt:
        file.write_text(rt)
        file.chmod(0o755)
    named = {"PLACE": place, "TMPDIR": f"{place}/tmp", "PATH": f"{place}/bin:/usr/bin:/bin" if rt else "/nowhere"}
    return subprocess.Popen([sys.executable, "examples/preview.py"], cwd=place, env=named, stdin=subprocess.DEVNULL,
                            stdout=subprocess.PIPE, stderr=subprocess.STDOUT, text=True, start_new_session=True)


def says(place, rt, words):
    run = started(place, rt)
    said = run.communicate(timeout=30)[0]
    check(f"status after {said!r}", run.returncode, 1)
    check(f"{words!r} in {said!r}", words in said, True)
    check("temporary files", os.listdir(f"{place}/tmp"), [])


def is_running(pid):
    try:
        return Path(f"/proc/{pid}/stat").read_text().rpartition(")")[2].split()[0] != "Z"
    except OSError:
        return False


def is_ended_by(place, number, status):
    run, file, end = started(place, HANGS), Path(place, "compiler"), time.monotonic() + 20
    while not (file.is_file() and file.read_text()) and time.monotonic() < end:
        time.sleep(0.1)
    compiler = int(file.read_text())
    file.unlink()
    run.send_signal(number)
    run.communicate(timeout=30)
    check(f"status after {number.name}", run.returncode, status)
    check("the compiler's end", is_running(compiler), False)
    check("temporary files", os.listdir(f"{place}/tmp"), [])


def main():
    with tempfile.TemporaryDirectory() as place:
        copied(place)
        says(place, None, "there is no command rt")
        with socket.create_server(("127.0.0.1", 19464)):
            says(place, FAILS, "port 19464 of this machine is in use")
        says(place, FAILS, "a fault in the crate")
        for number, status in ((signal.SIGINT, 130), (signal.SIGTERM, 143), (signal.SIGHUP, 129)):
            is_ended_by(place, number, status)
    print("preview: ended as it has to")


main()
