#!/usr/bin/env python3
"""Installs the package in a copy of this machine that has a systemd of its own, where it starts, stops, and goes.

    python3 tests/booted.py [PROGRAM]     # as root, on a Debian with systemd, curl and dpkg-deb

Takes the program's path, `./trace_collector` if there is none. The copy is an overlay, in namespaces of its own: it
changes no file of this machine, reaches no network, and is gone at the end. The gate doesn't run it. It prints what is
wrong, and ends with 1 where something is.
"""

import ctypes
import os
import re
import subprocess
import sys
import tempfile
import threading
import time
import traceback
from pathlib import Path

from serving import talk
from serving.runs import end
from serving.talk import (MOST, BackEnd, body, check, free_port, globals_of, head_of, line_of, read_message, tenant,
                          wait_for)

PORT, ADMIN = 4318, 9464
HERE = Path(__file__).resolve().parent.parent
OPERATING = HERE / "docs/OPERATING.md"
UNIT, SETTINGS = "nimchaes.service", "/etc/nimchaes/settings.toml"
GOOD, ENDED, LIMIT = ["active", "success", "0"], ["inactive", "success", "0"], 5
# What would speak to the kernel, and what nobody needs there.
MASKED = ("systemd-sysctl", "systemd-modules-load", "systemd-udevd", "systemd-udev-trigger", "systemd-binfmt",
          "systemd-random-seed", "console-getty")
BOOT = """
set -e
mount -t overlay overlay -o lowerdir=/,upperdir={room}/upper,workdir={room}/work {room}/root
cd {room}/root
mount -t proc proc proc
mount -t sysfs -o ro sysfs sys
mount -t cgroup2 cgroup2 sys/fs/cgroup
for folder in run tmp dev; do mount -t tmpfs -o mode=755 tmpfs $folder; done
chmod 1777 tmp
while read device minor; do mknod -m 666 dev/$device c 1 $minor; done <<END
null 3
zero 5
full 7
random 8
urandom 9
END
mknod -m 666 dev/tty c 5 0
mkdir dev/pts dev/shm
mount -t devpts -o newinstance,ptmxmode=0666 devpts dev/pts
mount -t tmpfs tmpfs dev/shm
ln -s pts/ptmx dev/ptmx
ln -s /proc/self/fd dev/fd
rm -rf etc/systemd/system/*.wants etc/nimchaes usr/sbin/policy-rc.d
for unit in {masked}; do ln -sf /dev/null etc/systemd/system/$unit.service; done
for target in sysinit basic; do printf '[Unit]\\nDefaultDependencies=no\\n' > etc/systemd/system/$target.target; done
printf '[Unit]\\nDefaultDependencies=no\\nWants=systemd-journald.service dbus.service multi-user.target\\n' \
    > etc/systemd/system/tried.target
ip link set lo up
mkdir -p .old
pivot_root . .old
exec chroot . sh -c 'umount -l /.old; mount --make-rshared /; exec env -i container=lxc PATH=/usr/sbin:/usr/bin:/sbin:/bin \
    /lib/systemd/systemd --unit=tried.target --log-target=journal'
"""


class Machine:
    """A copy of this machine with a systemd of its own."""

    def __init__(self, room):
        for name in ("upper", "work", "root"):
            Path(room, name).mkdir()
        mounts = (line.split() for line in Path("/proc/mounts").read_text().splitlines())
        self.group = Path(next(place for _, place, kind, *_ in mounts if kind == "cgroup2"), f"nimchaes-{os.getpid()}")
        self.group.mkdir()
        script = BOOT.format(room=room, masked=" ".join(MASKED))
        enter = f"echo $$ > {self.group}/cgroup.procs && exec unshare --mount --pid --fork --kill-child --uts --ipc " \
            "--net --cgroup --propagation private sh -c \"$0\""
        self.run = subprocess.Popen(["sh", "-c", enter, script], stdin=subprocess.DEVNULL)
        self.first = None

    def __enter__(self):
        children = Path(f"/proc/{self.run.pid}/task/{self.run.pid}/children")
        wait_for(lambda: self.run.poll() is not None or children.read_text().split(), "its first process is there")
        self.first = int(children.read_text())
        wait_for(lambda: self.asked("systemctl", "is-system-running") in ("running", "degraded"), "its systemd is up")
        with open(f"/proc/{self.first}/ns/net", "rb") as network:
            if ctypes.CDLL(None).setns(network.fileno(), 0) != 0:
                raise OSError("its network can't be entered")
        return self

    def __exit__(self, *_):
        self.run.kill()
        self.run.wait()
        for _ in range(100):
            groups = sorted((Path(name) for name, *_ in os.walk(self.group)), reverse=True)
            try:
                for group in groups:
                    group.rmdir()
                return
            except OSError:
                time.sleep(0.1)

    def does(self, *words):
        """The status of a command there, and what it prints."""
        done = subprocess.run(["nsenter", "--target", str(self.first), "--all", *words], stdout=subprocess.PIPE,
                              stderr=subprocess.STDOUT, stdin=subprocess.DEVNULL, text=True, timeout=4 * MOST,
                              check=False)
        return done.returncode, done.stdout.strip()

    def asked(self, *words):
        return self.does(*words)[1]

    def file(self, path):
        return Path(f"/proc/{self.first}/root{path}")

    def state(self):
        """Whether it runs, how it ended, and its status."""
        lines = self.asked("systemctl", "show", UNIT).splitlines()
        told = dict(line.split("=") for line in lines if line.count("=") == 1)
        return [told[name] for name in ("ActiveState", "Result", "ExecMainStatus")]

    def process(self):
        """Its number, 0 while there is none."""
        return int(self.asked("systemctl", "show", "--property=MainPID", "--value", UNIT) or 0)

    def journal(self):
        return self.asked("journalctl", "--unit", UNIT, "--output=cat")


def settings_of(back_end):
    return globals_of(PORT, receivers=8) + tenant("a", back_end, wait=500, timeout=20, consumers=4)


def posted(count, trace):
    """How many of so many posts, each of one span, are taken; they end with the first one that isn't."""
    with talk.socket.create_connection(("127.0.0.1", PORT), timeout=MOST) as peer:
        for number in range(count):
            peer.sendall(head_of("a", 34) + body(trace, number % 255 + 1))
            if not read_message(peer.recv).startswith(b"HTTP/1.1 200 "):
                return number
    return count


def reports(machine):
    return [line for line in machine.journal().splitlines() if line.startswith("report ")]


def edited(machine, name, text):
    """As `systemctl edit` does it; without a text it is as before."""
    file = machine.file(f"/etc/systemd/system/{UNIT}.d/{name}.conf")
    if text is None:
        file.unlink()
    else:
        file.parent.mkdir(exist_ok=True)
        file.write_text(text)
    machine.does("systemctl", "daemon-reload")


def comes(machine, file):
    """Without settings it is installed and enabled, and waits for them."""
    check("it is installed", machine.does("dpkg", "--install", file)[0], 0)
    check("it starts with the machine", machine.asked("systemctl", "is-enabled", UNIT), "enabled")
    check("it waits for settings", (machine.state(), SETTINGS in machine.journal()), (ENDED, True))


def starts(machine, back_end):
    """It is started with good settings alone, and serves then."""
    machine.file(SETTINGS).parent.mkdir(exist_ok=True)
    # However slow this machine is, five starts are within it.
    edited(machine, "starts", "[Unit]\nStartLimitIntervalSec=600\n")
    for text in ("[[tenant]]\n", settings_of(back_end).replace("parts", "party")):
        machine.file(SETTINGS).write_text(text)
        check("it isn't started", machine.does("systemctl", "start", UNIT)[0], 1)
        wait_for(lambda: machine.state()[0] == "failed", "it isn't tried again")
        check("with that", machine.state()[1], "exit-code")
        machine.does("systemctl", "reset-failed", UNIT)
    edited(machine, "starts", None)
    machine.file(SETTINGS).write_text(settings_of(back_end))
    check("a start", machine.does("systemctl", "start", UNIT), (0, ""))
    check("it serves", (machine.state(), posted(3, 1)), (GOOD, 3))
    user = machine.asked("ps", "-o", "user=", "-p", str(machine.process()))
    check("whose it is", user, "nimchaes")
    check("the settings are in the journal", "decision_wait_ms = 500" in machine.journal(), True)


def stops(machine, back_end):
    """Under load it stops with all sent that was taken."""
    counts = []
    clients = [threading.Thread(target=lambda t=trace: counts.append(posted(10**9, t))) for trace in range(2, 6)]
    for client in clients:
        client.start()
    time.sleep(1)
    check("a stop", machine.does("systemctl", "stop", UNIT), (0, ""))
    for client in clients:
        client.join()
    taken = 3 + sum(counts)
    check("some were taken", min(counts) > 10, True)
    check("what it says", reports(machine), [line_of("a", accepted=taken, exported=taken).strip()])
    check("what came", b"".join(back_end.bodies()).count(b"\x12\x1c\x0a\x10"), taken)
    check("its state", machine.state(), ENDED)


def is_killed(machine, back_end):
    """Where a back end never answers it is killed, once its limit is over."""
    back_end.reply = None
    edited(machine, "limit", f"[Service]\nTimeoutStopSec={LIMIT}\n")
    machine.does("systemctl", "start", UNIT)
    check("a post", posted(1, 1), 1)
    begun = time.monotonic()
    machine.does("systemctl", "stop", UNIT)
    took = time.monotonic() - begun
    check("it was killed", machine.state()[:2], ["failed", "timeout"])
    check(f"within its limit, after {took:.1f} s", LIMIT <= took < LIMIT + 5, True)
    back_end.release()
    edited(machine, "limit", None)


def with_token(machine):
    """As docs/OPERATING.md has it for operators elsewhere: nothing is told without the token, and a stop has the one that
    the process was given, also where another one has taken its place in the file."""
    given = re.search(r"```ini\n(\[Service\]\nLoadCredential=.*?)```", OPERATING.read_text(), re.DOTALL)[1]
    token = machine.file("/etc/nimchaes/token")
    token.write_text("0123456789abcdef\n")
    token.chmod(0o600)
    edited(machine, "token", given)
    check("a start", machine.does("systemctl", "start", UNIT), (0, ""))
    asked = ("curl", "-s", "-o", "/dev/null", "-w", "%{http_code}", f"http://127.0.0.1:{ADMIN}/tenants")
    check("without the token", machine.asked(*asked), "401")
    check("with it", machine.asked(*asked, "--oauth2-bearer", "0123456789abcdef"), "200")
    token.write_text("fedcba9876543210\n")
    check("with the next one", machine.asked(*asked, "--oauth2-bearer", "fedcba9876543210"), "401")
    check("a post", posted(4, 1), 4)
    check("a stop", machine.does("systemctl", "stop", UNIT), (0, ""))
    check("what it says", (machine.state(), reports(machine)[-1:]),
          (ENDED, [line_of("a", accepted=4, exported=4).strip()]))


def with_other_options(machine):
    """The unit's token goes, its port changes, a proxy is named, and a restart is a drain all the same: of the port, and
    with the token, that the process began with."""
    check("a start", machine.does("systemctl", "start", UNIT), (0, ""))
    port = f"[Service]\nEnvironment=ADMIN=127.0.0.1:{ADMIN + 1}\n"
    proxy = "[Service]\nEnvironment=http_proxy=http://127.0.0.1:1\n"
    for count, (name, text) in enumerate((("token", None), ("port", port), ("port", None), ("proxy", proxy), ("proxy", None)), 1):
        check("some posts", posted(count, 1), count)
        edited(machine, name, text)
        check(f"a restart with another {name}", machine.does("systemctl", "restart", UNIT), (0, ""))
        check(f"what it says with another {name}", (machine.state(), reports(machine)[-1:]),
              (GOOD, [line_of("a", accepted=count, exported=count).strip()]))
    machine.does("systemctl", "stop", UNIT)


def beside_a_proxy(machine, back_end):
    """What leads to back ends on the same machine, here one of them under a proxy's name, is there until all is sent, where
    both are stopped in one go, as by a shutdown."""
    port, units = free_port(), machine.file("/etc/systemd/system")
    machine.file("/root/back_end.py").write_bytes((HERE / "examples/back_end.py").read_bytes())
    proxy, down = units / "nginx.service", units / "down.target"
    proxy.write_text(f"[Service]\nExecStart={os.path.realpath(sys.executable)} /root/back_end.py {port}\n")
    down.write_text(f"[Unit]\nConflicts=nginx.service {UNIT}\nAfter=nginx.service {UNIT}\n")
    text = settings_of(back_end).replace(f":{back_end.port}", f":{port}").replace("wait_ms = 500", "wait_ms = 86400000")
    machine.file(SETTINGS).write_text(text)
    edited(machine, "limit", f"[Service]\nTimeoutStopSec={4 * LIMIT}\n")
    check("both start", machine.does("systemctl", "start", "nginx", UNIT), (0, ""))
    check("some posts", posted(6, 1), 6)
    check("both stop", machine.does("systemctl", "start", down.name), (0, ""))
    check("what it says beside a proxy", (machine.state(), reports(machine)[-1:]),
          (ENDED, [line_of("a", accepted=6, exported=6).strip()]))
    proxy.unlink()
    down.unlink()
    machine.file(SETTINGS).write_text(settings_of(back_end))
    edited(machine, "limit", None)


def ends_by_itself(machine):
    """Who drains it by a call has it stay ended; who kills it has it come again."""
    machine.does("systemctl", "start", UNIT)
    check("a drain", machine.does("curl", "-sf", "-X", "POST", f"http://127.0.0.1:{ADMIN}/drain")[0], 0)
    wait_for(lambda: machine.state()[0] == "inactive", "it has ended")
    check("its state", machine.state(), ENDED)
    machine.does("systemctl", "start", UNIT)
    machine.does("systemctl", "kill", "--signal=KILL", UNIT)
    wait_for(lambda: machine.state() == GOOD and machine.process(), "it came again")


def is_replaced(machine, file):
    """The package of a later build takes the place of the first, as docs/OPERATING.md has it, with all sent that it held."""
    check("a post", posted(5, 7), 5)
    before = machine.process()
    check("it is installed anew", machine.does("apt-get", "install", "--yes", file)[0], 0)
    wait_for(lambda: machine.state() == GOOD, "it is there again")
    check("it is another", machine.process() not in (0, before), True)
    check("what the first one says", reports(machine)[-1], line_of("a", accepted=5, exported=5).strip())


def goes(machine):
    """It is stopped and gone, and the settings stay."""
    check("a post", posted(2, 8), 2)
    check("it is removed", machine.does("dpkg", "--remove", "nimchaes")[0], 0)
    check("what it says", reports(machine)[-1], line_of("a", accepted=2, exported=2).strip())
    check("it is gone", (machine.process(), machine.file("/usr/bin/trace_collector").exists()), (0, False))
    check("it is purged", machine.does("dpkg", "--purge", "nimchaes")[0], 0)
    check("nobody knows it", machine.asked("systemctl", "show", "--property=LoadState", "--value", UNIT), "not-found")
    check("the settings stay", machine.file(SETTINGS).is_file(), True)


def package(room, moment):
    """The bytes of a package that is built at a moment."""
    made = subprocess.run([sys.executable, HERE / "packaging/deb.py", talk.program, room], stdout=subprocess.PIPE, text=True,
                          env={**os.environ, "SOURCE_DATE_EPOCH": str(moment)}, timeout=MOST, check=True).stdout.strip()
    return Path(made).read_bytes()


def tried(room):
    first, second = (package(room, int(time.time()) - ago) for ago in (1, 0))
    with Machine(room) as machine:
        machine.file("/root/first.deb").write_bytes(first)
        machine.file("/root/second.deb").write_bytes(second)
        try:
            with BackEnd() as back_end:
                comes(machine, "/root/first.deb")
                starts(machine, back_end)
                stops(machine, back_end)
                is_killed(machine, back_end)
                with_token(machine)
                with_other_options(machine)
                beside_a_proxy(machine, back_end)
                ends_by_itself(machine)
                is_replaced(machine, "/root/second.deb")
                goes(machine)
        except Exception:  # pylint: disable=broad-except
            talk.faults += [traceback.format_exc(), machine.journal()]


def main():
    talk.program = os.path.abspath(sys.argv[1] if len(sys.argv) > 1 else HERE / "trace_collector")
    with tempfile.TemporaryDirectory(prefix="nimchaes-booted-") as room:
        tried(room)
    for fault in talk.faults:
        print(fault)
    end("it comes, serves, stops and goes")


if __name__ == "__main__":
    main()
