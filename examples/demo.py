"""What examples/serve.py and examples/preview.py share: back ends for the tenants of a settings file, posts of traces, and ports."""

import http.client
import re
import socket
import subprocess
import sys
import time
from pathlib import Path
from threading import Thread

HERE = Path(__file__).resolve().parent.parent
SETTINGS = "examples/service.toml"
# A trace of one span, whose status is an error.
ERROR = bytes.fromhex("0a24 1222 1220 0a10" + "11" * 16 + "1208" + "21" * 8 + "7a02 1802")
ADDRESS = r'^{} *= *"127\.0\.0\.1:(\d+)"'
arrived = []


def ports():
    """The port of the settings for posts, and that of each tenant's back end."""
    text = (HERE / SETTINGS).read_text()
    names = re.findall(r'^name *= *"(.*)"', text, re.M)
    back_ends = map(int, re.findall(ADDRESS.format("endpoint"), text, re.M))
    return int(re.search(ADDRESS.format("listen"), text, re.M)[1]), dict(zip(names, back_ends))


def say(line):
    print(line, flush=True)


def start(words, **how):
    say("$ " + " ".join(words))
    return subprocess.Popen([sys.executable if words[0] == "python3" else words[0], *words[1:]], cwd=HERE, **how)


def is_up(port, host="127.0.0.1"):
    try:
        socket.create_connection((host, port), timeout=1).close()
        return True
    except OSError:
        return False


def taken():
    """What to say of a port of the settings that is in use, or nothing."""
    listen, tenants = ports()
    used = [port for port in (listen, *tenants.values()) if is_up(port)]
    return f"port {used[0]} of this machine is in use: name another in {SETTINGS}" if used else ""


def wait_for(is_so, run, seconds=10):
    """Whether it came to be so in this time, while the program ran."""
    end = time.monotonic() + seconds
    while time.monotonic() < end and run.poll() is None:
        if is_so():
            return True
        time.sleep(0.05)
    return False


def post(tenant, body, what):
    line = http.client.HTTPConnection("127.0.0.1", ports()[0], timeout=10)
    headers = {"X-Scope-OrgID": tenant, "Content-Type": "application/x-protobuf"}
    line.request("POST", "/v1/traces", body, headers)
    reply = line.getresponse()
    say(f"POST /v1/traces for {tenant}, {what}: {reply.status} {reply.reason}")
    line.close()


def post_all(tenants):
    """A trace of each tenant, and one with an error of the second, which keeps no others."""
    for tenant in tenants:
        post(tenant, (HERE / "examples/trace.pb").read_bytes(), "a trace")
    post("bank", ERROR, "a trace with an error")
    say("half a second later each trace is decided: shop keeps all, bank those with an error")


def show(lines):
    """Prints what the back ends say, and keeps it."""
    for line in lines:
        say(line.rstrip("\n"))
        arrived.append(line)


def start_back_ends(tenants, **how):
    words = ["python3", "examples/back_end.py", *map(str, tenants.values())]
    return start(words, stdout=subprocess.PIPE, text=True, **how)


def are_shown(back_ends, tenants):
    """Whether the back ends are there; what they say is printed from then on."""
    if not wait_for(lambda: all(map(is_up, tenants.values())), back_ends):
        return False
    Thread(target=show, args=(back_ends.stdout,), daemon=True).start()
    return True
