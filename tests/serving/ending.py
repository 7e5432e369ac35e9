"""How the service ends when its input does."""

import os
import resource
import signal
import socket
import struct
import subprocess
import threading
import time
from contextlib import suppress
from pathlib import Path

from serving import talk
from serving.talk import (BUSY, TAKEN, BackEnd, Service, body, check, globals_of, head_of, line_of, listening_port,
                          read_message, request, tenant, wait_for)

SCRIPT = Path(__file__).resolve().parent.parent.parent / "examples" / "collector-run"


def drained(folder):
    """What waits for its decision, for a batch or for a retry is sent at once or when it is due; then all reports are
    printed, in the order of the settings."""
    with BackEnd() as ones, BackEnd() as others, BackEnd(lambda count: BUSY if count < 4 else TAKEN) as busy:
        # The last of them holds spans too.
        sections = [tenant("zeta", ones, wait=86_400_000), tenant("none", ones), tenant("mid", others, timeout=86_400_000),
                    tenant("alpha", busy, wait=86_400_000, timeout=86_400_000)]
        with Service(folder, sections) as service:
            for name in ("zeta", "mid", "alpha"):
                for trace in (1, 2, 3):
                    check("a post", service.post(name, body(trace, 1)), (200, b""))
            for name, where in (("zeta", "undecided"), ("mid", "pending"), ("alpha", "undecided")):
                waits = line_of(name, accepted=3, **{where: 3})
                wait_for(lambda n=name, w=waits: service.report(n) == w, f"{name}'s spans wait")
            check("nothing was sent", (ones.posts, others.posts, busy.posts), ([], [], []))
            zeta, mid, alpha = (line_of(name, accepted=3, exported=3) for name in ("zeta", "mid", "alpha"))
            check("the end", service.end(), (0, zeta + line_of("none") + mid + alpha, b""))
        together = request(*((bytes([trace]) * 16, b"\1" * 8, b"") for trace in (1, 2, 3)))
        check("a batch each", sorted(ones.bodies()), [body(trace, 1) for trace in (1, 2, 3)])
        check("one batch", others.bodies(), [together])
        check("one batch, until it is taken", busy.bodies(), [together] * 4)


def giving_up(folder):
    """With an end to retries the service ends though a back end never takes a batch, or its address is none."""
    elapsed = "max_elapsed_time_ms = 100\n"
    with BackEnd(BUSY) as busy, Service(folder, [tenant("a", busy) + elapsed, nowhere("b", busy) + elapsed]) as service:
        for name in "ab":
            check("a post", service.post(name, body(1, 1)), (200, b""))
        wait_for(lambda: busy.posts, "it is sent")
        done = "".join(line_of(name, accepted=1, retry_exhausted=1) for name in "ab")
        check("the end", service.end(), (0, done, b""))
        check("within that time, 20 milliseconds apart", len(busy.posts) <= 6, True)


def nowhere(name, back_end):
    """A tenant whose back end's address is no address."""
    section = tenant(name, back_end).replace(f"127.0.0.1:{back_end.port}", "127.0.0.1:x")
    check("the address", "127.0.0.1:x" in section, True)
    return section


def is_refused(port):
    """Whether nobody listens at a port any more."""
    try:
        socket.create_connection(("127.0.0.1", port), timeout=talk.MOST).close()
    except ConnectionError:
        return True
    return False


def with_clients(folder):
    """A client that keeps its connection is told that the service shuts down, and what it was told before was counted
    and sent. Who says nothing keeps the service, and is told so once more; who connects meanwhile is refused."""
    with BackEnd(None) as back_end, Service(folder, [tenant("a", back_end, wait=86_400_000)]) as service:
        with service.connect() as kept, service.connect() as idle:
            check("a post", service.post("a", body(1, 1), kept), (200, b""))
            check("another's", service.post("a", body(5, 5), idle), (200, b""))
            service.run.stdin.close()
            taken = 2
            while (told := service.post("a", body(2, 2), kept)) == (200, b""):
                taken += 1
            check("what it is told", told, (503, b"\x12\x0dshutting down"))
            check("what is no request yet", service.post("a", body(3, 3)[:33], kept), (400, b"\x12\x0cbad protobuf"))
            back_end.release()
            check("reports", service.hear(), line_of("a", accepted=taken, exported=taken))
            wait_for(lambda: is_refused(service.port), "who connects is refused")
            check("it waits for its clients", service.run.poll(), None)
            for _ in range(12):     # the last report is heard a moment before the service is over
                idle.settimeout(talk.MOST)
                check("who comes late", service.post("a", body(4, 4), idle)[0], 503)
                idle.settimeout(5)
                with suppress(TimeoutError):
                    check("is let go", idle.recv(1), b"")
                    break
            else:
                check("is let go", "kept", "let go")
        check("the end", service.end(), (0, "", b""))
        check("spans", b"".join(back_end.bodies()).count(b"\x0a\x10"), taken)


def with_new_clients(folder):
    """While a back end holds up the end, who connects is told that the service shuts down, and once all is sent the
    service ends though others have just come."""
    with BackEnd(None) as back_end, Service(folder, [tenant("a", back_end)]) as service:
        check("a post", service.post("a", body(1, 1)), (200, b""))
        wait_for(lambda: back_end.posts, "it is sent")
        service.run.stdin.close()
        taken = 1
        while (told := service.post("a", body(2, 2))) == (200, b""):
            taken += 1
        for _ in range(3):
            check("what who connects is told", told, (503, b"\x12\x0dshutting down"))
            told = service.post("a", body(3, 3))
        back_end.release()
        check("reports", service.hear(), line_of("a", accepted=taken, exported=taken))
        check("the end", service.end(), (0, "", b""))


def with_busy_clients(folder):
    """Who posts again and again over one connection doesn't keep the service: once all is sent each is let go behind a
    reply, and none within a post."""
    over, slow = threading.Event(), threading.Event()
    with BackEnd() as back_end, Service(folder, [tenant("a", back_end)]) as service:
        told = []

        def post_on():
            with service.connect() as peer, suppress(ConnectionError):
                while not over.wait(0.01) and (status := service.post("a", body(1, 1), peer)[0]):
                    told.append(status)

        def post_slowly():
            with service.connect() as peer:
                check("a post", service.post("a", body(2, 2), peer), (200, b""))
                peer.sendall(head_of("a", 34) + body(3, 3)[:20])
                slow.set()
                check("all is sent", service.hear()[:8], "report a")
                time.sleep(0.3)
                peer.sendall(body(3, 3)[20:])
                check("the rest of a post", read_message(peer.recv)[:12], b"HTTP/1.1 503")
                check("is let go", peer.recv(1), b"")

        clients = [threading.Thread(target=work) for work in (post_on, post_on, post_slowly)]
        for client in clients:
            client.start()
        wait_for(lambda: len(told) > 20 and slow.is_set(), "all post")
        service.run.stdin.close()
        check("it ends", ended_within(service, talk.SOON), 0)
        over.set()
        for client in clients:
            client.join()
        check("what is told", (told[0], set(told) <= {200, 503}), (200, True))


def ended_within(service, seconds):
    """The status of a service that ends within so many seconds, and else none."""
    try:
        return service.run.wait(seconds)
    except subprocess.TimeoutExpired:
        return None


def told_of(folder):
    """With --verbose standard error is told where the service listens, and at its end what it waits for: a tenant's
    spans, and then a client."""
    with BackEnd() as back_end, BackEnd(None) as slow:
        with Service(folder, [tenant("a", back_end), tenant("b", slow)], "--verbose") as service:
            check("where", told(service), f"serving at 127.0.0.1:{service.port}\n")
            with service.connect() as kept:
                check("a post", service.post("b", body(1, 1), kept), (200, b""))
                service.run.stdin.close()
                check("its end", told(service), "draining: tenants take no more spans, and send what they hold\n")
                check("for whom", told(service), "sending: waiting until b holds no spans\n")
                wait_for(lambda: slow.posts, "it is sent")
                slow.release()
                check("for clients", told(service), "closing: all is sent, waiting for open connections\n")
                check("reports", (service.hear(), service.hear()), (line_of("a"), line_of("b", accepted=1, exported=1)))
            check("the end", service.end(), (0, "", b"ended: all threads are done\n"))


def skipped(folder):
    """Lines that ask for nothing are told with --verbose, whatever they hold, and no others."""
    lines = (("report nobody", "report nobody"), ("report", "report"), ("report  a", "report  a"), ("", ""), ("help", "help"),
             ("retire nobody", "retire nobody"), ("\x1b[1m\\\t\xe9", "\\x1b[1m\\\\\\t\\xc3\\xa9"), ("x" * 5000, "x" * 4100))
    with BackEnd() as back_end, Service(folder, [tenant("a", back_end)], "--verbose") as service:
        check("where", told(service), f"serving at 127.0.0.1:{service.port}\n")
        for line, shown in lines:
            check("a report", service.report("a"), line_of("a"))
            service.say(f"{line}\n")
            check(line, told(service), f"skipped: {shown}\n")
        service.say("add nowhere\n")
        check("a line that is answered", service.hear(), "refused add 10\n")
        service.run.stdin.close()
        check("no other is told", told(service), "draining: tenants take no more spans, and send what they hold\n")
        check("the end", service.end()[:2], (0, line_of("a")))


def told(service):
    """The next line of its standard error."""
    return service.run.stderr.readline().decode()


def failing_output(folder):
    """Where reports can't be printed they are lost, and the service goes on to the end of its input, and then says what was
    wrong."""
    fault = (1, b"input or output fault\n")
    with BackEnd() as back_end:
        section = tenant("a", back_end)
        with Service(folder, [section], "--verbose") as service:
            check("where", told(service), f"serving at 127.0.0.1:{service.port}\n")
            service.run.stdout.close()
            service.say("report a\nreport a\nreport nobody\n")
            check("it reads on", told(service), "skipped: report nobody\n")
            check("a post", service.post("a", body(1, 1)), (200, b""))
            wait_for(lambda: back_end.posts, "it sends on")
            service.run.stdin.close()
            said = service.run.stderr.read()
            check("nobody reads", (service.run.wait(talk.MOST), said.partition(fault[1])[2]),
                  (1, b"standard output: broken pipe, answers lost: 3\n"))
            check("what it held was sent", back_end.bodies(), [body(1, 1)])
        with open("/dev/full", "wb") as full:
            done = subprocess.run([talk.program, "serve", str(Path(folder, "settings.toml"))], stdout=full,
                                  stdin=subprocess.DEVNULL, stderr=subprocess.PIPE, timeout=talk.MOST, check=False)
        check("a full disk", (done.returncode, done.stderr), fault)


def cut_answers(folder):
    """Of an answer that a file has no room for a front is written. It is lost, as is each until there is room again; then they
    are written behind it. At the end it is said how many were lost."""
    file, line = Path(folder, "answers"), line_of("a")
    shell = ("/bin/sh", "-c", f'trap "" XFSZ && exec "$0" "$@" > {file}')
    with BackEnd() as back_end, Service(folder, [tenant("a", back_end)], "--verbose", under=shell) as service:
        check("where", told(service), f"serving at 127.0.0.1:{service.port}\n")
        for most, words in ((len(line) + 20, "report a\nreport a\nreport a\n"), (resource.RLIM_INFINITY, "report a\n")):
            resource.prlimit(service.run.pid, resource.RLIMIT_FSIZE, (most, resource.RLIM_INFINITY))
            service.say(f"{words}no word\n")
            check("it reads on", told(service), "skipped: no word\n")
        status, _, said = service.end()
        check("the end", (status, said.partition(b"input or output fault\n")[2]),
              (1, b"standard output: file too large, answers lost: 2\n"))
        check("what was written", file.read_text(), line + line[:20] + line + line)


def without_streams(folder):
    """A service that is started without standard output or error tells nobody else what they would be told, a client
    least of all; without standard input it ends at once."""
    for closed, numbers in ((">&- 2>&-", (1, 2)), (">&-", (1,)), ("2>&-", (2,))):
        shell = ("/bin/sh", "-c", f'exec "$0" "$@" {closed}')
        with BackEnd() as back_end, Service(folder, [tenant("a", back_end)], "--verbose", under=shell) as service:
            stand_ins = [os.readlink(f"/proc/{service.run.pid}/fd/{number}") for number in numbers]
            check(f"what stands in at {closed}", stand_ins, ["/dev/null"] * len(numbers))
            with service.connect() as kept:
                check("a post", service.post("a", body(1, 1), kept), (200, b""))
                service.say("report a\n")
                service.run.stdin.close()
                while (told := service.post("a", body(2, 2), kept)) == (200, b""):
                    pass
                check("all that a client is told", told, (503, b"\x12\x0dshutting down"))
            check("the end", service.end()[0], 0)
    with BackEnd() as back_end:
        file = Path(folder, "settings.toml")
        file.write_text(globals_of() + tenant("a", back_end))
        words = ["/bin/sh", "-c", 'exec "$0" "$@" <&-', talk.program, "serve", str(file)]
        done = subprocess.run(words, capture_output=True, timeout=talk.MOST, check=False)
        check("no input", (done.returncode, done.stdout, done.stderr), (0, line_of("a").encode(), b""))


def too_few_files(folder):
    """With one file fewer than receivers, senders and all else need at a time the service says so, and doesn't listen. With
    as many as that none waits for a file."""
    need = 4 + 2 + 5
    said = (f"input or output fault\nopen files: at most {need - 1}, and 4 receivers and 2 senders need {need}: raise the limit "
            "(`ulimit -n`), or lower receivers or senders\n")
    limited = [("/bin/sh", "-c", f'ulimit -n {most} && exec "$0" "$@"') for most in (need - 1, need)]
    newcomer = Path(folder, "newcomer.toml")
    with BackEnd(None) as slow:
        section = tenant("a", slow, consumers=2)
        Path(folder, "settings.toml").write_text(globals_of() + section)
        done = subprocess.run([*limited[0], talk.program, "serve", str(Path(folder, "settings.toml"))], input=b"",
                              capture_output=True, timeout=talk.MOST, check=False)
        check("one too few", (done.returncode, done.stdout, done.stderr.decode()), (1, b"", said))
        newcomer.write_text(tenant("b", slow))
        with Service(folder, [section], under=limited[1]) as service:
            kept = [service.connect() for _ in range(4)]
            for number, client in enumerate(kept, 1):
                check("a post", service.post("a", body(number, number), client), (200, b""))
            wait_for(lambda: len(slow.posts) == 2, "each sender waits for its answer")
            service.say(f"add {newcomer}\n")
            check("a file is read", service.hear(), "added b 1\n")
            for client in kept:
                client.close()
            slow.release()
            check("the end", service.end(), (0, line_of("a", accepted=4, exported=4) + line_of("b"), b""))


def told_why(folder):
    """With --verbose a second line tells which file, address, input or output a fault is of, and why."""
    file, missing = Path(folder, "settings.toml"), Path(folder, "missing")

    def said(path, **how):
        how = {"stdin": subprocess.DEVNULL, "stdout": subprocess.PIPE, **how}
        done = subprocess.run([talk.program, "serve", str(path), "--verbose"], stderr=subprocess.PIPE, timeout=talk.MOST,
                              check=False, **how)
        return done.returncode, done.stderr.decode()

    fault = "input or output fault\n"
    check("no file", said(missing), (1, f"{fault}{missing}: No such file or directory (os error 2)\n"))
    with BackEnd() as back_end, socket.create_server(("127.0.0.1", 0)) as taken:
        section = tenant("a", back_end)
        file.write_text(globals_of() + section + section)
        check("a faulty file", said(file), (1, f"settings fault 14 a\n{file}: `trace_collector check` says it in words\n"))
        file.write_text('[global]\nlisten = "nowhere"\n' + section)
        check("no address", said(file), (1, f"{fault}nowhere: doesn't end with a colon and a port from 0 to 65535\n"))
        file.write_text('[global]\nlisten = "no.host.invalid:4318"\n' + section)
        status, told = said(file)
        check(f"no host: {told}", (status, told.startswith(f"{fault}no.host.invalid:4318: ")), (1, True))
        port = taken.getsockname()[1]
        file.write_text(globals_of(port) + section)
        check("a port in use", said(file), (1, f"{fault}127.0.0.1:{port}: Address already in use (os error 98)\n"))
        file.write_text(globals_of() + section)
        with open("/dev/full", "wb") as full:
            status, told = said(file, stdout=full)
        check("a full disk", (status, told.partition(fault)[2]), (1, "standard output: no storage space, answers lost: 1\n"))


def failing_input(folder):
    """Where the input can't be read any more the service ends as at its end, and then says what was wrong. What was read
    of a line that has no end counts for nothing."""
    with BackEnd() as back_end, socket.create_server(("127.0.0.1", 0)) as listener:
        Path(folder, "settings.toml").write_text(globals_of() + tenant("a", back_end) + tenant("b", back_end))
        with socket.create_connection(listener.getsockname()) as peer:
            line, _ = listener.accept()
            with line, subprocess.Popen([talk.program, "serve", str(Path(folder, "settings.toml"))], stdin=line,
                                        stdout=subprocess.PIPE, stderr=subprocess.PIPE) as run:
                peer.sendall(b"report b\nreport a")
                check("a report", run.stdout.readline().decode(), line_of("b"))
                # It goes with a reset, which fails the next read.
                peer.setsockopt(socket.SOL_SOCKET, socket.SO_LINGER, struct.pack("ii", 1, 0))
                peer.close()
                out, err = run.communicate(timeout=talk.MOST)
                check("the end", (run.returncode, out.decode(), err),
                      (1, line_of("a") + line_of("b"), b"input or output fault\n"))


def started_by_a_script(folder):
    """The script of examples/ holds the input open, passes lines on, and ends the service in order when it is told to
    stop."""
    script = SCRIPT.read_text()
    for there, here in (("/run/collector/", f"{folder}/"), ("/etc/collector.toml", f"{folder}/settings.toml"),
                        ("/usr/local/bin/trace_collector", talk.program)):
        check(f"{there} stands in the script", there in script, True)
        script = script.replace(there, here)
    file, control = Path(folder, "collector-run"), Path(folder, "control")
    file.write_text(script)
    with BackEnd() as back_end:
        Path(folder, "settings.toml").write_text(globals_of() + tenant("a", back_end, wait=86_400_000))
        with subprocess.Popen(["/bin/sh", file], stdout=subprocess.PIPE, stderr=subprocess.PIPE) as run:
            try:
                wait_for(lambda: port_below(run.pid), "the service listens")
                with socket.create_connection(("127.0.0.1", port_below(run.pid))) as peer:
                    peer.sendall(head_of("a", 34) + body(1, 1))
                    check("a post", read_message(peer.recv)[:15], b"HTTP/1.1 200 OK")
                control.write_text("report a\n")
                check("a report", run.stdout.readline().decode(), line_of("a", accepted=1, undecided=1))
                run.send_signal(signal.SIGTERM)
                out, err = run.communicate(timeout=talk.MOST)
                done = line_of("a", accepted=1, exported=1)
                check("the end", (run.returncode, out.decode(), err), (0, done, b""))
            finally:
                if run.poll() is None:
                    for child in children(run.pid):
                        os.kill(child, signal.SIGKILL)
                    run.kill()


def children(process):
    return [int(word) for word in Path(f"/proc/{process}/task/{process}/children").read_text().split()]


def port_below(process):
    """Where one of its children listens."""
    try:
        return next(filter(None, map(listening_port, children(process))), None)
    except OSError:
        # One of them has just ended.
        return None


TESTS = (drained, giving_up, with_clients, with_new_clients, with_busy_clients, told_of, skipped, failing_output, cut_answers, without_streams, too_few_files, told_why,
         failing_input, started_by_a_script)
