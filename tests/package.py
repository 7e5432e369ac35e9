#!/usr/bin/env python3
"""Checks what `make install` and `make deb` put where: `make trace_collector && python3 tests/package.py`.

    python3 tests/package.py [PROGRAM] [NAME..]     # all, or those of these names

Takes the program's path, `./trace_collector` if there is none. What needs a program that isn't installed is left out,
which it says: `mandoc`, `man`, `systemd-analyze`, `curl`, `dpkg-deb`, `lintian`. It prints what is wrong, and ends with 1
where something is.
"""

import os
import re
import shlex
import shutil
import subprocess
import sys
from pathlib import Path

from serving import runs, talk
from serving.talk import MOST, BackEnd, body, check, free_port, globals_of, head_of, line_of, read_message, tenant, wait_for

HERE = Path(__file__).resolve().parent.parent
FILES = {"bin/trace_collector": 0o755, "share/man/man1/trace_collector.1": 0o644,
         "lib/systemd/system/nimchaes.service": 0o644, "libexec/nimchaes/drain": 0o755,
         "share/doc/nimchaes/examples/settings.toml": 0o644, "share/doc/nimchaes/examples/trace.pb": 0o644,
         "share/doc/nimchaes/examples/prometheus.yml": 0o644,
         "share/doc/nimchaes/examples/alerts.yml": 0o644, "share/doc/nimchaes/examples/nginx.conf": 0o644,
         "share/doc/nimchaes/examples/collector-run": 0o755,
         **{f"share/doc/nimchaes/docs/{page}.md": 0o644 for page in (
             "OPERATING", "RUNBOOK", "SIZING", "SETTINGS", "HTTP", "SCRIPT")},
         **{f"share/doc/nimchaes/docs/pictures/admin-{way}.png": 0o644 for way in ("light", "dark", "narrow")}}


def is_there(*names):
    """Whether these programs are installed; those that aren't are told."""
    missing = [name for name in names if shutil.which(name) is None]
    for name in missing:
        print(f"{name}: not installed", flush=True)
    return not missing


def said(*words, **how):
    """The status of a command, and all that it says."""
    how = {"timeout": MOST, **how}
    done = subprocess.run(words, stdout=subprocess.PIPE, stderr=subprocess.STDOUT, text=True, check=False, **how)
    return done.returncode, done.stdout


def made(target, folder, **variables):
    """Has `make` put it, or remove it, below a folder that stands for `/`."""
    words = [f"{name}={value}" for name, value in {"BUILT": talk.program, "DESTDIR": folder, **variables}.items()]
    status, told = said("make", "--silent", "-C", str(HERE), target, *words, umask=0o077)
    if status != 0:
        raise RuntimeError(told)


def installed(folder, **variables):
    """Where `make install` put it, as a folder that holds what it would put at `/`."""
    made("install", folder, **variables)
    return Path(folder)


def files_below(folder):
    return {str(file.relative_to(folder)): file.stat().st_mode & 0o7777 for file in folder.rglob("*") if file.is_file()}


def in_place(folder):
    """Each file is in its place with its mode, and nothing else is."""
    root = installed(folder, PREFIX="/opt/nimchaes")
    check("files", files_below(root), {f"opt/nimchaes/{name}": mode for name, mode in FILES.items()})
    check("the program", (root / "opt/nimchaes/bin/trace_collector").read_bytes(), Path(talk.program).read_bytes())
    missing = said("make", "--silent", "-C", str(HERE), "install", "BUILT=missing", f"DESTDIR={folder}/none")
    check("what isn't built", (missing[0], "make trace_collector" in missing[1]), (2, True))
    check("is not put anywhere", Path(folder, "none").exists(), False)


def removed(folder):
    """`make uninstall` removes what `make install` put, and nothing of an operator's, and does so twice."""
    root = installed(folder, PREFIX="/opt/nimchaes")
    own = ("etc/nimchaes/settings.toml", "etc/systemd/system/nimchaes.service.d/override.conf", "opt/nimchaes/bin/other",
           "opt/nimchaes/share/doc/nimchaes/examples/mine.toml")
    for name in own:
        (root / name).parent.mkdir(parents=True, exist_ok=True)
        (root / name).touch(mode=0o600)
    for often in ("once", "twice"):
        made("uninstall", folder, PREFIX="/opt/nimchaes")
        check(f"what stays, removed {often}", set(files_below(root)), set(own))
    (root / own[-1]).unlink()
    made("uninstall", folder, PREFIX="/opt/nimchaes")
    check("folders of its own", [str(found) for found in (root / "opt/nimchaes").rglob("nimchaes")], [])


def plain(page):
    """A page's words without what formats them."""
    lines = (line for line in page.splitlines() if not re.match(r"\.(TP|br|PP|RS|RE|EX|EE)$", line))
    text = " ".join(re.sub(r"^\.(SH|BR|IR|B|I) ", "", line) for line in lines)
    for code, character in ((r"\-", "-"), (r"\(aq", "'"), (r"\(ga", "`"), (r"\e", "\\")):
        text = text.replace(code, character)
    return " ".join(re.sub(r"\\f[BIR]", "", text).split())


def manual(folder):
    """The page says all that `--help` says, word by word, and those who format it have nothing to say of it."""
    page = installed(folder, PREFIX="") / "share/man/man1/trace_collector.1"
    told = plain(page.read_text())
    text = said(talk.program, "--help")[1].replace("`", "")
    # An entry of a list begins two columns in, its further lines stand further in.
    for entry in re.split(r"\n\n|\n(?=  \S)|(?<=:)\n|\n(?=Exit statuses)", text.strip()):
        entry = " ".join(entry.split())
        if not re.match("usage: |Exit statuses: ", entry):
            check(f"the page has {entry!r}", entry in told, True)
    statuses = re.search(r"Exit statuses: ([^.]*)\.", text)[1]
    check("statuses", re.search(r"EXIT STATUS(.*) FILES", told)[1].split(), statuses.replace(";", "").split())
    synopsis = re.search("SYNOPSIS(.*) DESCRIPTION", told)[1]
    for way in ("replay SETTINGS", "serve SETTINGS [--audit] [--verbose] [--connections N]", "check SETTINGS", "--help", "--version"):
        check(f"the synopsis has {way}", f"trace_collector {way}" in synopsis, True)
    for option in re.findall("^  (--[a-z-]+)", text, re.M):
        check(f"the synopsis has {option}", option in synopsis, True)
    if is_there("mandoc"):
        check("mandoc", said("mandoc", "-T", "lint", "-W", "warning", str(page)), (0, ""))
    if is_there("man"):
        check("man", said("man", "--warnings", "-E", "UTF-8", "-l", "-Tutf8", "-Z", str(page))[1].count("warning"), 0)


def lines_of(unit, key):
    """What stands behind a key of a unit, line by line, as words, without what says that a failure doesn't matter."""
    lines = unit.read_text().replace("\\\n", "").splitlines()
    found = [line.partition("=")[2] for line in lines if line.startswith(f"{key}=")]
    return [shlex.split(line.removeprefix("-")) for line in found]


def filled(words, variables):
    """Words of a unit with its variables: one alone is as many words as it has."""
    for word in words:
        if word.startswith("$") and not word.startswith("${"):
            yield from variables[word[1:]].split()
        else:
            yield re.sub(r"\$\{(\w+)\}", lambda name: variables[name[1]], word)


def unit_checks(unit, settings, good):
    """What runs before the start finds an unknown key, a fault, and nothing in a good file, which is left there."""
    for text, wanted in ((good.replace("parts", "party"), [False, True]), ("[[tenant]]\n", [True, False]),
                         (good, [True, True])):
        settings.write_text(text)
        done = [said(*words)[0] == 0 for words in lines_of(unit, "ExecStartPre")]
        check(f"before the start, of {text[-40:]!r}", done, wanted)


def unit_runs(folder):
    """What the unit runs, without systemd: it starts with an input that ends at once, serves, and sends what waits when
    it is told to stop."""
    if not is_there("curl"):
        return
    root = Path(folder)
    installed("", PREFIX=f"{folder}/usr", ETC=f"{folder}/etc")
    unit = root / "usr/lib/systemd/system/nimchaes.service"
    check("all is filled in", "@" in re.sub("SystemCallFilter=.*", "", unit.read_text()), False)
    variables = dict(word.partition("=")[::2] for line in lines_of(unit, "Environment") for word in line)
    check("the admin port", variables["ADMIN"], "127.0.0.1:9464")
    limits = [word for word in variables["OPTIONS"].split() if word.startswith("--")]
    check("what is bounded", limits, ["--body-memory", "--queue-bytes", "--client-timeout", "--request-timeout", "--back-end-timeout"])
    port = free_port()
    variables |= {"ADMIN": f"127.0.0.1:{free_port()}", "OPTIONS": variables["OPTIONS"] + " --connections 8"}
    with BackEnd() as back_end:
        settings = root / "etc/nimchaes/settings.toml"
        settings.parent.mkdir(parents=True)
        unit_checks(unit, settings, globals_of(port) + tenant("a", back_end, wait=86_400_000))
        words = list(filled(lines_of(unit, "ExecStart")[0], variables))
        with subprocess.Popen(words, stdin=subprocess.DEVNULL, stdout=subprocess.PIPE, stderr=subprocess.PIPE,
                              env={**os.environ, **variables}) as run:
            try:
                wait_for(lambda: run.poll() is not None or b"serving at" in run.stderr.readline(), "it serves")
                with talk.socket.create_connection(("127.0.0.1", port), timeout=MOST) as peer:
                    peer.sendall(head_of("a", 34) + body(1, 1))
                    check("a post", read_message(peer.recv)[:15], b"HTTP/1.1 200 OK")
                # By then the unit may name another port.
                then = {**variables, "ADMIN": f"127.0.0.1:{free_port()}", "MAINPID": str(run.pid)}
                stop = list(filled(lines_of(unit, "ExecStop")[0], then))
                status, told = said(*stop)
                check("the stop", (status, "draining" in told), (0, True))
                out, _ = run.communicate(timeout=MOST)
                check("the end", (run.returncode, out.decode()), (0, line_of("a", accepted=1, exported=1)))
            finally:
                run.kill()
        check("what came", len(back_end.posts), 1)


def unit_heaps(folder):
    """The C library that the program is linked to knows what the unit says of heaps: what it doesn't know it ignores."""
    installed("", PREFIX=f"{folder}/usr", ETC=f"{folder}/etc")
    lines = lines_of(Path(folder, "usr/lib/systemd/system/nimchaes.service"), "Environment")
    wanted = {name: int(value) for name, _, value in (word.partition("=") for line in lines for word in line)
              if name.startswith("MALLOC_")}
    loader = re.search(rb"/lib\w*/ld-[\w.-]+", Path(talk.program).read_bytes())[0].decode()
    status, told = said(loader, "--list-tunables", env={**os.environ, **{name: str(value) for name, value in wanted.items()}})
    if status != 0:
        print(f"{loader}: doesn't list what it knows", flush=True)
        return
    found = {f"MALLOC_{name.upper()}": int(value, 16) for name, value in re.findall(r"malloc\.(\w+): 0x(\w+)", told)}
    for name, value in wanted.items():
        check(f"{name} of the unit", found.get(name.rstrip("_")), value)
    check("what it says of heaps", sorted(wanted), ["MALLOC_ARENA_MAX", "MALLOC_MMAP_THRESHOLD_", "MALLOC_TRIM_THRESHOLD_"])


def unit_verified(folder):
    """systemd finds nothing wrong with the unit."""
    # It looks for the page and for the commands that the unit names.
    if not is_there("systemd-analyze", "man", "curl"):
        return
    installed("", PREFIX=f"{folder}/usr", ETC=f"{folder}/etc")
    unit = Path(folder, "usr/lib/systemd/system/nimchaes.service")
    environment = {**os.environ, "MANPATH": f"{folder}/usr/share/man"}
    check("the unit", said("systemd-analyze", "verify", str(unit), env=environment), (0, ""))


def package(folder):
    """Debian's tools take the package, which holds what `make install` puts below /usr."""
    if not is_there("dpkg-deb"):
        return
    version = said(talk.program, "--version")[1].split()[-1]
    # Of two builds the later one is the later version, and takes the place of the other.
    for moment, behind in (("1700000000", "20231114221320"), ("1700000001", "20231114221321")):
        file = subprocess.run([sys.executable, str(HERE / "packaging/deb.py"), talk.program, folder], stdout=subprocess.PIPE,
                              env={**os.environ, "SOURCE_DATE_EPOCH": moment}, text=True, timeout=MOST,
                              check=True).stdout.strip()
        fields = dict(line.partition(": ")[::2] for line in said("dpkg-deb", "--field", file)[1].splitlines())
        check("its fields", (fields["Package"], fields["Version"]), ("nimchaes", f"{version}-1+{behind}"))
        check("one package", [str(found) for found in Path(folder).glob("*.deb")], [file])
    held = Path(folder, "held")
    said("dpkg-deb", "--raw-extract", file, str(held))
    names = {name.replace(".1", ".1.gz") for name in FILES} | {
        f"share/doc/nimchaes/{name}" for name in ("copyright", "changelog.Debian.gz")}
    check("its files", set(files_below(held / "usr")), names)
    check("its scripts", files_below(held / "DEBIAN"),
          {"control": 0o644, "md5sums": 0o644, "postinst": 0o755, "prerm": 0o755, "postrm": 0o755})
    check("its sums", said("md5sum", "--quiet", "--check", "DEBIAN/md5sums", cwd=held), (0, ""))
    check("its program", said(str(held / "usr/bin/trace_collector"), "--version")[1], f"trace_collector {version}\n")
    unit = (held / "usr/lib/systemd/system/nimchaes.service").read_text()
    check("its unit", ("/usr/bin/trace_collector serve /etc/nimchaes/" in unit, "/usr/local" in unit), (True, False))
    if is_there("lintian"):
        # Beside provers it takes more than a minute.
        told = said("lintian", "--no-tag-display-limit", file, timeout=5 * MOST)[1]
        check("lintian", [line for line in told.splitlines() if line.startswith("E")], [])


TESTS = {test.__name__: test for test in (in_place, removed, manual, unit_runs, unit_heaps, unit_verified, package)}


def main():
    words = sys.argv[1:]
    talk.program = os.path.abspath(words.pop(0) if words and words[0] not in TESTS else HERE / "trace_collector")
    for name in words or TESTS:
        runs.run(name, TESTS[name])
    runs.end("it is put where it has to be")


if __name__ == "__main__":
    main()
