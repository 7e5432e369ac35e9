#!/usr/bin/env python3
"""Makes a Debian package of what `make install` puts below /usr: `packaging/deb.py PROGRAM FOLDER`.

The package comes into FOLDER, as nimchaes_VERSION_ARCHITECTURE.deb, in place of an earlier one. Needed are `dpkg` and `make`;
`strip` is used where it is installed. What is dated, and the version, has the moment of SOURCE_DATE_EPOCH, or else of the build.
"""

import gzip
import hashlib
import os
import re
import shutil
import subprocess
import sys
import tempfile
import time
from email.utils import formatdate
from pathlib import Path

HERE = Path(__file__).resolve().parent
NAME, REVISION = "nimchaes", "1"
SCRIPTS = ("postinst", "prerm", "postrm")
MAINTAINER = os.environ.get("MAINTAINER", "Nimchaes maintainers <maintainers@users.noreply.nimchaes.example>")
MOMENT = int(os.environ.get("SOURCE_DATE_EPOCH", time.time()))


def said(*words):
    return subprocess.run(words, capture_output=True, text=True, timeout=60, check=True).stdout.strip()


def version_of(program):
    """The program's, and the moment: without it a later build would count as the one that is installed."""
    return f"{said(program, '--version').split()[-1]}-{REVISION}+{time.strftime('%Y%m%d%H%M%S', time.gmtime(MOMENT))}"


def needed_libc(program):
    """The newest version of the C library that the program has a name of."""
    found = re.findall(rb"GLIBC_(\d+)\.(\d+)", program.read_bytes())
    return "{}.{}".format(*max((int(first), int(second)) for first, second in found))


def write(file, text, mode=0o644):
    file.parent.mkdir(parents=True, exist_ok=True)
    file.write_bytes(text.encode() if isinstance(text, str) else text)
    file.chmod(mode)


def packed(text):
    return gzip.compress(text, 9, mtime=MOMENT)


def changelog(version):
    return (f"{NAME} ({version}) unstable; urgency=medium\n\n  * Made from the sources as they are.\n\n"
            f" -- {MAINTAINER}  {formatdate(MOMENT)}\n").encode()


def fill(root, program):
    """What the package holds, as `make install` puts it and as Debian wants it besides."""
    subprocess.run(["make", "--silent", "-C", str(HERE.parent), "install", f"BUILT={program}", "PREFIX=/usr",
                    f"DESTDIR={root}"], check=True)
    for page in root.glob("usr/share/man/man*/*"):
        write(page.with_name(page.name + ".gz"), packed(page.read_bytes()))
        page.unlink()
    documents = root / "usr/share/doc" / NAME
    shutil.copy(HERE / "debian/copyright", documents)
    write(documents / "changelog.Debian.gz", packed(changelog(version_of(program))))
    if shutil.which("strip"):
        said("strip", "--remove-section=.comment", "--remove-section=.note", str(root / "usr/bin/trace_collector"))


def describe(root, program):
    """What tells Debian's tools what the package is, and what they do as it comes and goes."""
    files = sorted(file for file in root.rglob("*") if file.is_file())
    values = {
        "VERSION": version_of(program), "ARCHITECTURE": said("dpkg", "--print-architecture"), "MAINTAINER": MAINTAINER,
        "SIZE": str(sum(-(-file.stat().st_size // 1024) for file in files)), "LIBC": needed_libc(program)}
    control = (HERE / "debian/control.in").read_text()
    sums = "".join(f"{hashlib.md5(file.read_bytes()).hexdigest()}  {file.relative_to(root)}\n" for file in files)
    write(root / "DEBIAN/control", re.sub(r"@([A-Z]+)@", lambda found: values[found[1]], control))
    write(root / "DEBIAN/md5sums", sums)
    for script in SCRIPTS:
        write(root / "DEBIAN" / script, (HERE / "debian" / script).read_bytes(), 0o755)
    return f"{NAME}_{values['VERSION']}_{values['ARCHITECTURE']}.deb"


def main(program, folder):
    if not shutil.which("dpkg-deb"):
        sys.exit("make: there is no command dpkg-deb: a package is made on Debian and its kin")
    os.umask(0o022)
    folder.mkdir(parents=True, exist_ok=True)
    with tempfile.TemporaryDirectory() as room:
        root = Path(room, NAME)
        root.mkdir()
        fill(root, program)
        file = folder / describe(root, program)
        for earlier in folder.glob(f"{NAME}_*.deb"):
            earlier.unlink()
        said("dpkg-deb", "--root-owner-group", "--build", str(root), str(file))
    print(file)


if __name__ == "__main__":
    if len(sys.argv) != 3:
        sys.exit(__doc__)
    main(Path(sys.argv[1]).resolve(), Path(sys.argv[2]))
