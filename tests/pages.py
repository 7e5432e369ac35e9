#!/usr/bin/env python3
"""Checks the pages: README.md, CONTRIBUTING.md, CHANGELOG.md, docs/*.md, bench/README.md and crates/*/README.md.

Fails, and names the place, if
  - a page has more words than its budget;
  - a link leads to no file, or to no heading of a page;
  - a page names a date;
  - a page names a `make` target, a file of this repository, an option, a metric or a crate that does not exist;
  - a quoted message (a code span of three words or more that is no command) stands nowhere in the code.

Quoted definitions are checked by quotes.py. Words are those that `wc -w` counts.

    pages.py            compares
    pages.py --sizes    prints the words and the budget of each page
"""
import re
import sys
from pathlib import Path

ROOT = Path(__file__).resolve().parent.parent

BUDGETS = {
    "README.md": 900,
    "CONTRIBUTING.md": 1500,
    "docs/OPERATING.md": 2800,
    "docs/SETTINGS.md": 3000,
    "docs/RUNBOOK.md": 2400,
    "docs/SIZING.md": 1600,
    "docs/HTTP.md": 1800,
    "docs/SCRIPT.md": 500,
    "docs/ARCHITECTURE.md": 2500,
    "docs/PROOFS.md": 5000,
    "docs/DECISIONS.md": 3500,
    "docs/TESTING.md": 1000,
    "docs/BENCHMARKS.md": 1000,
}
# The README's table of crates is counted apart.
README_TABLE = 900
LARGE_CRATES = {"http_edge", "otlp_canonical", "service_runtime", "trace_service"}
CRATE_BUDGET, LARGE_CRATE_BUDGET = 300, 600

LINK = re.compile(r"\[(?:[^\]\[]|\[[^\]]*\])*\]\(([^)\s]+)\)")
FENCE = re.compile(r"^(```|~~~)")
DATE = re.compile(r"\b(19|20)\d\d-\d\d-\d\d\b|\b\d{1,2} (January|February|March|April|May|June|July|August|September|"
                  r"October|November|December) 20\d\d\b")
FILE = re.compile(r"^(crates|tests|docs|examples|packaging|bench|\.ci)/[\w./-]+$")
RUST = {"unsafe", "impl", "fn", "pub", "use", "let", "match", "ghost"}
COMMANDS = ("make", "trace_collector", "./trace_collector", "python3", "curl", "git", "systemctl", "rt", "sudo", "taskset",
            "journalctl", "docker", "podman", "apt", "dpkg", "cat", "kill", "nginx", "post", "turn", "answer", "report",
            "drain", "add", "retire", "ulimit", "prlimit", "rate(", "sum(", "GET", "POST", "PUT", "DELETE", "rattle")


def pages():
    tops = [ROOT / name for name in ("README.md", "CONTRIBUTING.md", "CHANGELOG.md", "bench/README.md")]
    found = [page for page in tops if page.is_file()]
    return found + sorted((ROOT / "docs").glob("*.md")) + sorted((ROOT / "crates").glob("*/README.md"))


def words_of(page, text):
    """The words of a page; the README's table of crates is no part of its budget."""
    if page.name == "README.md" and page.parent == ROOT:
        text = re.sub(r"(?ms)^<!-- crates -->$.*?^<!-- end of crates -->$", "", text)
    return len(text.split())


def budget_of(page):
    name = page.relative_to(ROOT).as_posix()
    if name.startswith("crates/"):
        return LARGE_CRATE_BUDGET if page.parent.name in LARGE_CRATES else CRATE_BUDGET
    return BUDGETS.get(name)


def over_budget(page, text):
    most, words = budget_of(page), words_of(page, text)
    if most and words > most:
        yield 1, f"{words} words, and {most} at most"
    elif most is None and page.parent.name == "docs":
        yield 1, "the page has no budget: add it to tests/pages.py"


def prose(text):
    """The numbered lines outside of fences, and those inside."""
    outside, inside, fenced = [], [], False
    for number, line in enumerate(text.splitlines(), 1):
        if FENCE.match(line.strip()):
            fenced = not fenced
        elif fenced or line.startswith("    "):
            inside.append((number, line))
        else:
            outside.append((number, line))
    return outside, inside


def anchors(page):
    """The anchors that GitHub makes of a page's headings."""
    found = set()
    for _, line in prose(page.read_text())[0]:
        heading = re.match(r"#+\s+(.*)", line)
        if heading:
            plain = re.sub(r"\[([^\]]*)\]\([^)]*\)", r"\1", heading[1])
            slug = re.sub(r"[^\w\- ]", "", plain.lower()).replace(" ", "-")
            found.add(slug if slug not in found else f"{slug}-1")
    return found


def dead_links(page, text):
    for number, line in prose(text)[0]:
        for target in LINK.findall(line):
            if re.match(r"[a-z]+:", target):
                continue
            name, _, anchor = target.partition("#")
            file = (page.parent / name).resolve() if name else page
            if not file.exists():
                yield number, f"the link {target} leads to no file"
            elif anchor and file.suffix == ".md" and anchor not in anchors(file):
                yield number, f"the link {target} leads to no heading"


def dates(page, text):
    for number, line in enumerate(text.splitlines(), 1):
        if DATE.search(line):
            yield number, f"names a date: {DATE.search(line)[0]}"


class Code:
    """What the repository's code says: targets, options, metrics, and all of its text."""

    def __init__(self):
        self.crates = {it.name for it in (ROOT / "crates").iterdir() if it.is_dir()}
        self.targets = set(re.findall(r"(?m)^([a-z][\w-]*):", (ROOT / "Makefile").read_text()))
        texts = [it.read_text() for it in self.files() if it.is_file()]
        self.text = re.sub(r"\s+", " ", " ".join(texts))
        self.options = set(re.findall(r"--[a-z][a-z-]+", self.text))
        self.metrics = set(re.findall(r"nimchaes_[a-z_]+", self.text))

    @staticmethod
    def files():
        for pattern in ("crates/*/src/**/*.rt", "crates/*/specs/**/*.antt", "tests/**/*.py", "tests/**/*.toml", "tests/**/*.txt",
                        "tests/**/*.tsv", "examples/**/*", "packaging/**/*", "Makefile"):
            yield from (it for it in ROOT.glob(pattern) if it.suffix not in (".pb", ".png", ".pyc"))


def spans(text):
    for number, line in prose(text)[0]:
        for span in re.findall(r"``([^`]+)``|`([^`]+)`", line):
            yield number, (span[0] or span[1]).strip()


def unknown_names(page, text, code):
    for number, span in spans(text):
        if FILE.match(span) and not list(ROOT.glob(span.rstrip("/").replace("NAME", "*"))):
            yield number, f"there is no file {span}"
        for name in re.findall(r"\bnimchaes_[a-z_]+", span):
            if name not in code.metrics:
                yield number, f"there is no metric {name}"
    for number, line in [*prose(text)[1], *spans(text)]:
        for target in re.findall(r"(?:^|[;&|$`]\s*)(?:sudo )?make ([a-z][\w-]*)", line):
            if target not in code.targets:
                yield number, f"there is no make target {target}"
        for command in re.findall(r"trace_collector (?:serve|replay|check)[^|;&#]*", line):
            for option in re.findall(r"(?<![\w-])--[a-z][a-z-]+", command):
                if option not in code.options:
                    yield number, f"there is no option {option}"


def strange_messages(page, text, code):
    for number, span in spans(text):
        is_message = len(span.split()) >= 3 and re.match(r"[a-z]", span) and not re.search(r"[=<>{}|$]", span)
        first = span.split()[0]
        if not is_message or first in RUST or "/" in first or span.startswith(COMMANDS):
            continue
        pieces = [it.strip(" ,") for it in re.split(r"\.\.\.?|\b[A-Z][A-Z_]*\b|\d[\d,]*", span) if len(it.split()) >= 2]
        for piece in pieces:
            if piece not in code.text:
                yield number, f"the message `{span}` stands nowhere in the code"
                break


def faults(page, text, code):
    yield from over_budget(page, text)
    yield from dead_links(page, text)
    yield from dates(page, text)
    yield from unknown_names(page, text, code)
    yield from strange_messages(page, text, code)


def main(words):
    if "--sizes" in words:
        for page in pages():
            print(f"{words_of(page, page.read_text()):6} of {budget_of(page) or '-':>5}  {page.relative_to(ROOT)}")
        return 0
    code, found = Code(), 0
    for page in pages():
        text = page.read_text()
        for number, fault in faults(page, text, code):
            print(f"{page.relative_to(ROOT)}:{number}: {fault}")
            found += 1
    print(f"pages: {found} places to be mended" if found else "pages: budgets, links, names and quoted messages are right")
    return 1 if found else 0


if __name__ == "__main__":
    sys.exit(main(sys.argv[1:]))
