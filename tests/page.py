#!/usr/bin/env python3
"""Looks at the page for operators in a headless Chromium: `make trace_collector && python3 tests/page.py`.

    python3 tests/page.py [PROGRAM] [NAME..]           # all, or those of these names
    python3 tests/page.py PROGRAM pictures FOLDER      # writes docs/pictures anew, or pictures into another folder

Takes the program's path, `./trace_collector` if there is none. The gate doesn't run it. It says where no Chromium is
installed, prints what is wrong, and ends with 1 where something is.
"""

import json
import os
import re
import sys
import tempfile
import threading
import time
from pathlib import Path

from serving import browser, runs, talk
from serving.admin import AdminService
from serving.browser import Browser
from serving.talk import BUSY, ERROR, ERRORS, TAKEN, BackEnd, check, request, tenant, wait_for

HERE = Path(__file__).resolve().parent.parent
WIDTHS = ((1280, 900), (390, 844))
PAGE = 100
POSTS = {"shop": (5, 0.02, b""), "payments": (3, 0.02, ERROR), "search": (9, 0.02, b"")}
TOKEN = "Zm9yIHRlc3RzIGFsb25l"
ROWS = "document.getElementById('rows').children.length"
NAMES = "[...document.querySelectorAll('.name')].map(it => it.textContent)"
STATE = "document.getElementById('state').textContent"
ACCEPTED = "[...document.querySelectorAll('details')].map(it => it.querySelector('dd').textContent)"
ROW = "document.activeElement.querySelector('.name').textContent"
FULL = "[...document.querySelectorAll('.full')].map(it => it.textContent)"
FOCUSED = "document.activeElement.id || document.activeElement.tagName"
ASKED = "performance.getEntriesByType('resource').filter(it => /tenants$/.test(it.name)).map(it => it.startTime)"
ORDERS = ("loss", "held", "rate", "name")
# The counters of four tenants, and those that they have two seconds later.
EARLIER = ({"tenant": "calm", "accepted": 100, "exported": 100},
           {"tenant": "loud", "accepted": 600, "exported": 500, "not_sampled": 6, "too_early": 94},
           {"tenant": "<b>bold</b>", "accepted": 10, "undecided": 10},
           {"tenant": "old", "accepted": 16, "retry_exhausted": 7, "back_end_rejected": 9})
LATER = ({"tenant": "calm", "accepted": 140, "undecided": 5, "pending": 10, "queued": 5, "active": 20, "exported": 100},
         {"tenant": "loud", "accepted": 1000, "exported": 750, "not_sampled": 100, "too_early": 100, "queue_full": 50},
         {"tenant": "<b>bold</b>", "accepted": 10, "undecided": 8, "queue_full": 2, "invalid": 30},
         {"tenant": "old", "accepted": 16, "retry_exhausted": 7, "back_end_rejected": 9})
# How full each is then, and may be. Decided traces that are still remembered don't fill it. A queue is as full as its batches
# or its bytes are, whichever fills more.
LEVELS = ({"rows": 3, "undecided_rows": 2, "rows_limit": 50_000, "spans_limit": 18, "queued_batches": 3,
           "queued_batches_limit": 1_000, "queued_bytes": 380_000_000, "queued_bytes_limit": 400_000_000},
          {"rows": 10, "undecided_rows": 0, "rows_limit": 10, "spans_limit": 100_000, "queued_batches": 1_000,
           "queued_batches_limit": 1_000, "queued_bytes": 399_999_999, "queued_bytes_limit": 400_000_000},
          {"rows": 7, "undecided_rows": 6, "rows_limit": 7, "spans_limit": 10, "queued_batches": 0, "queued_batches_limit": 1,
           "queued_bytes": 0, "queued_bytes_limit": 400_000_000},
          {"rows": 1, "undecided_rows": 1, "rows_limit": 1, "spans_limit": 1, "queued_batches": 81, "queued_batches_limit": 101,
           "queued_bytes": 2_717_908_992, "queued_bytes_limit": 4_398_046_511_104})
# Gives the page both, as if it had asked for them, and reads what it shows.
SHOWN = """
(() => {
  window.fetch = () => new Promise(() => {});
  let now = 1000;
  performance.now = () => now;
  take(%s);
  now = 3000;
  take(%s);
  const texts = (name) => [...document.querySelectorAll(name)].map((it) => it.textContent);
  const orders = %s.map((order) => {
    document.getElementById('order').value = order;
    showRows();
    return texts('.name');
  });
  const bars = [...document.querySelectorAll('#rows .bar')];
  const found = { orders, sums: texts('#sums dd'), first: texts('#first li'), rates: texts('#rows .rates') };
  found.full = texts('#rows .full');
  found.nearly = texts('#rows .full b');
  found.widths = bars.map((bar) => [...bar.children].map((it) => it.style.width).filter((it) => it !== '0%%'));
  found.said = bars.map((bar) => bar.getAttribute('aria-label'));
  found.all = texts('#rows details:nth-child(1) dd').slice(28, 42);
  take(last.slice(0, 3).map((it) => ({ ...it })));
  found.stay = texts('.name');
  return found;
})()
"""
# The contrast of two colours, by WCAG 2.1's definition, of each text that is seen and what lies behind it.
CONTRAST = """
(() => {
  const light = (c) => { c /= 255; return c <= 0.04045 ? c / 12.92 : ((c + 0.055) / 1.055) ** 2.4; };
  const rgb = (text) => text.match(/[\\d.]+/g).map(Number);
  const sum = (c) => 0.2126 * light(c[0]) + 0.7152 * light(c[1]) + 0.0722 * light(c[2]);
  const behind = (it) => {
    for (; it; it = it.parentElement) {
      const c = rgb(getComputedStyle(it).backgroundColor);
      if (c.length < 4 || c[3] > 0) return c;
    }
    return [255, 255, 255];
  };
  const found = [];
  const walk = document.createTreeWalker(document.body, NodeFilter.SHOW_TEXT);
  while (walk.nextNode()) {
    const it = walk.currentNode.parentElement;
    if (!walk.currentNode.textContent.trim() || !it.checkVisibility()) continue;
    if (['SCRIPT', 'OPTION'].includes(it.tagName)) continue;
    const [a, b] = [sum(rgb(getComputedStyle(it).color)), sum(behind(it))];
    const ratio = (Math.max(a, b) + 0.05) / (Math.min(a, b) + 0.05);
    if (ratio < 4.5) found.push(walk.currentNode.textContent + ' ' + ratio.toFixed(2));
  }
  return found;
})()
"""


class Load:
    """Clients that post until the end of a `with`: of each tenant so many spans a trace, so many seconds apart,
    and of each fourth trace's spans these fields more."""

    def __init__(self, service, posts):
        self.service, self.posts, self.goes_on = service, posts, True
        self.threads = [threading.Thread(target=self.post, args=(name,), daemon=True) for name in posts]

    def post(self, name):
        number = 0
        with self.service.connect() as peer:
            while self.goes_on:
                number += 1
                spans, rest, more = self.posts[name]
                ids = [(number.to_bytes(16, "big"), (at + 1).to_bytes(8, "big")) for at in range(spans)]
                self.service.post(name, request(*((*them, b"" if number % 4 else more) for them in ids)), peer)
                time.sleep(rest)

    def __enter__(self):
        for thread in self.threads:
            thread.start()
        return self

    def __exit__(self, *_):
        self.goes_on = False
        for thread in self.threads:
            thread.join()


def is_asked(page):
    """Waits until it has asked twice more, so that it has shown what it was told once."""
    asked = "performance.getEntriesByType('resource').length"
    before = page.value(asked)
    wait_for(lambda: page.value(asked) > before + 1, "it has asked anew")


def is_told(page):
    """Waits until the page has figures, and then until it has others."""
    wait_for(lambda: page.value(STATE).startswith("as of"), "figures are there")
    is_asked(page)


def is_sound(page, service):
    """Nothing fails on the page, nothing comes from elsewhere, and nothing is wider than its window."""
    check("what fails on it", page.happened("Runtime.exceptionThrown"), [])
    check("what it has to say", page.happened("Runtime.consoleAPICalled"), [])
    urls = {event["request"]["url"].partition("?")[0] for event in page.happened("Network.requestWillBeSent")}
    home = f"http://127.0.0.1:{service.admin}/"
    check("where it asks", [url for url in urls if not url.startswith(home) and not url.startswith("data:")], [])
    check("nothing sticks out", page.value("document.documentElement.scrollWidth <= innerWidth"), True)
    check("all can be read", page.value(CONTRAST), [])


def three(back_end, slow):
    return [tenant("shop", back_end, wait=1000, timeout=200, consumers=4),
            tenant("payments", back_end, wait=3000, timeout=200, policies=ERRORS, consumers=4),
            tenant("search", slow, wait=500, timeout=50, batch=20, queue=40)]


def goes_by_keys(page):
    """The search, the order and the rows of three tenants, by keys alone. What is found, opened and ordered stays so
    while figures come anew."""
    page.press("Tab")
    check("first comes the search", page.value(FOCUSED), "find")
    page.press("Tab")
    check("then the order", page.value(FOCUSED), "order")
    page.press("ArrowDown", "ArrowDown", "ArrowDown")
    check("an order by name", page.value("document.getElementById('order').value"), "name")
    check("it is so", page.value(NAMES), ["payments", "search", "shop"])
    page.press("Tab", "Tab")
    check("then the rows", page.value(ROW), "search")
    page.press("Enter")
    opened = "[...document.querySelectorAll('details')].map(it => it.open)"
    check("the second is open", page.value(opened), [False, True, False])
    is_told(page)
    check("and stays so", page.value(opened), [False, True, False])
    check("and focused", page.value(ROW), "search")
    page.press("/")
    check("back to the search", page.value(FOCUSED), "find")
    page.press(*"HO")
    check("what is found", page.value(NAMES), ["shop"])
    is_told(page)
    check("and found anew", page.value(NAMES), ["shop"])
    page.press("Escape")
    check("all again", len(page.value(NAMES)), 3)
    page.press(*"zz")
    check("none", page.value(NAMES), [])
    page.press("Escape")


def by_keyboard(folder):
    """Three tenants under load, at both widths, light and dark: what is found, opened and ordered by keys stays so
    while figures come anew."""
    names = ("payments", "search", "shop")
    with BackEnd() as back_end, BackEnd(lambda n: TAKEN if n % 8 == 0 else BUSY) as slow, \
            AdminService(folder, three(back_end, slow), senders=8) as service, \
            Load(service, POSTS):
        for (width, height), dark in ((size, dark) for size in WIDTHS for dark in (False, True)):
            with Browser(width, height, dark) as page:
                page.goes(f"http://127.0.0.1:{service.admin}/")
                is_told(page)
                check("its rows", sorted(page.value(NAMES)), list(names))
                goes_by_keys(page)
                figures = {row["tenant"]: row for row in service.told("/tenants")[1]["tenants"]}
                told = [int(text.replace(",", "")) for text in page.value(ACCEPTED)]
                check("what was accepted", [0 < here <= figures[name]["accepted"] for here, name in zip(told, names)], [True] * 3)
                limits = [[figures[name][f"{word}_limit"] for word in ("rows", "spans", "queued_batches")] for name in names]
                check("how full each may be", [[int(most.replace(",", "")) for most in re.findall(r" of ([\d,]*\d)", text)]
                                               for text in page.value(FULL)], limits)
                is_sound(page, service)


def thousand(folder):
    """A thousand tenants, at both widths: a hundred are shown, and more by a key; any is found."""
    with BackEnd() as back_end:
        teams = ("shop", "mail", "auth", "a-team.with.a-long_name")
        names = [f"{team}-{number}" for number in range(250) for team in teams]
        with AdminService(folder, [tenant(name, back_end) for name in names]) as service, \
                Load(service, {name: (2, 0.2, b"") for name in names[500:504]}):
            for width, height in WIDTHS:
                with Browser(width, height) as page:
                    page.goes(f"http://127.0.0.1:{service.admin}/")
                    is_told(page)
                    check("rows", page.value(ROWS), PAGE)
                    more = "document.getElementById('more').textContent"
                    check("more", page.value(more), "Show 100 more of 900")
                    for count in (2, 3):
                        page.value("document.getElementById('more').focus()")
                        page.press("Enter")
                        check("more rows", (page.value(ROWS), page.value(FOCUSED)), (count * PAGE, "more"))
                    is_told(page)
                    check("and still", page.value(ROWS), 3 * PAGE)
                    page.press("/", *"auth-24")
                    check("found", sorted(page.value(NAMES)), sorted(name for name in names if "auth-24" in name))
                    check("none more", page.value("document.getElementById('more').hidden"), True)
                    page.press("Escape")
                    check("all again", page.value(ROWS), PAGE)
                    took = page.value("(() => { const start = performance.now(); take(last.map(it => ({...it}))); "
                                      "return performance.now() - start; })()")
                    check(f"new figures took {took:.0f} ms", took < 500, True)
                    is_sound(page, service)
            service.drained()


def with_token(folder):
    """Where a token is wanted the page asks for it, says that another is wrong, and has figures with the right one."""
    file = Path(folder, "token")
    file.write_text(TOKEN + "\n")
    with BackEnd() as back_end, \
            AdminService(folder, [tenant("a", back_end)], "--admin-token-file", str(file)) as service, Browser() as page:
        page.goes(f"http://127.0.0.1:{service.admin}/")
        wait_for(lambda: page.value(STATE) == "it wants a token", "it asks for a token")
        for typed, wanted in (("wrong", "it wants a token"), (TOKEN, "as of")):
            page.press("Tab")
            page.value("document.getElementById('token').focus()")
            page.value("document.getElementById('token').select()")
            page.press(*typed, "Enter")
            is_asked(page)
            check(f"with {typed}", page.value(STATE)[:len(wanted)], wanted)
        check("its field is gone", page.value("document.getElementById('pass').hidden"), True)
        check("a row", page.value(NAMES), ["a"])
        page.goes(f"http://127.0.0.1:{service.admin}/")
        is_told(page)
        is_sound(page, service)


def figures(folder):
    """Figures that were worked out by hand: sums, what was lost first, rates, bars, and each order; a name is text, and a
    tenant that went has no row. It asks two seconds after each answer."""
    with BackEnd() as back_end, AdminService(folder, [tenant("a", back_end)]) as service, Browser() as page:
        page.goes(f"http://127.0.0.1:{service.admin}/")
        is_told(page)
        times = page.value(ASKED)
        gaps = [after - before for before, after in zip(times, times[1:])]
        check(f"it asks two seconds after an answer: {gaps} ms", gaps and all(1_900 < gap < 5_000 for gap in gaps), True)
        given = [json.dumps([dict.fromkeys(talk.NAMES, 0) | level | them for level, them in zip(LEVELS, some)])
                 for some in (EARLIER, LATER)]
        shown = page.value(SHOWN % (*given, json.dumps(ORDERS)))
        check("sums", shown["sums"], ["4", "235", "125", "44", "48", "198"])
        check("losses", shown["first"], [
            "loud queue full: 50, now 25 a second", "<b>bold</b> invalid: 30, now 15 a second",
            "loud pushed out too early: 100, now 3.0 a second", "<b>bold</b> queue full: 2, now 1.0 a second",
            "old rejected by the back end: 9, none now"])
        check("orders", dict(zip(ORDERS, shown["orders"])), {
            "loss": ["loud", "<b>bold</b>", "old", "calm"], "held": ["calm", "<b>bold</b>", "loud", "old"],
            "rate": ["loud", "calm", "<b>bold</b>", "old"], "name": ["<b>bold</b>", "calm", "loud", "old"]})
        check("rates", shown["rates"], ["15 in, 0 out, 16 lost", "20 in, 0 out, 0 lost", "200 in, 125 out, 28 lost",
                                        "0 in, 0 out, 0 lost"])
        check("how full", shown["full"], [
            "traces 6 of 7 (85 % full), spans 8 of 10, queue 0 of 1",
            "traces 2 of 50,000, spans 15 of 18 (83 % full), queue 380,000,000 of 400,000,000 bytes (95 % full)",
            "traces 0 of 10, spans 0 of 100,000, queue 1,000 of 1,000 (100 % full)",
            "traces 1 of 1 (100 % full), spans 0 of 1, queue 81 of 101 (80 % full)"])
        check("nearly full", shown["nearly"], [
            "traces 6 of 7 (85 % full)", "spans 15 of 18 (83 % full)", "queue 380,000,000 of 400,000,000 bytes (95 % full)",
            "queue 1,000 of 1,000 (100 % full)", "traces 1 of 1 (100 % full)", "queue 81 of 101 (80 % full)"])
        check("bars", shown["widths"], [
            ["20%"], ["6.25%", "93.75%"], ["12.5%", "25%", "12.5%", "50%"], ["100%"], [], ["75%", "10%", "10%", "5%"],
            [], ["43.75%", "56.25%"]])
        check("bars in words", shown["said"], [
            "8 undecided", "2 queue full, 30 invalid", "5 undecided, 10 pending, 5 queued, 20 active", "100 exported",
            "no spans", "750 exported, 100 not sampled, 100 pushed out too early, 50 queue full", "no spans",
            "7 retries exhausted, 9 rejected by the back end"])
        check("all of loud", shown["all"], ["1,000", "0", "0", "0", "0", "750", "100", "100", "50", "0", "0", "0", "0", "0"])
        check("those that stay", shown["stay"], ["<b>bold</b>", "calm", "loud"])
        is_sound(page, service)


def pictures(folder, to):
    """What the README shows: three tenants under load, one of which loses spans."""
    with BackEnd() as back_end, BackEnd(lambda n: TAKEN if n % 8 == 0 else BUSY) as slow, \
            AdminService(folder, three(back_end, slow), senders=8) as service, \
            Load(service, POSTS):
        time.sleep(10)
        for name, size, dark in (("light", (1000, 470), False), ("dark", (1000, 470), True),
                                 ("narrow", (390, 880), False)):
            with Browser(*size, dark) as page:
                page.goes(f"http://127.0.0.1:{service.admin}/")
                is_told(page)
                page.picture(Path(to, f"admin-{name}.png"))


TESTS = {test.__name__: test for test in (by_keyboard, thousand, with_token, figures)}


def main():
    words = sys.argv[1:]
    talk.program = os.path.abspath(words.pop(0) if words and words[0] not in TESTS else HERE / "trace_collector")
    if browser.program() is None:
        print(f"{', '.join(browser.NAMES)}: not installed")
        return
    if words[:1] == ["pictures"]:
        with tempfile.TemporaryDirectory() as folder:
            pictures(folder, words[1])
        return
    for name in words or TESTS:
        runs.run(name, TESTS[name])
    runs.end("it shows what it has to")


if __name__ == "__main__":
    main()
