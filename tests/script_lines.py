#!/usr/bin/env python3
"""Scripts that aren't stories, for the built program: `make trace_collector && python3 tests/script_lines.py [PROGRAM]`.

Lines that are commands and lines that nearly are, scripts up to their first faulty line, bodies that have no value, large
bodies, and tenants in several shards. What is expected was worked out by hand, from OTLP 1.x, the Protocol Buffers
encoding guide and the grammar of scripts (crates/replay_script/README.md).
"""
import subprocess
import sys
import tempfile
from pathlib import Path

HERE = Path(__file__).resolve().parent
TENANT = """[[tenant]]
name = "%s"
tail_sampling = { decision_wait_ms = %d, policy = [{ %s }] }
batch = { timeout_ms = 0 }
retry_on_failure = { max_elapsed_time_ms = 0 }
"""
ALWAYS = 'type = "always_sample"'
LONGEST = "x" * 64
ONE_SHARD = "".join(TENANT % (name, 1000, ALWAYS) for name in ("a", "b", "a_B-9.z", LONGEST))
THREE_SHARDS = "[global]\nshards = 3\n" + ONE_SHARD
TWO_POLICIES = TENANT % ("a", 1000, ALWAYS) + TENANT % ("b", 1000, 'type = "latency", threshold_ms = 0')
SPAN = "0a20121e121c0a101111111111111111111111111111111112082121212121212121"
OTHER = "0a20121e121c0a101111111111111111111111111111111112083131313131313131"
BAD = "400 120c6261642070726f746f627566"
failed = 0


def same(what, got, wanted):
    global failed
    if got != wanted:
        failed += 1
        print(f"{what}: got {str(got)[:300]}, expected {str(wanted)[:300]}")


def check(what, settings, script, text, fault=""):
    """A script is answered by this text, and ends with this fault where there is one."""
    with tempfile.NamedTemporaryFile("w", suffix=".toml") as file:
        file.write(settings)
        file.flush()
        script = script if isinstance(script, bytes) else script.encode()
        run = subprocess.run([PROGRAM, "replay", file.name], input=script, capture_output=True, timeout=600, check=False)
    same(what, (run.returncode, run.stdout.decode(), run.stderr.decode()), (1 if fault else 0, text, fault and fault + "\n"))


# lines that lack something, have too much, or spell a word as it may not be
NO_COMMANDS = [
    "post", "post a 0", "post a 0 ", "post a 0 0", "post a 0 0a0", "post a 0 0g", "post a 0 --", "post a 0 00 ",
    "post a 0 00 00", "post  a 0 00", " post a 0 00", "post a 0  00", "post a 0 00\r", "post a/b 0 00", "post a x 00",
    "turn 0 10000000000000000000", "turn 0 00000000000000000000", "turn 0 +1", "turn 0", "turn 0 1 2", "TURN 0 1",
    "turn  0 0", "turn 0 0 ", "\r",
    "answer", "answer a 0 1 0 200 -", "answer a 0 1 0 200 - - -", "answer a/b 0 1 0 200 - -", "answer a x 1 0 200 - -",
    "answer a 0 x 0 200 - -", "answer a 0 1 x 200 - -", "answer a 0 1 4294967296 200 - -", "answer a 0 1 0 99 - -",
    "answer a 0 1 0 1000 - -", "answer a 0 1 0 Failed - -", "answer a 0 1 0 failed 0 -", "answer a 0 1 0 failed - 00",
    "answer a 0 1 0 200 -1 -", "answer a 0 1 0 200 00000000000000000001 -", "answer a 0 1 0 200 - 0",
    "answer a 0 1 0 200  -",
    "report", "report a", "report a/b 0", "report a x", "report a 0 0", "reports a 0",
    "drain", "drain a", "drain a -", "drain a 0 ", "drain a 0 0",
    "add", "add ", "add 0", "add 0g", "add --", "add  00", "add 00 ", "add 00 00", "ADD 00", "added 00",
    "retire", "retire a", "retire a -", "retire a/b 0", "retire a x", "retire a 0 ", "retire a 0 0",
    f"post x{LONGEST} 0 -",
]
# commands for a tenant or a shard that there isn't
NOBODYS = ["post c 0 -", "answer c 0 1 0 200 - -", "report c 0", "drain c 0", "retire c 0", "turn 1 0"]
# each with the line that it is answered by
COMMANDS = [
    ("post a_B-9.z 0007 0aFf00", f"reply a_B-9.z {BAD}"),
    (f"post {LONGEST} 0 -", f"reply {LONGEST} 200 -"),
    ("turn 00 9999999999999999999", "idle 0"),
    (f"post a 0 {SPAN.upper()}", "reply a 200 -"),
    ("turn 0 0999", "idle 0"),
    ("turn 0 1000", f"job a 1 {SPAN}"),
    ("answer a 1000 01 00 0503 86401 -", "done a"),
    ("turn 0 86400999", "idle 0"),
    ("turn 0 86401000", f"job a 2 {SPAN}"),
    ("answer a 86401000 2 4294967295 failed - -", "done a"),
    ("answer a 86401000 2 0 100 - 0a0208fF", "refused a 21"),
    ("retire b 500", "refused b 26"),
    ("drain b 500", "done b"),
    ("post b 500 -", "reply b 503 120d7368757474696e6720646f776e"),
]


def lines():
    for line in NO_COMMANDS + NOBODYS:
        check(line, ONE_SHARD, f"# a comment\n\nturn 0 7\n{line}\nturn 0 8\n", "idle 0\n", "script fault at line 4")
    check("no shard 3", THREE_SHARDS, "turn 3 0", "", "script fault at line 1")
    check("commands", ONE_SHARD, "".join(f"{line}\n" for line, _ in COMMANDS), "".join(f"{told}\n" for _, told in COMMANDS))


def scripts():
    """Scripts up to their end or to their first faulty line."""
    for script, text, fault in ((b"", 0, 0), (b"\n\n# turn 0 0\n#\xff\xfe\nturn 0 5", 1, 0), (b"turn 0 5\nturn 00 6\n", 2, 0),
                                (b"\n#\nturn 0 5\nturn 1 5\nturn 0 6\n", 1, 4), (b"turn 0 5\nturn  0 5\n", 1, 2),
                                (b"\r\n", 0, 1), (b"post c 0 -", 0, 1)):
        check(script, ONE_SHARD, script, "idle 0\n" * text, f"script fault at line {fault}" if fault else "")


def bodies_without_a_value():
    """Five that are spelled here, and those of each fault that Protocol Buffers' own libraries refuse (tests/otlp)."""
    faults = [line.split(" ") for line in (HERE / "otlp/faults.txt").read_text().splitlines() if line and line[0] != "#"]
    spelled = ["0affffffffffffffffff01", "08ffffffffffffffffffff", "0000", "0e", "0a1E121c"]
    bodies = spelled + [body for _, _, body in faults]
    check("bodies at fault", ONE_SHARD, "".join(f"post a 0 {body}\n" for body in bodies) + "turn 0 9999\n",
          f"reply a {BAD}\n" * 85 + "idle 0\n")
    same("kinds of faults", "".join(sorted({number for _, number, _ in faults})), "123456")


def large_bodies():
    """2,000 spans under one resource and under one each, and a span of 4,096 bytes that no field has."""
    spans = [f"0a10{'11' * 16}1208{span:016x}" for span in range(1, 2001)]
    # a field of spans of 30 bytes each, 60,000 in all, e0 d4 03 in base 128; one around it and its 4 bytes, e4 d4 03
    together = "0ae4d40312e0d403" + "".join(f"121c{span}" for span in spans)
    apart = "".join(f"0a20121e121c{span}" for span in spans)
    for body in (together, apart):
        check("2,000 spans", ONE_SHARD, f"post a 0 {body}\nturn 0 1000\nturn 0 1000\n",
              f"reply a 200 -\njob a 1 {together}\nidle 0\n")
    # the number of the field is 21
    unknown = f"0aa62012a32012a0200a10{'11' * 16}1208{'21' * 8}aa018020{'55' * 4096}"
    check("an unknown field", ONE_SHARD, f"post a 0 {unknown}\nturn 0 1000\n", f"reply a 200 -\njob a 1 {unknown}\n")


def shards():
    """Two tenants share a shard, have one each, and have their own policies; each has its turn, however many there are."""
    posts = f"post a 0 {SPAN}\npost b 0 {OTHER}\n"
    told = f"reply a 200 -\nreply b 200 -\njob a 1 {SPAN}\njob b 1 {OTHER}\n" + counted("b", accepted=1, active=1) + "\n"
    check("one shard", ONE_SHARD, posts + "turn 0 1000\nturn 0 1000\nreport b 1000\n", told)
    check("three shards", THREE_SHARDS, posts + "turn 0 1000\nturn 1 1000\nreport b 1000\n", told)
    check("two policies", TWO_POLICIES, posts + "turn 0 1000\nturn 0 1000\nreport b 1000\n", told)
    check("idle shards", THREE_SHARDS, "turn 0 5\nturn 1 5\nturn 2 5\n", "idle 0\nidle 1\nidle 2\n")
    # the first of the twelve waits a second longer than the others
    names = [f"t{number}" for number in range(12)]
    twelve = "".join(TENANT % (name, 2000 if name == "t0" else 1000, ALWAYS) for name in names)
    check("twelve tenants", twelve, "".join(f"post {name} 0 {SPAN}\n" for name in names) + "turn 0 2000\n" * 13,
          "".join(f"reply {name} 200 -\n" for name in names)
          + "".join(f"job {name} 1 {SPAN}\n" for name in names[1:] + names[:1]) + "idle 0\n")


COUNTERS = ("accepted undecided pending queued active exported not_sampled too_early queue_full retry_exhausted "
            "back_end_refused back_end_rejected invalid over_budget").split()


def add(document):
    return f"add {document.encode().hex()}"


def counted(name, **counts):
    return f"report {name} " + " ".join(f"{counter}={counts.get(counter, 0)}" for counter in COUNTERS)


def tenants_that_come_and_go():
    """A tenant comes, is served, and leaves once it was drained and holds nothing; its name is then another's."""
    welcome, born = add(TENANT % ("c", 1000, ALWAYS)), "reply c 200 -"
    # in ONE_SHARD there are four tenants, of numbers 0 to 3
    life = [(welcome, "added c 4"), (f"post c 0 {SPAN}", born), ("turn 0 1000", f"job c 1 {SPAN}"),
            ("retire c 1000", "refused c 26"), ("answer c 1000 1 0 200 - -", "done c"), ("retire c 1000", "refused c 26"),
            ("drain c 1000", "done c"), ("retire c 1000", counted("c", accepted=1, exported=1))]
    script, told = ("".join(f"{line}\n" for line in lines) for lines in zip(*life))
    check("a retired name", ONE_SHARD, script + "post c 1000 -\n", told, "script fault at line 9")
    # the clock, tickets and counters of who had the name before are none of the next one's
    again = [(welcome, "added c 5"), ("answer c 0 1 0 200 - -", "refused c 21"), (f"post c 0 {OTHER}", born),
             ("turn 0 999", "idle 0"), ("turn 0 1000", f"job c 1 {OTHER}"), ("report c 1000", counted("c", accepted=1, active=1))]
    more, then = ("".join(f"{line}\n" for line in lines) for lines in zip(*again))
    check("a name again", ONE_SHARD, script + more, told + then)
    # one that never held a span, and one that holds a span until its back end has answered
    check("a short life", ONE_SHARD, f"{welcome}\ndrain c 7\nretire c 7\n", f"added c 4\ndone c\n{counted('c')}\n")
    check("a tenant of the settings", ONE_SHARD, f"post a 0 {SPAN}\ndrain a 1\nretire a 1\nturn 0 1\n"
          "answer a 1 1 0 400 - -\nretire a 1\n", f"reply a 200 -\ndone a\nrefused a 26\njob a 1 {SPAN}\ndone a\n"
          + counted("a", accepted=1, back_end_refused=1) + "\n")
    # number 4 is in shard 1 of three, number 5 in shard 2
    check("shards of who comes", THREE_SHARDS, f"{welcome}\n{add(TENANT % ('d', 1000, ALWAYS))}\npost c 0 {SPAN}\n"
          f"post d 0 {OTHER}\nturn 0 1000\nturn 1 1000\nturn 2 1000\n",
          f"added c 4\nadded d 5\n{born}\nreply d 200 -\nidle 0\njob c 1 {SPAN}\njob d 1 {OTHER}\n")
    # others are told the same with a tenant beside them that comes and goes
    check("beside others", TWO_POLICIES, f"post a 0 {SPAN}\npost b 0 {OTHER}\n{welcome}\npost c 0 {SPAN}\nturn 0 1000\n"
          "drain c 1000\nturn 0 1000\nturn 0 1000\nanswer c 1000 1 0 200 - -\nretire c 1000\nreport a 1000\n",
          f"reply a 200 -\nreply b 200 -\nadded c 2\n{born}\njob a 1 {SPAN}\ndone c\njob b 1 {OTHER}\njob c 1 {SPAN}\ndone c\n"
          + counted("c", accepted=1, exported=1) + "\n" + counted("a", accepted=1, active=1) + "\n")


def documents():
    """Documents that are refused, by the number of what is wrong. They change nothing: the next tenant has the next number."""
    one = TENANT % ("c", 1000, ALWAYS)
    faults = [("add ff", 10), (add("["), 10), ("add -", 11), (add("tenant = []"), 11), (add("tenant = 1"), 12),
              (add(one + one), 13), (add(one.replace('"c"', '"c/"')), 13), (add(one.replace('"c"', '"a"')), 14),
              (add(one.replace("batch", "max_spans = 2147483648\nbatch")), 15)]
    script = "".join(f"{line}\n" for line, _ in faults) + add("shards = 9\n" + one) + "\n" + add(one) + "\n"
    check("documents", ONE_SHARD, script,
          "".join(f"refused add {number}\n" for _, number in faults) + "added c 4\nrefused add 14\n")
    # a tenant may have the name that a refused document's line has in its place
    check("a tenant add", TENANT % ("add", 1000, ALWAYS), "add 00\nretire add 0\nanswer add 0 1 0 200 - -\nreport add 0\n",
          f"refused add 10\nrefused add 26\nrefused add 21\n{counted('add')}\n")


PROGRAM = str(Path(sys.argv[1] if len(sys.argv) > 1 else HERE.parent / "trace_collector").resolve())
lines()
scripts()
bodies_without_a_value()
large_bodies()
shards()
tenants_that_come_and_go()
documents()
print("each script is answered as it has to be" if not failed else f"{failed} wrong")
sys.exit(min(failed, 1))
