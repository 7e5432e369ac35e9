#!/usr/bin/env python3
"""Checks what the built program prints and ends with, from outside: `make trace_collector && python3 tests/program.py`.

Takes the program's path, `./trace_collector` if there is none. Each expected text is spelled here by hand. Threads are
counted where there is a C compiler.
"""

import os
import re
import select
import shutil
import subprocess
import sys
import tempfile
import tomllib
from pathlib import Path

from replay.make_script import piece

HERE = Path(__file__).resolve().parent.parent
PROGRAM = os.path.abspath(sys.argv[1] if len(sys.argv) > 1 else HERE / "trace_collector")
SETTINGS = str(HERE / "crates/trace_collector_program/data/settings.toml")
USAGE = b"usage: trace_collector replay SETTINGS | serve SETTINGS [--audit]\n"
# what --help says of it
WAYS = b"""usage: trace_collector replay SETTINGS
       trace_collector check SETTINGS
       trace_collector serve SETTINGS [--audit] [--verbose] [--connections N] [--senders N]
                       [--client-timeout MS] [--request-timeout MS] [--back-end-timeout MS]
                       [--body-memory BYTES] [--queue-bytes BYTES]
                       [--admin HOST:PORT [--admin-token-file FILE]]
       trace_collector --help | --version

"""
SPAN = "0a20121e121c0a101111111111111111111111111111111112082121212121212121"
# the options of `serve` that have a number, the greatest one, and the least one where it isn't 1
MOST = {"--connections": 65_536, "--senders": 4_096, "--client-timeout": 2**32 - 1, "--request-timeout": 2**32 - 1,
        "--back-end-timeout": 2**32 - 1, "--body-memory": 10**19 - 1, "--queue-bytes": 10**19 - 1}
LEAST = {**dict.fromkeys(MOST, 1), "--body-memory": 20_971_520}
failed = 0


def check(what, got, wanted):
    global failed
    if got != wanted:
        failed += 1
        print(f"{what}: got {got!r}, expected {wanted!r}")


def ended(arguments, script=b"", **how):
    how = {"stdout": subprocess.PIPE, "stderr": subprocess.PIPE, **how}
    done = subprocess.run([PROGRAM, *arguments], input=script, timeout=600, check=False, **how)
    return done.returncode, done.stdout, done.stderr


def in_one_scope(spans):
    """A request in which spans stand under a resource and a scope of which nothing is told."""
    return piece(1, piece(2, spans))


def usage():
    wrong = ([], ["replay"], ["help"], ["-h"], ["--help", "more"], ["replay", SETTINGS, "more"], ["check"],
             ["check", SETTINGS, "more"], ["serve"], ["serve", SETTINGS, "more"], ["serve", "--audit", SETTINGS],
             ["serve", "--audit"], ["serve", "--verbose"], ["serve", "--verbose", "--audit"], ["serve", "--senders", "--audit"],
             ["serve", SETTINGS, "--audit", "more"], ["replay", SETTINGS, "--audit"], ["replay", SETTINGS, "--verbose"],
             ["serve", SETTINGS, "--verbose", "--verbose"], ["serve", SETTINGS, "--audit", "--verbose", "more"],
             [b"replay", b"\xff"], [b"\xff"], [b"--help", b"\xc3("], ["serve", "--connections", "1", SETTINGS],
             ["replay", SETTINGS, "--connections", "1"], ["check", SETTINGS, "--senders", "1"],
             ["serve", SETTINGS, "--connections"], ["serve", SETTINGS, "--connections", "--audit"],
             ["serve", SETTINGS, "--audit", "--senders"], ["serve", SETTINGS, "--senders=1"],
             *(["serve", SETTINGS, option, value] for option, most in MOST.items()
               for value in ("0", str(LEAST[option] - 1), str(most + 1), "", str(2**64 + LEAST[option]),
                             *(sign.format(LEAST[option]) for sign in ("-{}", "+{}", "{}.0", "{}ms", "0x{}", " {}")))),
             *(["serve", SETTINGS, option, str(least), "--verbose", option, str(least)] for option, least in LEAST.items()))
    for arguments in wrong:
        check(arguments, ended(arguments), (2, b"", USAGE))
    usage_is_first()
    status, out, err = ended(["--help"])
    check("--help", (status, err, WAYS in out, out.endswith(b"\n")), (0, b"", True, True))
    status, out, err = ended(["--version"])
    check("--version", (status, err, out.count(b"\n"), out[:16]), (0, b"", 1, b"trace_collector "))


def usage_is_first():
    """Wrong usage is told before the settings are read, also of a token's file without an admin port."""
    token, port = ["--admin-token-file", "token"], ["--admin", "127.0.0.1:0"]
    with tempfile.TemporaryDirectory() as folder:
        missing = str(Path(folder, "missing.toml"))
        for options in (token, [*token, "--audit"], ["--audit", *token], [*token, "--senders", "1"], ["--senders", "1", *token],
                        ["--admin-token-file", "--admin"], [*token, *token], [*token, "--admin"], ["--admin"], ["more"]):
            check(options, ended(["serve", missing, *options]), (2, b"", USAGE))
        told = f"input or output fault\n{missing}: No such file or directory (os error 2)\n".encode()
        for options in (port, [*port, *token], [*token, *port], [*token, "--audit", *port]):
            check(options, ended(["serve", missing, *options]), (1, b"", told))


def faults():
    with tempfile.TemporaryDirectory() as folder:
        bad = Path(folder, "settings.toml")
        for text, told in ((b"name =", b"settings fault 10\n"), (b"\xff", b"settings fault 10\n"),
                           (b"", b"settings fault 11 tenant\n"), (b"tenant = 1", b"settings fault 12 tenant\n"),
                           (TENANT.replace("[[tenant.tail_sampling.policy]]", WAIT % "_ms = 0").encode(),
                            b"settings fault 13 decision_wait_ms\n"),
                           (TENANT.encode() + b"[[tenant]]\nname = \"a\"\n", b"settings fault 14 a\n")):
            bad.write_bytes(text)
            check(text, ended(["replay", str(bad)], b"no command\n"), (1, b"", told))
        missing = str(Path(folder, "missing"))
        check("no file", ended(["replay", missing]), (1, b"", b"input or output fault\n"))
    replay = ["replay", SETTINGS]
    check("no script", ended(replay), (0, b"", b""))
    check("a faulty line", ended(replay, b"turn 0 1\n\nturn 1 1\nturn 0 2\n"), (1, b"idle 0\n", b"script fault at line 3\n"))
    with open("/dev/full", "wb") as full:
        check("a full disk", ended(replay, b"turn 0 1\n", stdout=full), (1, None, b"input or output fault\n"))


TENANT = """[[tenant]]
name = "a"
[[tenant.tail_sampling.policy]]
type = "always_sample"
"""
IN_FORCE = """# the settings in force
[global]
lane_size = 64
listen = "127.0.0.1:4318"
parts = 2
receivers = 4
senders = 4
shards = 1
tenant_header = "x-scope-orgid"

[[tenant]]
endpoint = "127.0.0.1:4319"
max_spans = 100000
name = "a"
seed = 0

[tenant.batch]
send_batch_max_size = 0
send_batch_size = 8192
timeout_ms = 200

[tenant.retry_on_failure]
initial_interval_ms = 5000
max_elapsed_time_ms = 300000
max_interval_ms = 30000
multiplier = 1500
randomization_factor = 500

[tenant.sending_queue]
num_consumers = 10
queue_size = 1000

[tenant.tail_sampling]
decision_wait_ms = 30000
num_traces = 50000

[tenant.tail_sampling.decision_cache]
non_sampled_cache_size = 0
sampled_cache_size = 0

[[tenant.tail_sampling.policy]]
type = "always_sample"
"""
WAIT = "[tenant.tail_sampling]\ndecision_wait%s\n[[tenant.tail_sampling.policy]]"
# a tenant of 65 policies, and a thousand tenants of one
CROWDED = TENANT + '[[tenant.tail_sampling.policy]]\ntype = "always_sample"\n' * 64
OTHERS = [TENANT.replace('"a"', f'"t{number}"') for number in range(1000)]
# a document, and what `check` says of it: the faults 10 to 15 in turn, in each kind of table
FAULTY = [
    ("name =", "settings fault 10\nthe text is no TOML document\nTOML parse error at line 1, column "),
    ("", "settings fault 11 tenant\nthe document: the key tenant is missing\n"
         "tenant may be: an array of 1 to 1000 tables, one for each tenant\n"),
    (TENANT + "[[tenant]]\nname = \"b\"\n", "settings fault 11 policy\ntenant 2 (b), table tail_sampling: the key policy is "
     "missing\npolicy may be: an array of one or more tables, each a policy\n"),
    ("global = 1\n" + TENANT, "settings fault 12 global\nthe document: the key global is of another kind, or a member of it "
     "is\nglobal may be: a table, or missing\n"),
    (TENANT.replace("[[tenant.tail_sampling.policy]]", WAIT % "_ms = '1s'"), "settings fault 12 decision_wait_ms\n"
     "tenant 1 (a), table tail_sampling: the key decision_wait_ms is of another kind, or a member of it is\n"
     "decision_wait_ms may be: whole milliseconds from 1 to 86400000, or missing, which is 30000\n"),
    (TENANT.replace("[[tenant.tail_sampling.policy]]", WAIT % "_ms = 0"), "settings fault 13 decision_wait_ms\n"
     "tenant 1 (a), table tail_sampling: the key decision_wait_ms has a value that it may not have\n"
     "decision_wait_ms may be: whole milliseconds from 1 to 86400000, or missing, which is 30000\n"),
    ("[global]\nshards = 65\n" + TENANT, "settings fault 13 shards\ntable global: the key shards has a value that it may "
     "not have\nshards may be: a whole number from 1 to 64, or missing, which is 1\n"),
    (TENANT + TENANT.replace("always_sample", "latency"), "settings fault 14 a\na second tenant has the name a\n"),
    (TENANT + TENANT.replace('"a"', '"b"').replace("always_sample", "latency"), "settings fault 11 threshold_ms\n"
     "tenant 2 (b), policy 1: the key threshold_ms is missing\nthreshold_ms may be: whole milliseconds from 0 to "
     "1099511627776\n"),
    ("""tenant = [{ name = "a", tail_sampling.policy = [{ type = "latency", threshold_ms = 1 }, { name = "slow", type = "latency" },
     { type = "latency" }] }]""", "settings fault 11 threshold_ms\ntenant 1 (a), policy 2 (slow): the key threshold_ms is missing\n"
     "threshold_ms may be: whole milliseconds from 0 to 1099511627776\n"
     "# warning: tenant 1 (a), policy 2: no setting has the key name, so it is ignored\n"),
    *((CROWDED + "".join(others), "settings fault 15\ntenant 1 (a), more than 64 policies, where an and counts as those that it "
       "holds\n") for others in ([], OTHERS[1:])),
    *((first + "".join(OTHERS), "settings fault 15\nthe document: more than 1000 tenants\n") for first in (TENANT, CROWDED)),
    (TENANT.replace("[[tenant.", "max_spans = 2147483648\n[[tenant.") + TENANT.replace('"a"', '"b"'), "settings fault 15\n"
     "the document: the max_spans of all tenants are above 2147483648 together\n"),
]
# what standard error is told of a good document, and the document: addresses that can't be any or are the service's own,
# and numbers that are too low. The smallest document leaves it at 4 senders and 10 consumers.
FEW_SENDERS = ("warning: table global: senders is 4, and the tenants' num_consumers are 10 together: back ends that don't "
               "answer can keep every sender\n")
SCHEME = "has a scheme, where a host, a colon and a port are wanted\n"
NO_PORT = "doesn't end with a colon and a port from 0 to 65535\n"
NO_HOST = "has no host before its port\n"
ENOUGH = "[global]\nsenders = 10\n"
LISTENING = "warning: table global: listen "
SENDING = "warning: tenant a: endpoint "
NAMED_BY = "warning: table global: tenant_header is "
OTHERWISE = ", which a request has for another purpose: hardly any can name a tenant by it\n"
BY_GRPC = ("warning: tenant a: endpoint is {}, whose port is that of OTLP over gRPC: batches are posted by HTTP, for which it is "
           "4318\n")
FEW_SPANS = ("warning: tenant a: max_spans is {}, and send_batch_size is {}: a batch is cut by timeout_ms alone, and posts can "
             "get 429 until then\n")
NO_RETRY = ("warning: tenant a: max_elapsed_time_ms is {}, and the delay before a retry is at least {} ms: no batch is sent "
            "again\n")
NO_NUMBER = "warning: tenant a: the numeric_attribute policy of the key {} has a min_value above its max_value: it keeps nothing\n"
NUMERIC = '{{ type = "numeric_attribute", key = "{}", min_value = {}, max_value = {} }}'
DOUBTS = [
    ("", ENOUGH + TENANT),
    (FEW_SENDERS.replace("is 4", "is 9"), "[global]\nsenders = 9\n" + TENANT),
    (FEW_SENDERS.replace("is 4", "is 10").replace("are 10", "are 12"), ENOUGH + TENANT + TENANT.replace('"a"', '"b"').replace(
        "[[tenant.", "sending_queue.num_consumers = 2\n[[tenant.")),
    ("warning: table global: receivers is 1, and there are 2 tenants: each client that keeps its connection keeps a receiver\n",
     "[global]\nreceivers = 1\nsenders = 20\n" + TENANT + TENANT.replace('"a"', '"b"')),
    ("", "[global]\nreceivers = 2\nsenders = 20\n" + TENANT + TENANT.replace('"a"', '"b"')),
    *((f"{NAMED_BY}{field}{OTHERWISE}" if doubtful else "", f'{ENOUGH}tenant_header = "{field}"\n{TENANT}') for field, doubtful in (
        ("connection", 1), ("content-encoding", 1), ("content-length", 1), ("content-type", 1), ("expect", 1), ("host", 1),
        ("transfer-encoding", 1), ("x-host", 0), ("hosts", 0), ("content", 0), ("authorization", 0))),
    *((f"{LISTENING}{address} {wrong}" if wrong else "", f'{ENOUGH}listen = "{address}"\n{TENANT}') for address, wrong in (
        ("http://0.0.0.0:4318", SCHEME), ("unix:///run/socket", SCHEME), ("://", SCHEME), ("0.0.0.0", NO_PORT), ("4318", NO_PORT),
        ("0.0.0.0:", NO_PORT), ("0.0.0.0:65536", NO_PORT), ("0.0.0.0:4318/", NO_PORT), ("0.0.0.0:-1", NO_PORT),
        ("0.0.0.0:00000000000000000000065536", NO_PORT), ("[::1]", NO_PORT), (":4318", NO_HOST), ("0.0.0.0:65535", ""),
        ("[::]:0", ""), ("localhost:04318", ""), ("a:/:4318", ""))),
    *((f"{SENDING}{address} {wrong}" if wrong else "", ENOUGH + TENANT.replace("[[tenant.", f'endpoint = "{address}"\n[[tenant.'))
      for address, wrong in (("https://traces.example.com:443/v1/traces", SCHEME), ("traces.example.com", NO_PORT),
                             (":443", NO_HOST), ("traces.example.com:443", ""))),
    *((f"warning: tenant a: endpoint is {address}, as listen is: the service would post to itself\n" if same else "",
       f'[global]\nsenders = 10\n{listen}' + TENANT.replace("[[tenant.", f'endpoint = "{address}"\n[[tenant.'))
      for listen, address, same in (("", "127.0.0.1:4318", 1), ("", "localhost:4318", 0), ("", "127.0.0.1:431", 0),
                                    ('listen = "[::1]:4319"\n', "[::1]:4319", 1), ('listen = "[::1]:4319"\n', "[::1]:43190", 0),
                                    ('listen = "127.0.0.1:4319"\n', "127.0.0.1:4318", 0))),
    *((BY_GRPC.format(address) if doubtful else "", ENOUGH + TENANT.replace("[[tenant.", f'endpoint = "{address}"\n[[tenant.'))
      for address, doubtful in (("10.0.0.7:4317", 1), ("[::1]:4317", 1), ("10.0.0.7:14317", 0), ("10.0.0.7:43170", 0),
                                ("10.0.0.7:4318", 0))),
    *((FEW_SPANS.format(*few) if few else "", ENOUGH + TENANT.replace("[[tenant.", f"{keys}\n[[tenant.")) for keys, few in (
        ("max_spans = 8191", (8191, 8192)), ("max_spans = 8192", ()), ("max_spans = 1\nbatch.send_batch_size = 2", (1, 2)),
        ("max_spans = 2\nbatch.send_batch_size = 2", ()), ("max_spans = 1\nbatch.timeout_ms = 1", (1, 8192)),
        ("max_spans = 1\nbatch.timeout_ms = 0", ()), ("batch.send_batch_size = 100001", (100000, 100001)),
        ("max_spans = 3\nbatch = { send_batch_size = 2, send_batch_max_size = 4 }", ()))),
    *((NO_RETRY.format(*late) if late else "", ENOUGH + TENANT.replace("[[tenant.", f"retry_on_failure = {{ {keys} }}\n[[tenant."))
      for keys, late in (
        ("max_elapsed_time_ms = 0", ()), ("max_elapsed_time_ms = 1", ()), ("max_elapsed_time_ms = 2", (2, 2500)),
        ("max_elapsed_time_ms = 2499", (2499, 2500)), ("max_elapsed_time_ms = 2500", ()),
        ("initial_interval_ms = 60000, max_elapsed_time_ms = 10", (10, 30000)),
        ("initial_interval_ms = 7, max_elapsed_time_ms = 3", (3, 4)), ("initial_interval_ms = 7, max_elapsed_time_ms = 4", ()),
        ("initial_interval_ms = 7, max_elapsed_time_ms = 6, randomization_factor = 0", (6, 7)),
        ("initial_interval_ms = 7, max_elapsed_time_ms = 7, randomization_factor = 0", ()),
        ("max_elapsed_time_ms = 2, randomization_factor = 1000", ()),
        ("max_interval_ms = 1, max_elapsed_time_ms = 2499", (2499, 2500)))),
    *(("".join(map(NO_NUMBER.format, keys)), f"{ENOUGH}[[tenant]]\nname = 'a'\ntail_sampling.policy = [{policies}]\n")
      for policies, keys in (
        (NUMERIC.format("k", 1, 0), ["k"]), (NUMERIC.format("k", 1, 1), []), (NUMERIC.format("k", 0, 1), []),
        (NUMERIC.format("k", -1, -2), ["k"]), (NUMERIC.format("k", -2, -1), []), (NUMERIC.format("k", 0, -1), ["k"]),
        (NUMERIC.format("k", -1, 0), []), (NUMERIC.format("k", 2**63 - 1, -2**63), ["k"]),
        (NUMERIC.format("k", -2**63, 2**63 - 1), []), (NUMERIC.format("\\u001b\\\\k", 1, 0), ["\\x1b\\x5ck"]),
        (NUMERIC.format("k", 9, 8) + ", " + NUMERIC.format("k", 9, 8), ["k", "k"]),
        (f"{{ type = 'and', and_sub_policy = [{NUMERIC.format('k', 1, 0)}] }}", ["k"]),
        (f"{{ type = 'and', and_sub_policy = [{NUMERIC.format('k', 0, 1)}] }}", []),
        (f"{{ type = 'latency', threshold_ms = 1 }}, {NUMERIC.format('k', 1, 0)}, {{ type = 'and', and_sub_policy = ["
         f"{NUMERIC.format('l', 0, 0)}, {NUMERIC.format('m', 3, 2)}, {{ type = 'always_sample' }}, {NUMERIC.format('n', 5, 4)}"
         f"] }}, {NUMERIC.format('o', 1, 0)}", ["k", "m", "n", "o"]))),
]
# a key that no setting has, in a document of one tenant, and the warning of it
UNKNOWN = [
    ("gobal = 1\n", TENANT, "the document: no setting has the key gobal"),
    ("[global]\nshard = 2\n", TENANT, "table global: no setting has the key shard"),
    ("", TENANT.replace("[[tenant.", "spans = 1\n[[tenant."), "tenant 1 (a): no setting has the key spans"),
    ("", TENANT.replace("[[tenant.tail_sampling.policy]]", WAIT % ' = "10s"'), "tenant 1 (a), table tail_sampling: no setting "
     "has the key decision_wait", "decision_wait_ms"),
    ("", TENANT + "[tenant.tail_sampling.decision_cache]\nsize = 1\n", "tenant 1 (a), table decision_cache: no setting has the "
     "key size"),
    ("", TENANT + "[tenant.batch]\ntimeout_s = 1\n", "tenant 1 (a), table batch: no setting has the key timeout_s",
     "timeout_ms"),
    ("", TENANT + "[tenant.sending_queue]\nenabled = true\n", "tenant 1 (a), table sending_queue: no setting has the key "
     "enabled"),
    ("", TENANT + "[tenant.retry_on_failure]\nmax_interval = 1\n", "tenant 1 (a), table retry_on_failure: no setting has the "
     "key max_interval", "max_interval_ms"),
    ("", TENANT + "threshold_ms = 1\n", "tenant 1 (a), policy 1: no setting has the key threshold_ms"),
    ("tenants = []\n", TENANT, "the document: no setting has the key tenants", "tenant"),
    ("pipelines = []\n", TENANT, "the document: no setting has the key pipelines", "tenant"),
    ("policies = []\n", TENANT, "the document: no setting has the key policies"),
    ("", TENANT.replace("[[tenant.tail_sampling.policy]]", "[tenant.tail_sampling]\npolicies = []\n[[tenant.tail_sampling.policy]]"),
     "tenant 1 (a), table tail_sampling: no setting has the key policies", "policy"),
    ("", TENANT.replace("[[tenant.", 'traces_endpoint = "a:1"\n[[tenant.'), "tenant 1 (a): no setting has the key traces_endpoint",
     "endpoint"),
    ("", TENANT.replace("[[tenant.", "memory_limiter = 1\n[[tenant."), "tenant 1 (a): no setting has the key memory_limiter",
     "max_spans"),
    ('[global]\nendpoint = "a:1"\n', TENANT, "table global: no setting has the key endpoint", "listen"),
    ("[global]\nnum_consumers = 1\n", TENANT, "table global: no setting has the key num_consumers", "senders"),
    ("", TENANT + '"\\u001b[1m\\\\" = 1\n', "tenant 1 (a), policy 1: no setting has the key \\x1b[1m\\x5c"),
]


POLICIES = [
    {"type": "always_sample"},
    {"type": "latency", "threshold_ms": 5000},
    {"type": "status_code", "status_codes": ["ERROR", "UNSET", "OK"]},
    {"type": "string_attribute", "key": "http.route", "values": ["/cart", "/checkout"]},
    {"type": "numeric_attribute", "key": "http.response.status_code", "min_value": 500, "max_value": 599},
    {"type": "and", "and_sub_policy": [{"type": "latency", "threshold_ms": 1000},
                                       {"type": "status_code", "status_codes": ["ERROR"]}]},
]
NO_CACHE = {"sampled_cache_size": 0, "non_sampled_cache_size": 0}
SHOP = {"decision_wait_ms": 10000, "num_traces": 20000, "decision_cache": NO_CACHE, "policy": [
    {"type": "status_code", "status_codes": ["ERROR"]},
    {"type": "latency", "threshold_ms": 2000},
    {"type": "and", "and_sub_policy": [
        {"type": "string_attribute", "key": "payment.state", "values": ["declined", "timeout"]},
        {"type": "numeric_attribute", "key": "payment.amount", "min_value": 100, "max_value": 2**63 - 1}]},
]}
# the keys of the tenants of examples/ that aren't as in the smallest document
IN_EXAMPLES = {
    "two-tenants.toml": [{"name": "checkout", "endpoint": "10.0.0.11:4318"},
                         {"name": "search", "endpoint": "10.0.0.12:4318", "max_spans": 20000}],
    "errors-and-slow-traces.toml": [{"name": "shop", "endpoint": "tracing.internal:4318", "tail_sampling": SHOP}],
    "everything.toml": [{"name": "everything",
                         "tail_sampling": {"decision_wait_ms": 30000, "num_traces": 50000, "decision_cache": NO_CACHE,
                                           "policy": POLICIES}}],
}
ALL = [{"type": "always_sample"}]
AT_ONCE = {"decision_wait_ms": 1, "num_traces": 50000, "decision_cache": NO_CACHE, "policy": ALL}
RETRIES = {"initial_interval_ms": 5000, "max_interval_ms": 30000, "max_elapsed_time_ms": 300000, "multiplier": 1500,
           "randomization_factor": 500}
LARGE = {"send_batch_size": 4096, "timeout_ms": 2000, "send_batch_max_size": 0}
# what became of three configurations of the Collector: the keys of `global`, and of the tenants
FROM_THE_COLLECTOR = {
    "gateway.toml": ({"listen": "0.0.0.0:4318"}, [
        {"name": "shop", "endpoint": "tempo.monitoring.svc:4318", "max_spans": 1_000_000, "tail_sampling": {
            "decision_wait_ms": 10000, "num_traces": 100_000, "decision_cache": {**NO_CACHE, "sampled_cache_size": 200_000},
            "policy": [
                {"type": "status_code", "status_codes": ["ERROR"]},
                {"type": "latency", "threshold_ms": 2000},
                {"type": "string_attribute", "key": "http.route", "values": ["/checkout", "/pay"]},
                {"type": "numeric_attribute", "key": "http.response.status_code", "min_value": 500, "max_value": 599},
                {"type": "and", "and_sub_policy": [
                    {"type": "string_attribute", "key": "payment.state", "values": ["declined"]},
                    {"type": "numeric_attribute", "key": "payment.amount", "min_value": 1000, "max_value": 2**63 - 1}]},
                {"type": "string_attribute", "key": "sampling.keep", "values": ["yes"]}]}}]),
    "relay.toml": ({"listen": "localhost:4318", "senders": 8}, [
        {"name": "production", "endpoint": "127.0.0.1:4401", "tail_sampling": AT_ONCE,
         "batch": {"send_batch_size": 1024, "timeout_ms": 1500, "send_batch_max_size": 2048},
         "sending_queue": {"queue_size": 1953, "num_consumers": 8},
         "retry_on_failure": {"initial_interval_ms": 500, "max_interval_ms": 90000, "max_elapsed_time_ms": 0,
                              "multiplier": 1750, "randomization_factor": 200}}]),
    "teams.toml": ({"listen": "[::]:4318", "tenant_header": "x-team", "senders": 34, "shards": 3}, [
        {"name": "payments", "endpoint": "10.1.0.5:4318", "tail_sampling": {**AT_ONCE, "decision_wait_ms": 60000},
         "batch": {"send_batch_size": 256, "timeout_ms": 0, "send_batch_max_size": 0},
         "sending_queue": {"queue_size": 5000, "num_consumers": 20},
         "retry_on_failure": {**RETRIES, "max_elapsed_time_ms": 1_800_000}},
        {"name": "search", "endpoint": "traces.search.internal:4318", "tail_sampling": {
            "decision_wait_ms": 5000, "num_traces": 200_000, "decision_cache": NO_CACHE,
            "policy": [{"type": "status_code", "status_codes": ["ERROR"]}, {"type": "latency", "threshold_ms": 800}]},
         "batch": LARGE, "sending_queue": {"queue_size": 200, "num_consumers": 4},
         "retry_on_failure": {**RETRIES, "max_elapsed_time_ms": 1}},
        {"name": "others", "endpoint": "10.1.0.9:4318", "tail_sampling": AT_ONCE, "batch": LARGE}]),
    "tempo.toml": ({"listen": "127.0.0.1:14318", "senders": 12}, [
        {"name": name, "endpoint": endpoint, "max_spans": 400_000, "tail_sampling": AT_ONCE,
         "batch": {"send_batch_size": 2000, "timeout_ms": 2000, "send_batch_max_size": 4000},
         "sending_queue": {"queue_size": 700, "num_consumers": 4},
         "retry_on_failure": {**RETRIES, "initial_interval_ms": 1000, "max_elapsed_time_ms": 600_000}}
        for name, endpoint in (("shop", "127.0.0.1:4401"), ("bank", "127.0.0.1:4402"), ("anonymous", "127.0.0.1:4403"))]),
}


def in_force(*tenants, **globals_of):
    """All settings, where those of the tenants, and of `global`, differ in these keys from those of the smallest document."""
    smallest = tomllib.loads(IN_FORCE)
    return {**smallest, "global": {**smallest["global"], **globals_of},
            "tenant": [{**smallest["tenant"][0], **tenant} for tenant in tenants]}


class Checked:
    """What `check` says of a text, as it stands in a file."""

    def __init__(self, folder):
        self.file = Path(folder, "settings.toml")

    def said(self, text, doubts=None):
        """Its status, and its report. Standard error has to be told these doubts, where they are given, and nothing of a
        fault."""
        self.file.write_bytes(text.encode() if isinstance(text, str) else text)
        status, out, err = ended(["check", str(self.file)])
        if doubts is not None or status != 0:
            check(f"standard error of {text!r}", err.decode(), doubts or "")
        return status, out.decode()


def checks_texts(checked):
    """Of documents that are good, faulty, doubtful, and have unknown keys."""
    said = checked.said
    check("the smallest document", said(TENANT, FEW_SENDERS), (0, IN_FORCE))
    check("all of its settings", said(IN_FORCE, FEW_SENDERS), (0, IN_FORCE))
    for text, told in FAULTY:
        status, out = said(text)
        check(text, (status, out[: len(told)]), (1, told))
        check(f"lines of {text!r}", out.count("\n"), told.count("\n") + (2 if text == "name =" else 0))
    check("no UTF-8", said(b"\xff"), (1, "settings fault 10\nthe file is not UTF-8\n"))
    for before, text, told, *meant in UNKNOWN:
        hint = f"; perhaps {meant[0]} was meant" if meant else ""
        check(text, said(before + text), (0, f"# warning: {told}, so it is ignored{hint}\n" + IN_FORCE))
    both = said(TENANT.replace("policy]]", "polcy]]"))
    check("a warning beside a fault", both[1].split("\n")[0::3], ["settings fault 11 policy", "# warning: tenant 1 (a), "
          "table tail_sampling: no setting has the key polcy, so it is ignored"])
    long = "".join(f"{'x' * 9}{number} = 1\n" for number in range(10, 100))
    check("of a name that is too long no more stands before each key than a name may have", said(
        f'[[tenant]]\nname = "{"a" * 1_000}"\n{long}')[1].split("\n")[-91:], [f"# warning: tenant 1 ({'a' * 64}): no setting has "
        f"the key {'x' * 9}{number}, so it is ignored" for number in range(10, 100)] + [""])
    for doubts, text in DOUBTS:
        check(f"the status of {text!r}", said(text, doubts)[0], 0)
    cached = TENANT + "[tenant.tail_sampling.decision_cache]\nsampled_cache_size = 2\nnon_sampled_cache_size = 1\n"
    sizes = IN_FORCE.replace("non_sampled_cache_size = 0\nsampled_cache_size = 0", "non_sampled_cache_size = 1\n"
                             "sampled_cache_size = 2")
    check("sizes of caches", said(cached), (0, sizes))
    check("sizes of caches twice", said(sizes), (0, sizes))


def checks_examples(checked):
    """Of the documents of examples/ and of docs/SETTINGS.md."""
    said = checked.said
    for example, (globals_of, tenants) in FROM_THE_COLLECTOR.items():
        status, out = said((HERE / "examples/from-the-collector" / example).read_text(), "")
        check(f"what {example} says", (status, tomllib.loads(out)), (0, in_force(*tenants, **{"senders": 10, **globals_of})))
    blocks = re.findall("^```toml\n(.*?)^```$", (HERE / "docs/SETTINGS.md").read_text(), re.M | re.S)
    check("documents of docs/SETTINGS.md", len(blocks) > 1, True)
    for example in blocks:
        status, out = said(example)
        check(f"{example!r} of docs/SETTINGS.md", (status, out.partition("\n")[0]), (0, "# the settings in force"))
    for example in sorted((HERE / "examples").rglob("*.toml")):
        status, out = said(example.read_text())
        check(f"{example.name} is good", (status, "# warning" in out), (0, False))
        check(f"{example.name} twice", said(out), (0, out))
        if example.name in IN_EXAMPLES:
            check(f"what {example.name} says", tomllib.loads(out), in_force(*IN_EXAMPLES[example.name]))


def checks():
    """What `check` says of documents; what it prints of a good one is a document that it says the same of."""
    with tempfile.TemporaryDirectory() as folder:
        checked = Checked(folder)
        checks_texts(checked)
        checks_examples(checked)
        missing = str(Path(folder, "missing"))
        told = f"input or output fault\n{missing}: No such file or directory (os error 2)\n".encode()
        check("no file to check", ended(["check", missing]), (1, b"", told))
        with open("/dev/full", "wb") as full:
            told = b"input or output fault\nstandard output: No space left on device (os error 28)\n"
            check("a full disk at a check", ended(["check", SETTINGS], stdout=full), (1, None, told))
            checked.file.write_text(TENANT)
            check("a full disk for doubts", ended(["check", str(checked.file)], stderr=full), (0, IN_FORCE.encode(), None))


FAULTS = HERE / "tests/settings/faults.list"
KEYS = HERE / "crates/settings_check/src/table.rt"
ALWAYS = 'policy = [{ type = "always_sample" }]'
TITLES = {"The document": "the document"}
WRONG = {"11": "is missing", "12": "is of another kind, or a member of it is", "13": "has a value that it may not have"}


def rows_of_faults():
    """Of each row of tests/settings/faults.list its section, the fault's number and key, what is wrong and right, and what
    the key may be."""
    for section in re.split("^## ", FAULTS.read_text(), flags=re.M)[1:]:
        title, *rows = section.strip("\n").split("\n\n")
        for row in rows:
            head, *lines = row.split("\n")
            fault, _, may_be = head.partition(": ")
            number, _, key = fault.partition(" ")
            wrong, right = ([line[len(kind) :].strip() for line in lines if line.startswith(kind)] for kind in ("wrong", "right"))
            check(f"lines of {head}", len(wrong) + len(right), len(lines))
            yield title, number, key, wrong, right, may_be


def with_line(section, key, code):
    """A file with this in the table of a section of faults.list, the rest being good."""
    if section == "The document":
        return code + "\n"
    if section == "[global]":
        return f"[global]\n{code}\n{TENANT}"
    if section == "[[tenant]]":
        others = {"name": 'name = "a"', "tail_sampling": f"tail_sampling.{ALWAYS}"}
        return "\n".join(["[[tenant]]", *(line for other, line in others.items() if other != key), code, ""])
    sampling = '[[tenant]]\nname = "a"\n[tenant.tail_sampling]\n'
    if section == "[tenant.tail_sampling]":
        return sampling + ("" if key == "policy" else ALWAYS + "\n") + code + "\n"
    if section == "Policies":
        return f"{sampling}policy = [{{ {code} }}]\n"
    return f"{TENANT}{section}\n{code}\n"


def policy_of(key, code):
    """The words of the only policy of a tenant, of which a fault is, or its first part."""
    name = re.match('name = "(\\w+)"', code)
    part = ", part 1" if "and_sub_policy = [{" in code and key != "and_sub_policy" else ""
    return f"policy 1{f' ({name[1]})' if name else ''}{part}"


def told_of(section, number, key, may_be, code):
    """How the first lines that `check` prints of a fault of faults.list end."""
    if number in WRONG:
        title = TITLES.get(section) or "table " + section.strip("[]").rsplit(".", 1)[-1]
        title = policy_of(key, code) if section == "Policies" else title
        return [f"settings fault {number} {key}", f"{title}: the key {key} {WRONG[number]}", f"{key} may be: {may_be}"]
    return {"10": ["settings fault 10", "the text is no TOML document"],
            "14": [f"settings fault 14 {key}", f"a second tenant has the name {key}"]}[number]


def faults_of_keys():
    """`check` prints of each example of faults.list what its row says, and each key that there is has its rows."""
    rows, of_kind = list(rows_of_faults()), set()
    check("rows of faults.list", len(rows), 86)
    with tempfile.TemporaryDirectory() as folder:
        file = Path(folder, "settings.toml")

        def said(text):
            file.write_text(text)
            status, out, _ = ended(["check", str(file)])
            return status, out.decode().split("\n")

        for section, number, key, wrong, right, may_be in rows:
            of_kind |= {key} if number == "12" else set()
            for code in wrong:
                status, lines = said(with_line(section, key, code))
                told = told_of(section, number, key, may_be, code)
                check(f"{code} of {section}", (status, [line.endswith(end) for line, end in zip(lines, told)]),
                      (1, [True] * len(told)))
            for code in right:
                status, lines = said(with_line(section, key, code))
                check(f"{code} of {section}", (status, lines[0]), (0, "# the settings in force"))
    check("keys of faults.list", of_kind, set(re.findall('Key::\\w+ => "(\\w+)"', KEYS.read_text())))


TABLES = HERE / "tests/settings"
# what is told of a key whose value is a number, by the value
NUMBER = {"settings": (), "settings fault 13 ": ("-9223372036854775808", "9223372036854775807"),
          "settings fault 12 ": ('"1"', "1.0", "true", "[1]", "{}", "2026-11-22")}


def numbers_of(row):
    """The cases of a row of tests/settings/numbers.txt."""
    key, rest = row.split(" ", 1)
    fine, out = (numbers.split(" ") for numbers in rest.split(" not "))
    for (told, more), values in zip(NUMBER.items(), (fine, out, [])):
        for value in (*values, *more):
            yield f"{told}{key if more else ''}\n{key} = {value}"


def cases_of(file):
    """Of each case of a table of tests/settings/ the line that is told and the document."""
    for section in file.read_text().split("\n====\n"):
        before, cases, after = section.split("\n----\n")
        if file.name == "numbers.txt":
            cases = [case for row in cases.splitlines() for case in numbers_of(row)]
        else:
            cases = cases.split("\n\n")
        for case in cases:
            told, _, part = case.partition("\n")
            text = before + part + after
            yield told, re.sub(r"\^(\d+)\^([^^]*)\^", lambda repeated: repeated[2] * int(repeated[1]), text)


def tables_of_settings():
    """What is told of each document of tests/settings/, and of a thousand tenants and one more."""
    tenants = [TENANT.replace('"a"', f'"t{number}"') for number in range(1001)]
    cases = [("settings", "".join(tenants[:1000])), ("settings fault 15", "".join(tenants))]
    cases += [case for file in sorted(TABLES.glob("*.txt")) for case in cases_of(file)]
    check("documents of tests/settings/", len(cases), 421)
    with tempfile.TemporaryDirectory() as folder:
        file = Path(folder, "settings.toml")
        for told, text in cases:
            file.write_text(text)
            wanted = (0, b"", b"") if told == "settings" else (1, b"", f"{told}\n".encode())
            check(text, ended(["replay", str(file)]), wanted)


def answer(run, line, most=4096):
    """What the program prints within a minute of a line, so many bytes at most."""
    run.stdin.write(line)
    run.stdin.flush()
    ready, _, _ = select.select([run.stdout], [], [], 60)
    return os.read(run.stdout.fileno(), most) if ready else b""


def answers_at_once():
    """Each answer comes before the next line is sent, or the next piece of one."""
    with subprocess.Popen([PROGRAM, "replay", SETTINGS], stdin=subprocess.PIPE, stdout=subprocess.PIPE) as run:
        check("a post", answer(run, f"post a 0 {SPAN}\n".encode()), b"reply a 200 -\n")
        check("a turn too early", answer(run, b"turn 0 999\ntur"), b"idle 0\n")
        check("a turn in time", answer(run, b"n 0 1000\n"), f"job a 1 {SPAN}\n".encode())
        run.stdin.write(b"turn 0 1000")
        run.stdin.close()
        check("the last line, without its end", run.stdout.read(), b"idle 0\n")
        check("its status", run.wait(60), 0)
    pieces = ((b"turn 0 1\n", 1), (b"turn 0 2\ntur", 1), (b"n 0 ", 0), (b"3\nturn 0 4\nturn 0 5\n#", 3), (b" a comment", 0),
              (b"\n\n", 0), (b"turn 0 6", 0))
    with subprocess.Popen([PROGRAM, "replay", SETTINGS], stdin=subprocess.PIPE, stdout=subprocess.PIPE) as run:
        for piece, answers in pieces:
            run.stdin.write(piece)
            run.stdin.flush()
            for _ in range(answers):
                check(piece, answer(run, b"", 7), b"idle 0\n")
        run.stdin.close()
        check("the last of the pieces", run.stdout.read(), b"idle 0\n")


def late_spans():
    """What examples/late.script tells, and what it would tell if no decision were remembered."""
    script = (HERE / "examples/late.script").read_text()
    settings = (HERE / "examples/late.toml").read_text()
    first, _, _, refund, _ = re.findall(r"^post shop \d+ (\w+)$", script, re.M)
    taken = "reply shop 200 -\n"
    gone = "queue_full=0 retry_exhausted=0 back_end_refused=0 back_end_rejected=0 invalid=0 over_budget=0\n"
    begin = (f"{taken * 2}job shop 1 {first}\ndone shop\n{taken}report shop accepted=4 undecided=2 pending=0 queued=0 active=0 "
             f"exported=1 not_sampled=1 too_early=0 {gone}{taken * 2}")
    followed = (f"job shop 2 {refund}\nreport shop accepted=6 undecided=2 pending=0 queued=0 active=1 exported=1 not_sampled=2 "
                f"too_early=0 {gone}")
    pushed_out = ("idle 0\nreport shop accepted=6 undecided=2 pending=0 queued=0 active=0 exported=1 not_sampled=1 "
                  f"too_early=2 {gone}")
    with tempfile.TemporaryDirectory() as folder:
        file = Path(folder, "settings.toml")
        for size, end in (("100", followed), ("0", pushed_out)):
            file.write_text(settings.replace("size = 100", f"size = {size}"))
            check(f"late spans, {size} remembered", ended(["replay", str(file)], script.encode()), (0, (begin + end).encode(), b""))


def largest_batch():
    """A batch of 32 MiB is sent; one of a byte more finds no room, and its spans are counted where those of a full queue are."""
    most, gone = 2**25, "retry_exhausted=0 back_end_refused=0 back_end_rejected=0 invalid=0 over_budget=0\n"
    counts = "undecided=0 pending=0 queued=0 active={} exported=0 not_sampled=0 too_early=0 queue_full={}"
    ids = [piece(1, b"\x11" * 16) + piece(2, bytes([number]) * 8) for number in (1, 2)]
    first = piece(2, ids[0] + piece(5, b"n" * 2**24))
    room = most - len(in_one_scope(first + piece(2, ids[1] + piece(5, b"n" * 2**23)))) + 2**23
    for length, active, refused in ((room, 2, 0), (room + 1, 0, 2)):
        second = piece(2, ids[1] + piece(5, b"n" * length))
        posts = "".join(f"post a 0 {in_one_scope(span).hex()}\n" for span in (first, second))
        job = f"job a 1 {in_one_scope(first + second).hex()}" if active else "worked a"
        wanted = ("reply a 200 -\n" * 2 + f"{job}\nreport a accepted=2 {counts.format(active, refused)} {gone}").encode()
        status, out, err = ended(["replay", SETTINGS], f"{posts}turn 0 1000\nreport a 1000\n".encode())
        check(f"a batch with a name of {length} bytes, which ends so: {out[-300:]!r}", (status, out == wanted, err), (0, True, b""))


def course():
    """Only with --verbose is standard error told of a service's course; what is told on standard output is the same."""
    counts = ("accepted", "undecided", "pending", "queued", "active", "exported", "not_sampled", "too_early", "queue_full",
              "retry_exhausted", "back_end_refused", "back_end_rejected", "invalid", "over_budget")
    report = ("report a " + " ".join(f"{name}=0" for name in counts) + "\n").encode()
    stages = (b"serving at 127.0.0.1:PORT\ndraining: tenants take no more spans, and send what they hold\n"
              b"closing: all is sent, waiting for open connections\nended: all threads are done\n")
    with tempfile.TemporaryDirectory() as folder:
        file = Path(folder, "settings.toml")
        file.write_text('[global]\nlisten = "127.0.0.1:0"\n' + TENANT)

        def served(*options, **how):
            status, out, err = ended(["serve", str(file), *options], b"report a\n", **how)
            return status, re.sub(rb"audit 0 \d+", b"audit 0 N", out), err and re.sub(rb":[1-9]\d*\n", b":PORT\n", err)

        audit = b"audit 0 N\n"
        check("a quiet service", served(), (0, report * 2, b""))
        check("one that is audited", served("--audit"), (0, report * 2 + audit, b""))
        check("one that tells", served("--verbose"), (0, report * 2, stages))
        for options in (("--audit", "--verbose"), ("--verbose", "--audit")):
            check(options, served(*options), (0, report * 2 + audit, stages))
        numbers = {"--connections": "300", "--senders": "00300", **{option: str(MOST[option]) for option in list(MOST)[2:]}}
        words = [word for option, value in numbers.items() for word in (option, value)]
        check("all options", served("--verbose", *words, "--audit"), (0, report * 2 + audit, stages))
        turned = [word for option, least in reversed(LEAST.items()) for word in (option, str(least))]
        check("the least of all, turned round", served("--audit", *turned), (0, report * 2 + audit, b""))
        with open("/dev/full", "wb") as full:
            check("a full disk", served("--verbose", stderr=full), (0, report * 2, None))
        reader, writer = os.pipe()
        os.close(reader)
        check("nobody reads", served("--verbose", stderr=writer), (0, report * 2, None))
        os.close(writer)


def threads():
    """The notes of 512 spans or more are made in as many threads as the settings have parts, the replay's own among them, of
    4,096 at a time, and those of fewer in its own. No clause says so."""
    compiler = shutil.which("cc") or shutil.which("clang") or shutil.which("gcc")
    if not compiler:
        print("no C compiler: threads weren't counted")
        return
    with tempfile.TemporaryDirectory() as folder:
        shim, settings, started = Path(folder, "started.so"), Path(folder, "settings.toml"), Path(folder, "started")
        subprocess.run([compiler, "-shared", "-fPIC", "-O2", "-o", shim, HERE / "tests/started.c", "-ldl"], check=True)
        for parts, spans, wanted in ((1, 600, 0), (2, 1, 0), (16, 511, 0), (2, 512, 1), (4, 600, 3), (16, 4_096, 15),
                                     (16, 4_097, 15), (16, 4_608, 30)):
            settings.write_text(f"[global]\nparts = {parts}\n{TENANT}")
            started.write_bytes(b"")
            under = dict(os.environ, LD_PRELOAD=str(shim), STARTED=str(started))
            post = f"post a 0 {SPAN * spans}\n".encode()
            check(f"{spans} spans in {parts} parts", ended(["replay", settings], post, env=under), (0, b"reply a 200 -\n", b""))
            check(f"threads for {spans} spans in {parts} parts", len(started.read_bytes()), wanted)


usage()
faults()
course()
checks()
faults_of_keys()
tables_of_settings()
answers_at_once()
late_spans()
largest_batch()
threads()
print("the program prints and ends as it has to" if not failed else f"{failed} wrong")
sys.exit(min(failed, 1))
