"""Prometheus and its own tool, which are others' programs: `tests/strangers.py` runs them where they are installed."""

import http.client
import json
import re
import subprocess
from pathlib import Path
from urllib.parse import quote

from serving.admin import AdminService
from serving.metrics import GAUGES, METRICS
from serving.talk import MOST, NAMES, BackEnd, body, check, free_port, line_of, tenant, wait_for

EXAMPLES = Path(__file__).resolve().parent.parent.parent / "examples"


def by_promtool(folder):
    """What Prometheus' own tool finds wrong with the form of metrics: nothing, with spans and without, and with a
    thousand tenants. Nor with the examples for it, whose alerts name metrics that there are."""
    with BackEnd() as back_end:
        sections = [tenant(f"t-{number}.{number}_X", back_end) for number in range(999)] + [tenant("a", back_end)]
        for count in (1, len(sections)):
            with AdminService(folder, sections[-count:]) as service:
                for posts in (0, 3):
                    for number in range(posts):
                        check("a post", service.post("a", body(1, 1 + number)), (200, b""))
                    text = service.ask("/metrics")[2]
                    done = subprocess.run(["promtool", "check", "metrics"], input=text, capture_output=True,
                                          timeout=MOST, check=False)
                    check("promtool", (done.returncode, done.stdout, done.stderr), (0, b"", b""))
                service.drained()
    for_prometheus = EXAMPLES / "prometheus.yml"
    done = subprocess.run(["promtool", "check", "config", str(for_prometheus)], capture_output=True, timeout=MOST, check=False)
    check("promtool of examples/", (done.returncode, done.stderr), (0, b""))
    named = re.findall(r"\b(?:nimchaes|otelcol)_\w+", for_prometheus.with_name("alerts.yml").read_text())
    told = re.findall(r"^# TYPE (\w+) ", text.decode(), re.MULTILINE)
    check("metrics that alerts name and nobody tells", set(named) - set(told), set())


class Prometheus:
    """Prometheus itself, which scrapes a port every two seconds."""

    def __init__(self, folder, port):
        file = Path(folder, "prometheus.yml")
        file.write_text("global: {scrape_interval: 2s, scrape_timeout: 1s}\nscrape_configs:\n"
                        f"- {{job_name: tried, static_configs: [{{targets: ['127.0.0.1:{port}']}}]}}\n")
        self.port = free_port()
        self.run = subprocess.Popen(
            ["prometheus", f"--config.file={file}", f"--storage.tsdb.path={folder}/data", "--log.level=error",
             f"--web.listen-address=127.0.0.1:{self.port}"], stdout=subprocess.DEVNULL, stderr=subprocess.DEVNULL)

    def __enter__(self):
        return self

    def __exit__(self, *_):
        self.run.kill()
        self.run.wait()

    def asked(self, query):
        """What it has of a query by now, by the labels that tell samples apart; nothing while it isn't up."""
        line = http.client.HTTPConnection("127.0.0.1", self.port, timeout=MOST)
        try:
            line.request("GET", "/api/v1/query?query=" + quote(query))
            reply = line.getresponse()
            found = json.loads(reply.read())["data"]["result"] if reply.status == 200 else []
        except OSError:
            return {}
        finally:
            line.close()
        return {sample["metric"].get("tenant", ""): float(sample["value"][1]) for sample in found}


def by_prometheus(folder):
    """Prometheus scrapes it, and has of each counter what reports say, also while it drains."""
    with BackEnd() as back_end, BackEnd(None) as held, \
            AdminService(folder, [tenant("a", back_end), tenant("held", held)]) as service:
        with Prometheus(folder, service.admin) as found:
            for span in range(1, 8):
                check("a post", service.post("a", body(span, span)), (200, b""))
            check("a post", service.post("held", body(9, 9)), (200, b""))
            wanted = {"a": {"accepted": 7.0, "exported": 7.0}, "held": {"accepted": 1.0, "active": 1.0}}
            wait_for(lambda: found.asked(METRICS["exported"]).get("a") == 7 and found.asked("up") == {"": 1.0},
                     "it has the last one")
            for word in NAMES:
                metric = METRICS.get(word, f"nimchaes_{word}_spans" + ("" if word in GAUGES else "_total"))
                check(metric, found.asked(metric), {name: counts.get(word, 0.0) for name, counts in wanted.items()})
            check("tenants", found.asked("nimchaes_tenants"), {"": 2.0})
            check("a drain", service.told("/drain", "POST")[0], 200)
            wait_for(lambda: found.asked("nimchaes_draining") == {"": 1.0}, "it sees the drain")
            check("still", found.asked("nimchaes_active_spans"), {"a": 0.0, "held": 1.0})
            held.release()
            out = service.run.stdout.read().decode()
            check("the end", (service.run.wait(), out),
                  (0, line_of("a", accepted=7, exported=7) + line_of("held", accepted=1, exported=1)))
            wait_for(lambda: found.asked("up") == {"": 0.0}, "it sees the end")
