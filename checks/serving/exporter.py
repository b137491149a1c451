"""Shows regions of a built program to a real Prometheus and to a real browser, by `pnuts-ctl exporter`, and looks at what the one
has scraped and alerts of, and the other shows.

  checks/run exporter PROGRAM [CHECK ..]

It needs Debian's prometheus and python3-prometheus-client, and is skipped without; so is the page without chromium-driver and
python3-selenium.
"""
import contextlib
import json
import os
import re
import signal
import socket
import subprocess
import time
from collections.abc import Iterator

from common.parts import needs
from common.served import SECONDS, Client, in_time, same, seconds_of
from serving.browser import Browser
from serving.controlled import Publisher, Session, adoption, region_in, written
from serving.exporting import FOLDER, NEEDS, RULES, Exporter, Prometheus, answered
from serving.staying import messages, until

pytestmark = NEEDS

ALERT = re.compile(r"- alert: (\w+)")
# What a dashboard leaves open, and what Grafana puts there.
OPEN = {"$instance": ".*", "$stream": ".*", "$__rate_interval": "30s"}
# Queries that have no answer where nothing alerts.
QUIET = ("ALERTS",)
PHONE, DESK = 360, 1200
# A stream's path that would be elements, if it were not escaped.
NASTY = "<i>&\"'<b>"
# How many values the first picture has.
VALUES = 'document.querySelector(".line").getAttribute("d").split("L").length'
# The least contrast of a text with what is behind it, as the guidelines for accessible pages reckon it, and the smallest text in pixels.
CONTRAST = """(() => {
  const parts = color => color.match(/[\\d.]+/g).map(Number);
  const light = color => {
    const [r, g, b] = parts(color).map(it => it / 255).map(it => it <= 0.03928 ? it / 12.92 : ((it + 0.055) / 1.055) ** 2.4);
    return 0.2126 * r + 0.7152 * g + 0.0722 * b;
  };
  const behind = it => parts(getComputedStyle(it).backgroundColor)[3] === 0 ? behind(it.parentElement) : getComputedStyle(it).backgroundColor;
  const texts = [...document.querySelectorAll("body *")].filter(it => [...it.childNodes].some(at => at.nodeType === 3 && at.data.trim()))
    .filter(it => it.getClientRects().length);
  const ratios = texts.map(it => [light(getComputedStyle(it).color), light(behind(it))].sort()).map(([a, b]) => (b + 0.05) / (a + 0.05));
  return [Math.min(...ratios), Math.min(...texts.map(it => parseFloat(getComputedStyle(it).fontSize)))];
})()"""


def check_scrapes(program: str, folder: str) -> None:
    """Prometheus scrapes what a region does, and alerts of a lost tablet, a stream that fails, and a region that is gone."""
    with region_in(folder, program) as (region, control, path), Exporter(control) as exporter, Prometheus(folder, [exporter.address]) as seen:
        with Session(control) as session:
            written(path, 1, 250)
            copy = session.copy(1)
            seen.wait_for('pnuts_stream_position{stream="east"}', [250.0])
            seen.wait_for("pnuts_up", [1.0])
            seen.wait_for("sum(pnuts_tablet_recovering)", [0.0])
            same("its health", exporter.health(), (200, "well\n"))
            session.told(do="lose", tablet=1)
            seen.wait_for('pnuts_tablet_recovering == 1', [1.0])
            same("its health", exporter.health(), (503, "tablet 1 is recovering\n"))
            with Publisher(path) as publisher:
                publisher.begin()
                publisher.send(b"x\n")
                publisher.last_lines()
            seen.wait_for_alerts("PnutsTabletRecovering", "PnutsStreamWithoutWriter")
            same("the adoption", session.ask(adoption(copy)), b'{"adopted":1}\n')
            seen.wait_for("sum(pnuts_tablet_recovering)", [0.0])
            session.told(do="stop")
        same("its status", region.process.wait(timeout=SECONDS), 0)
        seen.wait_for("pnuts_up", [0.0])
        seen.wait_for_alerts("PnutsDown")
        same("its health", exporter.health()[0], 503)
        with region_in(folder, program) as (again, _, _):
            # The exporter is still there when it ends.
            again.is_looked_at = False
            seen.wait_for("pnuts_up", [1.0])
            seen.wait_for_alerts("PnutsStreamWithoutWriter")
            same("its health", exporter.health(), (200, "well\n"))


def check_metrics(program: str, folder: str) -> None:
    """The metrics have the values of `stats`, and `/healthz` says which stream is silent."""
    with region_in(folder, program) as (region, control, path), Exporter(control, "--silence", "0") as exporter, Session(control) as session:
        written(path, 1, 250)
        with socket.create_connection(("127.0.0.1", region.port)) as client:
            client.sendall(b'{"do":"read","key":"k001"}\nx\n')
            until("both are answered", lambda: session.told(do="stats")["lines"]["answered"] == 2)
            found, stats = exporter.metrics(), session.told(do="stats")
            (stream,) = stats["streams"]
            wanted = {"pnuts_up": 1, "pnuts_connections_open": 1, "pnuts_connections_accepted_total": 1, "pnuts_lines_answered_total": 2,
                      "pnuts_lines_refused_total": 1, "pnuts_rounds_total": stats["rounds"], 'pnuts_stream_messages_total{stream="east"}': 250,
                      'pnuts_stream_bytes_total{stream="east"}': stream["bytes"], 'pnuts_stream_state{state="failed",stream="east"}': 0,
                      'pnuts_info{version="%s"}' % stats["version"]: 1, "pnuts_unread_limit_bytes": 64_000_000, "pnuts_unread_ended_total": 0,
                      'pnuts_tablet_recovering{tablet="2"}': 0}
            for kind, it in stats["lines"].get("kinds", {}).items():
                wanted |= {f'pnuts_kind_lines_{name}_total{{kind="{kind}"}}': count for name, count in it.items()}
            for number, it in enumerate(stats.get("tablets", [])):
                wanted |= {f'pnuts_tablet_{name}{{tablet="{number}"}}': count for name, count in it.items()}
            for name, it in (("line", stats["times"]["lines"]), ("round", stats["times"]["rounds"])):
                wanted |= {f"pnuts_{name}_seconds_count": it["count"], f"pnuts_{name}_seconds_sum": it["total"] / 1e6,
                           f'pnuts_{name}_seconds_bucket{{le="+Inf"}}': it["count"]}
            same("its metrics", {name: found.get(name) for name in wanted}, wanted)
        until("its stream is silent", lambda: exporter.health()[0] == 503)
        same("what is wrong", exporter.health()[1].startswith("stream east brought nothing for "), True)


def check_lag_that_publishers_tell(program: str, folder: str) -> None:
    """A region lags by what its publisher says of the broker, and no longer once it has that; before the publisher says it nothing is known."""
    with region_in(folder, program) as (_, control, path), Exporter(control) as exporter, Publisher(path) as publisher:
        publisher.begin()
        same("before it says anything", exporter.health("?lag=5"), (503, "stream east has no feed that tells how far its broker is\n"))
        publisher.send(b'{"stream":"a"}\n{"newest":3}\n' + messages(1, 3))
        until("it is level", lambda: exporter.health("?lag=5") == (200, "well\n"))
        same("its lag", [exporter.metrics()[f'pnuts_stream_{it}{{stream="east"}}'] for it in ("newest", "lag_messages", "position")], [3, 0, 3])
        publisher.send(b'{"newest":10}\n')
        until("it lags", lambda: exporter.health("?lag=1")[1].startswith("stream east lags for "))
        same("by how much", exporter.metrics()['pnuts_stream_lag_messages{stream="east"}'], 7)
        same("without a word", exporter.health(), (200, "well\n"))
        publisher.send(messages(4, 7) + b'{"newest":10}\n')
        until("it is level again", lambda: exporter.health("?lag=1") == (200, "well\n"))


def check_exporter_beside_silent_clients(program: str, folder: str) -> None:
    """Clients of an exporter that send nothing hold up no scrape, and a region that does not answer holds it up for a time only."""
    with region_in(folder, program) as (region, control, _), Exporter(control) as exporter, contextlib.ExitStack() as stack:
        host, _, port = exporter.address.partition(":")
        idle = seconds_of(exporter.metrics)
        for _ in range(12):
            stack.enter_context(socket.create_connection((host, int(port))))
        for is_up, signalled, least in ((1.0, signal.SIGCONT, 5.0), (0.0, signal.SIGSTOP, 30.0)):
            region.process.send_signal(signalled)
            took = seconds_of(lambda: same("up", exporter.metrics()["pnuts_up"], is_up))
            in_time("a scrape", took, least, idle)
        region.process.send_signal(signal.SIGCONT)
        until("it answers again", lambda: exporter.metrics()["pnuts_up"] == 1.0)
        exporter.process.send_signal(signal.SIGTERM)
        same("it ends by a signal", exporter.process.wait(timeout=SECONDS), -signal.SIGTERM)


def check_rules(program: str, folder: str) -> None:
    """`promtool` takes the file of alerts, and each alert fires when it should, and not before; a rule that is wrong is found."""
    tests, rules = (FOLDER / "pnuts.tests.yml").read_text(encoding="utf-8"), RULES.read_text(encoding="utf-8")
    names = ALERT.findall(rules)
    same("the alerts that are tested", re.findall(r"^ {6}- alertname: (\w+)", tests, re.MULTILINE), names)
    same("what promtool says", promtool(folder, rules, tests), (0, 1))
    wrong = {" == 0": " == 5", "> 30": "> 30000", "for: 1m": "for: 9m", "for: 5m": "for: 0m", "> 0.65": "> 0.4", "> 3600": "> 60", " unless": " and", " unless on (instance, stream) pnuts_feed_age": " or on (instance, stream) pnuts_feed_age", "> 2": "> 1"}
    for right, other in wrong.items():
        same(f"whether {right} is in the rules", right in rules, True)
        same(f"what promtool says where {other} is in its place", promtool(folder, rules.replace(right, other), tests)[0], 1)


def promtool(folder: str, rules: str, tests: str) -> tuple[int, int]:
    """The status of promtool over a file of rules and one of tests, and how many files it finds right."""
    for name, text in (("pnuts.rules.yml", rules), ("pnuts.tests.yml", tests)):
        with open(os.path.join(folder, name), "w", encoding="utf-8") as file:
            file.write(text)
    ran = subprocess.run(["promtool", "test", "rules", f"{folder}/pnuts.tests.yml"], capture_output=True, text=True)
    return ran.returncode, ran.stdout.count("SUCCESS")


def figures(folder: str, **told: float | None) -> None:
    """Writes the figures of the feed of the stream `east`."""
    path = os.path.join(folder, "east.json")
    with open(f"{path}.new", "w", encoding="utf-8") as file:
        json.dump(told, file)
    os.rename(f"{path}.new", path)


def check_lag(program: str, folder: str) -> None:
    """Lag is shown in messages and seconds, `/healthz` looks at it where it is told to, and a dead feed is shown as gone."""
    feeds, copies = os.path.join(folder, "feeds"), os.path.join(folder, "copies")
    os.mkdir(feeds)
    words = ("--feeds", feeds, "--copies", copies)
    with region_in(folder, program) as (_, control, path), Exporter(control, *words) as exporter:
        written(path, 1, 250)
        until("the region has all", lambda: exporter.metrics()['pnuts_stream_position{stream="east"}'] == 250)
        same("the age of no copies", exporter.metrics()["pnuts_copies_age_seconds"], float("inf"))
        same("whether a lag is shown", [it for it in exporter.metrics() if "lag" in it], [])
        same("its health", exporter.health(), (200, "well\n"))
        same("its health by a word", exporter.health("?lag=5"), (503, "stream east has no feed that tells how far its broker is\n"))
        now = time.time()
        open(copies, "w").close()
        figures(feeds, at=now, heard=now, level=now - 100, newest=300, taken=250)
        found = exporter.metrics()
        same("the lag in messages", found['pnuts_stream_lag_messages{stream="east"}'], 50)
        same("whether the lag in seconds is some 100", 99 < found['pnuts_stream_lag_seconds{stream="east"}'] < 160, True)
        same("whether copies are young", 0 <= found["pnuts_copies_age_seconds"] < 60, True)
        for query, status in (("", 200), ("?lag=1000", 200), ("?lag=50", 503), ("?lag=x", 400), ("?lag=-1", 400), ("?lag=nan", 400), ("?lags=5", 400), ("?", 200)):
            same(f"the health by {query}", exporter.health(query)[0], status)
        figures(feeds, at=now - 60, heard=now - 60, level=now - 60, newest=250, taken=250)
        same("the health of a dead feed", "has a feed that last told something" in exporter.health("?lag=1000")[1], True)
        until("its page shows it", lambda: "gone" in answered(f"http://{exporter.address}/")[1])
    with region_in(folder, program) as (_, control, path), Exporter(control, *words, "--lag", "1000") as exporter:
        same("its health, by its words", exporter.health()[0], 503)


def check_health_of_a_stream_that_failed(program: str, folder: str) -> None:
    """A region whose stream has failed is asked on, as the message fails in all others too: `/healthz` says it, and is 200."""
    with region_in(folder, program) as (_, control, path), Exporter(control) as exporter:
        written(path, 1, 250)
        with Publisher(path) as publisher:
            publisher.begin()
            publisher.send(b"x\n")
            publisher.last_lines()
        until("its health says it", lambda: exporter.health() == (200, "stream east has failed: not-json\n"))


def queries() -> Iterator[str]:
    """What the dashboard asks Prometheus for, in all of its panels and variables."""
    dashboard = json.loads((FOLDER / "pnuts.dashboard.json").read_text(encoding="utf-8"))
    asked = [target["expr"] for panel in dashboard["panels"] for target in panel["targets"]]
    asked += [it["expr"] for it in dashboard["annotations"]["list"]]
    for it in dashboard["templating"]["list"]:
        if it["type"] == "query":
            metric, label = re.fullmatch(r"label_values\((\w+), (\w+)\)", it["query"]["query"]).groups()  # type: ignore[union-attr]
            asked.append(f"count by ({label}) ({metric})")
    for text in asked:
        for name, value in OPEN.items():
            text = text.replace(name, value)
        yield text


def check_dashboard(program: str, folder: str) -> None:
    """Each query of the dashboard has an answer of a Prometheus that scrapes a region."""
    feeds = os.path.join(folder, "feeds")
    os.mkdir(feeds)
    with region_in(folder, program) as (region, control, path), Exporter(control, "--feeds", feeds, "--copies", path) as exporter:
        written(path, 1, 250)
        figures(feeds, at=time.time(), heard=time.time(), level=time.time(), newest=250, taken=250)
        with Client(region.port) as client, Prometheus(folder, [exporter.address]) as seen:
            for key in ("k001", "k002"):
                client.read(key)
            asked = [*queries()]
            same("whether there are enough queries", len(asked) > 20, True)
            seen.wait_for("count_over_time(pnuts_rounds_total[1m]) > bool 2", [1.0])
            for text in asked:
                same(f"whether {text} is understood", isinstance(seen.query(text), list), True)
                if not text.startswith(QUIET):
                    until(f"{text} has an answer", lambda: seen.query(text) != [])


def text_of(page: Browser) -> str:
    """The text that is seen."""
    return str(page.value("document.body.innerText"))


def wait_for(page: Browser, *texts: str) -> None:
    try:
        until(f"the page shows {texts}", lambda: all(it in text_of(page) for it in texts))
    except TimeoutError as fault:
        raise TimeoutError(f"{fault}: {text_of(page)!r}") from fault


@needs("chromium", "chromedriver", modules=("selenium",))
def check_page(program: str, folder: str) -> None:
    """The page shows what a region does, escaped, as it goes on; remembers it; asks nothing of others; and is readable on a phone and in the dark."""
    with region_in(folder, program, name=NASTY) as (region, control, path), Exporter(control) as exporter, Browser(folder) as page:
        written(path, 1, 250)
        page.look(DESK, "light")
        page.open(f"http://{exporter.address}/")
        wait_for(page, "well", "east", "250", NASTY)
        same("elements of a stream's path", page.value('document.querySelectorAll("td i, td b").length'), 0)
        page.value("window.kept = 1")
        with Session(control) as session, Client(region.port) as client:
            client.read("k001")
            written(path, 251, 1_000)
            session.told(do="lose", tablet=1)
            wait_for(page, "1,250", "tablet 1 is recovering", "1 open, 1 accepted")
        same("whether it is the page that was opened", page.value("window.kept"), 1)
        until("its pictures have five values", lambda: int(str(page.value(VALUES))) >= 5)
        page.open(f"http://{exporter.address}/")
        same("whether a reload remembers them", int(str(page.value(VALUES))) >= 5, True)
        look_at(page)
        same("addresses elsewhere", [it for it in page.asked() if not re.match(rf"http://{exporter.address}/|data:", it)], [])
        same("what the browser complains of", page.faults(), [])
        region.process.kill()
        wait_for(page, "wrong", "Below is what it said")
        exporter.process.kill()
        wait_for(page, "The exporter does not answer")


def look_at(page: Browser) -> None:
    """Nothing is wider than the screen, and all text is large and clear enough; light and dark differ."""
    grounds = set()
    for width in (PHONE, DESK):
        for scheme in ("light", "dark"):
            page.look(width, scheme)
            same(f"the width at {width}", page.value(f"document.documentElement.scrollWidth <= {width}"), True)
            contrast, size = page.value(CONTRAST)
            same(f"the contrast and the size of texts at {width}, {scheme}: {contrast:.1f}, {size:.1f}", (contrast >= 4.5, size >= 12), (True, True))
            grounds.add(page.value("getComputedStyle(document.body).backgroundColor"))
    same("the colours behind it", len(grounds), 2)
