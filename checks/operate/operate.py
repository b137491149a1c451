"""Does what docs/running.md says to do where something is lost or changed, as it stands there, and looks at readers and alerts meanwhile.

  checks/run operate PROGRAM [CHECK ..]

Two machines have a region each, with the services of the packages; a third takes the place of one that is lost. Redis, HAProxy with the
file of examples/proxy, Prometheus with the alerts of packaging/prometheus, and PostgreSQL are real. Each machine is a namespace, in which
the units of packaging/systemd are run without systemd. All of it ends with this check. It shows for each runbook how many reads were
answered and failed, what alerted and after how long, and how long the runbook took.

Needs root, and Debian's redis-server, haproxy, prometheus, socat, curl, iproute2, python3-redis and python3-prometheus-client; for the
database postgresql and python3-psycopg2. It is skipped without. Exit status 0 where each runbook helps, no read fails, and the alerts come.
"""
from __future__ import annotations

import contextlib
import subprocess
import threading
import time
from collections.abc import Callable, Iterator
from dataclasses import dataclass
from pathlib import Path

from common.crates import TOP
from common.served import same
from common.tried import FAULTS, program_parser
from operate import database
from operate.machines import HOME, HUB, Machine, apart, ask, configure, is_apart, lacking, prepare, run, shell, started, until
from operate.runbooks import Part, runbook
from operate.traffic import KEYS, Publisher, Readers, Redis, image, is_served
from serving.exporting import Prometheus

PORT, PROXY = 6379, f"{HUB}:7443"
FIRST = 400
# The position of the message that no region takes, which the document names.
POISON = 1_501
# Alerts that are waited for until they fire; others only begin to count, for a longer time than a check takes.
FIRES = {"PnutsFeedGone", "PnutsLag", "PnutsExporterDown"}
PATIENCE = 300.0
# How often, in seconds, Prometheus scrapes: a busy machine may take some for an answer.
SCRAPED = 5


@dataclass
class Site:
    """Two machines and what is around them."""

    machines: dict[str, Machine]
    publisher: Publisher
    readers: Readers
    seen: Prometheus

    def machine(self, number: int) -> Machine:
        return self.machines[f"10.0.0.{number}"]

    def do(self, parts: list[Part], usual: str = "") -> str:
        """Does a runbook, each part at its places. What it writes."""
        said = ""
        for part in parts:
            for place in part.places or [usual]:
                machine = self.machines.get(place)
                said += machine.run(part.script) if machine else run(*shell(part.script))
        return said

    def position(self, machine: Machine) -> int:
        with contextlib.suppress(OSError, ValueError, KeyError, IndexError, TypeError):
            return int(ask(machine, do="stats")["streams"][0]["position"])
        return -1

    def is_level(self) -> bool:
        """Whether all regions have what was published before they are asked."""
        count = self.publisher.count
        return all(self.position(it) >= count for it in self.machines.values())

    def alert(self, name: str, since: float) -> str:
        """Waits until an alert fires, or counts. What is to be said of it."""
        state = "firing" if name in FIRES else "pending"
        until(f"{name} is {state}", lambda: self.state_of(name) in (state, "firing"), PATIENCE)
        return f"{name} {'fired' if self.state_of(name) == 'firing' else 'counts'} after {time.monotonic() - since:.0f} s"

    def firing(self) -> set[str]:
        """The alerts that fire, but for that of starts anew: a check has more of them than a quarter of an hour should."""
        return {name for name, state in self.seen.states().items() if state == "firing" and name != "PnutsRestarts"}

    def state_of(self, name: str) -> str | None:
        return self.seen.states().get(name)


@contextlib.contextmanager
def told(site: Site, name: str) -> Iterator[list[str]]:
    """Shows what readers saw until the block ends. No read may fail, and nobody may be shown less than before."""
    words: list[str] = []
    site.readers.begin()
    start = time.monotonic()
    yield words
    time.sleep(1)
    print(f"{name} ({time.monotonic() - start:.0f} s): {'; '.join(words)}", flush=True)
    for kind, readers in site.readers.kinds.items():
        reads, recovering, failed = (sum(it) for it in zip(*((it.reads, it.recovering, len(it.failed)) for it in readers)))
        older = [line for it in readers for line in it.older]
        silence = max(max(it.silence, time.monotonic() - it.last) for it in readers)
        aside = f", {recovering:,} told that the tablet is recovering" if recovering else ""
        print(f"  readers {kind}: {reads:,} answered, {failed} failed{aside}, longest silence {silence:.1f} s", flush=True)
        same(f"reads that failed, {kind}: {[line for it in readers for line in it.failed][:3]}", failed, 0)
        same(f"reads that were shown less than before, {kind}", older[:3], [])
        same(f"whether reads went on, {kind}", reads > 0, True)
        if kind != "by the proxy":
            same("reads that were told of a lost tablet", recovering, 0)


def check_feed(site: Site) -> None:
    """A feed that is killed comes back by itself; one that stays away is shown as gone, alerts, and goes on by the runbook."""
    with told(site, "a feed is gone") as words:
        machine = site.machine(2)
        start = time.monotonic()
        machine.run("systemctl kill --signal=KILL pnuts-feed@east")
        site.publisher.add(KEYS[0])
        until("the region has all again", site.is_level)
        words.append(f"killed, it was back after {time.monotonic() - start:.1f} s")
        start = time.monotonic()
        machine.run("systemctl stop pnuts-feed@east")
        words.append(site.alert("PnutsFeedGone", start))
        status = subprocess.run(["curl", "--silent", f"http://{machine.address}:9107/healthz?lag=5"], capture_output=True, text=True).stdout
        same("its health by lag", "has a feed that last told something" in status, True)
        words.append(site.alert("PnutsLag", start))
        start = time.monotonic()
        site.do(runbook("A feed is gone"))
        until("the region has all again", site.is_level)
        words.append(f"by the runbook it had all after {time.monotonic() - start:.1f} s")
        until("no alert is left", lambda: not site.seen.states().keys() - {"PnutsRestarts"})


def check_poison(site: Site) -> None:
    """A message that no region takes ends all feeds and alerts; by the runbook an image is given instead, and all goes on."""
    if site.publisher.count >= POISON - 1:
        raise AssertionError(f"the stream has {site.publisher.count} messages before position {POISON}: give this check alone, or first")
    with told(site, "a message that no region takes") as words:
        site.publisher.rests.set()
        with site.publisher.lock:
            while site.publisher.count < POISON - 1:
                site.publisher.add_body(image("k399", -1 + site.publisher.count))
            same("the position of the message", site.publisher.add_body(b'{"fields":{"text":[]},"key":"k007","master":"w","version":[9,1]}'), POISON)
        start = time.monotonic()
        site.publisher.rests.clear()
        words.append(site.alert("PnutsLag", start))
        words.append("states: " + ", ".join(sorted(site.seen.states())))
        for machine in site.machines.values():
            same("what the feed says", f'refuses position {POISON}, entry' in machine.journal("pnuts-feed@east"), True)
            same("how far the region is", site.position(machine), POISON - 1)
        start = time.monotonic()
        site.do(runbook("A message that no region takes"))
        until("the regions have all again", site.is_level)
        given = [it.journal("pnuts-feed@east").count("pnuts-east.instead is given instead") for it in site.machines.values()]
        same("how often feeds say that an image is given instead", given, [1, 1])
        words.append(f"by the runbook they had all after {time.monotonic() - start:.1f} s")
        until("no alert is left", lambda: not site.seen.states().keys() - {"PnutsRestarts"})


def check_tablet(site: Site) -> None:
    """A tablet is lost, and recovered from the other region."""
    if len(ask(site.machine(2), do="tablets")["tablets"]) == 1:
        site.do(runbook("More tablets"))
    with told(site, "a tablet is lost") as words:
        start = time.monotonic()
        same("the loss", ask(site.machine(2), do="lose", tablet=2), {"lost": 2})
        words.append(site.alert("PnutsTabletRecovering", start))
        start = time.monotonic()
        site.do(runbook("A tablet is lost"))
        words.append(f"by the runbook it served after {time.monotonic() - start:.1f} s")
        until("no alert is left", lambda: not site.seen.states().keys() - {"PnutsRestarts"})


def check_upgrade(site: Site) -> None:
    """Both machines are upgraded by the runbook, one after another."""
    with told(site, "upgrade") as words:
        for parts in (runbook("Upgrade"), [it._replace(places=[of_other(place) for place in it.places], script=of_other(it.script)) for it in runbook("Upgrade")]):
            start = time.monotonic()
            site.do(parts)
            words.append(f"a machine took {time.monotonic() - start:.1f} s")
        same("alerts", site.firing(), set())
        until("the regions have all", site.is_level)


def of_other(text: str) -> str:
    """A text for the second machine, where it is for the first."""
    return text.replace("10.0.0.2", "10.0.0.3").replace("regions/one", "regions/two")


def check_machine(site: Site) -> None:
    """A machine is lost with all that it had; a new one of its address starts from the other's copies."""
    with told(site, "a machine is lost") as words:
        start = time.monotonic()
        site.machines.pop("10.0.0.2").lose()
        words.append(site.alert("PnutsExporterDown", start))
        new = Machine(2)
        configure(new, "redis-stream", f"--url redis://{HUB}:{PORT}/0 east")
        site.machines["10.0.0.2"] = new
        for path in ("/etc/default/pnuts-feed-east", "/etc/default/pnuts-east.instead"):
            with contextlib.suppress(FileNotFoundError):
                new.write(path, Path(site.machine(3).path(path)).read_text(encoding="utf-8"))
        start = time.monotonic()
        site.do(runbook("Start"), "10.0.0.2")
        until("the regions have all", site.is_level)
        words.append(f"by the runbook the new one had all after {time.monotonic() - start:.1f} s")
        until("no alert is left", lambda: not site.seen.states().keys() - {"PnutsRestarts"})


def check_tablets(site: Site) -> None:
    """Both regions go from one tablet to eight."""
    same("how many tablets there are", [len(ask(it, do="tablets")["tablets"]) for it in site.machines.values()], [1, 1])
    with told(site, "more tablets") as words:
        start = time.monotonic()
        site.do(runbook("More tablets"))
        until("the regions have all", site.is_level)
        layouts = [[it["from"] for it in ask(machine, do="tablets")["tablets"]] for machine in site.machines.values()]
        same("the layouts", (len(layouts[0]), layouts[0] == layouts[1]), (8, True))
        words.append(f"the runbook took {time.monotonic() - start:.1f} s")
        same("alerts", site.firing(), set())


def check_wrong(site: Site) -> None:
    """A feed whose words name another, longer stream gives nothing of it, ends, and alerts; its words are mended, and all goes on."""
    with told(site, "a feed of another stream") as words:
        machine, redis = site.machine(2), Redis(HUB, PORT)
        for number in range(site.publisher.count + 2_000):
            redis.do("XADD", "west", "*", "image", image("wrong", number))
        start = time.monotonic()
        machine.run("sed -i 's| east\"$| west\"|' /etc/default/pnuts-feed-east && systemctl restart pnuts-feed@east")
        until("the feed ends", lambda: "and this one reads redis-stream west" in machine.journal("pnuts-feed@east"))
        words.append(f"it ended after {time.monotonic() - start:.1f} s")
        words.append(site.alert("PnutsFeedGone", start))
        same("what the region has of the other stream", ask(machine, do="read", key="wrong"), {"row": None})
        machine.run("sed -i 's| west\"$| east\"|' /etc/default/pnuts-feed-east")
        start = time.monotonic()
        site.do(runbook("A feed is gone"))
        until("the region has all again", site.is_level)
        words.append(f"with its own words it had all after {time.monotonic() - start:.1f} s")
        until("no alert is left", lambda: not site.seen.states().keys() - {"PnutsRestarts"})


def check_files(site: Site) -> None:
    """Copies that the timer's service saves are the service's own, also after root has saved them."""
    with told(site, "files of copies") as words:
        for machine in site.machines.values():
            machine.run("systemctl start pnuts-save")
            machine.run("pnuts-ctl save /var/lib/pnuts/copies")
            same("its owner and mode", machine.run("stat --format='%U:%G %a' /var/lib/pnuts/copies").strip(), "pnuts:pnuts 640")
        words.append("owner and mode stay where root saves")


def check_database(site: Site) -> None:
    """A row that no region takes is mended in PostgreSQL by the runbook, and the feed goes on by itself."""
    if missing := database.lacking():
        print(f"database: skipped, for the machine lacks {', '.join(missing)}", flush=True)
        return
    with database.served() as machine, told(site, "a row that no region takes") as words:
        database.add(POISON - 1)
        until("the region has all", lambda: site.position(machine) == POISON - 1)
        database.add_poison()
        until("the feed says it", lambda: f"refuses position {POISON}, the row of xid " in machine.journal("pnuts-feed@west"))
        same("whether it names the row", f", id {POISON} of the table outbox" in machine.journal("pnuts-feed@west"), True)
        database.add(10)
        start = time.monotonic()
        site.do(runbook("A message that no region takes", 1))
        until("the region has all", lambda: site.position(machine) == POISON + 10)
        words.append(f"by the runbook it had all after {time.monotonic() - start:.1f} s")


CHECKS: dict[str, Callable[[Site], None]] = {
    "poison": check_poison, "feed": check_feed, "wrong": check_wrong, "files": check_files, "tablets": check_tablets, "tablet": check_tablet, "upgrade": check_upgrade,
    "machine": check_machine, "database": check_database}


def lose_all(machines: dict[str, Machine]) -> None:
    for it in machines.values():
        it.lose()


@contextlib.contextmanager
def site(program: str) -> Iterator[Site]:
    """All that is there before something is lost."""
    prepare(program)
    with contextlib.ExitStack() as stack:
        stack.enter_context(started("redis", ["redis-server", "--bind", HUB, "--port", str(PORT), "--protected-mode", "no", "--save", "", "--dir", str(HOME)]))
        until("Redis answers", lambda: subprocess.run(["redis-cli", "-h", HUB, "PING"], capture_output=True).stdout == b"PONG\n")
        publisher = Publisher(Redis(HUB, PORT))
        for number in range(FIRST):
            publisher.add(KEYS[number % len(KEYS)])
        machines = {f"10.0.0.{number}": Machine(number) for number in (2, 3)}
        stack.callback(lose_all, machines)
        for machine in machines.values():
            configure(machine, "redis-stream", f"--url redis://{HUB}:{PORT}/0 east")
            machine.run("systemctl enable --now pnuts pnuts-feed@east pnuts-exporter pnuts-save.timer")
        regions = {f"PNUTS_REGION_{at}": f"{address}:7070" for at, address in enumerate(machines, start=1)}
        proxy = ["haproxy", "-db", "-f", str(TOP / "examples/proxy/haproxy.cfg")]
        stack.enter_context(started("haproxy", proxy, {"PNUTS_PROXY_LISTEN": PROXY, **regions}))
        folder = HOME / "prometheus"
        folder.mkdir()
        seen = stack.enter_context(Prometheus(str(folder), [f"{address}:9107" for address in machines], SCRAPED))
        readers = Readers(f"tcp://{PROXY}", [f"tcp://{address}:7070" for address in machines])
        found = Site(machines, publisher, readers, seen)
        until("the regions have all", found.is_level)
        until("the proxy has a region", lambda: is_served(f"tcp://{PROXY}"))
        stack.enter_context(readers)
        threading.Thread(target=publisher.run, daemon=True).start()
        stack.callback(publisher.over.set)
        yield found


def within(program: str, names: list[str]) -> int:
    """The checks, where all is apart. The status."""
    failed = 0
    with site(program) as found:
        for name in names:
            try:
                CHECKS[name](found)
            except FAULTS as fault:
                failed += 1
                print(f"{name}: WRONG: {fault}", flush=True)
                break
    return 1 if failed else 0


def main(words: list[str]) -> int:
    parser = program_parser(__doc__)
    parser.add_argument("names", metavar="CHECK", nargs="*", help=f"the checks that are tried, of {', '.join(CHECKS)}; all without any")
    given = parser.parse_args(words)
    if unknown := [it for it in given.names if it not in CHECKS]:
        print(f"there is no check {', '.join(unknown)}; there are {', '.join(CHECKS)}")
        return 2
    if missing := lacking():
        print(f"operate: skipped, for the machine lacks {', '.join(missing)}")
        return 0
    return within(given.program, given.names or [*CHECKS]) if is_apart() else apart([given.program, *given.names])
