"""The exporter of a region, what it answers, and a Prometheus that scrapes exporters: what the checks of `checks/run exporter` and
`checks/run operate` share."""
import contextlib
import json
import os
import subprocess
import sys
import urllib.error
import urllib.parse
import urllib.request
from collections.abc import Sequence

from common.crates import TOP
from common.parts import needs
from common.served import SECONDS, free_port, same
from serving.staying import until

CLIENT = TOP / "clients/python/src"
NEEDS = needs("prometheus", "promtool", modules=("prometheus_client",))
FOLDER = TOP / "packaging/prometheus"
RULES = FOLDER / "pnuts.rules.yml"


def answered(url: str) -> tuple[int, str]:
    """The status and the text that a page has."""
    try:
        with urllib.request.urlopen(url, timeout=SECONDS) as page:
            return page.status, page.read().decode()
    except urllib.error.HTTPError as fault:
        return fault.code, fault.read().decode()


class Exporter:
    """An exporter of a region's control socket, until the block ends."""

    def __init__(self, control: str, *words: str) -> None:
        self.address = f"127.0.0.1:{free_port()}"
        line = [sys.executable, "-m", "pnuts_client.ctl", "--control", control, "exporter", "--listen", self.address, *words]
        environment = {**os.environ, "PYTHONPATH": str(CLIENT), "PYTHONDONTWRITEBYTECODE": "1"}
        self.process = subprocess.Popen(line, env=environment, stdin=subprocess.DEVNULL)

    def __enter__(self) -> "Exporter":
        until("the exporter answers", self.is_there)
        return self

    def __exit__(self, *_: object) -> None:
        self.process.kill()
        self.process.wait()

    def is_there(self) -> bool:
        with contextlib.suppress(OSError):
            return answered(f"http://{self.address}/none")[0] == 404
        return False

    def health(self, query: str = "") -> tuple[int, str]:
        return answered(f"http://{self.address}/healthz{query}")

    def metrics(self) -> dict[str, float]:
        """The values of all metrics, by their names with labels."""
        status, text = answered(f"http://{self.address}/metrics")
        same("the status of metrics", status, 200)
        lines = (line.rpartition(" ") for line in text.splitlines() if not line.startswith("#"))
        return {name: float(value) for name, _, value in lines}


class Prometheus:
    """A Prometheus that scrapes exporters at this interval and knows the alerts, until the block ends.

    A scrape that takes longer is none, and an alert begins to count anew.
    """

    def __init__(self, folder: str, addresses: Sequence[str], seconds: int = 1) -> None:
        self.url = f"http://127.0.0.1:{free_port()}"
        scrape = {"job_name": "pnuts", "static_configs": [{"targets": list(addresses)}]}
        told = {"global": {"evaluation_interval": "1s", "scrape_interval": f"{seconds}s", "scrape_timeout": f"{seconds}s"}, "rule_files": [str(RULES)], "scrape_configs": [scrape]}
        path = os.path.join(folder, "prometheus.yml")
        with open(path, "w", encoding="utf-8") as file:
            json.dump(told, file)
        words = [f"--config.file={path}", f"--storage.tsdb.path={folder}/data", f"--web.listen-address={self.url.removeprefix('http://')}"]
        with open(f"{folder}/prometheus-said", "wb") as said:
            self.process = subprocess.Popen(["prometheus", *words], stdin=subprocess.DEVNULL, stdout=said, stderr=said)

    def __enter__(self) -> "Prometheus":
        until("Prometheus is ready", self.is_ready)
        return self

    def __exit__(self, *_: object) -> None:
        self.process.terminate()
        self.process.wait(SECONDS)

    def is_ready(self) -> bool:
        with contextlib.suppress(OSError):
            return answered(f"{self.url}/-/ready")[0] == 200
        return False

    def query(self, text: str) -> list[float]:
        """The values that an expression has now."""
        told = json.loads(answered(f"{self.url}/api/v1/query?{urllib.parse.urlencode({'query': text})}")[1])
        return [float(it["value"][1]) for it in told["data"]["result"]]

    def wait_for(self, text: str, values: list[float]) -> None:
        until(f"{text} is {values}", lambda: self.query(text) == values)

    def alerts(self) -> set[str]:
        """The alerts that fire, or will once they have held for long enough."""
        return {it["labels"]["alertname"] for it in json.loads(answered(f"{self.url}/api/v1/alerts")[1])["data"]["alerts"]}

    def states(self) -> dict[str, str]:
        """The alerts that fire (`firing`), or will (`pending`)."""
        alerts = json.loads(answered(f"{self.url}/api/v1/alerts")[1])["data"]["alerts"]
        return {it["labels"]["alertname"]: it["state"] for it in sorted(alerts, key=lambda it: str(it["state"]), reverse=True)}

    def wait_for_alerts(self, *names: str) -> None:
        until(f"the alerts are {names}", lambda: self.alerts() == set(names))
