"""A Chromium without a screen, which Debian's python3-selenium and chromium-driver tell what to do."""
import base64
import json
import re
import shutil
from typing import Any

from common.served import SECONDS, Json

BROWSER, DRIVER = "chromium", "chromedriver"
# It has nothing to fetch by itself, and its memory is not that of /dev/shm, which is small in containers.
WORDS = ("--headless", "--no-sandbox", "--disable-gpu", "--disable-dev-shm-usage", "--disable-background-networking", "--disable-component-update",
         "--disable-sync", "--no-first-run", "--hide-scrollbars")
# It begins with an empty page, and none of its own.
START = {"session.restore_on_startup": 4, "session.startup_urls": ["about:blank"]}
# What is kept: what the page's scripts say and what goes wrong there, and what it asks for.
LOGS = {"browser": "ALL", "performance": "ALL"}
# A text that a page's script says, after where.
SAID = re.compile(r'\S+ \S+ "(.*)"')


class Browser:
    """A browser with one page, until the block ends."""

    def __init__(self, folder: str) -> None:
        from selenium.webdriver import Chrome, ChromeOptions
        from selenium.webdriver.chrome.service import Service
        options = ChromeOptions()
        for word in (*WORDS, f"--user-data-dir={folder}/browser"):
            options.add_argument(word)
        options.binary_location = shutil.which(BROWSER)
        options.set_capability("goog:loggingPrefs", LOGS)
        options.add_experimental_option("prefs", START)
        self.driver = Chrome(service=Service(shutil.which(DRIVER), log_path=f"{folder}/browser-said"), options=options)
        self.driver.set_page_load_timeout(SECONDS)
        self._logged: dict[str, list[Json]] = {name: [] for name in LOGS}

    def __enter__(self) -> "Browser":
        return self

    def __exit__(self, *_: object) -> None:
        self.driver.quit()

    def open(self, url: str) -> None:
        """Goes to an address, also where the page is there already, and waits until all of it is loaded."""
        self.driver.get(url)

    def value(self, script: str) -> Any:
        """What an expression is in the page."""
        found = self.driver.execute_cdp_cmd("Runtime.evaluate", {"expression": script, "returnByValue": True, "awaitPromise": True})
        if "exceptionDetails" in found:
            raise AssertionError(f"{script}: {found['exceptionDetails']}")
        return found["result"].get("value")

    def look(self, width: int, scheme: str, scale: float = 1.0) -> None:
        """Shows the page at a width, in the scheme of colours `light` or `dark`."""
        size = {"width": width, "height": 800, "deviceScaleFactor": scale, "mobile": width < 600}
        self.driver.execute_cdp_cmd("Emulation.setDeviceMetricsOverride", size)
        self.driver.execute_cdp_cmd("Emulation.setEmulatedMedia", {"features": [{"name": "prefers-color-scheme", "value": scheme}]})

    def picture(self) -> bytes:
        """The whole page, as PNG."""
        taken = self.driver.execute_cdp_cmd("Page.captureScreenshot", {"format": "png", "captureBeyondViewport": True})
        return base64.b64decode(taken["data"])

    def _log(self, name: str) -> list[Json]:
        """All that is kept so far."""
        self._logged[name] += self.driver.get_log(name)
        return self._logged[name]

    def faults(self) -> list[Json]:
        """What went wrong in the page so far: what its script threw, and what the browser complains of."""
        return [it for it in self._log("browser") if it["level"] == "SEVERE"]

    def said(self) -> list[str]:
        """What the page's scripts say so far."""
        return [found[1] for it in self._log("browser") if it["source"] == "console-api" and (found := SAID.fullmatch(it["message"]))]

    def asked(self) -> list[str]:
        """The addresses that the page has asked for so far."""
        happened = (json.loads(it["message"])["message"] for it in self._log("performance"))
        return [it["params"]["request"]["url"] for it in happened if it["method"] == "Network.requestWillBeSent"]
