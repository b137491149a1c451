"""The page of a region: what it shows, and for how long it remembers; how far streams lag, as feeds tell it, and how old copies are."""

from __future__ import annotations

import copy
import json
import os
import re
import tempfile
import threading
import time
import unittest
from html.parser import HTMLParser
from pathlib import Path
from typing import Any

from pnuts_client import ConnectionFailed, Control, Stats, Tablet, control_requests
from pnuts_client.figures import Beside, Figures, Lag, Levels, lag_of, read_figures
from pnuts_client.history import History, Sample, Seen, View, counts_of
from pnuts_client.page import SECONDS, element, joined, policy, shown_page, sparkline
from pnuts_client.status import lags_of

NASTY = "<i>&\"'</i><script>alert(1)</script>"
REPLY: dict[str, Any] = {
    "bytes": 9_437_184, "connections": {"accepted": 3, "idle": 0, "open": 2, "refused": 0}, "lines": {"answered": 40, "refused": 1},
    "rounds": 7, "uptime": 3_723, "version": "0.3.0",
    "streams": [
        {"bytes": 310, "line": None, "messages": 1_400, "name": "east", "path": NASTY, "position": 1_400, "reason": None, "since": 12, "state": "open"},
        {"bytes": 0, "line": 3, "messages": 0, "name": "west", "path": "w", "position": 0, "reason": NASTY, "since": None, "state": "failed"},
    ],
}
TABLETS = [Tablet({"east": 1_400}, None, NASTY, None), Tablet({"east": 900}, NASTY, None, {"east": 1_400})]


def stats(**changed: Any) -> Stats:
    return control_requests.stats().answer({**copy.deepcopy(REPLY), **changed})


class Tags(HTMLParser):
    """The elements of a page, its texts, and whether each element is closed where it has to be."""

    def __init__(self, page: str) -> None:
        super().__init__()
        self.tags: list[str] = []
        self.texts: list[str] = []
        self.open: list[str] = []
        self.feed(page)

    def handle_starttag(self, tag: str, attrs: object) -> None:
        self.tags.append(tag)
        if tag not in ("meta", "link"):
            self.open.append(tag)

    def handle_endtag(self, tag: str) -> None:
        assert self.open.pop() == tag, tag

    def handle_data(self, data: str) -> None:
        self.texts.append(data)


class Region(Control):
    """A region that answers, or does not."""

    def __init__(self) -> None:
        super().__init__("unix:none")
        self.is_away, self.uptime, self.answered = False, 10, 0

    def stats(self) -> Stats:
        if self.is_away:
            raise ConnectionFailed("it is away")
        return stats(uptime=self.uptime, lines={"answered": self.answered, "refused": 0})

    def tablets(self) -> list[Tablet]:
        return TABLETS


def view(*samples: Sample, fault: str | None = None, **changed: Any) -> View:
    return View(100.0, samples, Seen(100.0, stats(**changed), TABLETS), fault)


class PageTest(unittest.TestCase):
    def test_escapes(self) -> None:
        """No value of a region becomes an element, and each is shown."""
        page = Tags(shown_page(view()).decode())
        self.assertEqual((page.tags.count("i"), page.tags.count("script"), page.open), (0, 1, []))
        for text in (NASTY, f"west: {NASTY}, in line 3 of what its writer sent", f"stream west has failed: {NASTY}"):
            self.assertIn(text, page.texts)
        self.assertEqual(str(element("a", "<", joined(element("b", "&")), class_='"')), '<a class="&quot;">&lt;<b>&amp;</b></a>')

    def test_shows(self) -> None:
        """What is wrong, how far streams are behind, and records of tablets where the region says them."""
        texts = Tags(shown_page(view(Sample(99.0, counts_of(stats())))).decode()).texts
        for text in ("wrong", "tablet 1 is recovering", " needs east 1400", "1,400", "500", "12s ago", "9.0 MB", "Version 0.3.0, up 1h 2m, 7 rounds"):
            self.assertIn(text, texts)
        self.assertNotIn("Records", texts)
        lines = {"answered": 40, "refused": 1, "kinds": {"read": {"answered": 3_001, "refused": 77}}}
        counted = Tags(shown_page(view(tablets=[{"deleted": 5, "records": 1_234}, {"deleted": 0, "records": 0}], lines=lines)).decode()).texts
        for text in ("Records", "1,234", "5", "read", "3,001", "77"):
            self.assertIn(text, counted)
        well = View(0.0, [], Seen(0.0, stats(streams=[]), TABLETS[:1]), None)
        self.assertIn("pnuts: well", Tags(shown_page(well).decode()).texts)
        self.assertIn("stream east brought nothing for 12 seconds", Tags(shown_page(view(), silence=11).decode()).texts)

    def test_is_alone(self) -> None:
        """It names nothing from elsewhere, and allows nothing else."""
        page = shown_page(view()).decode()
        self.assertEqual(re.findall(r'(?:src|href)="([^"]*)"|url\(|@import|https?:', page), ["data:,"])
        self.assertIn("default-src 'none'", policy())

    def test_of_a_region_that_does_not_answer(self) -> None:
        """It says so, and shows what was said last, if anything was."""
        texts = Tags(shown_page(view(fault="it is away")).decode()).texts
        self.assertIn("it is away", texts)
        self.assertIn("Below is what it said 0s ago.", texts)
        self.assertIn("east", texts)
        never = Tags(shown_page(View(0.0, [], None, "it is away")).decode())
        self.assertEqual((never.tags.count("table"), never.texts.count("it is away")), (0, 1))


class HistoryTest(unittest.TestCase):
    def test_rates(self) -> None:
        """They are between samples, and there is none where the region was away or began anew."""
        region = Region()
        history = History(region, kept=4)
        for is_away, uptime, answered in ((True, 0, 0), (False, 10, 0), (False, 11, 50), (False, 1, 7), (True, 2, 9), (False, 3, 9)):
            region.is_away, region.uptime, region.answered = is_away, uptime, answered
            history.take()
            time.sleep(0.01)
        seen = history.view()
        self.assertEqual([value for _, value in seen.values("answered")], [50, 7, None, 9])
        self.assertEqual([value for _, value in seen.rates("answered")], [None, None, None])
        region.uptime, region.answered = 4, 19
        history.take()
        last = history.view().rates("answered")[-1][1]
        assert last is not None
        self.assertTrue(0 < last <= 10 / 0.01)
        self.assertEqual(history.view().fault, None)

    def test_is_bounded(self) -> None:
        history = History(Region(), kept=5)
        for _ in range(20):
            history.take()
        self.assertEqual(len(history.view().samples), 5)

    def test_first_sample_is_waited_for(self) -> None:
        region = Region()
        history = History(region)
        threading.Timer(0.05, history.take).start()
        self.assertEqual(len(history.view().samples), 1)

    def test_pictures(self) -> None:
        """A line is broken where there is no value, and a value alone is a dot."""
        points = [(SECONDS, 0.0), (SECONDS / 2, 4.0), (SECONDS / 4, None), (0.0, 2.0)]
        drawn = sparkline(points, SECONDS, "x<y")
        self.assertIn('d="M0.0 39.0L100.0 1.0M200.0 20.0h.1"', drawn)
        self.assertIn('aria-label="x&lt;y"', drawn)
        self.assertIn('class="line" d=""', sparkline([], SECONDS, ""))
        self.assertEqual(counts_of(stats())["messages of east"], 1_400)


class FiguresTest(unittest.TestCase):
    def setUp(self) -> None:
        folder = tempfile.TemporaryDirectory()
        self.addCleanup(folder.cleanup)
        self.folder = Path(folder.name)

    def write(self, name: str, **figures: object) -> None:
        (self.folder / f"{name}.json").write_text(json.dumps(figures), encoding="utf-8")

    def test_lag(self) -> None:
        behind = Figures(at=99.5, heard=99.0, level=40.0, newest=50)
        self.assertEqual(lag_of(behind, 20, 100.0), Lag(50, 30, 60.0, 0.5, 1.0))
        self.assertEqual(lag_of(behind, 50, 100.0), Lag(50, 0, 1.0, 0.5, 1.0))
        self.assertEqual(lag_of(behind, 70, 100.0), Lag(50, 0, 1.0, 0.5, 1.0))
        self.assertEqual(lag_of(Figures(90.0, None, None, None), 7, 89.0), Lag(None, None, None, 0.0, None))
        self.assertEqual([lag_of(behind, 20, now).is_gone for now in (109.0, 110.0)], [False, True])

    def test_files(self) -> None:
        for text in ("", "{", "[]", "3", "{}", '{"at":"x"}', '{"at":1,"newest":"x"}', '{"at":1,"level":[]}'):
            (self.folder / "east.json").write_text(text, encoding="utf-8")
            self.assertIsNone(read_figures(self.folder / "east.json"), text)
        self.assertIsNone(read_figures(self.folder / "west.json"))
        self.write("east", at=1, heard=2.5, level=None, newest=3, taken=2, more="x")
        self.assertEqual(read_figures(self.folder / "east.json"), Figures(1.0, 2.5, None, 3))
        self.assertEqual([*Beside(self.folder).lags(stats().streams)], ["east"])
        self.assertEqual(Beside().lags(stats().streams), {})

    def test_what_feeds_told_the_region(self) -> None:
        """It comes before what they wrote into files, and a region that is asked again and again is known to lag since it had all."""
        told = copy.deepcopy(REPLY["streams"])
        told[0] |= {"newest": 1_450, "heard": 2, "stream": "redis-stream east"}
        streams = stats(streams=told).streams
        self.assertEqual([(it.stream, it.newest, it.heard) for it in streams], [("redis-stream east", 1_450, 2), (None, None, None)])
        self.write("east", at=1, heard=2.5, level=None, newest=3)
        self.write("west", at=1, heard=2.5, level=None, newest=3)
        lags = Beside(self.folder).lags(streams)
        self.assertEqual((lags["east"].newest, lags["east"].messages, lags["west"].newest), (1_450, 50, 3))
        self.assertAlmostEqual(lags["east"].age, 2, delta=1)
        self.assertAlmostEqual(lags["east"].seconds or 0, 2, delta=1)
        levels = Levels()
        for newest, heard, position, level in (
            (10, 100.0, 10, 100.0), (10, 105.0, 10, 105.0), (20, 110.0, 10, 105.0), (30, 111.0, 19, 105.0), (30, 112.0, 20, 110.0),
            (40, 113.0, 30, 112.0), (3, 114.0, 30, 114.0), (50, 115.0, 30, 114.0),
        ):
            self.assertEqual(levels.see("east", newest, heard, position), level, (newest, heard, position))
        self.assertEqual(levels.see("west", 5, 100.0, 0), 100.0)

    def test_copies(self) -> None:
        path = self.folder / "copies"
        self.assertEqual((Beside(copies=path).copies_age(), Beside().copies_age()), (float("inf"), None))
        path.touch()
        os.utime(path, (time.time() - 50, time.time() - 50))
        self.assertAlmostEqual(Beside(copies=path).copies_age() or 0, 50, delta=10)

    def test_what_is_wrong(self) -> None:
        streams, level = stats().streams, Lag(1_400, 0, 0.4, 0.4, 0.4)
        self.assertEqual(lags_of(streams, {"east": level, "west": level}, 5), [])
        for lag, said in (
            (Lag(1_450, 50, 31.0, 0.4, 0.4), "stream west lags for 31 seconds, by 50 messages"),
            (Lag(1_400, 0, 0.4, 77.0, 77.0), "stream west has a feed that last told something 77 seconds ago"),
            (Lag(None, None, None, 0.4, None), "stream west has a feed that does not know how far its broker is"),
        ):
            self.assertEqual(lags_of(streams, {"east": level, "west": lag}, 30), [said])
        self.assertEqual(lags_of(streams, {"east": level}, 30), ["stream west has no feed that tells how far its broker is"])

    def test_page(self) -> None:
        """It has lags where feeds tell them, and a dead feed is shown as gone."""
        reply = copy.deepcopy(REPLY["streams"])
        plain = View(0.0, [], Seen(0.0, stats(streams=reply[:1]), TABLETS[:1]), None)
        self.assertNotIn("Lag", Tags(shown_page(plain).decode()).texts)
        self.assertIn("pnuts: wrong", Tags(shown_page(plain, lag=5).decode()).texts)
        lags = {"east": Lag(1_999, 599, 3_601.0, 3_600.0, 3_600.0)}
        page = Tags(shown_page(View(0.0, [], Seen(0.0, stats(streams=reply[:1]), TABLETS[:1], lags), None)).decode())
        for text in ("Lag", "gone", "1,999", "599", "1h 0m", "pnuts: wrong", "stream east has a feed that last told something 3600 seconds ago"):
            self.assertIn(text, page.texts)
        self.assertEqual(page.open, [])
        both = Tags(shown_page(View(0.0, [], Seen(0.0, stats(), TABLETS, {"east": Lag(1_400, 0, 0.1, 0.1, 0.1)}), None)).decode())
        self.assertIn("runs", both.texts)
        self.assertNotIn("stream west has no feed that tells how far its broker is", both.texts)


if __name__ == "__main__":
    unittest.main()
