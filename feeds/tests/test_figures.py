"""The figures of a feed: how far its broker and its region are, and since when the region lags."""

from __future__ import annotations

import io
import json
import tempfile
import time
import unittest
from contextlib import redirect_stderr
from pathlib import Path
from typing import Any
from unittest.mock import patch

from feed.figures import MOST, Figures
from feed.running import run
from feed.sockets import RegionSocket

from .support import Region, wait_until
from .test_sockets import FakeBroker


# A file of which nothing is known.
NONE: dict[str, Any] = dict.fromkeys(("heard", "last", "level", "newest", "stream", "taken"))


class Lag(unittest.TestCase):
    """Figures at times that a test says."""

    def setUp(self) -> None:
        folder = tempfile.TemporaryDirectory()
        self.addCleanup(folder.cleanup)
        self.path = Path(folder.name, "east.json")
        self.said: list[str] = []
        self.now = 1_000.0
        clock = patch("feed.figures.time.time", lambda: self.now)
        clock.start()
        self.addCleanup(clock.stop)

    def figures(self) -> Figures:
        return Figures(str(self.path), self.said.append)

    def told(self, figures: Figures) -> dict[str, Any]:
        """What is in the file now."""
        with patch("feed.figures.threading.Thread.start"):
            figures.begin()
        told: dict[str, Any] = json.loads(self.path.read_bytes())
        return told

    def test_a_region_that_is_level_and_then_lags(self) -> None:
        figures = self.figures()
        self.assertEqual(self.told(figures), {**NONE, "at": 1_000})
        figures.note(5, 5)
        self.now = 1_001
        figures.note(9, 5)
        self.now = 1_007
        figures.note(20, 8)
        self.assertEqual(self.told(figures), {**NONE, "at": 1_007, "heard": 1_007, "level": 1_000, "newest": 20, "taken": 8})
        figures.note(None, 9)
        self.assertEqual(self.told(figures)["level"], 1_001)
        self.now = 1_008
        figures.note(None, 25)
        self.assertEqual(self.told(figures)["level"], 1_007)

    def test_a_stream_that_never_rests(self) -> None:
        figures = self.figures()
        for step in range(3_000):
            self.now = 1_000 + step / 10
            figures.note(step * 10, step * 10 - 3)
        self.assertGreater(self.told(figures)["level"], self.now - 1.2)

    def test_a_feed_that_is_begun_again_and_again(self) -> None:
        figures = self.figures()
        figures.note(5, 5)
        self.now = 1_005
        figures.note(9, 5)
        self.told(figures)
        for start in (1_010, 1_020, 1_030):
            self.now = start
            anew = self.figures()
            self.assertEqual(self.told(anew), {**NONE, "at": start, "heard": 1_005, "level": 1_000, "newest": 9, "taken": 5})
        anew.note(9 + start, 5)
        self.assertEqual(self.told(anew), {**NONE, "at": start, "heard": start, "level": 1_000, "newest": 9 + start, "taken": 5})

    def test_a_region_that_says_nothing(self) -> None:
        figures = self.figures()
        figures.note(9, None)
        self.assertEqual(self.told(figures), {**NONE, "at": 1_000, "heard": 1_000, "level": None, "newest": 9, "taken": None})

    def test_no_file_of_figures(self) -> None:
        for text in ("", "{", "[]", "3", "\xff", '{"level":"x"}', '{"level":[]}', '{"level":9e9}', '{"level":null,"newest":"x","taken":1.5}', '{"level":-1}'):
            self.path.write_text(text, encoding="utf-8")
            figures = self.figures()
            figures.note(9, 5)
            self.assertEqual(self.told(figures), {**NONE, "at": 1_000, "heard": 1_000, "level": 1_000, "newest": 9, "taken": 5}, text)

    def test_a_region_that_lags_for_long_takes_no_memory(self) -> None:
        figures = self.figures()
        for step in range(3 * MOST):
            self.now = 1_000 + step
            figures.note(step + 10, 1)
        self.assertLessEqual(len(figures._ahead), MOST)
        figures.note(None, 1 + MOST)
        self.assertAlmostEqual(self.told(figures)["level"], 1_000 + MOST - 9, delta=20)

    def test_what_the_stream_is_known_by(self) -> None:
        figures = self.figures()
        figures.keep("redis-stream east", (7, "entry 5-0 of the stream east"))
        figures.keep(None, None)
        self.told(figures)
        anew = self.figures()
        self.assertEqual((anew.stream, anew.last), ("redis-stream east", (7, "entry 5-0 of the stream east")))
        for text in ('{"stream":3}', '{"last":[1]}', '{"last":["a","b"]}', '{"last":[1,"a",2]}', '{"last":{}}', '{"last":[true,"a"]}'):
            self.path.write_text(text, encoding="utf-8")
            found = self.figures()
            self.assertEqual((found.stream, found.last), (None, None), text)

    def test_a_file_that_cannot_be_written(self) -> None:
        figures = Figures("/proc/none/east.json", self.said.append)
        for _ in range(2):
            with patch("feed.figures.threading.Thread.start"):
                figures.begin()
        figures.write()
        self.assertEqual(self.said, ["cannot write /proc/none/east.json: No such file or directory"])


class Written(unittest.TestCase):
    """What a feed that runs writes."""

    def test_a_feed(self) -> None:
        with tempfile.TemporaryDirectory() as folder, patch("feed.figures.EVERY", 0.05):
            region, path = Region(Path(folder, "east"), 3), Path(folder, "east.json")
            self.addCleanup(region.stop)
            figures = Figures(str(path), lambda _: None)
            figures.begin()
            self.assertEqual(run("scripted", FakeBroker(9), RegionSocket(str(region.path), lambda _: None), None, figures), 1)
            before = json.loads(path.read_bytes())["at"]
            wait_until(lambda: bool(json.loads(path.read_bytes())["at"] > before))
            told = json.loads(path.read_bytes())
            self.assertEqual(told["newest"], 9)
            self.assertIn(told["taken"], range(3, 10))
            self.assertLess(time.time() - told["heard"], 30)


class Other(unittest.TestCase):
    """A feed of another stream than the one before."""

    def ended(self, region: Region, path: Path, **changed: Any) -> tuple[int, str]:
        """The status of a feed of a stream that says these things of itself, and what it says."""
        source, said = FakeBroker(9), io.StringIO()
        for name, value in changed.items():
            setattr(source, name, value)
        figures = Figures(str(path), lambda _: None)
        with redirect_stderr(said):
            status = run("scripted", source, RegionSocket(str(region.path), lambda _: None), None, figures)
        return status, said.getvalue()

    def test_another_stream_is_not_given(self) -> None:
        with tempfile.TemporaryDirectory() as folder:
            region, path = Region(Path(folder, "east"), 3), Path(folder, "east.json")
            self.addCleanup(region.stop)
            for told, status in (({"stream": "other"}, 2), ({"last": [2, "number -2"]}, 1), ({"stream": "own"}, 1)):
                path.write_text(json.dumps(told), encoding="utf-8")
                has = region.has
                ended, said = self.ended(region, path, identity=lambda: "own", has=lambda position, name: (position, name) == (8, "number -8"))
                self.assertEqual(ended, status)
                if told == {"stream": "own"}:
                    wait_until(lambda: region.has == 9)
                    self.assertEqual(json.loads(path.read_bytes())["stream"], "own")
                else:
                    self.assertEqual(region.has, has)
                    self.assertRegex(said, "of a feed of other, and this one reads own" if status == 2 else "position 2, number -2, which is not there")
            self.assertEqual(region.faults, [])

    def test_a_region_that_has_nothing_takes_any(self) -> None:
        with tempfile.TemporaryDirectory() as folder:
            region, path = Region(Path(folder, "east"), 0), Path(folder, "east.json")
            self.addCleanup(region.stop)
            path.write_text('{"stream":"other","last":[2,"number -2"]}', encoding="utf-8")
            self.assertEqual(self.ended(region, path, identity=lambda: "own", has=lambda position, name: False)[0], 1)
            wait_until(lambda: region.has == 9)
