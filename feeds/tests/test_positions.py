"""The file of positions and offsets."""

from __future__ import annotations

import json
import tempfile
import unittest
from pathlib import Path

from feed.positions import EVERY, MOST, BadPairs, Pair, Pairs

FIRST = Pair(1, 0, "")


class PairsOfAStream(unittest.TestCase):
    """Pairs in a file, and pairs that are read from it again."""

    def setUp(self) -> None:
        folder = tempfile.TemporaryDirectory()
        self.addCleanup(folder.cleanup)
        self.path = Path(folder.name, "pairs")

    def pairs(self) -> Pairs:
        """Those of the file."""
        return Pairs(str(self.path), "east", FIRST)

    def test_one_of_each_thousand(self) -> None:
        pairs = self.pairs()
        for position in range(1, 2_502):
            pairs.see(position, position + position // 700, b"%d" % position)
        for read in (pairs, self.pairs()):
            self.assertEqual(read.until(1_000), Pair.of(1, 1, b"1"))
            self.assertEqual(read.until(2_000), Pair.of(1_001, 1_002, b"1001"))
            self.assertEqual(read.until(9_000), Pair.of(2_001, 2_003, b"2001"))
            self.assertEqual(read.from_offset(1_003), Pair.of(2_001, 2_003, b"2001"))
            self.assertIsNone(read.from_offset(2_004))
        self.assertEqual([path.name for path in self.path.parent.iterdir()], ["pairs"])

    def test_what_is_seen_again(self) -> None:
        pairs = self.pairs()
        pairs.see(1, 0, b"a")
        written = self.path.stat().st_mtime_ns
        pairs.see(1, 0, b"a")
        self.assertEqual(self.path.stat().st_mtime_ns, written)
        for offset, body in ((1, b"a"), (0, b"b")):
            with self.subTest(body), self.assertRaisesRegex(BadPairs, "position 1 .* another message than before"):
                pairs.see(1, offset, body)

    def test_fewer_of_those_long_ago(self) -> None:
        pairs = Pairs(None, "east", FIRST)
        for position in range(1, 3 * MOST * EVERY, EVERY):
            pairs.see(position, position - 1, b"")
        last = position
        self.assertEqual(pairs.until(1).position, 1)
        for back in (0, 5, MOST // 2 - 1):
            self.assertEqual(pairs.until(last - back * EVERY).position, last - back * EVERY)
        steps, position = 0, last
        while position > 1:
            position = pairs.until(position - 1).position
            steps += 1
        self.assertLess(steps, MOST + 1)

    def test_files_that_are_none(self) -> None:
        texts = ["", "{", "[]", '{"pairs":[],"stream":"east"}', '{"pairs":[[1]],"stream":"east"}', '{"pairs":[[1,0,""]],"stream":"west"}']
        for text in [*texts, json.dumps({"pairs": [[2, 1, ""], [1, 0, ""]], "stream": "east"})]:
            self.path.write_text(text, encoding="utf-8")
            with self.subTest(text), self.assertRaises(BadPairs):
                self.pairs()

    def test_a_folder_that_is_not_there(self) -> None:
        with self.assertRaisesRegex(BadPairs, "cannot write"):
            Pairs(str(self.path / "pairs"), "east", FIRST).see(1, 0, b"")
