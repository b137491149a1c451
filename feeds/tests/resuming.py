"""What every feed does at a region's socket: the tests that all brokers share."""

from __future__ import annotations

import os
import random
import subprocess
import tempfile
import time
import unittest
from collections.abc import Iterator, Sequence
from contextlib import AbstractContextManager, ExitStack, contextmanager
from pathlib import Path

from .support import FEEDS, ProgramRegion, Region, image, wait_until

# How many images a feed is killed and begun anew among.
IMAGES = int(os.environ.get("FEEDS_IMAGES", "200000"))
# How many of them may come again.
MOST_AGAIN = 2_000
# How often a feed or its region is killed at a random moment.
KILLS = 20
PATIENCE = 600.0


class Program:
    """A feed that writes to a socket."""

    def __init__(self, words: Sequence[str]) -> None:
        self._said = tempfile.TemporaryFile("w+", encoding="utf-8")
        self._process = subprocess.Popen([str(FEEDS / words[0]), *words[1:]], stdout=subprocess.DEVNULL, stderr=self._said)

    def is_running(self) -> bool:
        """Whether it has not ended."""
        return self._process.poll() is None

    def said(self) -> str:
        """What it said so far."""
        self._said.seek(0)
        return self._said.read()

    def signal(self, number: int) -> None:
        """Sends a signal to it."""
        self._process.send_signal(number)

    def ended(self) -> tuple[int, str]:
        """Its status and what it said, once it ends by itself."""
        return self._process.wait(60), self.said()

    def kill(self) -> None:
        """Ends it, whatever it does."""
        self._process.kill()
        self._process.wait()

    def close(self) -> None:
        """Ends it, and forgets what it said."""
        self.kill()
        self._said.close()


class Resuming(unittest.TestCase):
    """Tests of one broker. Those of `words` name a stream without images."""

    words: tuple[str, ...]

    def fill(self, first: int, count: int) -> None:
        """Gives images to the broker, as fast as it takes them."""
        raise NotImplementedError

    def add_body(self, body: bytes) -> None:
        """Gives a message to the broker."""
        raise NotImplementedError

    def id_of(self, position: int) -> str:
        """What the broker calls the message of this position."""
        raise NotImplementedError

    @contextmanager
    def region(self, has: int = 0, *, refuses: int = 0, slow: bool = False) -> Iterator[Region]:
        """A region in a folder of its own, which must have found no fault at the end."""
        with tempfile.TemporaryDirectory() as folder:
            region = Region(Path(folder, "east"), has, refuses=refuses, slow=slow)
            try:
                yield region
            finally:
                region.stop()
            self.assertEqual(region.faults, [])

    def feed(self, region: Region, *more: str) -> AbstractContextManager[Program]:
        """The feed of this region."""
        return self.feed_at(region.path, *more)

    @contextmanager
    def feed_at(self, path: Path, *more: str) -> Iterator[Program]:
        """The feed of the region whose socket is at this path."""
        program = Program((*self.words, str(path), *more))
        try:
            yield program
        finally:
            program.close()

    def wait_for(self, region: Region, program: Program, position: int) -> None:
        """Until the region has this position."""
        wait_until(lambda: region.has >= position or not program.is_running(), PATIENCE)
        if region.has < position:
            self.fail(f"the feed ended at {region.has}: {program.ended()}")

    def test_a_feed_that_is_killed_and_begun_anew(self) -> None:
        self.fill(1, IMAGES)
        with self.region() as region:
            for part in (1, 2, 3, 4, 10):
                with self.feed(region) as program:
                    self.wait_for(region, program, part * IMAGES // 10)
            self.assertEqual(region.has, IMAGES)
            self.assertGreater(region.publishers, 2)
            self.assertLessEqual(region.again, MOST_AGAIN)
            print(f"{self.words[0]}: {region.again} of {IMAGES} images came again", flush=True)

    def test_kills_at_random_moments(self) -> None:
        chosen = random.Random(self.words[0])
        self.fill(1, 2_000)
        with self.region(slow=True) as region, ExitStack() as stay:
            program = stay.enter_context(self.feed(region, "--socket"))
            for kill in range(1, KILLS + 1):
                time.sleep(chosen.uniform(0.05, 1))
                self.assertTrue(program.is_running(), program.said())
                if chosen.random() < 0.5:
                    program.kill()
                    program = stay.enter_context(self.feed(region, "--socket"))
                else:
                    region.stop()
                    region.start(region.has - min(region.has, chosen.choice((0, 0, 1, 100))))
                self.fill(2_000 + 100 * kill - 99, 100)
            self.wait_for(region, program, 2_000 + 100 * KILLS)

    def test_a_region_that_has_a_part(self) -> None:
        self.fill(1, 2_500)
        for has in (1, 1_000, 1_001, 1_249, 2_000, 2_499, 2_500):
            with self.subTest(has), self.region(has) as region, self.feed(region) as program:
                self.wait_for(region, program, 2_500)
                if has == 2_500:
                    self.fill(2_501, 3)
                    self.wait_for(region, program, 2_503)
                self.assertEqual(region.again, 0)

    def test_a_region_that_restarts(self) -> None:
        self.fill(1, 3_000)
        with self.region(slow=True) as region, self.feed(region) as program:
            for at, back in ((300, 0), (900, 10), (1_300, 1_200), (1_500, 1_500)):
                self.wait_for(region, program, at)
                region.stop()
                time.sleep(0.3)
                region.start(region.has - min(back, region.has))
            region.stop()
            region.start(2_900)
            self.wait_for(region, program, 3_000)
            self.fill(3_001, 3)
            self.wait_for(region, program, 3_003)
            self.assertTrue(program.is_running())
            self.assertIn("the region is back, and has 2900 messages", program.said())

    def test_a_region_that_refuses(self) -> None:
        self.fill(1, 2_000)
        with self.region(700, refuses=1_501) as region, self.feed(region) as program:
            status, said = program.ended()
            self.assertEqual((status, region.has), (1, 1_500))
            self.assertIn(f"the region refuses position 1501, {self.id_of(1501)}", said)
            self.assertIn('{"at":1501,"error":"bad-shape","member":"fields"}', said)

    def test_a_region_that_refuses_what_comes_alone(self) -> None:
        with self.region(refuses=2) as region, self.feed(region) as program:
            self.fill(1, 1)
            self.wait_for(region, program, 1)
            self.fill(2, 1)
            status, said = program.ended()
            self.assertEqual(status, 1)
            self.assertIn(f"the region refuses position 2, {self.id_of(2)}", said)

    def test_a_region_that_reads_slowly(self) -> None:
        self.fill(1, 4_000)
        with self.region(slow=True) as region, self.feed(region) as program:
            self.wait_for(region, program, 4_000)
            self.assertEqual((region.again, region.publishers), (0, 1))

    def test_a_region_that_is_not_there_yet(self) -> None:
        self.fill(1, 3)
        with self.region() as region:
            region.stop()
            with self.feed(region, "--socket") as program:
                wait_until(lambda: "waiting for the region" in program.said())
                region.start(0)
                self.wait_for(region, program, 3)

    def test_a_region_that_has_more_than_the_broker(self) -> None:
        self.fill(1, 3)
        with self.region(10) as region, self.feed(region) as program:
            status, said = program.ended()
            self.assertEqual((status, region.has), (1, 10))
            self.assertRegex(said, "the region has 10 .* has (had )?only 3: it is another one")

    def test_two_feeds_of_a_region(self) -> None:
        self.fill(1, 300)
        with self.region() as region, ExitStack() as stay:
            first = stay.enter_context(self.feed(region))
            self.wait_for(region, first, 300)
            second = stay.enter_context(self.feed(region))
            time.sleep(0.5)
            self.assertEqual(region.publishers, 1)
            first.kill()
            self.fill(301, 5)
            self.wait_for(region, second, 305)
            self.assertEqual((region.again, region.publishers), (0, 2))

    def test_a_body_that_is_no_json_at_a_socket(self) -> None:
        self.fill(1, 2)
        self.add_body(b"{")
        with self.region() as region, self.feed(region) as program:
            status, said = program.ended()
            self.assertEqual((status, region.has), (1, 2))
            self.assertIn("message 3 is no line of JSON", said)
            self.assertIn(self.id_of(3), said)

    def test_an_image_in_place_of_a_message(self) -> None:
        self.fill(1, 2)
        self.add_body(b"{")
        self.fill(4, 3)
        with self.region() as region, self.feed(region) as program:
            self.assertEqual((program.ended()[0], region.has), (1, 2))
            instead = region.path.with_name("instead")
            instead.write_bytes(b'\n{"image": %b, "at": 3}\n{"at":9,"image":{}}\n' % image(3))
            with self.feed(region, "--instead", str(instead)) as anew:
                self.wait_for(region, anew, 6)
                told = f"position 3, {self.id_of(3)}: the image in {instead} is given instead\n"
                self.assertEqual(anew.said(), f"{self.words[0]}: {told}")

    def test_the_program(self) -> None:
        with tempfile.TemporaryDirectory() as folder:
            region = ProgramRegion(Path(folder))
            self.addCleanup(region.kill)
            self.fill(1, 3_000)
            for part in (500, 1_500, 3_000):
                with self.feed_at(region.path) as program:
                    region.wait_for(part)
            with self.feed_at(region.path) as program:
                self.fill(3_001, 10)
                region.wait_for(3_010)
                region.kill()
                region.start()
                region.wait_for(3_010)
                self.add_body(b'{"fields":{},"key":"","master":"w","version":[1,0]}')
                status, said = program.ended()
            self.assertEqual(status, 1)
            self.assertIn(f"the region refuses position 3011, {self.id_of(3011)}", said)
            self.assertIn('{"at":3011,"error":"out-of-range","member":"key"}', said)
            self.assertIn("pnuts: stream east failed at 3011 ", region.said())
            self.assertEqual(region.said().count("failed"), 1)
