"""The feed of Redis, against redis-server, and at a region's socket, with streams that are trimmed."""

from __future__ import annotations

import threading
import unittest

from . import resuming
from .redis_server import server_of
from .support import feed, image, wait_until, wanted


class Redis(unittest.TestCase):
    """One server for each test."""

    def setUp(self) -> None:
        self.server = server_of(self)
        self.words = ("redis-stream", "--url", self.server.url, "east")

    def test_all_from_the_first_and_what_comes_later(self) -> None:
        self.server.add(1, 300)
        with feed(*self.words) as running:
            running.wait_for(300)
            self.server.add(301, 5)
            running.wait_for(305)
            self.assertEqual(running.lines, wanted(305))

    def test_a_stream_that_is_not_there_yet(self) -> None:
        with feed(*self.words) as running:
            self.server.add(1, 2)
            running.wait_for(2)
            self.assertEqual(running.lines, wanted(2))

    def test_kills_and_restarts(self) -> None:
        with feed(*self.words) as running:
            for first in range(1, 400, 100):
                adding = threading.Thread(target=self.server.add, args=(first, 100))
                adding.start()
                running.wait_for(first + 20)
                adding.join()
                self.server.kill()
                self.server.start()
            running.wait_for(400)
            self.assertEqual(running.lines, wanted(400))

    def test_a_trimmed_beginning(self) -> None:
        self.server.add(1, 300)
        self.server.client.xtrim("east", maxlen=200, approximate=False)
        with feed(*self.words) as running:
            self.assertEqual(running.ended()[0], 1)
            self.assertEqual(running.lines, [])

    def test_what_was_given_may_be_trimmed(self) -> None:
        self.server.add(1, 300)
        with feed(*self.words) as running:
            running.wait_for(300)
            self.server.client.xtrim("east", maxlen=0, approximate=False)
            self.server.add(301, 5)
            running.wait_for(305)
            self.assertEqual(running.lines, wanted(305))

    def test_an_entry_that_was_deleted_before_it_was_given(self) -> None:
        self.server.add(1, 10)
        deleted = self.server.client.xrange("east")[4][0]
        self.server.client.xdel("east", deleted)
        with feed(*self.words) as running:
            status, said = running.ended()
            self.assertEqual((status, running.lines), (1, []))
            self.assertIn("no longer has 1 of 10 entries", said)

    def test_a_stream_that_was_made_anew(self) -> None:
        self.server.add(1, 3)
        with feed(*self.words) as running:
            running.wait_for(3)
            with self.server.client.pipeline(transaction=True) as both:
                both.delete("east")
                for number in range(1, 5):
                    both.xadd("east", {"image": image(number)})
                both.execute()
            status, said = running.ended()
            self.assertEqual((status, running.lines), (1, wanted(3)))
            self.assertIn("another one than before", said)

    def test_a_stream_that_is_gone(self) -> None:
        self.server.add(1, 3)
        with feed(*self.words) as running:
            running.wait_for(3)
            self.server.client.delete("east")
            self.assertEqual(running.ended()[0], 1)

    def test_a_key_that_is_no_stream(self) -> None:
        self.server.client.set("east", "x")
        with feed(*self.words) as running:
            self.assertEqual(running.ended(), (2, "redis-stream: the key east is no stream in Redis\n"))

    def test_a_key_that_becomes_another_one(self) -> None:
        self.server.add(1, 3)
        with feed(*self.words) as running:
            running.wait_for(3)
            with self.server.client.pipeline(transaction=True) as both:
                both.delete("east")
                both.set("east", "x")
                both.execute()
            self.assertEqual((running.ended()[0], running.lines), (2, wanted(3)))

    def test_a_body_that_is_no_json(self) -> None:
        self.server.add(1, 1)
        self.server.client.xadd("east", {"image": b"{"})
        with feed(*self.words) as running:
            status, said = running.ended()
            self.assertEqual(status, 1)
            self.assertIn("message 2 is no line of JSON", said)

    def test_a_region_that_goes(self) -> None:
        self.server.add(1, 3)
        with feed(*self.words) as running:
            running.wait_for(3)
            running.go()
            self.assertEqual(running.ended(), (0, ""))


class RedisResuming(resuming.Resuming):
    """A feed of Redis that begins where its region is."""

    def setUp(self) -> None:
        self.server = server_of(self)
        self.words = ("redis-stream", "--url", self.server.url, "east")

    def fill(self, first: int, count: int) -> None:
        """See `resuming.Resuming`."""
        self.server.fill(first, count)

    def add_body(self, body: bytes) -> None:
        """See `resuming.Resuming`."""
        self.server.client.xadd("east", {"image": body})

    def id_of(self, position: int) -> str:
        """See `resuming.Resuming`."""
        return f"entry {self.server.client.xrange('east', count=position)[-1][0].decode()} of the stream east"

    def trim(self, length: int) -> None:
        """Keeps the last entries alone."""
        self.server.client.xtrim("east", maxlen=length, approximate=False)

    def test_a_stream_that_is_trimmed_behind_the_region(self) -> None:
        self.fill(1, 20_000)
        self.trim(12_000)
        # Counted from the first entry, from the last one, and at both ends.
        for has in (8_000, 8_001, 9_500, 13_999, 14_000, 18_000, 19_999, 20_000):
            with self.subTest(has), self.region(has) as region, self.feed(region) as program:
                self.wait_for(region, program, 20_000)
                self.assertEqual(region.again, 0)

    def test_a_feed_of_another_stream(self) -> None:
        """It is known by its key, and one that was made anew and is longer by an entry that is not there."""
        self.fill(1, 50)
        with self.region(10) as region:
            words = ("--figures", str(region.path.with_name("east.json")))
            with self.feed(region, *words) as program:
                self.wait_for(region, program, 50)
                wait_until(lambda: '"last": [50, ' in region.path.with_name("east.json").read_text(encoding="utf-8"))
            for number in range(1, 101):
                self.server.client.xadd("west", {"image": image(number)})
            self.words = ("redis-stream", "--url", self.server.url, "west")
            with self.feed(region, *words) as program:
                status, said = program.ended()
                self.assertEqual((status, region.has), (2, 50))
                self.assertIn("east.json is of a feed of redis-stream east, and this one reads redis-stream west: remove it", said)
            self.words = ("redis-stream", "--url", self.server.url, "east")
            with self.feed(region, *words) as program:
                self.fill(51, 5)
                self.wait_for(region, program, 55)
            self.server.client.rename("west", "east")
            with self.feed(region, *words) as program:
                status, said = program.ended()
                self.assertEqual((status, region.has), (1, 55))
                self.assertRegex(said, r"position 5\d, entry [\d-]+ of the stream east, which is not there: it is another one than before")

    def test_a_stream_that_is_trimmed_behind_a_feed_that_comes_later(self) -> None:
        """Entries that are gone, as Redis says, are no sign of another stream."""
        self.fill(1, 50)
        with self.region() as region:
            words = ("--figures", str(region.path.with_name("east.json")))
            for last, gone in ((50, "trim"), (60, "delete"), (70, "")):
                with self.feed(region, *words) as program:
                    self.wait_for(region, program, last)
                    wait_until(lambda: f'"last": [{last}, ' in region.path.with_name("east.json").read_text(encoding="utf-8"))
                self.fill(last + 1, 10)
                if gone == "trim":
                    self.trim(10)
                elif gone:
                    self.server.client.xdel("east", self.server.client.xrevrange("east", count=11)[-1][0])

    def test_a_stream_that_is_trimmed_while_it_is_read(self) -> None:
        self.fill(1, 5_000)
        with self.region(slow=True) as region, self.feed(region) as program:
            for count in range(5_000, 9_000, 1_000):
                self.wait_for(region, program, count - 1_000)
                self.trim(1_000)
                self.fill(count + 1, 1_000)
            self.wait_for(region, program, 9_000)
            self.assertEqual(region.again, 0)

    def test_a_stream_that_is_trimmed_past_the_region(self) -> None:
        self.fill(1, 1_000)
        self.trim(100)
        for has in (0, 1, 899):
            with self.subTest(has), self.region(has) as region, self.feed(region) as program:
                status, said = program.ended()
                self.assertEqual((status, region.has), (1, has))
                self.assertIn(f"wants position {has + 1} of the stream east, which begins at position 901", said)
                self.assertIn("from copies", said)

    def test_a_stream_that_is_trimmed_past_a_region_that_reads(self) -> None:
        self.fill(1, 10)
        with self.region() as region, self.feed(region) as program:
            self.wait_for(region, program, 10)
            with self.server.client.pipeline(transaction=True) as both:
                for number in range(11, 21):
                    both.xadd("east", {"image": image(number)})
                both.xtrim("east", maxlen=4, approximate=False)
                both.execute()
            status, said = program.ended()
            self.assertEqual((status, region.has), (1, 10))
            self.assertIn("wants position 11 of the stream east, which begins at position 17", said)

    def test_a_stream_that_is_trimmed_to_nothing(self) -> None:
        self.fill(1, 100)
        self.trim(0)
        with self.region(100) as region, self.feed(region) as program:
            self.fill(101, 3)
            self.wait_for(region, program, 103)
            self.assertEqual(region.again, 0)

    def test_entries_that_were_deleted(self) -> None:
        self.fill(1, 1_000)
        deleted = self.server.client.xrange("east", count=500)[-1][0]
        self.server.client.xdel("east", deleted)
        for has in (500, 501, 999, 1_000):
            with self.subTest(has), self.region(has) as region, self.feed(region) as program:
                self.wait_for(region, program, 1_000)
                self.assertEqual(region.again, 0)
        for has in (0, 100, 499):
            with self.subTest(has), self.region(has) as region, self.feed(region) as program:
                status, said = program.ended()
                self.assertEqual((status, region.has), (1, has))
                self.assertIn("no longer has 1 of 1000 entries", said)

    def test_kills_and_restarts_at_a_socket(self) -> None:
        with self.region() as region, self.feed(region) as program:
            for first in range(1, 400, 100):
                self.server.add(first, 100)
                self.wait_for(region, program, first + 20)
                self.server.kill()
                self.server.start()
            self.wait_for(region, program, 400)
            self.assertEqual(region.again, 0)
