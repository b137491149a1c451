"""The feed of Kafka, against a cluster of the tests' own, and at a region's socket, with topics that expire."""

from __future__ import annotations

import signal
import tempfile
import time
import unittest
from pathlib import Path

from . import resuming
from .kafka_server import FIND_COORDINATOR, GROUP_REFUSED, Relay, SaslRelay, Server, server_of
from .support import feed, image, wait_until, wanted


class Kafka(unittest.TestCase):
    """One cluster for all tests, and a topic for each."""

    server: Server

    @classmethod
    def setUpClass(cls) -> None:
        cls.server = server_of(cls)

    def setUp(self) -> None:
        self.topic = self.id().rpartition(".")[2]
        self.server.make(self.topic)
        self.words = ("kafka", "--brokers", self.server.brokers, self.topic)

    def test_all_from_the_first_and_what_comes_later(self) -> None:
        self.server.fill(self.topic, 1, 300)
        with feed(*self.words) as running:
            running.wait_for(300)
            self.server.fill(self.topic, 301, 5)
            running.wait_for(305)
            self.assertEqual(running.lines, wanted(305))

    def test_a_topic_of_two_partitions(self) -> None:
        self.server.make(f"{self.topic}_two", 2)
        with feed(*self.words[:-1], f"{self.topic}_two") as running:
            said = f"kafka: the topic {self.topic}_two has 2 partitions, and a stream has one\n"
            self.assertEqual(running.ended(), (2, said))

    def test_a_broker_that_goes_and_comes_back(self) -> None:
        with feed(*self.words) as running:
            for first in range(1, 400, 100):
                self.server.fill(self.topic, first, 100)
                running.wait_for(first + 20)
                self.server.stop()
                time.sleep(1)
                self.server.start()
            running.wait_for(400)
            self.assertEqual(running.lines, wanted(400))
            running.go()
            self.assertIn("waiting for the broker: ", running.ended()[1])

    def test_a_broker_that_comes_later(self) -> None:
        self.server.fill(self.topic, 1, 3)
        self.server.stop()
        with feed(*self.words) as running:
            time.sleep(3)
            self.assertEqual((running.program.poll(), running.lines), (None, []))
            self.server.start()
            running.wait_for(3)
            self.assertEqual(running.lines, wanted(3))
            running.go()
            status, said = running.ended()
            self.assertEqual(status, 0)
            self.assertRegex(said, "waiting for the broker: .* failed: Connection refused .*\nkafka: the broker is back\n$")

    def test_a_beginning_that_is_gone(self) -> None:
        self.server.fill(self.topic, 1, 80_000, packed=False)
        with feed(*self.words) as running:
            status, said = running.ended()
            self.assertEqual((status, running.lines), (1, []))
            begin = self.server.range(self.topic)[0]
            self.assertGreater(begin, 0)
            self.assertIn(f"wants position 1 of the topic {self.topic}, which begins at position {begin + 1} (offset {begin})", said)

    def test_a_body_that_is_no_json(self) -> None:
        self.server.fill(self.topic, 1, 1)
        self.server.put(self.topic, [b"{"])
        with feed(*self.words) as running:
            status, said = running.ended()
            self.assertEqual(status, 1)
            self.assertIn("message 2 is no line of JSON", said)
            self.assertIn(f"it is offset 1 of the topic {self.topic}", said)

    def test_a_message_without_a_body(self) -> None:
        self.server.put(self.topic, [None])
        with feed(*self.words) as running:
            status, said = running.ended()
            self.assertEqual((status, running.lines), (1, []))
            self.assertIn("message 1 is no line of JSON", said)

    def test_a_region_that_goes(self) -> None:
        self.server.fill(self.topic, 1, 3)
        with feed(*self.words) as running:
            running.wait_for(3)
            running.go()
            self.assertEqual(running.ended(), (0, ""))


# How many images come to a topic that keeps far fewer, and how many of them may wait.
MANY, WAITING = 100_000, 20_000


class KafkaResuming(resuming.Resuming):
    """A feed of Kafka that begins where its region is."""

    server: Server

    @classmethod
    def setUpClass(cls) -> None:
        cls.server = server_of(cls)

    def setUp(self) -> None:
        self.topic = self.id().rpartition(".")[2]
        self.server.make(self.topic)
        self.words = ("kafka", "--brokers", self.server.brokers, self.topic)

    def fill(self, first: int, count: int) -> None:
        """See `resuming.Resuming`."""
        self.server.fill(self.topic, first, count)

    def add_body(self, body: bytes) -> None:
        """See `resuming.Resuming`."""
        self.server.put(self.topic, [body])

    def id_of(self, position: int) -> str:
        """See `resuming.Resuming`."""
        return f"offset {position - 1} of the topic {self.topic}"

    def expire(self) -> int:
        """Fills the topic until its first images are gone. Answers how many there were in all."""
        self.server.fill(self.topic, 1, MANY, packed=False)
        return MANY

    def test_a_topic_that_is_not_there_yet(self) -> None:
        self.server.hide(self.topic)
        with self.region() as region, self.feed(region) as program:
            wait_until(lambda: "waiting for the broker: " in program.said(), resuming.PATIENCE)
            self.server.hide(self.topic, 0)
            self.fill(1, 3)
            self.wait_for(region, program, 3)
            self.assertIn("kafka: the broker is back\n", program.said())

    def test_a_topic_that_expires_while_it_is_read(self) -> None:
        with self.region() as region, self.feed(region) as program:
            for first in range(1, MANY, 10_000):
                self.server.fill(self.topic, first, 10_000, packed=False)
                self.wait_for(region, program, first + 9_999 - WAITING)
            self.wait_for(region, program, MANY)
            self.assertEqual((region.again, region.publishers, program.said()), (0, 1, ""))
        self.assertGreater(self.server.range(self.topic)[0], WAITING)

    def test_a_topic_that_expired_behind_the_region(self) -> None:
        count = self.expire()
        begin = self.server.range(self.topic)[0]
        for has in (begin, begin + 1, count - 1, count):
            with self.subTest(has), self.region(has) as region, self.feed(region) as program:
                self.wait_for(region, program, count)
                self.assertEqual(region.again, 0)

    def test_a_topic_that_expired_past_the_region(self) -> None:
        self.expire()
        begin = self.server.range(self.topic)[0]
        for has in (0, 1, begin - 1):
            with self.subTest(has), self.region(has) as region, self.feed(region) as program:
                status, said = program.ended()
                self.assertEqual((status, region.has), (1, has))
                begins = f"begins at position {begin + 1} (offset {begin}) in Kafka"
                self.assertIn(f"wants position {has + 1} of the topic {self.topic}, which {begins}. Start", said)
                self.assertIn("from copies", said)

    def test_a_topic_that_expires_past_a_region_that_reads(self) -> None:
        self.fill(1, 10)
        with self.region() as region, self.feed(region) as program:
            self.wait_for(region, program, 10)
            program.signal(signal.SIGSTOP)
            self.server.fill(self.topic, 11, MANY, packed=False)
            program.signal(signal.SIGCONT)
            status, said = program.ended()
            self.assertEqual(status, 1)
            self.assertRegex(said, "wants position .* which begins at position .* in Kafka")

    def test_a_first_offset(self) -> None:
        self.server.put(self.topic, [b"of before"] * 500)
        self.fill(1, 1_000)
        for has in (0, 1, 999, 1_000):
            with self.subTest(has), self.region(has) as region, self.feed(region, "--first", "500") as program:
                self.wait_for(region, program, 1_000)
                self.assertEqual(region.again, 0)
        with self.region(1_001) as region, self.feed(region, "--first", "500") as program:
            status, said = program.ended()
            self.assertEqual(status, 1)
            self.assertIn("the region has 1001 messages", said)
            self.assertIn("which has had only 1000: it is another one", said)
        with self.region(700, refuses=801) as region, self.feed(region, "--first", "500") as program:
            self.assertIn(f"the region refuses position 801, offset 1300 of the topic {self.topic}", program.ended()[1])

    def test_a_first_offset_that_is_not_there_yet(self) -> None:
        with self.region() as region, self.feed(region, "--first", "500") as program:
            wait_until(lambda: "waiting for the broker: " in program.said(), resuming.PATIENCE)
            self.server.put(self.topic, [b"of before"] * 500)
            self.fill(1, 10)
            self.wait_for(region, program, 10)

    def test_properties(self) -> None:
        self.fill(1, 10)
        more = ("--set", "client.id=east", "--set", "fetch.wait.max.ms=10", "--set", "debug=broker")
        with self.region() as region, self.feed(region, *more) as program:
            self.wait_for(region, program, 10)
            self.assertIn("east", program.said())

    def test_tls(self) -> None:
        self.fill(1, 1_000)
        with tempfile.TemporaryDirectory() as folder:
            relay = Relay(Path(folder), self.server.brokers)
            self.addCleanup(relay.end)
            self.words = ("kafka", "--brokers", relay.brokers, "--set", "security.protocol=ssl", self.topic)
            with self.region() as region, self.feed(region) as program:
                wait_until(lambda: "waiting for the broker: " in program.said(), resuming.PATIENCE)
                # On a busy machine no answer is told before the reason.
                self.assertRegex(program.said(), "certificate verify failed|Failed to get metadata")
            with self.region() as region, self.feed(region, "--set", f"ssl.ca.location={relay.certificate}") as program:
                self.wait_for(region, program, 1_000)
                self.fill(1_001, 3)
                self.wait_for(region, program, 1_003)
                self.assertEqual(program.said(), "")

    def test_a_password(self) -> None:
        self.fill(1, 1_000)
        with tempfile.TemporaryDirectory() as folder:
            relay = SaslRelay(Path(folder), self.server.brokers, "region", "se=cret")
            self.addCleanup(relay.end)
            told = ("security.protocol=sasl_ssl", f"ssl.ca.location={relay.certificate}", "sasl.mechanism=PLAIN", "sasl.username=region")
            words = [word for it in told for word in ("--set", it)]
            self.words = ("kafka", "--brokers", relay.brokers, *words, self.topic)
            with self.region() as region, self.feed(region, "--set", "sasl.password=wrong") as program:
                wait_until(lambda: "waiting for the broker: " in program.said(), resuming.PATIENCE)
                wait_until(lambda: relay.refused > 1, resuming.PATIENCE)
                self.assertRegex(program.said(), "wrong password|Failed to get metadata")
                self.assertEqual((program.is_running(), region.has), (True, 0))
            with self.region() as region, self.feed(region, "--set", "sasl.password=se=cret") as program:
                self.wait_for(region, program, 1_000)
                self.fill(1_001, 3)
                self.wait_for(region, program, 1_003)
                self.assertEqual(program.said(), "")

    def test_a_group_that_is_refused(self) -> None:
        self.server.refuse(FIND_COORDINATOR, GROUP_REFUSED, 20)
        with self.region() as region, self.feed(region) as program:
            for first in range(1, 6):
                self.fill(first, 1)
                self.wait_for(region, program, first)
                time.sleep(0.5)
            self.assertEqual(program.said(), "")

    def test_a_broker_that_goes_and_comes_back_at_a_socket(self) -> None:
        with self.region() as region, self.feed(region) as program:
            for first in range(1, 400, 100):
                self.fill(first, 100)
                self.wait_for(region, program, first + 20)
                self.server.stop()
                time.sleep(0.5)
                self.server.start()
            self.wait_for(region, program, 400)
            self.assertEqual(region.again, 0)

    def test_a_cluster_that_is_gone_for_long(self) -> None:
        self.fill(1, 10)
        with self.region() as region, self.feed(region) as program:
            self.wait_for(region, program, 10)
            self.server.stop()
            wait_until(lambda: "waiting for the broker" in program.said(), resuming.PATIENCE)
            region.stop()
            region.start(5)
            wait_until(lambda: "the region is back, and has 5 messages" in program.said(), resuming.PATIENCE)
            self.server.start()
            self.server.put(self.topic, [image(11)])
            self.wait_for(region, program, 11)
            self.assertEqual((region.again, program.said().count("waiting for the broker")), (0, 1))
