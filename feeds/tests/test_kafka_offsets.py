"""What the feed of Kafka finds in a topic that is not as it was, or has offsets without messages: a cluster gives all but the latter."""

from __future__ import annotations

import itertools
import socket
import unittest
import unittest.mock
from typing import Any

from .kafka_server import Server, server_of
from .support import image, module_of, wait_until

kafka = module_of("kafka")


class Gaps:
    """A consumer that leaves out what a cluster of the tests' own cannot leave out: these offsets."""

    def __init__(self, consumer: Any, without: set[int]) -> None:
        self._consumer = consumer
        self._without = without

    def __getattr__(self, name: str) -> Any:
        return getattr(self._consumer, name)

    def poll(self, seconds: float) -> Any:
        """The next message that is not left out."""
        while (message := self._consumer.poll(seconds)) is not None:
            if message.offset() not in self._without:
                return message
        return None

    def consume(self, count: int, seconds: float) -> list[Any]:
        """Those at hand that are not left out."""
        return [it for it in self._consumer.consume(count, seconds) if it.offset() not in self._without]


class KafkaOffsets(unittest.TestCase):
    """A feed's source in this process."""

    server: Server

    @classmethod
    def setUpClass(cls) -> None:
        cls.server = server_of(cls)

    def setUp(self) -> None:
        self.topic = self.id().rpartition(".")[2]
        self.server.make(self.topic)

    def source(self, first: int = 0, topic: str | None = None, server: Server | None = None) -> Any:
        """A source, begun anew."""
        source = kafka.KafkaTopic((server or self.server).brokers, topic or self.topic, first, ())
        self.addCleanup(source._consumer.close)
        return source

    def give(self, source: Any, after: int, count: int) -> list[tuple[int, bytes]]:
        """The next messages after a position."""
        found: list[tuple[int, bytes]] = []
        batches = self.begun(source, after)
        while len(found) < count:
            found.extend(next(batches))
        return found

    def begun(self, source: Any, after: int) -> Any:
        """Messages after a position, once the broker has answered: on a busy machine it may be late."""
        while True:
            batches = source.batches(after)
            try:
                return itertools.chain([next(batches)], batches)
            except kafka.Unreachable:
                pass

    def lost(self, source: Any, after: int) -> tuple[int, str]:
        """How many messages come after a position, and why no more."""
        count = 0
        with self.assertRaises(kafka.Lost) as lost:
            for batch in self.begun(source, after):
                count += len(batch)
        return count, str(lost.exception)

    def test_offsets_without_messages(self) -> None:
        self.server.fill(self.topic, 1, 100)
        why = "is wanted: a stream has no transactions, and is not compacted"
        for without, after, count, got in (({50}, 0, 50, 51), ({50, 51, 52}, 20, 30, 53), ({0}, 0, 0, 1), ({7}, 7, 0, 8)):
            with self.subTest(without):
                source = self.source()
                source._consumer = Gaps(source._consumer, without)
                said = f"the topic {self.topic} has offset {got} where {min(without)} {why}"
                self.assertEqual(self.lost(source, after), (count, said))
        source = self.source()
        source._consumer = Gaps(source._consumer, {7})
        self.assertEqual(self.give(source, 8, 92), [(at - 1, image(at)) for at in range(9, 101)])

    def test_another_message_where_the_last_one_was(self) -> None:
        self.server.fill(self.topic, 1, 10)
        self.server.make(f"{self.topic}_anew")
        self.server.fill(f"{self.topic}_anew", 101, 20)
        source = self.source()
        self.assertEqual(self.give(source, 0, 10)[-1], (9, image(10)))
        self.server.fill(self.topic, 11, 1)
        self.assertEqual(self.give(source, 10, 1), [(10, image(11))])
        source._topic = f"{self.topic}_anew"
        count, said = self.lost(source, 11)
        self.assertEqual(count, 0)
        self.assertIn("another one than before: it has another message at offset 10", said)
        # A region that has fewer messages cannot be told from one of the new topic.
        self.assertEqual(self.give(source, 5, 1)[0], (5, image(106)))

    def test_another_cluster(self) -> None:
        self.server.fill(self.topic, 1, 10)
        other = Server()
        self.addCleanup(other.end)
        other.make(self.topic)
        other.fill(self.topic, 1, 20)
        source, elsewhere = self.source(), self.source(server=other)
        self.give(source, 0, 10)
        source._consumer = elsewhere._consumer
        count, said = self.lost(source, 10)
        self.assertEqual(count, 0)
        self.assertIn("is of another cluster than before", said)

    def reason(self, source: Any) -> str:
        """Why nothing comes, once a broker has answered."""
        while True:
            try:
                next(source.batches(0))
            except kafka.Unreachable as fault:
                if "Failed to get" not in str(fault) and str(fault):
                    return str(fault)

    def test_reasons_to_wait(self) -> None:
        self.assertEqual(self.reason(self.source(500)), f"the topic {self.topic} has no offset 500 yet")
        self.server.hide(self.topic)
        self.assertEqual(self.reason(self.source()), f"there is no topic {self.topic}")
        self.server.hide(self.topic, kafka.KafkaError.TOPIC_AUTHORIZATION_FAILED)
        self.assertIn("authorization failed", self.reason(self.source()))

    def test_a_topic_that_is_too_short_for_a_while(self) -> None:
        self.server.fill(self.topic, 1, 10)
        source = self.source()
        with self.assertRaisesRegex(kafka.Unreachable, "^$"):
            next(source.batches(12))
        self.server.fill(self.topic, 11, 5)
        self.assertEqual(self.give(source, 12, 3)[-1], (14, image(15)))
        for settling, fault in ((5.0, kafka.Unreachable), (0.0, kafka.Lost)):
            with self.subTest(settling), unittest.mock.patch.object(kafka, "SETTLING", settling), self.assertRaises(fault):
                next(source.batches(16))

    def test_a_broker_that_says_nothing(self) -> None:
        with socket.create_server(("127.0.0.1", 0)) as mute:
            source = kafka.KafkaTopic(f"127.0.0.1:{mute.getsockname()[1]}", "east", 0, ())
            self.addCleanup(source._consumer.close)
            for silence, said in ((5.0, "^$"), (0.0, "Failed to get metadata")):
                with self.subTest(silence), unittest.mock.patch.object(kafka, "SILENCE", silence):
                    with self.assertRaisesRegex(kafka.Unreachable, said):
                        next(source.batches(0))

    def test_a_second_partition(self) -> None:
        self.server.fill(self.topic, 1, 10)
        self.server.make(f"{self.topic}_two", 2)
        source = self.source()
        batches = self.begun(source, 0)
        next(batches)
        source._topic = f"{self.topic}_two"
        next(batches)
        with unittest.mock.patch.object(kafka, "COUNTED", 0.0), self.assertRaisesRegex(kafka.BadWords, "has 2 partitions"):
            next(batches)

    def test_which_stream_it_is(self) -> None:
        self.server.fill(self.topic, 1, 10)
        source, again, later = self.source(), self.source(), self.source(4)
        self.assertIsNone(source.identity())
        for one in (source, again, later):
            self.give(one, 2, 1)
        self.assertRegex(source.identity(), f"^kafka mockCluster[0-9a-f]+ {self.topic} from offset 0$")
        self.assertEqual(source.identity(), again.identity())
        self.assertNotEqual(source.identity(), later.identity())

    def test_the_newest_position(self) -> None:
        self.server.fill(self.topic, 1, 10)
        source = self.source(4)
        self.assertIsNone(source.newest())
        batches = self.begun(source, 5)
        next(batches)
        self.assertEqual(source.newest(), 6)
        self.server.fill(self.topic, 11, 5)
        wait_until(lambda: bool(next(batches) is not None and source.newest() == 11))

    def test_words(self) -> None:
        for brokers in ("", "a b", "a:b", "a:0", "a:65536", "a:1:2", "a,,b", "::1", "[::1", "a:1,b:c"):
            with self.subTest(brokers), self.assertRaisesRegex(kafka.BadWords, "no addresses of Kafka"):
                kafka.KafkaTopic(brokers, "east", 0, ())
        for brokers in ("localhost", "localhost:9092, 127.0.0.1", "[::1]:9092", "SSL://localhost:9093"):
            with self.subTest(brokers):
                kafka.KafkaTopic(brokers, "east", 0, ())._consumer.close()
        refused = ("group.id", "nope=1", "fetch.min.bytes=x", "error_cb=x", "logger=x", "stats_cb=x", "auto.offset.reset=latest")
        for word in (*refused, "bootstrap.servers=a"):
            with self.subTest(word), self.assertRaises(kafka.BadWords):
                kafka.KafkaTopic("localhost", "east", 0, (word,))
        secret = ("security.protocol=sasl_plaintext", "sasl.mechanism=PLAIN", "sasl.username=a", "sasl.password=a=b")
        kafka.KafkaTopic("localhost", "east", 0, secret)._consumer.close()

    def test_names_that_are_none(self) -> None:
        self.server.hide(self.topic, kafka.KafkaError.TOPIC_EXCEPTION)
        with self.assertRaisesRegex(kafka.BadWords, "no name of a topic"):
            self.reason(self.source())
