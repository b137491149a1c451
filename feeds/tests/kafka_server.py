"""A cluster of Kafka of the tests' own: the one that librdkafka has built in. It has one broker, and keeps the last 5 MB of a topic.

Relays stand before the broker, which has neither TLS nor SASL: what it says of its own address is changed, and a user's password is asked for.
"""

from __future__ import annotations

import ctypes
import select
import socket
import ssl
import struct
import subprocess
import threading
import unittest
from contextlib import suppress
from pathlib import Path

from .support import image, needs

try:
    from confluent_kafka import OFFSET_BEGINNING, OFFSET_END, Consumer, Producer, TopicPartition
except ImportError as fault:
    raise unittest.SkipTest("missing: python3-confluent-kafka") from fault

# Numbers of librdkafka.
PRODUCER, BROKER, FIND_COORDINATOR = 0, 1, 10
UNKNOWN_TOPIC, GROUP_REFUSED = 3, 30
PATIENCE = 120.0
# Many images come together, and packed ones are much smaller. Those that are not packed soon push out the first ones.
FAST = {"log_level": 0, "linger.ms": 5, "queue.buffering.max.messages": 1_000_000}


class Server:
    """A cluster in threads of this process. Its functions are not in the module for Python, so the library itself is called."""

    def __init__(self) -> None:
        self._library = ctypes.CDLL("librdkafka.so.1")
        for name in ("conf_new", "new", "mock_cluster_new"):
            getattr(self._library, f"rd_kafka_{name}").restype = ctypes.c_void_p
        self._library.rd_kafka_mock_cluster_bootstraps.restype = ctypes.c_char_p
        fault = ctypes.create_string_buffer(512)
        words = ctypes.c_void_p(self._library.rd_kafka_conf_new())
        self._library.rd_kafka_conf_set(words, b"log_level", b"0", fault, ctypes.c_size_t(512))
        self._host = ctypes.c_void_p(self._library.rd_kafka_new(PRODUCER, words, fault, ctypes.c_size_t(512)))
        self._cluster = ctypes.c_void_p(self._library.rd_kafka_mock_cluster_new(self._host, 1))
        self.brokers = self._library.rd_kafka_mock_cluster_bootstraps(self._cluster).decode()
        told = {**FAST, "bootstrap.servers": self.brokers}
        self._packed = Producer({**told, "compression.codec": "zstd"})
        self._plain = Producer(told)
        self._consumer = Consumer({"bootstrap.servers": self.brokers, "group.id": "tests", "log_level": 0})

    def end(self) -> None:
        """Ends it, and forgets all messages."""
        self._consumer.close()
        self._library.rd_kafka_mock_cluster_destroy(self._cluster)
        self._library.rd_kafka_destroy(self._host)

    def stop(self) -> None:
        """The broker goes: it ends its connections, and takes none."""
        self._library.rd_kafka_mock_broker_set_down(self._cluster, BROKER)

    def start(self) -> None:
        """The broker comes back, with all that it had."""
        self._library.rd_kafka_mock_broker_set_up(self._cluster, BROKER)

    def make(self, topic: str, partitions: int = 1) -> None:
        """Makes a topic."""
        self._library.rd_kafka_mock_topic_create(self._cluster, topic.encode(), partitions, 1)

    def hide(self, topic: str, error: int = UNKNOWN_TOPIC) -> None:
        """Says that there is no such topic, or nothing of the kind any more."""
        self._library.rd_kafka_mock_topic_set_error(self._cluster, topic.encode(), error)

    def refuse(self, request: int, error: int, count: int) -> None:
        """The next requests of this kind have this error."""
        errors = (ctypes.c_int * count)(*[error] * count)
        self._library.rd_kafka_mock_push_request_errors_array(
            self._cluster, ctypes.c_int16(request), ctypes.c_size_t(count), errors
        )

    def put(self, topic: str, bodies: list[bytes | None], packed: bool = True) -> None:
        """Adds messages, and waits until the broker has them."""
        producer = self._packed if packed else self._plain
        for body in bodies:
            producer.produce(topic, body, partition=0)
        if producer.flush(PATIENCE):
            raise AssertionError("the broker has not taken all messages")

    def fill(self, topic: str, first: int, count: int, packed: bool = True) -> None:
        """Adds images."""
        for begin in range(first, first + count, 10_000):
            self.put(topic, [image(number) for number in range(begin, min(begin + 10_000, first + count))], packed)

    def range(self, topic: str) -> tuple[int, int]:
        """The first offset that the topic still has, and the one after its last."""
        first, end = (
            self._consumer.offsets_for_times([TopicPartition(topic, 0, where)], timeout=PATIENCE)[0].offset
            for where in (OFFSET_BEGINNING, OFFSET_END)
        )
        return first, end


def server_of(tests: type[unittest.TestCase]) -> Server:
    """A cluster that ends after all tests of a class."""
    server = Server()
    tests.addClassCleanup(server.end)
    return server


class Relay:
    """Takes connections by TLS, and hands on what passes through them."""

    def __init__(self, folder: Path, broker: str) -> None:
        needs("openssl")
        self.certificate = folder / "certificate.pem"
        key = folder / "key.pem"
        told = "req -x509 -newkey rsa:2048 -nodes -days 2 -subj /CN=127.0.0.1 -addext subjectAltName=IP:127.0.0.1"
        subprocess.run(["openssl", *told.split(), "-keyout", key, "-out", self.certificate], check=True, capture_output=True)
        host, port = broker.split(":")
        self._broker = (host, int(port))
        self._secret = ssl.SSLContext(ssl.PROTOCOL_TLS_SERVER)
        self._secret.load_cert_chain(self.certificate, key)
        self._listener = socket.create_server(("127.0.0.1", 0))
        self._port = int(self._listener.getsockname()[1])
        self.brokers = f"127.0.0.1:{self._port}"
        threading.Thread(target=self._serve, daemon=True).start()

    def end(self) -> None:
        """Takes no more connections."""
        self._listener.close()

    def _serve(self) -> None:
        with suppress(OSError):
            while True:
                connection = self._listener.accept()[0]
                threading.Thread(target=self._relay, args=(connection,), daemon=True).start()

    def _admits(self, client: socket.socket, broker: socket.socket) -> bool:
        """Whether a client may go on."""
        return True

    def _relay(self, connection: socket.socket) -> None:
        """Hands all on, with the relay's port in place of the broker's."""
        host = self._broker[0].encode()
        told, own = (host + struct.pack(">i", port) for port in (self._broker[1], self._port))
        with suppress(OSError), self._secret.wrap_socket(connection, server_side=True) as client:
            with socket.create_connection(self._broker) as broker:
                if not self._admits(client, broker):
                    return
                while True:
                    for source in [client] if client.pending() else select.select([client, broker], [], [])[0]:
                        if not (part := source.recv(1_000_000)):
                            return
                        (broker if source is client else client).sendall(part.replace(told, own))


# Kinds of requests, and faults, by Kafka's numbers.
API_VERSIONS, HANDSHAKE, AUTHENTICATE = 18, 17, 36
NO_SUCH_MECHANISM, REFUSED = 33, 58


class SaslRelay(Relay):
    """Takes connections by TLS of those who know the password."""

    def __init__(self, folder: Path, broker: str, user: str, password: str) -> None:
        self._told = f"\0{user}\0{password}".encode()
        self.refused = 0
        super().__init__(folder, broker)

    def _admits(self, client: socket.socket, broker: socket.socket) -> bool:
        while True:
            request = frame(client)
            kind, version = struct.unpack(">hh", request[:4])
            identity, rest = request[4:8], request[10 + struct.unpack(">h", request[8:10])[0] :]
            if kind == API_VERSIONS:
                send(broker, request)
                send(client, with_sasl(frame(broker)) if version <= 2 else frame(broker))
            elif kind == HANDSHAKE:
                is_plain = rest[2:] == b"PLAIN"
                send(client, identity + struct.pack(">hih5s", 0 if is_plain else NO_SUCH_MECHANISM, 1, 5, b"PLAIN"))
            elif kind == AUTHENTICATE and rest[4:] == self._told:
                send(client, identity + struct.pack(">hhi", 0, -1, 0))
                return True
            else:
                self.refused += 1
                send(client, identity + struct.pack(">hh14si", REFUSED, 14, b"wrong password", 0))
                return False


def frame(source: socket.socket) -> bytes:
    """The next request or reply."""
    return exactly(source, struct.unpack(">i", exactly(source, 4))[0])


def exactly(source: socket.socket, count: int) -> bytes:
    found = b""
    while len(found) < count:
        if not (part := source.recv(count - len(found))):
            raise OSError("the connection ended")
        found += part
    return found


def send(target: socket.socket, body: bytes) -> None:
    target.sendall(struct.pack(">i", len(body)) + body)


def with_sasl(reply: bytes) -> bytes:
    """What a broker says that it takes, and what is asked for a password by besides."""
    fault, count = struct.unpack(">hi", reply[4:10])
    if fault:
        return reply
    return reply[:4] + struct.pack(">hi6h", 0, count + 2, HANDSHAKE, 0, 1, AUTHENTICATE, 0, 0) + reply[10:]
