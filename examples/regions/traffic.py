"""What goes on while machines fail: a publisher of images, and readers who ask for what was confirmed."""

from __future__ import annotations

import itertools
import json
import random
import threading
import time
from collections.abc import Callable, Sequence
from dataclasses import dataclass, field

import pika
from machines import BOUND, FRONT, PROXY_PORT, RANGES, Machine, context
from pnuts_client import Client, PnutsError, RecordBehind, Recovering, Regions, Tcp

KEYS = 500
# How often a reader asks other regions for what one does not have yet, before it waits.
ATTEMPTS = 3
# How long something may take at most: this many seconds, or on a machine that is busy, this many times as long as when nothing is killed.
LONGEST, SLOWER = 3.0, 50
# Streams in files of some hundreds of messages, as whole files are dropped.
STREAM: dict[str, object] = {"x-queue-type": "stream", "x-initial-cluster-size": 3, "x-stream-max-segment-size-bytes": 50_000}


def range_of(key: str) -> str:
    """The range of a key, which is the name of its stream."""
    return RANGES[key >= BOUND]


def image(key: str, number: int) -> bytes:
    return json.dumps({"fields": {"text": f"{key} {number} " * 10}, "key": key, "master": "home", "version": [1, number]}).encode()


@dataclass
class Publisher:
    """Gives images to the broker, one after another, each again until a node has confirmed it."""

    machines: Sequence[Machine]
    # For how many seconds the broker keeps an image at least.
    kept_for: int
    started: float = field(default_factory=time.monotonic)
    confirmed: dict[str, int] = field(default_factory=dict)
    count: int = 0
    again: int = 0
    stopped: threading.Event = field(default_factory=threading.Event)

    def make_streams(self) -> None:
        """The streams, each on all nodes, with the first image of each key."""
        connection = pika.BlockingConnection(pika.URLParameters(self.machines[0].url))
        for name in RANGES:
            connection.channel().queue_declare(name, durable=True, arguments=STREAM | {"x-max-age": f"{self.kept_for}s"})
        connection.close()
        self.publish([(key, 0) for number in range(KEYS) for key in (f"a{number:03}", f"z{number:03}")])

    def has_outlived_images(self) -> bool:
        """Whether the first images are twice as old as the broker keeps them."""
        return time.monotonic() - self.started > 2 * self.kept_for

    def publish(self, versions: Sequence[tuple[str, int]]) -> None:
        """Publishes images in their order, and goes on at the next node where one is away."""
        left, nodes = list(reversed(versions)), itertools.cycle(self.machines)
        while left:
            try:
                self._publish(next(nodes), left)
            except (pika.exceptions.AMQPError, OSError):
                self.again += 1
                time.sleep(0.02)

    def _publish(self, machine: Machine, left: list[tuple[str, int]]) -> None:
        """What is confirmed and was routed is taken off."""
        parameters = pika.URLParameters(machine.url)
        parameters.socket_timeout = parameters.blocked_connection_timeout = parameters.stack_timeout = 3
        connection = pika.BlockingConnection(parameters)
        try:
            channel = connection.channel()
            channel.confirm_delivery()
            while left:
                key, number = left[-1]
                channel.basic_publish("", range_of(key), image(key, number), mandatory=True)
                left.pop()
                self.confirmed[key] = number
                self.count += 1
                self.stopped.wait(0.002)
        finally:
            if connection.is_open:
                connection.close()

    def run(self) -> None:
        """Publishes a next version of some key, again and again, until it is told to stop."""
        rng, keys = random.Random(1), list(self.confirmed)
        while not self.stopped.is_set():
            self.publish([(key, self.confirmed[key] + 1) for key in rng.sample(keys, 50)])


@dataclass
class Reader:
    """Asks for versions that were confirmed, each until some region has it."""

    publisher: Publisher
    seed: int
    timeout: float = LONGEST
    answers: int = 0
    behind: int = 0
    failed: int = 0
    wrong: list[str] = field(default_factory=list)
    last: float = 0.0
    longest: float = 0.0

    def run(self, is_over: Callable[[], bool]) -> None:
        rng, regions = random.Random(self.seed), [regions_of_all(self.timeout) for _ in range(3)]
        self.last = time.monotonic()
        while not is_over():
            key = rng.choice(list(self.publisher.confirmed))
            version = (1, self.publisher.confirmed[key])
            self.ask(regions, key, version, is_over)
            time.sleep(0.003)

    def ask(self, regions: list[Regions], key: str, version: tuple[int, int], is_over: Callable[[], bool]) -> None:
        """Asks one region after another, and notes how long there was no answer."""
        for at in itertools.count(1):
            try:
                record = regions[0].read(key, at_least=version)
            except (RecordBehind, Recovering):
                self.behind += 1
                regions.append(regions.pop(0))
                time.sleep(0.002 if at % ATTEMPTS else 0.02)
            except PnutsError:
                self.failed += 1
                regions.append(regions.pop(0))
            else:
                if record is None or tuple(record.version) < version:
                    self.wrong.append(f"{key} was shown in {record and record.version}, not in {version}")
                self.answers += 1
                self.longest, self.last = max(self.longest, time.monotonic() - self.last), time.monotonic()
                return
            if is_over():
                return

    def longest_silence(self) -> float:
        """The longest time without an answer since this was asked last, in seconds."""
        longest, self.longest = max(self.longest, time.monotonic() - self.last), 0.0
        return longest


def first_kept(machine: Machine, name: str) -> int:
    """The offset of the first message of a stream that the broker still has."""
    connection = pika.BlockingConnection(pika.URLParameters(machine.url))
    try:
        channel = connection.channel()
        channel.basic_qos(prefetch_count=1)
        _, properties, _ = next(channel.consume(name, arguments={"x-stream-offset": "first"}))
        return int(properties.headers["x-stream-offset"])
    finally:
        connection.close()


def regions_of_all(timeout: float) -> Regions:
    """The regions of both ranges, through the front, and for how many seconds a reply of each is waited for."""
    fronts = [Tcp(FRONT, PROXY_PORT + at, tls=context()) for at in range(len(RANGES))]
    return Regions([BOUND], [Client(front, timeout=timeout) for front in fronts])


def patience(keys: Sequence[str]) -> float:
    """For how many seconds readers wait for a reply, by what the slowest read of some keys takes while nothing is killed."""
    regions, slowest = regions_of_all(60.0), 0.0
    for key in keys:
        start = time.monotonic()
        regions.read(key)
        slowest = max(slowest, time.monotonic() - start)
    return max(LONGEST, SLOWER * slowest)
