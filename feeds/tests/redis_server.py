"""A redis-server of the tests' own."""

from __future__ import annotations

import subprocess
import tempfile
import unittest
from typing import Any

from .support import free_port, image, needs, wait_until

try:
    import redis
except ImportError as fault:
    raise unittest.SkipTest("missing: python3-redis") from fault


class Server:
    """A redis-server of its own, with an append-only file."""

    def __init__(self, folder: str) -> None:
        self._folder = folder
        self.port = free_port()
        self.url = f"redis://127.0.0.1:{self.port}/0"
        self.client: Any = redis.Redis.from_url(self.url)
        self.start()

    def start(self) -> None:
        """Starts it, and waits until it answers."""
        words = f"redis-server --bind 127.0.0.1 --port {self.port} --dir {self._folder} --appendonly yes --appendfsync always"
        self._program = subprocess.Popen([*words.split(), "--save", ""], stdout=subprocess.DEVNULL)
        wait_until(self._answers)

    def _answers(self) -> bool:
        try:
            return bool(self.client.ping())
        except redis.exceptions.RedisError:
            return False

    def kill(self) -> None:
        """Kills it."""
        self._program.kill()
        self._program.wait()

    def fill(self, first: int, count: int) -> None:
        """Adds images, many at once."""
        for begin in range(first, first + count, 1_000):
            with self.client.pipeline(transaction=False) as many:
                for number in range(begin, min(begin + 1_000, first + count)):
                    many.xadd("east", {"image": image(number)})
                many.execute()

    def add(self, first: int, count: int, stream: str = "east") -> None:
        """Adds images, each again until Redis has said that it has it."""
        for number in range(first, first + count):
            self.client.xadd(stream, {"image": image(number)})


def server_of(test: unittest.TestCase) -> Server:
    """A server that ends with the test."""
    needs("redis-server")
    folder = tempfile.TemporaryDirectory()
    test.addCleanup(folder.cleanup)
    server = Server(folder.name)
    test.addCleanup(server.kill)
    return server
