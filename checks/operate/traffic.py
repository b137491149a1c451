"""What goes on while things fail and are mended: a publisher, and readers whose reads have to be answered."""
from __future__ import annotations

import json
import random
import socket
import sys
import threading
import time
from collections.abc import Callable
from dataclasses import dataclass, field

from common.crates import TOP

sys.path.insert(0, str(TOP / "clients/python/src"))
from pnuts_client import Client, PnutsError, Recovering, Version  # noqa: E402

KEYS = [f"k{number:03}" for number in range(400)]
PACE, PUBLISHED = 0.004, 0.02


def image(key: str, number: int, text: str = "x" * 200) -> bytes:
    return json.dumps({"fields": {"text": text}, "key": key, "master": "w", "version": [1, number]}).encode()


def is_served(address: str) -> bool:
    """Whether a region answers there."""
    try:
        with Client(address, retries=0, timeout=2) as client:
            client.read(KEYS[0])
            return True
    except PnutsError:
        return False


class Redis:
    """A client of Redis, which takes commands and answers numbers and texts."""

    def __init__(self, address: str, port: int) -> None:
        self._socket = socket.create_connection((address, port), timeout=60)
        self._replies = self._socket.makefile("rb")

    def do(self, *words: bytes | str) -> bytes:
        parts = [it.encode() if isinstance(it, str) else it for it in words]
        self._socket.sendall(b"*%d\r\n" % len(parts) + b"".join(b"$%d\r\n%b\r\n" % (len(it), it) for it in parts))
        head = self._replies.readline().rstrip(b"\r\n")
        if head.startswith(b"-"):
            raise OSError(f"Redis refuses {parts[0]!r}: {head!r}")
        if head.startswith(b"$"):
            return self._replies.read(int(head[1:]) + 2)[:-2]
        return head[1:]


@dataclass
class Publisher:
    """Adds an image of some key again and again, or nothing while it rests."""

    redis: Redis
    stream: str = "east"
    count: int = 0
    versions: dict[str, int] = field(default_factory=dict)
    rests: threading.Event = field(default_factory=threading.Event)
    over: threading.Event = field(default_factory=threading.Event)
    lock: threading.Lock = field(default_factory=threading.Lock)

    def add(self, key: str) -> None:
        with self.lock:
            number = self.versions.get(key, -1) + 1
            self.add_body(image(key, number))
            self.versions[key] = number

    def add_body(self, body: bytes) -> int:
        """Adds a body. Its position."""
        self.redis.do("XADD", self.stream, "*", "image", body)
        self.count += 1
        return self.count

    def run(self) -> None:
        chosen = random.Random(1)
        while not self.over.wait(PUBLISHED):
            if not self.rests.is_set():
                self.add(chosen.choice(KEYS))


@dataclass
class Reader:
    """Reads keys again and again by one client. None of them may be shown older than before where it has several regions."""

    make: Callable[[], Client]
    checks: bool
    reads: int = 0
    recovering: int = 0
    failed: list[str] = field(default_factory=list)
    older: list[str] = field(default_factory=list)
    last: float = field(default_factory=time.monotonic)
    silence: float = 0.0

    def run(self, is_over: Callable[[], bool], seed: int) -> None:
        chosen, seen = random.Random(seed), dict[str, Version]()
        with self.make() as client:
            while not is_over():
                key = chosen.choice(KEYS)
                try:
                    record = client.read(key)
                except Recovering:
                    self.recovering += 1
                    time.sleep(PACE)
                    continue
                except PnutsError as fault:
                    self.failed.append(f"{key}: {fault}")
                    time.sleep(PACE)
                    continue
                self._note(key, record.version if record else Version(0, 0), seen)
                time.sleep(PACE)

    def _note(self, key: str, version: Version, seen: dict[str, Version]) -> None:
        now = time.monotonic()
        self.silence, self.last = max(self.silence, now - self.last), now
        self.reads += 1
        if self.checks and version < seen.get(key, Version(0, 0)):
            self.older.append(f"{key} was shown in {version}, after {seen[key]}")
        seen[key] = version


class Readers:
    """Readers of the proxy, and readers who know both regions."""

    def __init__(self, proxy: str, regions: list[str], each: int = 2) -> None:
        self.kinds = {"by the proxy": [Reader(lambda: Client(proxy), False) for _ in range(each)],
                      "of two regions": [Reader(lambda: Client(regions), True) for _ in range(each)]}
        self._over = threading.Event()
        self._threads = [threading.Thread(target=it.run, args=[self._over.is_set, seed], daemon=True) for seed, it in enumerate(self.all())]

    def all(self) -> list[Reader]:
        return [it for readers in self.kinds.values() for it in readers]

    def __enter__(self) -> Readers:
        for thread in self._threads:
            thread.start()
        return self

    def __exit__(self, *_: object) -> None:
        self._over.set()
        for thread in self._threads:
            thread.join(30)

    def begin(self) -> None:
        """Counts anew."""
        for it in self.all():
            it.reads = it.recovering = 0
            it.silence, it.last = 0.0, time.monotonic()
            it.failed.clear()
            it.older.clear()
