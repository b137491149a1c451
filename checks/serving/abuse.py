"""Serves 16 sessions by a built program while its clients misbehave and four streams load at full speed.

  checks/run abuse PROGRAM [--soak S] [--seed N]

The program is started again and again, until the time is over. Each time 16 clients send random bytes, half lines, 100 MB
without a newline, nested arrays or pages that they never read, and many reset their connections; one that is late is never
accepted. An honest client asks meanwhile: what it is shown is right, and never older than before. The program's greatest
resident memory is less than where the honest client is alone, and 16 times what a session may take. The end is status 0 and its line.
"""
import contextlib
import itertools
import json
import random
import select
import socket
import struct
import threading
import time
from collections import Counter
from collections.abc import Callable, Iterator
from typing import IO

from common.served import Client, Json, Served, fifo, rests, row_of, same

SESSIONS = 16
NAMES = ["east", "north", "south", "west"]
KEYS = 1_000
CHUNK = 1 << 16
ENDLESS_BYTES = 100 << 20
# How long a client goes on at most, and how long the streams load where there is no misbehaving client.
CLIENT_SECONDS, ALONE_SECONDS = 15, 5
# What a session may take: its line of 64 KB as parsed values, a page of all records, and its buffers.
SESSION_KB = 2 << 10
PAGE = b'{"do":"scan","query":{"limit":1000}}\n'
RESET = struct.pack("ii", 1, 0)


def key_of(number: int) -> str:
    return f"k{number % KEYS:03}"


def messages() -> Iterator[bytes]:
    """A stream without end, by parts: each key again and again, at a greater version each time."""
    for first in itertools.count(1, KEYS):
        yield b"".join(b'{"at":%d,"image":{"fields":{"v":"x"},"key":"k%03d","master":"w","version":[1,%d]}}\n'
                       % (at, at % KEYS, at // KEYS) for at in range(first, first + KEYS))


class Feeder(threading.Thread):
    """Writes a stream to a FIFO until it is told to stop."""

    def __init__(self, pipe: IO[bytes]) -> None:
        super().__init__()
        self.pipe, self.stopped, self.count = pipe, threading.Event(), 0

    def run(self) -> None:
        with self.pipe, contextlib.suppress(BrokenPipeError):
            for part in messages():
                if self.stopped.is_set():
                    return
                left = memoryview(part)
                while left:
                    left = left[self.pipe.write(left) :]
                self.count += KEYS


def random_bytes(rng: random.Random) -> Iterator[bytes]:
    return (rng.randbytes(CHUNK) for _ in range(rng.randrange(1, 200)))


def half_lines(rng: random.Random) -> Iterator[bytes]:
    return (PAGE * rng.randrange(3) + PAGE[: rng.randrange(len(PAGE))] for _ in range(rng.randrange(1, 20)))


def no_newline(_: random.Random) -> Iterator[bytes]:
    return (b" " * CHUNK for _ in range(ENDLESS_BYTES // CHUNK))


def nested_arrays(rng: random.Random) -> Iterator[bytes]:
    lines = [b"[" * 65_000 + b"\n", b"[" + b"[]," * 21_000 + b"1]\n", b'{"do":"get","keys":[' + b'"",' * 16_000 + b'""]}\n']
    return (rng.choice(lines) for _ in range(200))


def many_pages(rng: random.Random) -> Iterator[bytes]:
    return (PAGE * 100 for _ in range(rng.randrange(1, 500)))


def long_lines(rng: random.Random) -> Iterator[bytes]:
    return (PAGE.rstrip().ljust(rng.choice([65_535, 65_536, 65_537, 131_072])) + b"\n" for _ in range(100))


Way = Callable[[random.Random], Iterator[bytes]]
WAYS: list[Way] = [random_bytes, half_lines, no_newline, nested_arrays, many_pages, long_lines]


def pump(connection: socket.socket, parts: Iterator[bytes], reads: bool) -> int:
    """Sends all parts, and reads meanwhile or does not, until a time is over. How many bytes were sent."""
    connection.setblocking(False)
    left, sent, last = memoryview(next(parts, b"")), 0, time.monotonic() + CLIENT_SECONDS
    while left and time.monotonic() < last:
        readable, writable, _ = select.select([connection] if reads else [], [connection], [], 1)
        if readable and not connection.recv(CHUNK):
            break
        if writable:
            count = connection.send(left)
            sent, left = sent + count, left[count:]
            left = left or memoryview(next(parts, b""))
    return sent


class Abuser(threading.Thread):
    """One client that misbehaves in one way."""

    def __init__(self, port: int, seed: int) -> None:
        super().__init__()
        self.rng = random.Random(seed)
        self.port, self.way, self.sent = port, self.rng.choice(WAYS), 0

    def run(self) -> None:
        with contextlib.suppress(OSError), socket.create_connection(("127.0.0.1", self.port)) as connection:
            self.sent = pump(connection, self.way(self.rng), self.rng.random() < 0.6)
            if self.rng.random() < 0.5:
                connection.setsockopt(socket.SOL_SOCKET, socket.SO_LINGER, RESET)


class Honest:
    """A client that looks at all that it is shown."""

    def __init__(self, client: Client) -> None:
        self.client = client
        self.versions: dict[str, int] = {}
        self.replies = 0

    def look(self, row: Json | None, key: str) -> None:
        number = -1 if row is None else row["version"][1]
        same(f"the version of {key} is as great as {self.versions.get(key)}", number >= self.versions.get(key, -1), True)
        same(f"the record of {key}", row, None if row is None else row_of(key, number, "x"))
        self.versions[key] = number

    def ask(self, rng: random.Random) -> None:
        """A read, a get or a page."""
        keys = [key_of(rng.randrange(KEYS)) for _ in range(20)]
        self.look(self.client.read(keys[0])["row"], keys[0])
        for key, row in zip(keys, self.client.ask({"do": "get", "keys": keys})["rows"]):
            self.look(row, key)
        if rng.random() < 0.05:
            rows = self.client.ask(json.loads(PAGE))["rows"]
            same("the page rises", [row["key"] for row in rows], sorted(row["key"] for row in rows))
            for row in rows:
                self.look(row, row["key"])
        self.replies += 2


def greatest_memory(process: int) -> int:
    """The greatest resident memory that a process has had, in KB."""
    with open(f"/proc/{process}/status") as file:
        return next(int(line.split()[1]) for line in file if line.startswith("VmHWM"))


class Episode:
    """The program, served once."""

    def __init__(self, program: str, folder: str, seed: int, abusers: int) -> None:
        self.program, self.folder, self.seed, self.abusers = program, folder, seed, abusers
        self.met: Counter[str] = Counter()
        self.memory, self.replies, self.messages = 0, 0, 0

    def talk(self, port: int, process: int, feeders: list[Feeder]) -> None:
        """All clients at once, until the misbehaving ones have gone, or for a time. Once the streams are silent, too, the program rests."""
        rng, abusers = random.Random(self.seed), [Abuser(port, self.seed * SESSIONS + index) for index in range(self.abusers)]
        with Client(port) as client:
            honest, last = Honest(client), time.monotonic() + ALONE_SECONDS
            for abuser in abusers:
                abuser.start()
            while any(abuser.is_alive() for abuser in abusers) or not abusers and time.monotonic() < last:
                honest.ask(rng)
            self.memory, self.replies = greatest_memory(process), honest.replies
            for feeder in feeders:
                feeder.stopped.set()
                feeder.join()
            rests(process, "where the honest client is alone, and asks no more")
            client.end()
        for abuser in abusers:
            self.met["megabytes"] += abuser.sent >> 20
            self.met[abuser.way.__name__.replace("_", " ")] += 1

    def run(self) -> None:
        pipes = [fifo(self.folder, f"{name}-{self.seed}-{self.abusers}") for name in NAMES]
        streams = [(name, path) for name, (path, _) in zip(NAMES, pipes)]
        sessions = min(self.abusers, SESSIONS - 1) + 1
        with Served(self.program, streams, sessions, ["--bounds", '["k500"]', "--workers", "2"]) as served:
            feeders = [Feeder(pipe) for _, pipe in pipes]
            for feeder in feeders:
                feeder.start()
            try:
                self.talk(served.port, served.process.pid, feeders)
            finally:
                for feeder in feeders:
                    feeder.stopped.set()
            for feeder in feeders:
                feeder.join()
            same("how it ends", served.end(), (0, b"served %d\n" % sessions, b""))
        self.messages = sum(feeder.count for feeder in feeders)


def check_abuse(program: str, folder: str, soak: float, seed: int) -> None:
    """The honest client is shown what is right each time, and memory stays within bounds."""
    met, greatest, replies, messages_taken, last = Counter[str](), 0, 0, 0, time.monotonic() + soak
    alone = Episode(program, folder, seed, 0)
    alone.run()
    for number in itertools.count(seed):
        episode = Episode(program, folder, number, SESSIONS)
        episode.run()
        met, greatest = met + episode.met, max(greatest, episode.memory)
        replies, messages_taken = replies + episode.replies, messages_taken + episode.messages
        if time.monotonic() > last:
            break
    clients = ", ".join(f"{count} {what}" for what, count in sorted(met.items()))
    print(f"{number - seed + 1} times 16 clients ({clients}); {replies} honest replies, {messages_taken} messages; "
          f"at most {greatest} KB, and {alone.memory} KB where one client is alone")
    same("the memory is within that", greatest < alone.memory + SESSIONS * SESSION_KB, True)
