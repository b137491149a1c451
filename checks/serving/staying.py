"""A program that stays, its clients by the hundred and its feeds: what the checks of `checks/run stay` share."""
import contextlib
import itertools
import json
import multiprocessing
import os
import random
import re
import resource
import select
import socket
import subprocess
import time
from collections import defaultdict
from collections.abc import Callable, Iterator, Sequence
from typing import BinaryIO

from common.served import SECONDS, STARTING, Client, Json, Rest, descriptors, free_port, memory, piped, rest_of, rests, same, same_rest, sockets

FORK = multiprocessing.get_context("fork")
KEYS = 100
DESCRIPTORS = 20_000
NICER = 15
CHUNK = 1 << 16
# How many messages a feed writes at a time.
PART = 100
PAGE = b'{"do":"scan","query":{"limit":1000}}\n'
ROW = rb'\{"contents":\[\{"fields":.*\],"key":"(k\d+)","state":"(?:one|conflict)","version":\[1,(\d+)\]\}'
READ = re.compile(rb'\{"row":(?:null|%b)\}\n' % ROW)


def raise_descriptors() -> None:
    """Lets this process, and those that it starts, have as many descriptors as the checks need."""
    soft, hard = resource.getrlimit(resource.RLIMIT_NOFILE)
    if soft < DESCRIPTORS:
        resource.setrlimit(resource.RLIMIT_NOFILE, (DESCRIPTORS, max(hard, DESCRIPTORS)))


def key_of(number: int) -> str:
    return f"k{number % KEYS:03}"


def messages(first: int, count: int, text: str = "x") -> bytes:
    """Part of a stream that has each key again and again, at a greater version each time."""
    line = b'{"at":%%d,"image":{"fields":{"v":"%b"},"key":"k%%03d","master":"w","version":[1,%%d]}}\n' % text.encode()
    return b"".join(line % (at, at % KEYS, at // KEYS) for at in range(first, first + count))


def until(what: str, holds: Callable[[], object], seconds: float = SECONDS) -> None:
    """Waits until something holds."""
    last = time.monotonic() + seconds
    while not holds():
        if time.monotonic() > last:
            raise TimeoutError(f"{what}: not within {seconds:.0f} seconds")
        time.sleep(0.01)


class Staying:
    """A program that serves until it is killed; what it says goes to a file. Its streams are names and paths.

    Where the block ends and it still runs, all its clients have gone: it has to rest then, unless it is not looked at.
    """

    def __init__(
        self,
        program: str,
        folder: str,
        streams: Sequence[tuple[str, str]],
        *words: str,
        threads: int = 4,
        errors: BinaryIO | int | None = None,
        environment: dict[str, str] | None = None,
        is_looked_at: bool = True,
    ) -> None:
        self.port, self.folder, self.is_looked_at = free_port(), folder, is_looked_at
        # The sockets at which it listens.
        self.listeners = 1 + ("--control" in words) + sum(path.startswith("listen:") for _, path in streams)
        self.errors = os.path.join(folder, f"errors-{self.port}")
        where = [] if "--socket" in words else ["--port", str(self.port)]
        line = [program, "serve", "--stay", "--sessions", str(threads), *where, *words]
        with STARTING, open(self.errors, "wb") as file:
            line += [f"{name}={path}" for name, path in streams]
            nothing, pipe = subprocess.DEVNULL, subprocess.PIPE
            self.process = subprocess.Popen(line, stdin=nothing, stdout=pipe, stderr=errors or file, env=environment)
            self.stdout = piped(self.process.stdout)

    def __enter__(self) -> "Staying":
        is_ready = select.select([self.stdout], [], [], SECONDS)[0]
        self.first = self.stdout.readline() if is_ready else b""
        if not self.first.startswith(b"listening on "):
            self.end()
            raise AssertionError(f"it does not listen: {self.first!r}, {self.said()!r}")
        return self

    def __exit__(self, fault: object, *_: object) -> None:
        try:
            if not fault and self.is_looked_at and self.is_running():
                rests(self.process.pid, "once all have gone")
                until("it has no more sockets than it listens at", lambda: sockets(self.process.pid) <= self.listeners)
        finally:
            self.end()

    def end(self) -> None:
        self.process.kill()
        self.process.wait()
        self.stdout.close()

    def said(self) -> bytes:
        """What it has said on standard error."""
        with open(self.errors, "rb") as file:
            return file.read()

    def wait_for_words(self, words: bytes, times: int = 1) -> None:
        until(f"it says {words!r} {times} times", lambda: self.said().count(words) >= times)

    def is_running(self) -> bool:
        return self.process.poll() is None

    def memory(self) -> int:
        """Its resident memory now, in KB."""
        return memory(self.process.pid)

    def descriptors(self) -> int:
        return descriptors(self.process.pid)

    def rest(self, when: str) -> Rest:
        """What it has once it rests."""
        return rest_of(self.process.pid, when)

    def same_rest(self, before: Rest, when: str, more_kb: int) -> None:
        """Fails unless it rests with what it had before, and at most `more_kb` KB more."""
        same_rest(self.process.pid, before, when, more_kb)


class Beside:
    """Work in a process of its own, which asks whether it is over, until the block ends. It fails where the work does."""

    def __init__(self, work: Callable[..., None], *told: object) -> None:
        self.stop, self.is_killed = FORK.Event(), False
        self.process = FORK.Process(target=do_beside, args=[work, self.stop.is_set, *told], daemon=True)

    def __enter__(self) -> "Beside":
        self.process.start()
        return self

    def __exit__(self, fault: object, *_: object) -> None:
        if self.is_killed:
            return
        self.stop.set()
        self.process.join(0 if fault else SECONDS)
        status = self.process.exitcode
        self.kill()
        if not fault:
            same("how the work beside it ended", status, 0)

    def kill(self) -> None:
        """Kills it at once, in the middle of what it does."""
        self.is_killed = True
        self.process.kill()
        self.process.join()


def do_beside(work: Callable[..., None], *told: object) -> None:
    """Work that takes little from the program's processors, as if it were another machine's."""
    os.nice(NICER)
    work(*told)


def feed(is_over: Callable[[], bool], path: str, a_second: int) -> None:
    """Writes a stream without end to a FIFO."""
    with contextlib.suppress(BrokenPipeError), open(path, "wb") as pipe:
        for first in itertools.count(1, PART):
            if is_over():
                break
            pipe.write(messages(first, PART))
            pipe.flush()
            time.sleep(PART / a_second)


class Asker:
    """A connection of a swarm, with at most one read in flight."""

    def __init__(self, connection: socket.socket, shown: dict[str, int]) -> None:
        connection.setsockopt(socket.IPPROTO_TCP, socket.TCP_NODELAY, 1)
        self.socket, self.shown, self.rest = connection, shown, b""
        self.is_waiting = False

    def ask(self, key: str) -> None:
        self.key, self.least = key, self.shown[key]
        self.is_waiting, self.since = True, time.perf_counter()
        self.socket.sendall(b'{"do":"read","key":"%b"}\n' % key.encode())

    def take(self) -> bool:
        """Takes what came, and looks at the reply if it is whole."""
        came = self.socket.recv(CHUNK)
        self.rest += came
        if not came or self.rest.endswith(b"\n"):
            self.look()
        return not self.is_waiting

    def look(self) -> None:
        found = READ.fullmatch(self.rest)
        if not found or found[1] not in (None, self.key.encode()):
            raise AssertionError(f"the reply to a read of {self.key}: {self.rest[:300]!r}")
        number = -1 if found[2] is None else int(found[2])
        if number < self.least:
            raise AssertionError(f"{self.key} fell from {self.least} to {number}")
        self.shown[self.key] = max(self.shown[self.key], number)
        self.rest, self.is_waiting = b"", False


class Swarm:
    """Connections that ask at once, a read in flight each; what each is shown of a key never becomes older.

    On one thread of the program, what one connection was shown holds for the next line of all others too.
    """

    def __init__(self, port: int, count: int, is_one_thread: bool = False, kind: type[Asker] = Asker) -> None:
        shared: dict[str, int] = defaultdict(lambda: -1)
        self.numbers = itertools.count(random.randrange(KEYS))
        self.poll, self.took = select.epoll(), list[float]()
        self.askers: dict[int, Asker] = {}
        for _ in range(count):
            connection = socket.create_connection(("127.0.0.1", port), timeout=SECONDS)
            asker = kind(connection, shared if is_one_thread else defaultdict(lambda: -1))
            self.askers[connection.fileno()] = asker
            self.poll.register(connection, select.EPOLLIN)

    def __enter__(self) -> "Swarm":
        return self

    def __exit__(self, *_: object) -> None:
        for asker in self.askers.values():
            asker.socket.close()
        self.poll.close()

    def run(self, is_over: Callable[[], bool]) -> float:
        """Asks until it is over, and waits for the last replies. How many came a second."""
        start, before = time.monotonic(), len(self.took)
        for asker in self.askers.values():
            asker.ask(key_of(next(self.numbers)))
        waiting = len(self.askers)
        while waiting:
            waiting -= self.turn(is_over())
        return (len(self.took) - before) / (time.monotonic() - start)

    def turn(self, is_last: bool) -> int:
        """Takes what is there. How many askers ask no more."""
        ended, events = 0, self.poll.poll(SECONDS)
        if not events:
            raise TimeoutError("no connection is answered")
        for number, _ in events:
            asker = self.askers[number]
            if asker.take():
                self.took.append(time.perf_counter() - asker.since)
                ended += is_last
                if not is_last:
                    asker.ask(key_of(next(self.numbers)))
        return ended

    def run_for(self, seconds: float) -> float:
        last = time.monotonic() + seconds
        return self.run(lambda: time.monotonic() > last)

    def newest(self) -> int:
        """The greatest version that a connection was shown."""
        return max(number for asker in self.askers.values() for number in asker.shown.values())


def watch(is_over: Callable[[], bool], port: int, count: int) -> None:
    """A swarm, as work beside."""
    with Swarm(port, count) as swarm:
        swarm.run(is_over)


def pages(client: Client) -> Iterator[Json]:
    """All rows, page by page."""
    query: object = {"limit": 1000}
    while query:
        page = client.ask({"do": "scan", "query": query})
        yield from page["rows"]
        query = page["next"]


def replayed(program: str, streams: dict[str, bytes], *words: str) -> list[Json]:
    """The rows that a script of the same messages leaves."""
    lines = []
    for name, stream in streams.items():
        told = [json.loads(line) for line in stream.splitlines()]
        for part in (told[at : at + PART] for at in range(0, len(told), PART)):
            batch = {"first": part[0]["at"], "images": [one["image"] for one in part], "stream": name}
            lines.append(json.dumps({"do": "deliver", "batches": [batch]}).encode() + b"\n")
    ran = subprocess.run([program, "replay", *words], input=b"".join(lines) + PAGE, capture_output=True, timeout=SECONDS)
    rows: list[Json] = json.loads(ran.stdout.splitlines()[-1])["rows"]
    return rows
