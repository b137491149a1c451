"""A program that serves sessions, and clients that talk to it, and one at rest, which takes no processor, and has the descriptors and the memory
that it had before: what the checks and benches of sessions share."""
import contextlib
import ctypes
import json
import os
import random
import socket
import subprocess
import threading
import time
from collections.abc import Callable, Sequence
from multiprocessing import sharedctypes
from typing import IO, Any, AnyStr, NamedTuple, Self

SECONDS = 60
# Below those that the system gives to clients, from any one on. Processes that were forked share the last one.
PORTS = range(10_000, 32_768)
LAST_PORT = sharedctypes.synchronized(sharedctypes.RawValue(ctypes.c_int, random.randrange(len(PORTS))))
# A program that starts holds what other threads have open until it has begun, and so a port that is tried.
STARTING = threading.Lock()
# How many times as long as an idle wait something may take that is not held up: a machine that is busy makes both longer.
TIMES = 50

# What is sent and answered: each command has other members.
Json = dict[str, Any]
# For how long it is looked at, and how much of a processor it may take meanwhile.
LOOKED, AT_REST = 2.0, 0.02
# With how many seconds of a processor it has to come to rest, and within how many of a clock: a busy machine gives it few.
SPENT, PATIENCE = 3.0, 60.0


def same(what: str, found: object, wanted: object) -> None:
    """Fails where something is not as it should be."""
    if found != wanted:
        raise AssertionError(f"{what}: {str(found)[:300]}, not {str(wanted)[:300]}")


def piped(pipe: IO[AnyStr] | None) -> IO[AnyStr]:
    """A pipe of a process that was started with it."""
    if pipe is None:
        raise ValueError("the process was started without this pipe")
    return pipe


def image(key: str, number: int, text: str, master: str = "w", generation: int = 1) -> Json:
    return {"fields": {"v": text}, "key": key, "master": master, "version": [generation, number]}


def message(at: int, key: str, number: int, text: str) -> bytes:
    return json.dumps({"at": at, "image": image(key, number, text)}).encode() + b"\n"


def row_of(key: str, number: int, text: str) -> Json:
    contents = [{"fields": {"v": text}, "master": "w"}]
    return {"contents": contents, "key": key, "state": "one", "version": [1, number]}


def free_port() -> int:
    """A port that no client is given, and that this process has not used for long."""
    for _ in PORTS:
        with LAST_PORT.get_lock():
            LAST_PORT.value += 1
            port = PORTS[LAST_PORT.value % len(PORTS)]
        with socket.socket() as probe, contextlib.suppress(OSError):
            probe.bind(("127.0.0.1", port))
            return port
    raise OSError("there is no port left")


class Served:
    """A program that serves sessions; its streams are pairs of a name and a path. `before` is done in its process first."""

    def __init__(
        self,
        program: str,
        streams: Sequence[tuple[str, str | os.PathLike[str]]],
        sessions: int = 1,
        words: Sequence[str] = (),
        environment: dict[str, str] | None = None,
        port: int | None = None,
        before: Callable[[], None] | None = None,
    ) -> None:
        named = [f"{name}={path}" for name, path in streams]
        pipe = subprocess.PIPE
        with STARTING:
            self.port = port or free_port()
            line = [program, "serve", "--sessions", str(sessions), "--port", str(self.port), *words, *named]
            self.process = subprocess.Popen(line, stdin=subprocess.DEVNULL, stdout=pipe, stderr=pipe, env=environment, preexec_fn=before)
            self.stdout, self.stderr = piped(self.process.stdout), piped(self.process.stderr)

    def __enter__(self) -> "Served":
        self.first = self.stdout.readline()
        return self

    def __exit__(self, *_: object) -> None:
        if self.process.poll() is None:
            self.process.kill()
        self.process.wait()
        self.stdout.close()
        self.stderr.close()

    def end(self) -> tuple[int, bytes, bytes]:
        """Its status, and what it wrote after its first line on both outputs."""
        shown, said = self.process.communicate(timeout=SECONDS)
        return self.process.returncode, shown, said


class Client:
    """A session over loopback, one JSON value a line."""

    def __init__(self, port: int) -> None:
        self.socket = socket.create_connection(("127.0.0.1", port), timeout=SECONDS)
        self.socket.setsockopt(socket.IPPROTO_TCP, socket.TCP_NODELAY, 1)
        self.replies = self.socket.makefile("rb")

    def __enter__(self) -> Self:
        return self

    def __exit__(self, *_: object) -> None:
        self.replies.close()
        self.socket.close()

    def send(self, text: bytes) -> None:
        self.socket.sendall(text)

    def reply(self) -> bytes:
        return self.replies.readline()

    def ask(self, command: Json) -> Json:
        self.send(json.dumps(command).encode() + b"\n")
        reply: Json = json.loads(self.reply())
        return reply

    def read(self, key: str) -> Json:
        return self.ask({"do": "read", "key": key})

    def wait_for(self, key: str, row: Json) -> list[Json | None]:
        """Asks until the row is there. What was shown before it, each once."""
        last = time.monotonic() + SECONDS
        shown: list[Json | None] = []
        while time.monotonic() < last:
            got = self.read(key)["row"]
            if got == row:
                return shown
            if got not in shown:
                shown.append(got)
        raise TimeoutError(f"{key} was not served: {shown}")

    def end_input(self) -> None:
        """Sends no more."""
        self.socket.shutdown(socket.SHUT_WR)

    def end(self) -> bytes:
        """Sends no more, and answers what is still replied."""
        self.end_input()
        return self.replies.read()


def written(folder: str, name: str, messages: bytes) -> str:
    """A file of messages in a folder."""
    path = os.path.join(folder, name)
    with open(path, "wb") as file:
        file.write(messages)
    return path


def fifo(folder: str, name: str) -> tuple[str, IO[bytes]]:
    """A named pipe in a folder, open for writing: a program that opens it to read does not wait for a writer."""
    path = os.path.join(folder, name)
    os.mkfifo(path)
    return path, open(os.open(path, os.O_RDWR), "wb", buffering=0)


def seconds_of(act: Callable[[], object]) -> float:
    """For how long something is waited for."""
    start = time.monotonic()
    act()
    return time.monotonic() - start


def in_time(what: str, took: float, least: float, idle: float) -> None:
    """Fails where something took longer than these seconds, and many times as long as an idle wait."""
    most = max(least, TIMES * idle)
    same(f"{what}: whether {took:.2f} s are at most {most:.2f}", took <= most, True)


def processor_seconds(process: int) -> float:
    """How long the threads of a process were on a processor so far, also those that have ended. Who waits for one does not count."""
    # The number of a process's clock, as clock_getcpuclockid(3) makes it.
    return time.clock_gettime(~process << 3 | 2)


def share(process: int, seconds: float = LOOKED) -> float:
    """How much of a processor it takes in some seconds."""
    before, start = processor_seconds(process), time.monotonic()
    time.sleep(seconds)
    return (processor_seconds(process) - before) / (time.monotonic() - start)


def rests(process: int, when: str) -> None:
    """Fails unless it comes to rest, and takes no processor for two seconds."""
    spent, last = processor_seconds(process) + SPENT, time.monotonic() + PATIENCE
    while (took := share(process)) > AT_REST and processor_seconds(process) < spent and time.monotonic() < last:
        pass
    same(f"whether {took:.3f} of a processor {when} are at most {AT_REST}", took <= AT_REST, True)


def descriptors(process: int) -> int:
    return len(os.listdir(f"/proc/{process}/fd"))


def sockets(process: int) -> int:
    """How many sockets it has; one may have several descriptors."""
    found, folder = set[str](), f"/proc/{process}/fd"
    for name in os.listdir(folder):
        with contextlib.suppress(FileNotFoundError):
            found.add(os.readlink(f"{folder}/{name}"))
    return sum(target.startswith("socket:") for target in found)


def memory(process: int) -> int:
    """Its resident memory now, in KB."""
    with open(f"/proc/{process}/status") as file:
        return next(int(line.split()[1]) for line in file if line.startswith("VmRSS"))


class Rest(NamedTuple):
    """What a program has that rests."""

    descriptors: int
    # In KB.
    memory: int


def rest_of(process: int, when: str) -> Rest:
    """What it has once it rests."""
    rests(process, when)
    return Rest(descriptors(process), memory(process))


def same_rest(process: int, before: Rest, when: str, more_kb: int) -> Rest:
    """Fails unless it rests again, with as many descriptors as before and at most `more_kb` KB more."""
    after = rest_of(process, when)
    same(f"how many descriptors it has {when}", after.descriptors, before.descriptors)
    grown = after.memory - before.memory
    same(f"whether {grown} KB more {when} are at most {more_kb}", grown <= more_kb, True)
    return after
