"""Checks of `checks/run control`: the stop of a region, beside clients that have lines in flight."""
import contextlib
import json
import os
import random
import select
import signal
import socket
import time
from collections.abc import Callable

from common.served import SECONDS, in_time, same, seconds_of
from serving.controlled import CHUNK, Publisher, Session, region_in, written
from serving.staying import KEYS, Beside, Staying, messages, until
from serving.stream_lives import write_slowly

CLIENTS, LINES, PAGES, KILLED = 256, 100, 60, 60
READ = b'{"do":"read","key":"k%03d"}\n'
HALF = b'{"error":"not-json"}\n'
SCAN = b'{"do":"scan","query":{"limit":1000}}\n'


class Pipelining:
    """A client that sends lines without pause, and notes how many it had sent at some moment."""

    def __init__(self, address: int | str) -> None:
        self.socket = socket.create_connection(("127.0.0.1", address)) if isinstance(address, int) else socket.socket(socket.AF_UNIX)
        if isinstance(address, str):
            self.socket.connect(address)
        self.socket.setblocking(False)
        self.sent, self.unsent, self.came, self.is_over = 0, b"", b"", False

    def turn(self) -> None:
        """Sends what is taken, and takes what came."""
        with contextlib.suppress(BlockingIOError, BrokenPipeError, ConnectionResetError):
            if not self.unsent:
                self.unsent = b"".join(READ % (number % KEYS) for number in range(self.sent, self.sent + LINES))
                self.sent += LINES
            self.unsent = self.unsent[self.socket.send(self.unsent) :]
        try:
            while not self.is_over and (part := self.socket.recv(CHUNK)):
                self.came += part
            self.is_over = True
        except BlockingIOError:
            pass
        except ConnectionError:
            self.is_over = True

    def look(self) -> int:
        """Looks whether the replies are whole, in the order of the lines; half a line has one, too. How many there are."""
        same("what comes last is whole", self.came[-1:] in (b"", b"\n"), True)
        lines = self.came.removesuffix(HALF).splitlines()
        keys = [json.loads(line)["row"]["key"] for line in lines]
        same("the replies are those of the first lines", keys == [f"k{number % KEYS:03}" for number in range(len(keys))], True)
        return len(keys)


def left_in(folder: str) -> list[str]:
    """The files that a program leaves, but for what it said and the locks of its sockets."""
    return [it for it in os.listdir(folder) if "errors" not in it and not it.endswith(".lock")]


def stopped(region: Staying, control: str, seconds: int = 10) -> float:
    """Stops a region, and waits for its end, which is clean. How many seconds it took."""
    start = time.monotonic()
    with Session(control) as session:
        same("the reply", session.told(do="stop", seconds=seconds), {"stopping": seconds})
        same("the end of its session", session.line(), b"")
    return ended(region, start)


def ended(region: Staying, start: float) -> float:
    same("its status", region.process.wait(timeout=SECONDS), 0)
    same("what it said", [line for line in region.said().splitlines() if b"ended" not in line and b"begins" not in line], [])
    same("files of sockets", left_in(region.folder), [])
    return time.monotonic() - start


def check_stop(program: str, folder: str) -> None:
    """A stop beside 256 connections with a hundred lines in flight each: each line that had come has its reply."""
    with region_in(folder, program) as (region, control, path), contextlib.ExitStack() as stack:
        written(path, 1, 1000)
        clients = [stack.enter_context(socket.create_connection(("127.0.0.1", region.port), timeout=SECONDS)) for _ in range(CLIENTS)]
        for client in clients:
            client.sendall(READ % 1)
            client.recv(CHUNK)
        for client in clients:
            client.sendall(READ % 1 * LINES + READ[:-2] % 1)
        waits = stack.enter_context(Session(control))
        waits.send(b'{"do":"notices","since":1000000000000000000,"wait":60}\n{"do":"notices","since":0,"wait":60}\n')
        publisher = stack.enter_context(Publisher(path))
        publisher.begin()
        seconds = stopped(region, control)
        for client in clients:
            with client.makefile("rb") as file:
                replies = file.read().splitlines()
                same("the replies", [len(replies), replies[-1]], [LINES + 1, b'{"error":"not-json"}'])
        print(f"    stopped in {seconds:.2f} s")


def check_stop_beside_lines(program: str, folder: str) -> None:
    """A stop beside 256 connections that go on sending: each reads whole replies to its first lines, over TCP and a Unix socket."""
    for words in (list[str](), ["--socket", f"{folder}/clients"]):
        with region_in(folder, program, *words) as (region, control, path), Session(control) as session:
            written(path, 1, 1000)
            clients = [Pipelining(words[1] if words else region.port) for _ in range(CLIENTS)]
            last = time.monotonic() + 0.3
            while time.monotonic() < last:
                for client in clients:
                    client.turn()
            start = time.monotonic()
            session.send(b'{"do":"stop"}\n')
            while not all(client.is_over for client in clients):
                for client in clients:
                    client.turn()
                same("it ends in time", time.monotonic() < start + SECONDS, True)
            seconds = ended(region, start)
            print(f"    stopped in {seconds:.2f} s, {sum(client.look() for client in clients):,} replies")
            for client in clients:
                client.socket.close()


def check_stop_beside_slow_clients(program: str, folder: str) -> None:
    """A client that has taken no reply yet, and sends more while the region stops, still gets each reply to lines before the stop."""
    with region_in(folder, program) as (region, control, path), contextlib.ExitStack() as stack:
        written(path, 1, 1000)
        clients = [stack.enter_context(socket.create_connection(("127.0.0.1", region.port), timeout=SECONDS)) for _ in range(20)]
        for client in clients:
            client.setsockopt(socket.IPPROTO_TCP, socket.TCP_NODELAY, 1)
            client.sendall(SCAN * PAGES)
        time.sleep(0.7)
        session = stack.enter_context(Session(control))
        session.send(b'{"do":"stop"}\n')
        last = time.monotonic() + 0.3
        while time.monotonic() < last:
            for client in clients:
                with contextlib.suppress(OSError):
                    client.send(READ % 1)
        for client in clients:
            text = b""
            with contextlib.suppress(ConnectionError):
                while part := client.recv(CHUNK):
                    text += part
            same("how many pages came", text.count(b'{"next":'), PAGES)
        same("its status", region.process.wait(timeout=SECONDS), 0)


def check_stop_in_time(program: str, folder: str) -> None:
    """Clients and sessions that take nothing do not hold up a stop for longer than it says, and `seconds` of 0 ends at once."""
    for wanted in (0, 1, 2):
        with region_in(folder, program) as (region, control, path), contextlib.ExitStack() as stack:
            written(path, 1, 1000)
            deaf = [stack.enter_context(socket.create_connection(("127.0.0.1", region.port))), stack.enter_context(Session(control)).socket]
            for client in deaf:
                client.setblocking(False)
                with contextlib.suppress(BlockingIOError):
                    for _ in range(100_000):
                        client.send(SCAN * 100)
            with Session(control) as session:
                idle = seconds_of(lambda: session.told(do="marks"))
            seconds = stopped(region, control, wanted)
            same(f"it ends after {seconds:.2f} seconds, of {wanted}", wanted <= seconds + 0.1, True)
            in_time(f"the end after {wanted} seconds", seconds - wanted, 2.5, idle)


def check_stop_of_many_kinds(program: str, folder: str) -> None:
    """A stop that is asked by several at once, without a client, with streams that have ended or failed, and with half lines."""
    took: dict[str, float] = {}
    for kind in ("none", "many", "half", "failed", "idle"):
        with region_in(folder, program) as (region, control, path), contextlib.ExitStack() as stack:
            if kind == "failed":
                with Publisher(path) as publisher:
                    publisher.begin()
                    publisher.send(b"x\n")
                    publisher.last_lines()
            if kind == "half":
                client = stack.enter_context(socket.create_connection(("127.0.0.1", region.port)))
                client.sendall(b'{"do":"re')
                time.sleep(0.1)
            if kind == "idle":
                for _ in range(100):
                    stack.enter_context(socket.create_connection(("127.0.0.1", region.port)))
                for _ in range(14):
                    stack.enter_context(Session(control))
            start = time.monotonic()
            sessions = [stack.enter_context(Session(control)) for _ in range(10 if kind == "many" else 1)]
            for at, session in enumerate(sessions):
                session.send(b'{"do":"stop","seconds":%d}\n' % (10 + at))
            said = [session.line() for session in sessions]
            same("a stop's reply", any(it.startswith(b'{"stopping":') for it in said), True)
            same("its status", region.process.wait(timeout=SECONDS), 0)
            took[kind] = time.monotonic() - start
            in_time(f"a stop at once, {kind}", took[kind], 3.0, took["none"] if kind != "none" else 0.0)
            same("files of sockets", left_in(folder), [])


def feed_on(is_over: Callable[[], bool], path: str, text: bytes) -> None:
    """A feed whose region may go."""
    with contextlib.suppress(ConnectionError):
        write_slowly(is_over, path, text)


def check_stop_beside_killed_feeds(program: str, folder: str) -> None:
    """A feed is killed sixty times while it writes, up to a tenth of a second before a stop or after it: the region ends in time."""
    rng, text, most = random.Random(1), messages(1, 4_000), 0.0
    for turn in range(KILLED):
        with region_in(folder, program) as (region, control, path), Session(control) as session, Beside(feed_on, path, text) as feed:
            until("the feed is taken", lambda: session.told(do="marks")["marks"])
            time.sleep(rng.random() * 0.05)
            if turn % 3 == 0:
                feed.kill()
                time.sleep(rng.random() * 0.01)
            start = time.monotonic()
            session.send(b'{"do":"stop"}\n')
            if turn % 3 == 1:
                time.sleep(rng.random() * 0.1)
            feed.kill()
            same("the reply", session.line(), b'{"stopping":10}\n')
            most = max(most, ended(region, start))
    same(f"it stops in {most:.2f} seconds", most < 3, True)


def check_kill(program: str, folder: str) -> None:
    """A signal ends a region with a control socket as one without, whatever its sessions do, and the next one takes its sockets."""
    for which in (signal.SIGTERM, signal.SIGINT, signal.SIGKILL):
        with region_in(folder, program) as (region, control, path), Session(control) as waits, Session(control) as session:
            written(path, 1, 5)
            waits.send(b'{"do":"notices","since":5,"wait":60}\n')
            session.send(b'{"do":"marks"}\n')
            region.process.send_signal(which)
            same("it is ended", region.process.wait(timeout=SECONDS), -which)
            until("its sessions have ended", lambda: select.select([waits.socket], [], [], 0)[0])
