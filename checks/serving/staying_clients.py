"""Thousands of clients of a program that stays, among them some that misbehave: checks of `checks/run stay`."""
import contextlib
import itertools
import os
import random
import socket
import statistics
import struct
import time
from collections.abc import Callable, Iterator

from common.served import SECONDS, Client, row_of, same, written
from serving.staying import CHUNK, KEYS, PAGE, Beside, Staying, Swarm, feed, key_of, messages, until

IDLE, BUSY, TURNS = 10_000, 256, 20_000
IDLE_KB, LEAK_KB = 4, 1_024
# How many versions of each key are shown to connections, or more.
VERSIONS = 20
NEVER_READING, HALF_LINES, FLOODING = 200, 200, 2
# What a client that reads nothing may cost: 128 KB of replies, and one read's input. A half line may have 64 KB.
WAITING_KB, HALF_LINE_KB, BUFFER_BYTES = 128 + 16, 64, 1 << 14
SLOWER = 5
RESET = struct.pack("ii", 1, 0)


def fed(folder: str) -> str:
    path = os.path.join(folder, "east")
    os.mkfifo(path)
    return path


def check_idle(program: str, folder: str) -> None:
    """10,000 idle connections, of which some asked or sent half a line, beside 256 busy ones: they cost little, and still ask."""
    path = fed(folder)
    with contextlib.ExitStack() as stay:
        region = stay.enter_context(Staying(program, folder, [("east", path)], "--connections", str(IDLE + 2 * BUSY)))
        stay.enter_context(Beside(feed, path, 2_000))
        swarm = stay.enter_context(Swarm(region.port, BUSY))
        alone, before = swarm.run_for(2), region.memory()
        idle = [stay.enter_context(Client(region.port)) for _ in range(IDLE)]
        for at, client in enumerate(idle):
            client.send([b"", PAGE, PAGE[:20]][at % 3])
            if at % 3 == 1:
                client.reply()
        beside, each = swarm.run_for(4), (region.memory() - before) / IDLE
        same(f"an idle connection costs {each:.2f} KB, which is little enough", each < IDLE_KB, True)
        for at, client in enumerate(idle):
            client.send(PAGE[20:] if at % 3 == 2 else PAGE)
            same("what an idle one is answered", client.reply()[:9], b'{"next":n')
        print(f"  {IDLE:,} idle connections cost {each:.2f} KB each")
        print(f"  {BUSY} busy ones have {beside:,.0f} replies a second, and {alone:,.0f} without them")


def check_one_after_another(program: str, folder: str) -> None:
    """20,000 connections, of one thread and of four: what one was shown the next is shown too, and nothing is left of them."""
    path = fed(folder)
    with Staying(program, folder, [("east", path)], threads=1) as region, Beside(feed, path, 2_000):
        shown = dict.fromkeys(map(key_of, range(KEYS)), -1)
        for key in itertools.islice(itertools.cycle(shown), TURNS // 4):
            with Client(region.port) as client:
                row = client.read(key)["row"]
                number = row["version"][1] if row else -1
                same(f"{key} is as new as it was shown before", number >= shown[key], True)
                shown[key] = number
    east = written(folder, "file", messages(1, KEYS))
    with Staying(program, folder, [("east", east)], threads=4) as region:
        with Client(region.port) as client:
            client.wait_for("k000", row_of("k000", 1, "x"))
        turn_over(region.port, TURNS // 10)
        before = region.rest("before they come")
        turn_over(region.port, TURNS)
        region.same_rest(before, f"once {TURNS:,} connections have gone", LEAK_KB)


def turn_over(port: int, count: int) -> None:
    """Connections that read once and go, or send half a line and go, or go at once."""
    for at in range(count):
        with socket.create_connection(("127.0.0.1", port), timeout=SECONDS) as connection:
            if at % 4 == 0:
                connection.sendall(PAGE[: at % len(PAGE)])
            elif at % 4 != 1:
                connection.sendall(b'{"do":"read","key":"k000"}\n')
                same("the reply", connection.recv(CHUNK)[:8], b'{"row":{')


def check_versions(program: str, folder: str) -> None:
    """Beside a stream that loads, nothing that a connection was shown becomes older; on one thread that holds over connections."""
    for threads in (1, 4):
        path = os.path.join(folder, f"fifo-{threads}")
        os.mkfifo(path)
        streams, words = [("east", path)], ["--bounds", '["k050"]', "--workers", "2"]
        with Staying(program, folder, streams, *words, threads=threads) as region, Beside(feed, path, 20_000):
            with Swarm(region.port, 128, is_one_thread=threads == 1) as swarm:
                rate = swarm.run_for(4)
                until(f"each key has {VERSIONS} versions", lambda: swarm.run_for(1) and swarm.newest() >= VERSIONS)
            print(f"  {threads} threads: {rate:,.0f} replies a second, while each key had {swarm.newest()} versions")


def check_backlog(program: str, folder: str) -> None:
    """A connection too many waits until another one ends."""
    east = written(folder, "east", messages(1, KEYS))
    with Staying(program, folder, [("east", east)], "--connections", "3") as region:
        first = [Client(region.port) for _ in range(3)]
        for client in first:
            client.wait_for("k000", row_of("k000", 1, "x"))
        with Client(region.port) as late:
            late.send(PAGE)
            late.socket.settimeout(0.5)
            with contextlib.suppress(TimeoutError):
                raise AssertionError(f"one connection too many is answered: {late.socket.recv(CHUNK)[:100]!r}")
            first.pop().__exit__()
            late.socket.settimeout(SECONDS)
            same("the page of the one that waited", late.socket.recv(CHUNK)[:9], b'{"next":n')
            for client in first:
                same("the row of one that stayed", client.read("k001")["row"]["key"], "k001")
                client.__exit__()


def check_last_line(program: str, folder: str) -> None:
    """A connection has a million lines, as a session has; its client begins another."""
    east = written(folder, "east", b"")
    with Staying(program, folder, [("east", east)]) as region:
        with Client(region.port) as client:
            flood(lambda: False, region.port, b"{}\n", 1_000_200)
            same("the first reply of another connection", client.read("k"), {"row": None})
        with Client(region.port) as client:
            same("the first reply of the next one", client.read("k"), {"row": None})


def flood(is_over: Callable[[], bool], port: int, line: bytes, most: int = 0) -> None:
    """Sends lines as fast as they are taken, and reads all replies; with `most`, the connection ends after a million of them."""
    with socket.create_connection(("127.0.0.1", port), timeout=SECONDS) as connection:
        connection.setblocking(False)
        lines, left, replies, sent = line * 1_000, memoryview(b""), 0, 0
        while most or not is_over():
            with contextlib.suppress(BlockingIOError, BrokenPipeError, ConnectionResetError):
                if not left and (not most or sent < most):
                    left, sent = memoryview(lines), sent + 1_000
                left = left[connection.send(left) :]
            try:
                came = connection.recv(CHUNK)
            except BlockingIOError:
                time.sleep(0.0005)
                continue
            except ConnectionResetError:
                came = b""
            replies += came.count(b"\n")
            if not came:
                break
        if most:
            same("how many lines of a connection are answered", replies, 1_000_000)


def deaf_client(port: int) -> socket.socket:
    """A connection for a client that reads nothing. What it holds for it is little."""
    client = socket.socket()
    client.setsockopt(socket.SOL_SOCKET, socket.SO_RCVBUF, BUFFER_BYTES)
    client.connect(("127.0.0.1", port))
    client.setblocking(False)
    return client


def never_read(is_over: Callable[[], bool], port: int) -> None:
    """Clients that send pages until no more is taken, and read nothing. One that is ended for that comes again."""
    with contextlib.ExitStack() as stay:
        clients = [stay.enter_context(deaf_client(port)) for _ in range(NEVER_READING)]
        while not is_over():
            for at, client in enumerate(clients):
                with contextlib.suppress(BlockingIOError):
                    try:
                        client.send(PAGE * 100)
                    except ConnectionError:
                        clients[at] = stay.enter_context(deaf_client(port))
            time.sleep(0.1)


def send_half_lines(is_over: Callable[[], bool], port: int) -> None:
    """Clients whose lines never end, of which some are long."""
    with contextlib.ExitStack() as stay:
        clients = [stay.enter_context(socket.create_connection(("127.0.0.1", port))) for _ in range(HALF_LINES)]
        for at, client in enumerate(clients):
            client.sendall(PAGE + PAGE[:10] + b" " * (60_000 if at % 10 == 0 else at))
        while not is_over():
            for client in random.sample(clients, 20):
                client.sendall(b" ")
            time.sleep(0.02)


def reset(is_over: Callable[[], bool], port: int) -> None:
    """Clients that ask, and reset their connections before they were answered, or while they are."""
    while not is_over():
        with contextlib.suppress(OSError), socket.create_connection(("127.0.0.1", port)) as client:
            client.sendall(PAGE * random.randrange(1, 20))
            if random.random() < 0.5:
                client.recv(1_000)
            client.setsockopt(socket.SOL_SOCKET, socket.SO_LINGER, RESET)
        time.sleep(0.002)


def last_of_hundred(swarm: Swarm) -> float:
    """The 99th percentile of the time of a reply, in milliseconds: the least of three."""
    found = []
    for _ in range(3):
        swarm.took.clear()
        swarm.run_for(2)
        found.append(statistics.quantiles(swarm.took, n=100)[98] * 1e3)
    return min(found)


@contextlib.contextmanager
def misbehaving(port: int) -> Iterator[None]:
    """All clients that misbehave, at once."""
    with contextlib.ExitStack() as stay:
        for work in [never_read, send_half_lines, reset]:
            stay.enter_context(Beside(work, port))
        for _ in range(FLOODING):
            stay.enter_context(Beside(flood, port, b'{"do":"read","key":"k000"}\n'))
        yield


def check_misbehaving(program: str, folder: str) -> None:
    """Clients that never read, never end a line, reset or flood: honest ones are answered as before, and memory stays small.

    As a control they ask another region first, which takes the machine's processors as much.
    """
    streams = [("east", written(folder, "east", messages(1, 1_000, "x" * 20)))]
    with Staying(program, folder, streams) as region, Staying(program, folder, streams) as other, Swarm(region.port, 16) as swarm:
        alone = last_of_hundred(swarm)
        with misbehaving(other.port):
            elsewhere = last_of_hundred(swarm)
        before = region.memory()
        with misbehaving(region.port):
            beside, grown = last_of_hundred(swarm), region.memory() - before
        most = NEVER_READING * WAITING_KB + HALF_LINES // 10 * HALF_LINE_KB + LEAK_KB
        print(f"  the 99th percentile of honest ones: {beside:.2f} ms; {alone:.2f} alone, {elsewhere:.2f} beside another region")
        print(f"  the others cost {grown:,} KB")
        same(f"{grown} KB more are at most {most}", grown <= most, True)
        same(f"{beside:.2f} ms are at most {SLOWER} times as long", beside <= SLOWER * max(alone, elsewhere), True)
