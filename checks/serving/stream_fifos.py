"""FIFOs whose publishers come at once, too early or at a wrong position, or whose region lacks something: checks of `checks/run streams`."""
import contextlib
import fcntl
import os
import resource
import select
import socket
import time
from collections.abc import Iterator

from common.served import SECONDS, Client, rests, row_of, same, seconds_of
from serving.controlled import Publisher, failed, made, said_of_faults, socket_in
from serving.staying import Staying, key_of, messages, until

ENDED = b"pnuts: stream east ended\n"
LIVES, RESTARTS, QUIET_LIVES = 50, 50, 300
# How soon a feed is started again. How long a region is given to see the end of one that has gone: at least this many seconds, and this
# many times as long as it took once.
GAPS, SEEN, TIMES = (0.0, 0.0005, 0.002, 0.01, 0.05), 0.3, 20
FEW_DESCRIPTORS, SILENT = 8, 60


def write(path: str, text: bytes) -> None:
    """A publisher that opens a FIFO, writes and goes. It fails where nobody reads the FIFO."""
    handle = os.open(path, os.O_WRONLY | os.O_NONBLOCK)
    os.set_blocking(handle, True)
    with open(handle, "wb", buffering=0) as pipe:
        pipe.write(text)


def wait_for(client: Client, at: int) -> None:
    client.wait_for(key_of(at), row_of(key_of(at), at // 100, "x"))


@contextlib.contextmanager
def without_descriptors(region: Staying) -> Iterator[None]:
    """Silent clients have all descriptors of a region, until the block ends."""
    process = region.process.pid
    most = max(map(int, os.listdir(f"/proc/{process}/fd"))) + 1 + FEW_DESCRIPTORS
    resource.prlimit(process, resource.RLIMIT_NOFILE, (most, most))
    with contextlib.ExitStack() as stay:
        for _ in range(SILENT):
            stay.enter_context(socket.create_connection(("127.0.0.1", region.port)))
        # A thread that waits for a connection may hold its number already.
        until("no descriptor is left", lambda: region.descriptors() >= most - 1)
        yield


def seen_within(region: Staying) -> float:
    """How long a region is given to see that a publisher has gone, which is asked as the first one goes."""
    took = seconds_of(lambda: until("the end of its first publisher is told", lambda: b" ended\n" in region.said()))
    return max(SEEN, TIMES * took)


def wait_at(errors: int, words: bytes) -> None:
    """Waits at the other end of standard error until it has these words."""
    last, said = time.monotonic() + SECONDS, b""
    while words not in said:
        if not select.select([errors], [], [], max(0.0, last - time.monotonic()))[0]:
            raise TimeoutError(f"it does not say {words!r}")
        said += os.read(errors, 4_096)


def check_publisher_right_after_the_end(program: str, folder: str) -> None:
    """A FIFO's publisher that comes as soon as the end of the one before was told is read, fifty times."""
    path, east = made(folder)
    ours, theirs = os.pipe()
    with open(ours, "rb"), Staying(program, folder, [east], errors=theirs) as region, Client(region.port) as client:
        os.close(theirs)
        # The first one waits until the region has opened the FIFO.
        with open(path, "wb", buffering=0) as first:
            first.write(messages(1, 1))
        for at in range(2, LIVES + 2):
            wait_at(ours, ENDED)
            begin = 1 if at % 10 == 0 else at
            write(path, messages(begin, at - begin + 1))
            wait_for(client, at)
        same("it is running", region.is_running(), True)


def check_restarts_before_the_end(program: str, folder: str) -> None:
    """A FIFO's feed that leaves half a line and is started again before its end was seen may be refused, and a later one is read."""
    path, east = made(folder)
    with Staying(program, folder, [east]) as region, Client(region.port) as client:
        has, read = 0, 0
        with open(path, "wb", buffering=0) as pipe:
            pipe.write(messages(1, 1))
        wait_for(client, 1)
        has, seen = 1, seen_within(region)
        for at in range(RESTARTS):
            write(path, messages(has + 1, 1) + messages(has + 2, 1)[:-30])
            wait_for(client, has + 1)
            time.sleep(GAPS[at % len(GAPS)])
            write(path, messages(has + 2, 1))
            time.sleep(seen)
            row = client.read(key_of(has + 2))["row"]
            read += row == row_of(key_of(has + 2), (has + 2) // 100, "x")
            write(path, messages(has + 1, 2))
            wait_for(client, has + 2)
            time.sleep(seen)
            has += 2
        print(f"  of {RESTARTS} that came too early {read} were read, and all that came {seen:.1f} s later")


def check_beginnings_of_a_fifo(program: str, folder: str) -> None:
    """A FIFO's publisher may begin at 1, in the middle or at N + 1. One at N + 2 or with a bad line is dropped whole, and the next one is read."""
    path, east = made(folder)
    with Staying(program, folder, [east]) as region, Client(region.port) as client:
        until("it has opened the FIFO", lambda: opens(path))
        has, seen, said = 0, 0.0, list[bytes]()
        for first, count in ((1, 10), (1, 12), (5, 10), (15, 5), (3, 4), (20, 1)):
            write(path, messages(first, count))
            has = max(has, first + count - 1)
            wait_for(client, has)
            seen = seen or seen_within(region)
            time.sleep(seen)
        for bad, line, at, why in (
            (messages(has + 2, 1), 1, has + 1, f"gap, got {has + 2}, wanted {has + 1}"),
            (messages(has, 1) + b"x\n", 2, has + 1, "not-json"),
            (messages(1, 1) + messages(1, 1), 2, 2, "out-of-step, got 1"),
            (b"x" * 70_000, 1, has + 1, "too-long"),
        ):
            write(path, bad + messages(has + 1, 30))
            said.append(failed("east", at, line, why))
            until(f"it says {said[-1]!r}", lambda: said_of_faults(region) == said)
            time.sleep(seen)
            same(f"what is there after {why}", client.read(key_of(has + 1)), {"row": None})
        write(path, messages(has + 1, 1))
        wait_for(client, has + 1)


def opens(path: str) -> bool:
    """Whether somebody reads a FIFO."""
    with contextlib.suppress(OSError):
        os.close(os.open(path, os.O_WRONLY | os.O_NONBLOCK))
        return True
    return False


def check_no_descriptor_left(program: str, folder: str) -> None:
    """Where all descriptors are taken a FIFO's next publisher is read, and a socket's at the latest once some are free; no processor is spent meanwhile."""
    (path, west), (at, east) = made(folder, "west"), socket_in(folder)
    with Staying(program, folder, [east, west]) as region, Client(region.port) as client:
        until("it has opened the FIFO", lambda: opens(path))
        write(path, messages(1, 1))
        wait_for(client, 1)
        seen = seen_within(region)
        with without_descriptors(region):
            for number in range(2, 6):
                time.sleep(seen)
                write(path, messages(number, 1))
                wait_for(client, number)
            with Publisher(at) as publisher:
                publisher.is_taken(seen)
                rests(region.process.pid, "while no descriptor is left")
                same("whether the clients are answered", client.read(key_of(1)), {"row": row_of(key_of(1), 0, "x")})
        with Publisher(at) as publisher:
            same("what a socket's publisher is told", publisher.begin(), 0)
            publisher.send(messages(1, 8))
            wait_for(client, 8)
        told = [line for line in region.said().splitlines() if b"Too many open files" in line]
        same(f"whether {told} are at most one line each for clients and publishers", len(told) <= 2, True)


def filled() -> tuple[int, int]:
    """A pipe that takes no more."""
    ours, theirs = os.pipe()
    fcntl.fcntl(theirs, fcntl.F_SETPIPE_SZ, 4_096)
    os.set_blocking(theirs, False)
    with contextlib.suppress(BlockingIOError):
        while True:
            os.write(theirs, b"x" * 512)
    os.set_blocking(theirs, True)
    return ours, theirs


def check_errors_that_nobody_drains(program: str, folder: str) -> None:
    """Where standard error takes no more, FIFOs begin again and publishers at sockets are told of their faults, as if it did."""
    (path, west), (at, east) = made(folder, "west"), socket_in(folder)
    ours, theirs = filled()
    try:
        with Staying(program, folder, [east, west], "--progress", errors=theirs) as region, Client(region.port) as client:
            until("it has opened the FIFO", lambda: opens(path))
            for number in range(1, QUIET_LIVES + 1):
                write(path, messages(number, 1))
                wait_for(client, number)
                with Publisher(at) as publisher:
                    same("what the region has", publisher.begin(), 0)
                    publisher.send(b"x\n")
                    same("what its publisher is told", publisher.last_lines(), [b'{"at":1,"error":"not-json"}\n'])
            rests(region.process.pid, "with words that nobody takes")
            os.set_blocking(ours, False)
            os.read(ours, 1 << 20)
            write(path, messages(QUIET_LIVES + 1, 1))
            wait_for(client, QUIET_LIVES + 1)
            until("it says something again", lambda: can_read(ours))
    finally:
        os.close(ours)
        os.close(theirs)


def can_read(handle: int) -> bool:
    with contextlib.suppress(BlockingIOError):
        return bool(os.read(handle, 1 << 16))
    return False
