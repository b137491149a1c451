"""Clients that are slow, and not idle, and those that are: checks of `checks/run stay`."""
import contextlib
import functools
import select
import socket
import tempfile
import time
from collections.abc import Callable, Iterator

from common.served import SECONDS, Client, Served, row_of, same, written
from serving.staying import CHUNK, KEYS, PAGE, Staying, messages, until
from serving.staying_clients import deaf_client

# A slow client's pauses, the seconds for which it may be idle, and how many times as long as an idle one it has to last.
PAUSE, IDLE, TIMES = 0.12, 1.0, 4
# How often a check is tried in which the machine, and not the client, made a longer pause.
TRIES = 5
FEW_BYTES = 4_096
READ, NO_ROW = b'{"do":"read","key":"z"}\n', b'{"row":null}\n'
PAGES = 100


Check = Callable[[str, str], None]


class Paused(AssertionError):
    """The machine was so busy that a slow client was idle."""


def unless_paused(check: Check) -> Check:
    """A check that is tried again where the machine made too long a pause in it."""

    @functools.wraps(check)
    def tried(program: str, folder: str) -> None:
        for _ in range(TRIES - 1):
            with contextlib.suppress(Paused), tempfile.TemporaryDirectory(dir=folder) as own:
                return check(program, own)
        check(program, folder)

    return tried


def rows(folder: str) -> list[tuple[str, str]]:
    """A stream whose records make a page of 100 KB."""
    return [("east", written(folder, "east", messages(1, KEYS, "x" * 900)))]


@contextlib.contextmanager
def slow_taker(port: int) -> Iterator[socket.socket]:
    """A connection whose client's own system holds little for it, so that the server's replies wait."""
    with deaf_client(port) as client:
        client.setblocking(True)
        client.settimeout(SECONDS)
        yield client


def whole_page(port: int) -> bytes:
    """What a fast client gets for a page, once all records are there."""
    with Client(port) as client:
        client.wait_for("k000", row_of("k000", 1, "x" * 900))
        client.send(PAGE)
        return client.reply()


def has_ended(connection: socket.socket) -> bool:
    """Whether the other side has gone. What it has sent is not read: a client that takes it is not silent."""
    poll = select.poll()
    poll.register(connection, select.POLLRDHUP)
    return bool(poll.poll(0))


def slowly(port: int, act: Callable[[], None]) -> None:
    """Acts with pauses, until an idle client beside was ended, and then until it took four times as long."""
    start, took, longest = time.monotonic(), 0.0, 0.0
    with Client(port) as idle:
        while not took or time.monotonic() < start + TIMES * took:
            before = time.monotonic()
            same(f"whether an idle client is ended within {SECONDS} seconds", took > 0 or before < start + SECONDS, True)
            try:
                act()
            except (ConnectionError, ValueError) as fault:
                longest = max(longest, time.monotonic() - before)
                kind = Paused if longest >= IDLE else AssertionError
                raise kind(f"a slow client, whose longest pause took {longest:.2f} s, was ended: {fault}") from fault
            time.sleep(PAUSE)
            longest = max(longest, time.monotonic() - before)
            took = took or has_ended(idle.socket) * (time.monotonic() - start)


@unless_paused
def check_slow_sender(program: str, folder: str) -> None:
    """With --idle, a client that sends a line now and then, for much longer, is answered; one whose line never ends is ended."""
    with Staying(program, folder, rows(folder), "--idle", "1") as region, Client(region.port) as client, Client(region.port) as endless:
        asked = client.socket.makefile("rb")

        def ask() -> None:
            client.send(READ)
            same("a reply", asked.readline(), NO_ROW)

        slowly(region.port, ask)
        until("one whose line never ends is ended", lambda: has_ended(endless.socket) or trickle(endless), SECONDS)


def trickle(client: Client) -> bool:
    """Sends a byte of a line that never ends, after a pause. Its end is not seen by that."""
    time.sleep(PAUSE)
    with contextlib.suppress(ConnectionError):
        client.send(b" ")
    return False


@unless_paused
def check_slow_taker(program: str, folder: str) -> None:
    """With --idle, a client that has sent all and takes its pages bit by bit, for much longer, gets them."""
    with Staying(program, folder, rows(folder), "--idle", "1") as region, slow_taker(region.port) as client:
        page, parts = whole_page(region.port), list[bytes]()
        client.sendall(PAGE * PAGES)
        slowly(region.port, lambda: parts.append(client.recv(FEW_BYTES)))
        taken = sum(map(len, parts))
        while taken < len(page) * PAGES and (part := client.recv(CHUNK)):
            taken += len(part)
        same("how many bytes a slow taker got", taken, len(page) * PAGES)


def check_slow_pages(program: str, folder: str) -> None:
    """A client whose system holds 16 KB, and that takes 100 pages slowly, gets every byte that a fast one gets."""
    with Staying(program, folder, rows(folder)) as region, slow_taker(region.port) as client:
        page = whole_page(region.port)
        client.sendall(PAGE * PAGES)
        time.sleep(0.5)
        for number in range(PAGES):
            left = len(page)
            while left:
                part = client.recv(min(left, FEW_BYTES if number % 10 == 0 else CHUNK))
                at = len(page) - left
                same(f"bytes {at} and on of page {number}", part, page[at : at + max(len(part), 1)])
                left -= len(part)
                time.sleep(0.002 if number % 10 == 0 else 0)


def check_deaf_session(program: str, folder: str) -> None:
    """With --idle, a client of a session without --stay that asks for pages and takes none is ended, and so is the program."""
    with Served(program, rows(folder), words=["--idle", "1"]) as served, deaf_client(served.port) as deaf:
        with contextlib.suppress(BlockingIOError):
            for _ in range(10_000):
                deaf.send(PAGE * 100)
        until("the session of one that takes nothing has ended", lambda: served.process.poll() is not None, 20)
        same("how it ends", served.end(), (0, b"served 1\n", b""))


@unless_paused
def check_silent(program: str, folder: str) -> None:
    """With --idle, clients that send nothing or half a line, or take nothing, are ended; those that ask or take are not. So is a session."""
    east = written(folder, "east", messages(1, 1_000, "x" * 1_000))
    with Staying(program, folder, [("east", east)], "--idle", "1") as region, contextlib.ExitStack() as stay:
        stay.enter_context(Client(region.port)).wait_for("k000", row_of("k000", 10, "x" * 1_000))
        silent, half, slow, honest = (stay.enter_context(Client(region.port)) for _ in range(4))
        half.send(PAGE[:20])
        deaf = stay.enter_context(deaf_client(region.port))
        with contextlib.suppress(BlockingIOError):
            for _ in range(10_000):
                deaf.send(PAGE * 100)
        slow.send(PAGE * 200)
        parts: list[bytes] = []

        def ask() -> None:
            honest.read("k000")
            parts.append(slow.socket.recv(CHUNK * 8))

        slowly(region.port, ask)
        same("what a silent one is sent", silent.reply(), b"")
        same("what one with half a line is sent", half.reply(), b"")
        same("the slow one was sent something", sum(map(len, parts)) > CHUNK, True)
        until("one that takes nothing is ended", lambda: has_ended(deaf), 20)
    with Served(program, [("east", east)], words=["--idle", "1"]) as served, Client(served.port) as client:
        client.wait_for("k000", row_of("k000", 10, "x" * 1_000))
        same("what the silent client of a session is sent", client.reply(), b"")
        same("how it ends", served.end(), (0, b"served 1\n", b""))
