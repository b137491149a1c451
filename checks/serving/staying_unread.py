"""Clients that leave pages and copies unread, and what these keep: checks of `checks/run stay`."""
import concurrent.futures
import contextlib
import json
import os
import socket
import subprocess
import time
from collections.abc import Iterator

from common.served import SECONDS, Client, Json, row_of, same, written
from serving.controlled import Session
from serving.staying import KEYS, PAGE, Staying, key_of, messages, until
from serving.staying_clients import deaf_client

COPY = b'{"do":"copy","need":{},"tablet":0}\n'
# The text of a record, of which 100 make a page.
TEXT = "x" * 4_000
# What one page of them weighs at least, and at most.
LEAST, MOST = KEYS * 4_000, KEYS * 6_000
# How many of these pages have more bytes than systems keep for a client that takes none.
PAGES = 40
# The limit of the option, and words that are refused.
MOST_BYTES, NO_BYTES = 4_000_000_000, ("0", "-1", "4000000001", "1e6", "64M", "")
# After how many seconds a client is ended that takes nothing, at least, and at most on a busy machine.
QUIET, DEAF, LATER = 1.0, 30.0, 30.0
# Room for one of these pages, and for no second one. A page of ten records is small.
ROOM = LEAST + MOST // 2
SMALL_PAGE = b'{"do":"scan","query":{"limit":10}}\n'
GET = json.dumps({"do": "get", "keys": [key_of(number) for number in range(KEYS)]}).encode() + b"\n"
# How many clients take nothing, and how many take all, though only one page is kept at a time; and how often these ask.
SILENT, TAKING_ALL, ASKED = 8, 4, 10
# How long short lines take at most on a busy machine while others wait for room.
SHORT = 0.5
# A taker's pauses, for how long it takes, and what it takes at a time.
PAUSE, TAKING, PART = 0.2, 6.0, 1 << 17


def rows(folder: str) -> list[tuple[str, str]]:
    """A stream of 100 records, each of which is written twice."""
    return [("east", written(folder, "east", b"".join(messages(1 + KEYS * at, KEYS, TEXT) for at in range(2))))]


@contextlib.contextmanager
def region_with(program: str, folder: str, *words: str, threads: int = 4) -> Iterator[tuple[Staying, Session]]:
    """A region with its records, and a control session of it."""
    control = os.path.join(folder, "control")
    with Staying(program, folder, rows(folder), "--control", control, *words, threads=threads) as region, Session(control) as session:
        until("all is read", lambda: b"stream east ended" in region.said())
        yield region, session


def unread(session: Session) -> Json:
    """What `stats` says of unread replies."""
    found: Json = session.told(do="stats")["unread"]
    return found


@contextlib.contextmanager
def deaf(port: int, line: bytes = PAGE, times: int = PAGES) -> Iterator[socket.socket]:
    """A client that asks again and again, and takes nothing until it is asked to."""
    with deaf_client(port) as client:
        client.setblocking(True)
        client.settimeout(SECONDS)
        client.sendall(line * times)
        yield client


def taken(client: socket.socket) -> bytes:
    """All that a client is sent, up to the end of its connection."""
    parts = list[bytes]()
    with contextlib.suppress(ConnectionError):
        while part := client.recv(PART):
            parts.append(part)
    return b"".join(parts)


def check_weight(program: str, folder: str) -> None:
    """`stats` shows what unread replies keep, the limit, and none where all was taken or the client has gone."""
    with region_with(program, folder) as (region, session):
        same("before any client", unread(session), {"bytes": 0, "ended": 0, "limit": 64_000_000})
        for line in (PAGE, COPY):
            with deaf(region.port, line):
                until("it is counted", lambda: unread(session)["bytes"] > 0)
                found = unread(session)["bytes"]
                same(f"{found:,} bytes are what 100 rows have", LEAST <= found <= MOST, True)
            until("nothing is counted of a client that has gone", lambda: unread(session)["bytes"] == 0)
        with deaf(region.port) as client:
            until("it is counted again", lambda: unread(session)["bytes"] > 0)
            with client.makefile("rb") as replies:
                same("lines that a late taker gets", sum(1 for _, _ in zip(range(PAGES), replies)), PAGES)
            until("nothing is counted of what was taken", lambda: unread(session)["bytes"] == 0)
        same("nobody was ended", unread(session)["ended"], 0)


def check_limit(program: str, folder: str) -> None:
    """With as many bytes as --unread says a client stays that takes nothing; with one byte more it is ended, a second later at least."""
    with region_with(program, folder) as (region, session), deaf(region.port):
        until("it is counted", lambda: unread(session)["bytes"] > 0)
        weight = unread(session)["bytes"]
    for limit, ends in ((weight, 0), (weight - 1, 1)):
        own = os.path.join(folder, str(limit))
        os.mkdir(own)
        with region_with(program, own, "--unread", str(limit)) as (region, session), deaf(region.port):
            start = time.monotonic()
            until("it is counted", lambda: unread(session)["bytes"] > 0)
            if ends:
                until("it is ended", lambda: unread(session)["ended"] > 0, LATER)
                same("no sooner than a second", time.monotonic() - start >= QUIET, True)
            else:
                time.sleep(4 * QUIET)
            same("what is counted", unread(session), {"bytes": 0 if ends else weight, "ended": ends, "limit": limit})


def some_of(client: socket.socket) -> int:
    """How many bytes a client takes that are there, and it stays connected."""
    client.setblocking(False)
    with contextlib.suppress(BlockingIOError):
        taken = len(client.recv(PART))
        same("a taker stays", taken > 0, True)
        return taken
    return 0


def check_takers(program: str, folder: str) -> None:
    """Where the limit is passed, clients that take some bytes now and then stay; those that take none are ended, and no others."""
    with region_with(program, folder, "--unread", "1") as (region, session), contextlib.ExitStack() as stay:
        honest, silent = (stay.enter_context(Client(region.port)) for _ in range(2))
        honest.wait_for("k000", row_of("k000", 2, TEXT))
        takers = [stay.enter_context(deaf(region.port, line, 400)) for line in (PAGE, COPY)]
        quiet = [stay.enter_context(deaf(region.port, line)) for line in (PAGE, COPY)]
        start, took = time.monotonic(), [0] * len(takers)
        while time.monotonic() < start + TAKING or unread(session)["ended"] < len(quiet) or not min(took):
            same(f"the others are ended, and each taker was sent something, in time: {took}", time.monotonic() < start + LATER, True)
            for index, client in enumerate(takers):
                took[index] += some_of(client)
            same("an honest one is answered", honest.read("k001")["row"]["key"], "k001")
            time.sleep(PAUSE)
        same("how many were ended", unread(session)["ended"], len(quiet))
        for client in quiet:
            same("one that took nothing is sent no more than its system held", len(taken(client)) < PAGES * LEAST, True)
        same("the silent one is answered", silent.read("k001")["row"]["key"], "k001")


def until_it_rests(session: Session) -> None:
    """Waits until a client takes nothing more, and what its reply keeps stays."""
    since, kept = time.monotonic(), 0
    while not kept or time.monotonic() < since + QUIET / 2:
        if (now := unread(session)["bytes"]) != kept:
            since, kept = time.monotonic(), now
        time.sleep(0.01)


def has_come(client: Client) -> bool:
    """Whether some of a reply is there."""
    with contextlib.suppress(BlockingIOError):
        return len(client.socket.recv(1, socket.MSG_PEEK | socket.MSG_DONTWAIT)) > 0
    return False


def check_waiting(program: str, folder: str) -> None:
    """A page that would go past the limit waits until who takes nothing is ended. Short lines and small pages beside it do not wait."""
    with region_with(program, folder, "--unread", str(ROOM), threads=1) as (region, session), deaf(region.port):
        until_it_rests(session)
        with Client(region.port) as waiting, Client(region.port) as short:
            waiting.send(PAGE)
            slowest, start = 0.0, time.monotonic()
            while not has_come(waiting):
                same("within the limit", unread(session)["bytes"] <= ROOM, True)
                same("it comes in time", time.monotonic() < start + LATER, True)
                asked = time.monotonic()
                same("a read beside it", short.read("k001")["row"]["key"], "k001")
                short.send(SMALL_PAGE)
                same("rows of a small page beside it", len(json.loads(short.reply())["rows"]), 10)
                slowest = max(slowest, time.monotonic() - asked)
            same("who took nothing was ended", unread(session)["ended"], 1)
            same("rows of the page", len(json.loads(waiting.reply())["rows"]), KEYS)
            same(f"short lines took {slowest:.3f} s, which is little enough", slowest < SHORT, True)
            until("nothing is kept", lambda: unread(session)["bytes"] == 0)


def check_many_waiting(program: str, folder: str) -> None:
    """However many clients take nothing, their replies keep no more than the limit, and each is ended in its turn."""
    with region_with(program, folder, "--unread", str(ROOM), threads=1) as (region, session), contextlib.ExitStack() as stay:
        for number in range(SILENT):
            stay.enter_context(deaf(region.port, COPY if number % 2 else PAGE))
        start = time.monotonic()
        while unread(session)["ended"] < SILENT:
            same("within the limit", unread(session)["bytes"] <= ROOM, True)
            same("they are ended in time", time.monotonic() < start + SILENT * LATER, True)
            time.sleep(0.01)
        same("no sooner than a second each", time.monotonic() - start >= SILENT * QUIET, True)
        same("nothing is kept", unread(session)["bytes"], 0)


def all_taken(port: int) -> list[bytes]:
    """What a client gets that asks for pages and gets, and reads, at once, and takes each reply."""
    with Client(port) as client:
        client.send((PAGE + b'{"do":"read","key":"k001"}\n' + GET) * ASKED)
        return [client.reply() for _ in range(3 * ASKED)]


def check_takers_that_wait(program: str, folder: str) -> None:
    """Clients that take all have all their replies, in order, though only one at a time may keep a page."""
    with region_with(program, folder, "--unread", str(ROOM)) as (region, session):
        wanted = all_taken(region.port)
        same("kinds of replies", [reply[2:6] for reply in wanted[:3]], [b"next", b"row\"", b"rows"])
        with concurrent.futures.ThreadPoolExecutor(TAKING_ALL) as pool:
            for found in pool.map(all_taken, [region.port] * TAKING_ALL):
                same("the replies", found == wanted, True)
        same("nobody was ended", unread(session)["ended"], 0)
        until("nothing is kept", lambda: unread(session)["bytes"] == 0)
        pages = (1 + TAKING_ALL) * ASKED
        until("each page is counted once", lambda: session.told(do="stats")["lines"]["kinds"]["scan"]["answered"] == pages)


def check_half_minute(program: str, folder: str) -> None:
    """A client that takes nothing for half a minute is ended, far below the limit; one that is silent is not."""
    with region_with(program, folder) as (region, session), deaf(region.port) as client, Client(region.port) as silent:
        start = time.monotonic()
        until("it is ended", lambda: unread(session)["ended"] == 1, DEAF + LATER)
        same("no sooner than half a minute", time.monotonic() - start >= DEAF - QUIET, True)
        same("what it was sent", len(taken(client)) < PAGES * LEAST, True)
        same("the silent one is answered", silent.read("k001")["row"]["key"], "k001")


def check_words(program: str, folder: str) -> None:
    """--unread is a number from 1 to 4,000,000,000."""
    for word in NO_BYTES:
        line = [program, "serve", "--stay", f"--unread={word}", "east=/none"]
        ran = subprocess.run(line, capture_output=True, timeout=SECONDS)
        same(f"the status with --unread={word}", ran.returncode, 2)
    for limit in (1, MOST_BYTES):
        own = os.path.join(folder, str(limit))
        os.mkdir(own)
        with region_with(program, own, "--unread", str(limit)) as (_, session):
            same("the limit", unread(session)["limit"], limit)
