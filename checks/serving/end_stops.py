"""Stops that end at once, or after the last of their seconds, and the successor of a region that is told to stop, at the same paths: checks of
`checks/run ends`."""
import contextlib
import json
import math
import os
import socket
import subprocess
import threading
import time
from collections.abc import Iterator

from common.served import SECONDS, free_port, in_time, piped, same, seconds_of
from serving.control_stops import HALF, READ, SCAN, Pipelining
from serving.controlled import CHUNK, Publisher, Session, region_in, written, written_by
from serving.staying import KEYS, Staying, messages, until
from serving.staying_words import connected

CLIENTS, RUNS = 60, 24
# Which of the clients have gone before a stop: every second one, the first half, the last half, and all but one.
GONE = [range(0, CLIENTS, 2), range(CLIENTS // 2), range(CLIENTS // 2, CLIENTS), range(1, CLIENTS)]
# How many clients pipeline, and for how long, before a stop with no seconds.
PIPELINING, WHILE = 48, 0.15
MARKS, LONG_WAIT = b'{"do":"marks"}\n', b'{"do":"notices","since":%d,"wait":50}\n'
BUSY = 12
# How long a stop takes at most that nobody holds up.
QUICK = 3.0
IN_USE = b" in use\n"
# The files of a region's sockets.
NAMES = ("clients", "control", "feed")
# For how many seconds the first region is held up after it was told to stop.
HELD_UP = 2.0


def idle_of(control: str) -> float:
    with Session(control) as session:
        return seconds_of(lambda: session.told(do="marks"))


@contextlib.contextmanager
def held_up(region: Staying) -> Iterator[None]:
    """A client that takes no reply, and so holds up each stop for all of its seconds."""
    with socket.create_connection(("127.0.0.1", region.port), timeout=SECONDS) as deaf:
        deaf.setblocking(False)
        last = time.monotonic() + 0.5
        while time.monotonic() < last:
            with contextlib.suppress(BlockingIOError):
                deaf.send(SCAN * 100)
                last = time.monotonic() + 0.5
        yield


def ends(region: Staying, what: str, seconds: float, idle: float) -> float:
    """Waits for the end of a region, which is clean and comes in time. How many seconds it took."""
    took = seconds_of(lambda: same(f"the status {what}", region.process.wait(timeout=SECONDS), 0))
    in_time(f"the end {what}", took, seconds, idle)
    return took


def check_notices_that_wait(program: str, folder: str) -> None:
    """At a stop `notices` that wait end at once with their reply, and all lines after them have theirs."""
    lines = [LONG_WAIT % 3, MARKS, LONG_WAIT % 3, b'{"do":"tablets"}\n', b'{"do":"notices","since":0,"wait":0}\n', LONG_WAIT % 3, MARKS]
    for count in (1, 3):
        with region_in(folder, program) as (region, control, path), contextlib.ExitStack() as stay:
            written(path, 1, 3)
            idle = idle_of(control)
            waits = [stay.enter_context(Session(control)) for _ in range(count)]
            for session in waits:
                session.send(b"".join(lines))
            time.sleep(0.3)
            stop = stay.enter_context(Session(control))
            same("the reply to the stop", stop.told(do="stop", seconds=20), {"stopping": 20})
            ends(region, f"beside {count} that wait", QUICK, idle)
            for session in waits:
                replies = [json.loads(line) for line in iter(session.line, b"")]
                same("the first members of the replies", [sorted(reply)[0] for reply in replies],
                     ["next", "marks", "next", "tablets", "next", "next", "marks"])
                same("what did not change", [reply["notices"] for reply in (replies[0], replies[2], replies[5])], [[], [], []])


def check_a_second_stop(program: str, folder: str) -> None:
    """A second stop with fewer seconds shortens the first, and one with more does not lengthen it; control sessions are answered meanwhile."""
    for first, second, wanted in ((40, 0, 0), (40, 1, 1), (2, 30, 2)):
        with region_in(folder, program) as (region, control, path), held_up(region):
            written(path, 1, 1_000)
            idle = idle_of(control)
            start = time.monotonic()
            with Session(control) as stop:
                same("the first stop", stop.told(do="stop", seconds=first), {"stopping": first})
            time.sleep(0.3)
            with Session(control) as other:
                same("the marks during a stop", other.told(do="marks"), {"marks": {"east": 1_000}})
                same("a count during a stop", other.told(do="stats")["tablets"][0]["records"] > 0, True)
                same("the second stop", list(other.told(do="stop", seconds=second)), ["stopping"])
            ends(region, f"after stops of {first} and {second} seconds", wanted + QUICK, idle)
            same("whether it does not end before", time.monotonic() - start > wanted - 0.1, True)


def check_half_of_the_clients_gone(program: str, folder: str) -> None:
    """A stop is quick, whichever of its clients have gone before it."""
    for threads in (1, 4):
        for gone in GONE:
            with Staying(program, folder, [("east", "/dev/null")], "--control", f"{folder}/control", threads=threads) as region:
                idle = idle_of(f"{folder}/control")
                clients = [socket.create_connection(("127.0.0.1", region.port), timeout=SECONDS) for _ in range(CLIENTS)]
                for client in clients:
                    client.sendall(READ % 1)
                    client.recv(CHUNK)
                for at in gone:
                    clients[at].close()
                time.sleep(0.2)
                with Session(f"{folder}/control") as session:
                    same("the stop", session.told(do="stop", seconds=15), {"stopping": 15})
                ends(region, f"of {threads} threads, where {len(gone)} of {CLIENTS} have gone, {gone.start} first", QUICK, idle)
                for client in clients:
                    client.close()


class Asking(threading.Thread):
    """A control session that asks, a line after another, until it ends; and when it sent the line that had no reply."""

    def __init__(self, control: str) -> None:
        super().__init__()
        self.session, self.replies, self.unanswered, self.fault = Session(control), 0, math.inf, ""

    def run(self) -> None:
        with self.session, contextlib.suppress(OSError):
            while True:
                self.session.send(MARKS)
                self.unanswered = time.monotonic()
                reply = self.session.line()
                if not reply:
                    break
                if reply != b'{"marks":{"east":5}}\n':
                    self.fault = f"{reply!r}"
                self.replies, self.unanswered = self.replies + 1, math.inf


def check_busy_control_sessions(program: str, folder: str) -> None:
    """A stop beside twelve control sessions that ask without pause is quick, and each line that was sent before it has its reply."""
    for _ in range(3):
        with region_in(folder, program) as (region, control, path), Session(control) as stop:
            written(path, 1, 5)
            idle = idle_of(control)
            asking = [Asking(control) for _ in range(BUSY)]
            for one in asking:
                one.start()
            time.sleep(0.5)
            start = time.monotonic()
            same("the stop", stop.told(do="stop", seconds=15), {"stopping": 15})
            ends(region, f"beside {BUSY} busy control sessions", QUICK, idle)
            for one in asking:
                one.join(SECONDS)
            same("what they were told", [one.fault for one in asking if one.fault], [])
            same("who had no reply to a line from before the stop", [one.replies for one in asking if one.unanswered < start], [])


def look(client: Pipelining) -> int:
    """How many replies came whole; after them may be a part of one. Each is that of its line, where a part of a line is no JSON."""
    whole = client.came[: client.came.rfind(b"\n") + 1].removesuffix(HALF)
    lines = whole.splitlines()
    same("a reply that is not its line's", next((line for line in lines if b'{"row":{' not in line), None), None)
    keys = [json.loads(line)["row"]["key"] for line in lines]
    same("the keys of the replies", keys, [f"k{number % KEYS:03}" for number in range(len(keys))])
    return len(lines)


def check_no_seconds(program: str, folder: str) -> None:
    """A stop with no seconds beside 48 clients that pipeline, again and again: each reply is the region's, and the last one may be cut."""
    replies = 0
    for run in range(RUNS):
        with region_in(folder, program) as (region, control, path), Session(control) as session:
            written(path, 1, 1_000)
            idle = idle_of(control)
            clients = [Pipelining(region.port) for _ in range(PIPELINING)]
            last, is_told = time.monotonic() + WHILE, False
            while not all(client.is_over for client in clients):
                for client in clients:
                    client.turn()
                if not is_told and time.monotonic() > last:
                    is_told = True
                    session.send(b'{"do":"stop","seconds":0}\n')
                same(f"whether the clients of run {run} end in time", time.monotonic() < last + SECONDS, True)
            ends(region, "with no seconds", QUICK, idle)
            replies += sum(look(client) for client in clients)
            for client in clients:
                client.socket.close()
    print(f"  {RUNS} stops, {replies:,} replies")


def words_of(folder: str) -> list[str]:
    return ["--socket", f"{folder}/clients", "--control", f"{folder}/control"]


def region_at(program: str, folder: str) -> Staying:
    """A region with three sockets in a folder."""
    return Staying(program, folder, [("east", f"listen:{folder}/feed")], *words_of(folder))


def refused_at(program: str, folder: str) -> None:
    """A region does not start where another one lives, whichever of its sockets it would have, and says so."""
    for words in (["east=/dev/null", "--socket", f"{folder}/clients"], ["east=/dev/null", "--control", f"{folder}/control"],
                  [f"east=listen:{folder}/feed"]):
        line = [program, "serve", "--stay", "--port", str(free_port()), *words]
        with subprocess.Popen(line, stdin=subprocess.DEVNULL, stdout=subprocess.PIPE, stderr=subprocess.PIPE) as second:
            first = piped(second.stdout).readline()
            second.kill()
            said = piped(second.stderr).read()
        same(f"whether a successor with {words} is refused, which says {first!r}, {said!r}", (first, said.endswith(IN_USE)), (b"", True))


def answers_at(folder: str, records: int) -> None:
    """A region is there at all three sockets, and takes a stream."""
    written_by(f"{folder}/feed", messages(1, records), 0)
    with Session(f"{folder}/control") as session, connected(f"{folder}/clients") as client:
        until("its marks are those of what was written", lambda: session.told(do="marks") == {"marks": {"east": records}})
        same("a record of its", client.read("k001")["row"]["key"], "k001")


@contextlib.contextmanager
def slow_client(folder: str) -> Iterator[socket.socket]:
    """A client of a region that has not taken its replies yet."""
    with socket.socket(socket.AF_UNIX) as slow:
        slow.connect(f"{folder}/clients")
        slow.setblocking(False)
        with contextlib.suppress(BlockingIOError):
            for _ in range(10_000):
                slow.send(SCAN * 10)
        time.sleep(0.3)
        yield slow


def stop(control: str, seconds: int) -> None:
    with Session(control) as session:
        same("the stop", session.told(do="stop", seconds=seconds), {"stopping": seconds})


def renamed(folder: str, *more: str) -> None:
    """Gives the sockets of a region other names, and files beside them, too."""
    for name in NAMES:
        for end in ("", *more):
            os.rename(f"{folder}/{name}{end}", f"{folder}/{name}.old{end}")


def succeeds(program: str, folder: str, first: Staying) -> None:
    """A successor that starts once the first one has ended has its sockets, however that one ends."""
    same("the status of the first one", first.process.wait(SECONDS), 0)
    with region_at(program, folder):
        answers_at(folder, 50)
        time.sleep(0.2)
        same("what is there of its sockets", [os.path.exists(f"{folder}/{name}") for name in NAMES], [True] * len(NAMES))


def check_a_successor_of_a_slow_stop(program: str, folder: str) -> None:
    """While a region that was told to stop waits for a slow client its paths are taken; then its successor has them, and keeps them."""
    with region_at(program, folder) as first:
        answers_at(folder, 100)
        with slow_client(folder):
            stop(f"{folder}/control", 30)
            last = time.monotonic() + HELD_UP
            while time.monotonic() < last:
                refused_at(program, folder)
                time.sleep(0.1)
            same("whether the first one lives", first.is_running(), True)
        succeeds(program, folder, first)


def check_a_successor_beside_renamed_sockets(program: str, folder: str) -> None:
    """A region whose sockets have other names lives, and so does its path; where its locks have other names, too, a successor starts, and
    keeps its sockets when the first one ends."""
    with region_at(program, folder) as first:
        answers_at(folder, 100)
        renamed(folder)
        refused_at(program, folder)
        stop(f"{folder}/control.old", 5)
        succeeds(program, folder, first)
        same("what the first one left at other names", sorted(name for name in os.listdir(folder) if name.endswith(".old")),
             [f"{name}.old" for name in NAMES])
    for name in NAMES:
        os.remove(f"{folder}/{name}.old")
    with region_at(program, folder) as first:
        answers_at(folder, 100)
        renamed(folder, ".lock")
        with region_at(program, folder) as second:
            answers_at(folder, 50)
            idle = idle_of(f"{folder}/control")
            stop(f"{folder}/control.old", 5)
            ends(first, "beside its successor", QUICK, idle)
            time.sleep(0.2)
            same("what is there of the successor's sockets", [os.path.exists(f"{folder}/{name}") for name in NAMES], [True] * len(NAMES))
            with Publisher(f"{folder}/feed") as publisher, connected(f"{folder}/clients") as client:
                same("what the successor's publisher is told", publisher.begin(), 50)
                same("a record of the successor", client.read("k001")["row"]["key"], "k001")
            stop(f"{folder}/control", 5)
            ends(second, "by itself", QUICK, idle)
            same("what is left", sorted(name for name in os.listdir(folder) if name in NAMES), [])
