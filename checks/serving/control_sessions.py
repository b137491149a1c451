"""Checks of `checks/run control`: many sessions at once, beside load; sessions that do not read, are cut, or are full of lines."""
import contextlib
import json
import random
import socket
import threading
import time
from collections.abc import Callable

from common.served import SECONDS, Json, in_time, same
from serving.control_losses import read_on, write_on
from serving.controlled import CHUNK, TABLETS, Session, adoption, region_in, written
from serving.staying import Beside, until

SESSIONS, LINES = 16, 400
# What a thousand sessions may leave, of which some had whole copies adopted.
LEFT_KB = 8_192
WORDS: list[Json] = [{"do": "marks"}, {"do": "tablets"}, {"do": "stats"}, {"do": "advance"}, {"do": "read", "key": "k001"}, {"do": "get", "keys": ["k050", "k099"]},
         {"do": "scan", "query": {"limit": 2}}, {"do": "copy", "tablet": 1}]
MARKS = b'{"do":"marks"}\n'


class Looking:
    """A session that asks without pause, and what it was told, of which nothing may become less."""

    def __init__(self, control: str, seed: int) -> None:
        self.chance, self.control, self.number, self.position, self.faults = random.Random(seed), control, 0, 0, list[str]()

    def run(self) -> None:
        try:
            with Session(self.control) as session:
                for turn in range(LINES):
                    self.look(session, self.chance.choice(WORDS) if turn % 2 else {"do": "notices", "since": self.number})
        except (AssertionError, OSError, ValueError, KeyError) as fault:
            self.faults.append(repr(fault))

    def look(self, session: Session, command: Json) -> None:
        reply = session.ask(json.dumps(command).encode() + b"\n")
        told = json.loads(reply.partition(b"\n")[0])
        if "marks" in told:
            self.rises("the position", told["marks"].get("east", 0))
        elif command["do"] == "stats":
            self.rises("the position", told["streams"][0]["position"])
        elif command["do"] == "tablets":
            self.rises("the position", min(it["cover"].get("east", 0) for it in told["tablets"]))
        elif "next" in told and isinstance(told["next"], int):
            same("the next number does not fall", told["next"] >= self.number, True)
            numbers = [it["number"] for it in told.get("notices", [])]
            same("each change is told", "missed" in told or numbers == list(range(self.number + 1, told["next"] + 1)), True)
            self.number = told["next"]
        else:
            same(f"a reply: {reply[:80]!r}", list(told) in (["row"], ["rows"], ["next", "rows"], ["lines"]), True)

    def rises(self, what: str, position: int) -> None:
        same(f"{what} does not fall from {self.position}", position >= self.position, True)
        self.position = position


def check_sixteen_at_once(program: str, folder: str) -> None:
    """Sixteen sessions ask at once beside a publisher and readers: what they are told never becomes less, and no change is left out."""
    with region_in(folder, program) as (region, control, path):
        looking = [Looking(control, seed) for seed in range(SESSIONS)]
        with Beside(write_on, [path], f"{folder}/last"), Beside(read_on, region.port, f"{folder}/reads"):
            with Session(control) as session:
                until("there are records", lambda: session.told(do="marks")["marks"].get("east", 0) > 1000)
            threads = [threading.Thread(target=it.run) for it in looking]
            start = time.monotonic()
            for thread in threads:
                thread.start()
            for thread in threads:
                thread.join()
            seconds = time.monotonic() - start
        same("what they were told", [fault for it in looking for fault in it.faults], [])
        reads = json.load(open(f"{folder}/reads", encoding="utf-8"))["reads"]
        print(f"    {SESSIONS * LINES / seconds:,.0f} lines a second; {reads:,} reads meanwhile")


def check_a_seventeenth_waits(program: str, folder: str) -> None:
    """The seventeenth client waits until one of sixteen has ended."""
    with region_in(folder, program) as (_, control, path), contextlib.ExitStack() as stack:
        written(path, 1, 5)
        sessions = [stack.enter_context(Session(control)) for _ in range(SESSIONS)]
        for session in sessions:
            same("marks", session.ask(MARKS), b'{"marks":{"east":5}}\n')
        late = stack.enter_context(Session(control))
        late.send(MARKS)
        late.socket.settimeout(0.3)
        with contextlib.suppress(TimeoutError):
            raise AssertionError(f"it is answered: {late.socket.recv(CHUNK)!r}")
        sessions[0].socket.close()
        late.socket.settimeout(SECONDS)
        same("once one of them has ended", late.line(), b'{"marks":{"east":5}}\n')


def flood(session: Session, line: bytes) -> int:
    """Sends lines until none is taken, and reads nothing. How many bytes were taken."""
    session.socket.setblocking(False)
    taken, last = 0, time.monotonic() + 0.5
    while time.monotonic() < last:
        with contextlib.suppress(BlockingIOError):
            taken += session.socket.send(line * 1000)
            last = time.monotonic() + 0.5
    return taken


def asks_on(control: str, count: int) -> float:
    """How many seconds the slowest of some replies took."""
    with Session(control) as session:
        slowest = 0.0
        for _ in range(count):
            start = time.monotonic()
            same("marks", list(json.loads(session.ask(MARKS))), ["marks"])
            slowest = max(slowest, time.monotonic() - start)
    return slowest


def check_sessions_that_do_not_read(program: str, folder: str) -> None:
    """Fifteen sessions that send lines of each kind and read nothing hold up neither another one, nor a stream, nor a reader."""
    with region_in(folder, program) as (region, control, path), contextlib.ExitStack() as stack:
        written(path, 1, 1000)
        idle = asks_on(control, 500)
        for at in range(SESSIONS - 1):
            deaf = stack.enter_context(Session(control))
            flood(deaf, json.dumps([*WORDS, {"do": "notices", "since": 0}][at % 9]).encode() + b"\n")
        in_time("the slowest of 500 replies", asks_on(control, 500), 1.0, idle)
        written(path, 1001, 1000)
        with Session(control) as session:
            copy = session.copy(1)
            same("a loss meanwhile", session.told(do="lose", tablet=1), {"lost": 1})
            same("and the adoption", session.ask(adoption(copy)), b'{"adopted":1}\n')
        with socket.create_connection(("127.0.0.1", region.port), timeout=SECONDS) as client, client.makefile("rb") as replies:
            client.sendall(b'{"do":"read","key":"k001"}\n')
            same("a reader's version", json.loads(replies.readline())["row"]["version"], [1, 19])
        memory = region.memory()
        stack.close()
        same("the memory that it takes is below 64 MB", memory < 1 << 16, True)


def cut_at(control: str, lines: bytes, chance: random.Random) -> None:
    """A session that goes in the middle of what it sends, or of what it reads."""
    with Session(control) as session:
        session.send(lines[: chance.randrange(1, len(lines))])
        if chance.random() < 0.5:
            with contextlib.suppress(OSError):
                session.socket.shutdown(socket.SHUT_WR)
            if chance.random() < 0.5:
                session.socket.recv(chance.randrange(1, 200))


def check_sessions_that_are_cut(program: str, folder: str) -> None:
    """A thousand sessions that go in the middle of lines, copies and replies leave nothing behind, and a region that is whole."""
    chance = random.Random(3)
    with region_in(folder, program) as (region, control, path), Session(control) as session:
        written(path, 1, 1000)
        copies, number = [session.copy(tablet) for tablet in range(TABLETS)], session.told(do="notices", since=10**18)["next"]
        wholes = [adoption(it) * 2 for it in copies] + [MARKS * 50, b'{"do":"stats"}\n' * 50, b'{"do":"copy","tablet":0}\n' * 20,
                                                        b'{"do":"notices","since":%d,"wait":60}\n' % number * 3]
        before = region.rest("before they come")
        threads = [threading.Thread(target=each, args=[lambda: cut_at(control, chance.choice(wholes), chance), 100]) for _ in range(10)]
        for thread in threads:
            thread.start()
        for thread in threads:
            thread.join()
        region.same_rest(before, "once they have gone", LEFT_KB)
        same("the copies are as before", [session.copy(tablet) for tablet in range(TABLETS)], copies)


def each(work: Callable[[], None], times: int) -> None:
    for _ in range(times):
        work()


def check_a_socket_that_is_taken(program: str, folder: str) -> None:
    """A control socket of a program that was killed is replaced; that of one that runs is not."""
    for _ in range(2):
        with region_in(folder, program) as (_, control, _), Session(control) as session:
            same("marks", session.ask(MARKS), b'{"marks":{}}\n')
            with contextlib.suppress(AssertionError), region_in(folder, program):
                raise OSError("a second program has the socket")
            same("still", session.ask(MARKS), b'{"marks":{}}\n')
