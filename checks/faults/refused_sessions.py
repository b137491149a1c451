"""The check of `checks/run sessions` that refuses each allocation of a program that serves two streams and two sessions."""
import contextlib
import json
import os
import pathlib
import time
from collections.abc import Iterator

from common.served import SECONDS, Client, Json, Served, same, written
from faults.preloaded import Refusals
from replies.slow import text_of

MEMORY = {"error": "memory"}
MANY = 1_000
# Two streams and two sessions, with many records that are waited for, of which some come twice, so that two workers have enough
# for a thread; or one of each, so that runs have as many allocations.
HALVES, TWICE = (range(MANY // 2), range(MANY // 2, MANY)), 100
LARGE = {name: [*half, *half[:TWICE]] for name, half in zip(("east", "west"), HALVES)}
SMALL = {"east": [0]}
LINES = {b"pnuts: %s\n" % word for word in (b"memory", b"cannot start", b"round failed", b"close failed", b"stream east failed",
                                           b"stream west failed")}
WORDS = ["--bounds", '["k0500"]', "--workers", "2"]
PAGE, NONE = b'{"do":"scan","query":{"limit":%d}}\n' % MANY, {"do": "read", "key": "z"}
PAUSE = 0.002
# How often a client still asks once an allocation was refused: the streams may not be read on.
PATIENCE = 4


def key_of(number: int) -> str:
    return f"k{number:04}"


def messages(numbers: list[int]) -> bytes:
    """A stream of records."""
    images = ({"fields": {}, "key": key_of(number), "master": "w", "version": [1, 0]} for number in numbers)
    return b"".join(json.dumps({"at": at, "image": image}).encode() + b"\n" for at, image in enumerate(images, 1))


def row_of(key: str) -> Json:
    return {"contents": [{"fields": {}, "master": "w"}], "key": key, "state": "one", "version": [1, 0]}


ALL = b'{"next":null,"rows":[%s]}\n' % b",".join(text_of(row_of(key_of(at))).encode() for at in range(MANY))
NO_PAGE = b'{"error":"memory"}\n'


def is_page(text: bytes) -> bool:
    """Whether a reply is a page of records that were delivered, in key order."""
    reply = json.loads(text)
    keys = [row["key"] for row in reply["rows"]]
    return reply["next"] is None and keys == sorted(set(keys)) and all(row == row_of(row["key"]) for row in reply["rows"])


def load(client: Client, keys: list[str], mark: str) -> bool:
    """Asks until keys are served, or one allocation was refused and some more replies came."""
    patience, last = PATIENCE, time.monotonic() + SECONDS
    while time.monotonic() < last and patience:
        reply = client.ask({"do": "get", "keys": keys})
        if reply != MEMORY:
            same("what is served", [row for row in reply["rows"] if row not in (None, *map(row_of, keys))], [])
            if None not in reply["rows"]:
                return True
        patience -= os.path.exists(mark)
        time.sleep(PAUSE)
    return False


class Checked:
    """Runs a program again and again, and notes the lines on standard error that were met, each as a file's name."""

    def __init__(self, program: str, folder: str, parts: dict[str, list[int]]) -> None:
        self.program, self.is_large, self.sessions = program, parts is LARGE, len(parts)
        self.ends = [key_of(max(part)) for part in parts.values()]
        self.streams = [(name, written(folder, f"{name}-{len(part)}", messages(part))) for name, part in parts.items()]
        self.met = pathlib.Path(folder, f"met-{self.sessions}")
        self.met.mkdir()

    def talk(self, clients: list[Client], mark: str) -> Iterator[bool]:
        """What the clients are answered: the first until many records are served, the second after it has gone. For each,
        whether it had a page of all. Nothing comes of a session that had no memory to begin with."""
        is_loaded = self.is_large and load(clients[0], self.ends, mark)
        for client in clients:
            if self.is_large:
                client.send(PAGE)
            page = client.reply() if self.is_large else NO_PAGE
            if not page:
                return
            is_right = page in (ALL, NO_PAGE) or not is_loaded and is_page(page)
            same(f"whether the page is right, where it is {'whole' if is_loaded else 'a part'}: {page[:200]!r}", is_right, True)
            same("what no record has", client.ask(NONE) in (MEMORY, {"row": None}), True)
            client.end()
            yield is_loaded and page == ALL

    def fault(self, given: dict[str, str]) -> str | None:
        """What is wrong where an allocation is refused."""
        pages: list[bool] = []
        with Served(self.program, self.streams, self.sessions, WORDS, given) as served, contextlib.ExitStack() as stay:
            with contextlib.suppress(OSError, ValueError):
                clients = [stay.enter_context(Client(served.port)) for _ in range(self.sessions)] if served.first else []
                try:
                    pages += self.talk(clients, given["REFUSED_MARK"]) if clients else []
                except AssertionError as fault:
                    return str(fault)
            stay.close()
            end = served.end()
        return self.end_fault(end, pages, os.path.exists(given["REFUSED_MARK"]))

    def end_fault(self, end: tuple[int, bytes, bytes], pages: list[bool], was_refused: bool) -> str | None:
        status, shown, said = end
        is_well = end == (0, b"served %d\n" % self.sessions, b"")
        if is_well and (was_refused or pages == [self.is_large] * self.sessions):
            return None
        (self.met / said.decode().strip()).touch()
        return None if status == 1 and not shown and said in LINES and was_refused else f"{end}, pages {pages}"


def check_refused_allocations(program: str, folder: str) -> None:
    """Each allocation is refused in turn: the end is one of the lines that speak of memory, and each of them comes."""
    refusals, small, large = Refusals(folder), Checked(program, folder, SMALL), Checked(program, folder, LARGE)
    counts = [refusals.count("serve", checked.fault) for checked in (small, large)]
    met = {f"{path.name}\n".encode() for checked in (small, large) for path in checked.met.iterdir()}
    same("the lines that did not come", LINES - met, set())
    print(f"{counts[0]} and {counts[1]} allocations refused, ", end="")
