"""Tries clients whose input a program that stays has no memory to keep.

  checks/run unkept PROGRAM [--cases N]

One session thread. Once 20,000 records are read in and all clients are answered, memory is limited to what it has and 256 KB. Each client
sends most of a line, and some are too long. Each line is answered in its order, as it should be or by `memory`, one too long by `too-long`,
until the client's connection ends. An honest client reads beside them all the while, and is not ended.
"""
import contextlib
import json
import resource
import threading

from common.served import Client, Json, fifo, in_time, message, row_of, same, seconds_of
from serving.staying import Staying

RECORDS, SPARE_KB, CLIENTS = 20_000, 256, 2_000
MEMORY, TOO_LONG = {"error": "memory"}, {"error": "too-long"}
LINE = b'{"do":"read","key":"k1"}\n'
ROW: Json = {"row": row_of("k1", 1, "x")}
# How many bytes of a line a client sends at first: each fifth sends more than a line may have.
LONG, SHORT = 70_000, 60_000


class Unkept(Client):
    """A client that sends a line in two parts."""

    def __init__(self, port: int, number: int) -> None:
        super().__init__(port)
        self.is_too_long, self.is_last = number % 5 == 0, number % 7 == 0
        same("a read before memory is limited", self.read("k1"), ROW)

    def begin(self) -> None:
        """Sends three lines, and most of another."""
        with contextlib.suppress(ConnectionError):
            self.send(LINE * 3 + b'{"do":"read","key":"k1"}' + b" " * (LONG if self.is_too_long else SHORT))

    def finish(self) -> bool:
        """Ends the line, and asks three others, or ends its input in it. Whether it was ended before all was answered."""
        with contextlib.suppress(OSError):
            self.send(b"" if self.is_last else b"\n" + LINE * 3)
            self.end_input()
        replies = self.all_replies()
        wanted = [ROW] * 3 + [TOO_LONG if self.is_too_long else ROW] + [ROW] * (0 if self.is_last else 3)
        same("no more replies than lines", len(replies) <= len(wanted), True)
        same("the replies", [got for got, want in zip(replies, wanted) if got not in (want, MEMORY)], [])
        return len(replies) < len(wanted)

    def all_replies(self) -> list[Json]:
        """The replies until the connection ends."""
        replies: list[Json] = []
        with contextlib.suppress(ConnectionError):
            for line in self.replies:
                replies.append(json.loads(line))
        return replies


def try_clients(program: str, folder: str, count: int) -> int:
    """How many clients were ended."""
    path, stream = fifo(folder, "east")
    with stream, Staying(program, folder, [("east", path)], "--connections", "4096", threads=1) as region, contextlib.ExitStack() as stay:
        for at in range(1, RECORDS + 1):
            stream.write(message(at, f"k{at}", at, "x"))
        honest = stay.enter_context(Client(region.port))
        honest.wait_for(f"k{RECORDS}", row_of(f"k{RECORDS}", RECORDS, "x"))
        idle = seconds_of(lambda: honest.read("k1"))
        clients = [stay.enter_context(Unkept(region.port, number)) for number in range(count)]
        limit_memory(region)
        is_over, slowest = threading.Event(), [0.0]
        beside = threading.Thread(target=read_until, args=[honest, is_over, slowest])
        beside.start()
        try:
            for client in clients:
                client.begin()
            ended = sum(client.finish() for client in clients)
        finally:
            is_over.set()
            beside.join()
        in_time("an honest client's slowest read", slowest[0], 1, idle)
    return ended


def limit_memory(region: Staying) -> None:
    with open(f"/proc/{region.process.pid}/statm") as file:
        size = int(file.read().split()[0]) * resource.getpagesize()
    resource.prlimit(region.process.pid, resource.RLIMIT_AS, (size + (SPARE_KB << 10),) * 2)


def read_until(client: Client, is_over: threading.Event, slowest: list[float]) -> None:
    while not is_over.wait(0.01):
        slowest[0] = max(slowest[0], seconds_of(lambda: same("an honest read", client.read("k1"), ROW)))


def check_unkept(program: str, folder: str, cases: int | None) -> None:
    """Some clients are ended, and all replies are in order."""
    ended = try_clients(program, folder, cases or CLIENTS)
    same("whether some were ended", ended > 0, True)
    print(f"{ended:,} of {cases or CLIENTS:,} clients were ended, since there was no memory to keep their input")
