"""Gives a built program less memory than it needs, for good, and looks at its replies and at how it ends.

  checks/run memory-limit PROGRAM [--cases N]

First a page of a thousand records is asked for, which has to be whole. Then a script of a million new keys is answered under
limits of the address space (as `prlimit --as` sets them), from one in which the program can hardly begin to one that holds most
keys. Then four streams are served under such limits, while four clients ask. Every reply is right or `memory`: a record that was
taken is shown, and a refused delivery may have been taken in part; once a client was shown a record, no later reply lacks it.
The program ends by a status and a line that the documents have, never by a signal.
"""
import json
import resource
import subprocess
import threading
import time
from collections.abc import Callable, Iterator

from common.served import Client, Served, same, written

MEGABYTE = 1 << 20
LIMITS = [8, 16, 32, 64, 128, 256]
PAGE_LIMIT, PAGE_ROWS, PAGE = 32, 1_000, b'{"do":"scan","query":{"limit":1000}}'
SERVED_LIMITS = [32, 64, 96, 128, 160, 256, 512]
BOUNDS = ["--bounds", '["k0250000","k0500000","k0750000"]']
NAMES = ["east", "north", "south", "west"]
KEYS = 1_000_000
# How many images a line of a script has, and how many keys apart they are, so that each tablet takes its part of each line.
IMAGES = 600
MEMORY = b'{"error":"memory"}'
NESTED, NO_OBJECT = b"[" * 127 + b"]" * 127, b'{"error":"bad-shape","member":"whole"}'
CANNOT_LOAD = 127
SECONDS = 300
# A client asks until nothing new was shown for this many seconds.
QUIET = 2
SAMPLE = 100
LINES = {b"pnuts: memory\n", b"pnuts: cannot start\n", b"pnuts: round failed\n", b"pnuts: close failed\n", b"pnuts: write\n",
         *(b"pnuts: stream %s failed\n" % name.encode() for name in NAMES)}


def limited(megabytes: int) -> Callable[[], None]:
    """Sets the limit in the process that is to be the program."""
    return lambda: resource.setrlimit(resource.RLIMIT_AS, (megabytes * MEGABYTE, megabytes * MEGABYTE))


def key_of(number: int) -> str:
    return f"k{number:07}"


def image_of(number: int) -> str:
    return f'{{"fields":{{"v":"x"}},"key":"{key_of(number)}","master":"w","version":[1,0]}}'


def row_of(number: int) -> bytes:
    return b'{"contents":[{"fields":{"v":"x"},"master":"w"}],"key":"%s","state":"one","version":[1,0]}' % key_of(number).encode()


def lines_of(keys: int) -> Iterator[tuple[bytes, list[int]]]:
    """Deliveries, each with its keys; after each a read of its first key, one of a key that came long before, and nested arrays."""
    step = -(-keys // IMAGES)
    for first in range(step):
        numbers = list(range(first, keys, step))
        images = ",".join(map(image_of, numbers))
        yield f'{{"batches":[{{"first":1,"images":[{images}],"stream":"east"}}],"do":"deliver"}}'.encode(), numbers
        for number in (first, first // 2):
            yield b'{"do":"read","key":"%s"}' % key_of(number).encode(), [number]
        yield NESTED, []


def reply_fault(line: bytes, numbers: list[int], reply: bytes, taken: dict[int, bool]) -> str | None:
    """What is wrong with a reply. Notes whether a key was taken for certain (True) or may have been (False)."""
    is_delivery = line.startswith(b'{"batches"')
    if line == NESTED:
        return None if reply in (NO_OBJECT, MEMORY) else f"nested arrays: {reply[:80]!r}"
    if is_delivery and reply == b'{"changed":%d}' % len(numbers):
        taken.update(dict.fromkeys(numbers, True))
    elif is_delivery and reply == MEMORY:
        taken.update(dict.fromkeys(numbers, False))
    elif not is_delivery and reply == b'{"row":%s}' % row_of(numbers[0]):
        taken[numbers[0]] = True
    elif reply != MEMORY and not (reply == b'{"row":null}' and not taken[numbers[0]] and not is_delivery):
        return f"{line[:80]!r}: {reply[:80]!r}"
    return None


def replies_fault(lines: list[tuple[bytes, list[int]]], replies: list[bytes]) -> str | None:
    """What is wrong with the replies to a script."""
    taken: dict[int, bool] = {}
    if len(replies) != len(lines):
        return f"{len(replies)} replies to {len(lines)} lines"
    return next(filter(None, (reply_fault(*line, reply, taken) for line, reply in zip(lines, replies))), None)


def try_replay(program: str, script: str, lines: list[tuple[bytes, list[int]]], megabytes: int) -> None:
    """One script under one limit."""
    with open(script, "rb") as file:
        ended = subprocess.run([program, "replay", *BOUNDS], stdin=file, capture_output=True, timeout=SECONDS,
                               preexec_fn=limited(megabytes))
    end, replies = (ended.returncode, ended.stderr), ended.stdout.splitlines()
    if ended.returncode == CANNOT_LOAD and not replies:
        print(f"replay in {megabytes} MB: the system does not load the program", flush=True)
    elif end == (1, b"pnuts: memory\n") and not replies:
        print(f"replay in {megabytes} MB: no memory to begin with", flush=True)
    else:
        same(f"how replay in {megabytes} MB ends", end, (0, b""))
        same(f"what is wrong in {megabytes} MB", replies_fault(lines, replies), None)
        print(f"replay in {megabytes} MB: {replies.count(MEMORY)} of {len(replies)} replies are `memory`", flush=True)


def try_page(program: str, folder: str) -> None:
    """A page of a thousand records takes little beside what it holds: under a limit of some hundred times its size it is whole."""
    deliveries = [line for line, _ in lines_of(PAGE_ROWS) if line.startswith(b'{"batches"')]
    script = written(folder, "page", b"".join(line + b"\n" for line in [*deliveries, PAGE]))
    with open(script, "rb") as file:
        ended = subprocess.run([program, "replay"], stdin=file, capture_output=True, timeout=SECONDS, preexec_fn=limited(PAGE_LIMIT))
    page = b'{"next":null,"rows":[%b]}' % b",".join(map(row_of, range(PAGE_ROWS)))
    same(f"how a page in {PAGE_LIMIT} MB ends", (ended.returncode, ended.stderr), (0, b""))
    same(f"the page in {PAGE_LIMIT} MB", ended.stdout.splitlines()[-1], page)
    print(f"a page of {len(page):,} bytes is whole in {PAGE_LIMIT} MB", flush=True)


class Asking(threading.Thread):
    """A client that asks for keys of all streams, and notes what was shown and is not shown later."""

    def __init__(self, port: int, keys: int) -> None:
        super().__init__()
        self.port, self.keys = port, keys
        self.rows, self.refused = 0, 0
        self.fault: Exception | None = None

    def look(self, client: Client, number: int, shown: set[int]) -> None:
        reply = client.ask({"do": "read", "key": key_of(number)})
        if reply == {"error": "memory"}:
            self.refused += 1
        elif reply == {"row": None}:
            same("a record that was shown", number in shown, False)
        else:
            same("a record", reply, {"row": json.loads(row_of(number))})
            self.rows += 1
            shown.add(number)

    def run(self) -> None:
        shown: set[int] = set()
        last = time.monotonic() + QUIET
        try:
            with Client(self.port) as client:
                while time.monotonic() < last:
                    before = len(shown)
                    for number in range(0, self.keys, self.keys // SAMPLE):
                        self.look(client, number, shown)
                    if len(shown) > before:
                        last = time.monotonic() + QUIET
        except (AssertionError, OSError, ValueError) as fault:
            self.fault = fault


def messages(keys: range) -> bytes:
    return b"".join(f'{{"at":{at},"image":{image_of(number)}}}\n'.encode() for at, number in enumerate(keys, 1))


def try_serve(program: str, streams: list[tuple[str, str]], keys: int, megabytes: int) -> None:
    """Four streams and four clients under one limit."""
    with Served(program, streams, 4, [*BOUNDS, "--workers", "4"], before=limited(megabytes)) as served:
        clients = [Asking(served.port, keys) for _ in range(4)] if served.first else []
        for client in clients:
            client.start()
        for client in clients:
            client.join()
        status, shown, said = served.end()
    end = f"serve in {megabytes} MB: status {status}, {said.decode().strip() or 'nothing is said'}"
    is_known = (status, shown, said) == (0, b"served 4\n", b"") or status == 1 and not shown and said in LINES
    same(end, is_known or status == CANNOT_LOAD and not clients, True)
    wrong = [client.fault for client in clients if isinstance(client.fault, AssertionError) or client.fault and status == 0]
    same(f"{end}, and what is wrong", wrong, [])
    rows, refused = sum(it.rows for it in clients), sum(it.refused for it in clients)
    print(f"{end}; {rows} rows shown, {refused} replies are `memory`", flush=True)


def check_limits_of_memory(program: str, folder: str, cases: int | None) -> None:
    """A page, a script and four streams under limits: each reply is right or `memory`, and the end is a known one."""
    keys = cases or KEYS
    lines = list(lines_of(keys))
    script = written(folder, "script", b"".join(line + b"\n" for line, _ in lines))
    try_page(program, folder)
    for megabytes in LIMITS:
        try_replay(program, script, lines, megabytes)
    parts = [range(at, keys, len(NAMES)) for at in range(len(NAMES))]
    streams = [(name, written(folder, name, messages(part))) for name, part in zip(NAMES, parts)]
    for megabytes in SERVED_LIMITS:
        try_serve(program, streams, keys, megabytes)
