"""Long lines, dear scans, and pages and copies that take many turns: checks of `checks/run stay`."""
import contextlib
import itertools
import json
import os
import random
import socket
import struct
import sys
import time
from collections.abc import Callable, Iterator

from common.crates import TOP
from common.served import SECONDS, Client, Json, in_time, row_of, same, seconds_of, written
from serving.staying import PART, Beside, Staying, messages, until
from serving.staying_limits import none

# Clients that send one long line each, and go. A region that spins has fewer threads than they are.
CLIENTS, SIZES = 1_100, (65_536, 66_000, 81_920, 98_304, 131_071, 150_000)
RESET = struct.pack("ii", 1, 0)
# Keys that a client asks for at once: the greatest number of the longest ones, of Cyrillic letters, and of what JSON writes at length.
COUNT = 100
KEYS_ASKED: dict[str, Callable[[int], str]] = {"Cyrillic letters": lambda at: chr(0x430 + at % 32) * 128,
                                              "control characters": lambda at: chr(1 + at % 8) * 256}
# How long one waits that may never be answered, and what clients may leave.
PATIENCE, LEAK_KB = 20.0, 4_096
# Records with many contents, among some with one.
HEAVY, HEAVY_CONTENTS, LIGHT = 3, 1_500, 20
# For how many seconds a client may be silent, how often others come meanwhile, and how much later than that it is ended at most.
IDLE, COMING, LATER = 3, 0.04, 2.5


def send_and_go(port: int, rng: random.Random) -> None:
    """A client that sends one long line, some of it or a line after it, and goes in one of three ways."""
    size, way = rng.choice(SIZES), rng.randrange(3)
    with contextlib.suppress(ConnectionError), socket.create_connection(("127.0.0.1", port), timeout=SECONDS) as client:
        client.sendall(b'{"do":"read","key":"k001"}'.ljust(size) + rng.choice([b"", b"\n", b"\n{}\n"]))
        if way == 1:
            client.shutdown(socket.SHUT_WR)
        elif way == 2:
            client.setsockopt(socket.SOL_SOCKET, socket.SO_LINGER, RESET)


def check_long_lines_of_many(program: str, folder: str) -> None:
    """1,100 clients send one line of 65,536 bytes or more and go at once: nothing is left of them, and the next one is answered at once."""
    rng = random.Random(4)
    with Staying(program, folder, none(folder), "--connections", "1024") as region:
        with Client(region.port) as client:
            same("one before them", client.read("k"), {"row": None})
            idle = seconds_of(lambda: client.read("k"))
        before = None
        # What the first ones take stays with the system's allocator.
        for _ in range(2):
            for _ in range(CLIENTS):
                send_and_go(region.port, rng)
            with Client(region.port) as client:
                client.socket.settimeout(PATIENCE)
                in_time("the reply to one after them", seconds_of(lambda: same("one after them", client.read("k"), {"row": None})), 1.0, idle)
            if before:
                region.same_rest(before, "once as many have gone again", LEAK_KB)
            before = region.rest("once they have gone")


def heavy_stream() -> Iterator[bytes]:
    """Some records of one content, and some of many, which differ in a field."""
    keys = [(f"k{number:03}", 1) for number in range(LIGHT)] + [(f"k{number * 7:03}x", HEAVY_CONTENTS) for number in range(HEAVY)]
    images = [(key, part) for key, count in keys for part in range(count)]
    for at, (key, part) in enumerate(images, 1):
        image = {"fields": {"all": "x", "part": part}, "key": key, "master": "w", "version": [1, 1]}
        yield json.dumps({"at": at, "image": image}).encode() + b"\n"


def keys_shown(client: Client, limit: int, *conditions: list[object]) -> list[str]:
    """The keys that pages show of a scan, one after another."""
    query: Json = {"limit": limit, "where": list(conditions)}
    keys = list[str]()
    while query:
        page = client.ask({"do": "scan", "query": query})
        keys += [row["key"] for row in page["rows"]]
        query = page["next"]
    return keys


def check_records_of_many_contents(program: str, folder: str) -> None:
    """A scan shows a record of 1,500 contents where one of them does for all conditions, wherever it stands, beside others that scan."""
    path = os.path.join(folder, "heavy")
    with open(path, "wb") as file:
        file.writelines(heavy_stream())
    heavy = [f"k{number * 7:03}x" for number in range(HEAVY)]
    light = [f"k{number:03}" for number in range(LIGHT)]
    with Staying(program, folder, [("east", path)], threads=1) as region:
        with Client(region.port) as client, Client(region.port) as other:
            until("all contents are there", lambda: keys_shown(client, 1_000, ["eq", "part", HEAVY_CONTENTS - 1]) == heavy, 4 * SECONDS)
            for limit in (1, 2, 1_000):
                other.send(b'{"do":"scan","query":{"where":[["eq","all","y"]]}}\n' * 20)
                for part in (1, HEAVY_CONTENTS // 2, HEAVY_CONTENTS - 1):
                    same(f"those with part {part}", keys_shown(client, limit, ["eq", "part", part]), heavy)
                same("those with the first part", keys_shown(client, limit, ["eq", "part", 0]), sorted(light + heavy))
                same("those with none", keys_shown(client, limit, ["eq", "part", HEAVY_CONTENTS]), [])
                same("none has two parts", keys_shown(client, limit, ["eq", "part", 1], ["eq", "part", 2]), [])
                same("what the other is shown", [other.reply() for _ in range(20)], [b'{"next":null,"rows":[]}\n'] * 20)


def check_idle_with_a_long_line(program: str, folder: str) -> None:
    """A client that sends 65,536 bytes without a newline, and no more, is ended as idle, and takes no processor."""
    with Staying(program, folder, none(folder), "--idle", "2") as region:
        for size in SIZES:
            with socket.create_connection(("127.0.0.1", region.port), timeout=PATIENCE) as client:
                client.sendall(b"x" * size)
                with contextlib.suppress(ConnectionError):
                    client.recv(1)
                    same(f"what one with {size:,} bytes is told besides", client.recv(1), b"")


def check_long_keys_of_the_client(program: str, folder: str) -> None:
    """The client for Python asks for 100 keys of 128 Cyrillic letters, and of 256 control characters, which is answered at once."""
    sys.path.insert(0, str(TOP / "clients/python/src"))
    from pnuts_client import Client as Asking
    from pnuts_client.errors import PnutsError

    with Staying(program, folder, [("east", written(folder, "east", messages(1, 100)))]) as region:
        with Asking(f"tcp://127.0.0.1:{region.port}", timeout=PATIENCE, retries=0) as client:
            until("the records are there", lambda: client.read("k099"))
            idle = seconds_of(lambda: client.read("k001"))
            for name, key in KEYS_ASKED.items():
                start = time.monotonic()
                try:
                    same(f"what is there of keys of {name}", client.get([key(at) for at in range(COUNT)]), [None] * COUNT)
                except PnutsError as fault:
                    raise AssertionError(f"a get of keys of {name}: {fault}") from fault
                in_time(f"the reply to keys of {name}", time.monotonic() - start, 1.0, idle)
            record = client.read("k001")
            same("the next record", record and record.key, "k001")


def come_and_go(is_over: Callable[[], bool], port: int) -> None:
    """Clients that come, ask and go, one after another."""
    while not is_over():
        with contextlib.suppress(OSError), socket.create_connection(("127.0.0.1", port), timeout=SECONDS) as client:
            client.sendall(b"{}\n")
            client.recv(100)
        time.sleep(COMING)


def check_idle_beside_others_that_come(program: str, folder: str) -> None:
    """With --idle 3, a silent client and one with half a line are ended after three seconds and not before, however many others come
    meanwhile; one that asks each second is not."""
    for threads in (1, 2):
        with Staying(program, folder, none(folder), "--idle", str(IDLE), threads=threads) as region:
            with Beside(come_and_go, region.port), Beside(come_and_go, region.port), Client(region.port) as silent, Client(region.port) as half:
                with Client(region.port) as honest:
                    idle = seconds_of(lambda: honest.read("k"))
                    start = time.monotonic()
                    half.send(b'{"do":"re')
                    same("what a silent one is sent", silent.reply(), b"")
                    took = time.monotonic() - start
                    same("what one with half a line is sent", half.reply(), b"")
                    both = time.monotonic() - start
                    same(f"whether {took:.2f} s of silence are at least {IDLE}, with {threads} threads", took > IDLE - 0.3, True)
                    in_time("the end of a silent one", took - IDLE, LATER, idle)
                    in_time("the end of one with half a line", both - IDLE, LATER, idle)
                with Client(region.port) as honest:
                    for _ in range(2 * IDLE):
                        same("one that asks now and then", honest.read("k"), {"row": None})
                        time.sleep(IDLE / 3)


def check_at_rest_with_clients(program: str, folder: str) -> None:
    """A region with clients that asked, have half a line, or take no replies takes no processor, and has what it had once they are gone."""
    east = [("east", written(folder, "east", messages(1, 1_000, "x" * 900)))]
    with Staying(program, folder, east, "--control", os.path.join(folder, "control")) as region:
        with Client(region.port) as client:
            client.wait_for("k099", row_of("k099", 9, "x" * 900))
        before = None
        for _ in range(2):
            with contextlib.ExitStack() as stay:
                clients = [stay.enter_context(Client(region.port)) for _ in range(90)]
                for at, client in enumerate(clients):
                    line = b'{"do":"scan","query":{"limit":1000}}\n'
                    client.send([line, line[:20], line * 50, b"x" * 60_000, b"x" * 65_536, b"x" * 200_000][at % 6])
                region.rest("with clients that ask no more")
            if before:
                region.same_rest(before, "once as many have gone again", LEAK_KB)
            before = region.rest("once they have gone")


# This many keys take several turns; each MARKED-th record is shown, so that one page has gone past all.
KEYS, MARKED = 5_000, 5
PAGE: Json = {"do": "scan", "query": {"limit": 1_000, "where": [["eq", "m", "1"]]}}
COPY: Json = {"do": "copy", "tablet": 0}
PAGES, COPIES = 60, 10


def write_rounds(is_over: Callable[[], bool], path: str) -> None:
    """Writes each key in turn, again and again, at a greater version each time."""
    line = b'{"at":%d,"image":{"fields":{"m":"%d"},"key":"k%04d","master":"w","version":[1,%d]}}\n'
    with open(path, "wb") as pipe:
        for first in itertools.count(0, PART):
            if is_over():
                break
            pipe.write(b"".join(line % (at + 1, at % KEYS % MARKED == 0, at % KEYS, at // KEYS) for at in range(first, first + PART)))
            pipe.flush()


def versions_after(count: int) -> dict[str, int]:
    """The version of each key after this number of messages."""
    return {f"k{key:04}": (count - 1 - key) // KEYS for key in range(min(KEYS, count))}


def page_at(client: Client) -> int:
    """How often all keys were written before a page, whose rows have to be those after some number of messages."""
    rows = client.ask(PAGE)["rows"]
    shown: list[int] = [row["version"][1] for row in rows]
    if not shown:
        return 0
    cut = next((at for at, number in enumerate(shown) if number < shown[0]), len(shown))
    same("the versions on a page", shown, [shown[0]] * cut + [shown[0] - 1] * (len(shown) - cut))
    same("its keys", [row["key"] for row in rows], [f"k{at * MARKED:04}" for at in range(len(rows))])
    return shown[0]


def look_at_copy(client: Client) -> None:
    """Takes a copy, whose images have to be those of just the messages that its marks tell."""
    count = client.ask(COPY)["lines"]
    lines = [json.loads(client.reply()) for _ in range(count)]
    marks = [line for line in lines if "at" in line]
    images = {line["key"]: line["version"][1] for line in lines if "key" in line}
    same("the copy's images", images, versions_after(marks[0]["at"]) if marks else {})
    same("the copy's end", lines[-1], {"end": count - 2})


def check_moments(program: str, folder: str) -> None:
    """Beside a stream at full speed, a page that takes many turns is of one moment of its tablet, and so is a copy: that of its marks."""
    path = os.path.join(folder, "east")
    os.mkfifo(path)
    with Staying(program, folder, [("east", path)], threads=1) as region, Beside(write_rounds, path), Client(region.port) as client:
        until("all keys are there", lambda: client.read(f"k{KEYS - 1:04}")["row"])
        last, moved = page_at(client), 0
        for _ in range(PAGES):
            now = page_at(client)
            same("whether a page is no older than the last", now >= last, True)
            last, moved = now, moved + (now > last)
        for _ in range(COPIES):
            look_at_copy(client)
        until("the keys are written again", lambda: page_at(client) > last)
        print(f"  {PAGES} pages, of {moved + 1} versions, and {COPIES} copies")
