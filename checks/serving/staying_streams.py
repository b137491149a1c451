"""Feeds of a program that stays, killed and begun anew, and rounds of streams: checks of `checks/run stay`."""
import contextlib
import os
import random
import re
import time
from collections import Counter
from collections.abc import Callable

from common.served import Client, Served, fifo, message, row_of, same, written
from faults.preloaded import Watched
from serving.staying import Beside, Staying, messages, pages, replayed, until, watch

LIVES, MESSAGES = 20, 20_000


def write(is_over: Callable[[], bool], path: str, part: bytes) -> None:
    """Writes part of a stream, and holds the FIFO open."""
    with open(path, "wb", buffering=0) as pipe:
        left = memoryview(part)
        while left:
            left = left[pipe.write(left) :]
        while not is_over():
            time.sleep(0.1)


def cut(stream: bytes) -> bytes:
    """Part of a stream that ends in the middle of a line."""
    end = random.randrange(len(stream) // 2, len(stream))
    return stream[:end] if stream[end - 1] != ord("\n") else stream[: end - 1]


def check_killed_publishers(program: str, folder: str) -> None:
    """A FIFO's publisher dies in the middle of a line, twenty times under load: nobody is shown less, and in the end all is there."""
    path, ended, begun = os.path.join(folder, "east"), b"pnuts: stream east ended\n", b"pnuts: stream east begins again\n"
    os.mkfifo(path)
    streams = {"east": messages(1, MESSAGES), "west": messages(1, MESSAGES // 2, "y")}
    west = written(folder, "west", streams["west"])
    words = ["--bounds", '["k030","k060"]', "--workers", "2"]
    with contextlib.ExitStack() as stay:
        publisher = stay.enter_context(Beside(write, path, cut(streams["east"])))
        region = stay.enter_context(Staying(program, folder, [("east", path), ("west", west)], *words))
        stay.enter_context(Beside(watch, region.port, 32))
        with Client(region.port) as client:
            until("the first publisher is read", lambda: "'v': 'x'" in str(client.read("k001")))
        for life in range(1, LIVES + 1):
            # Some die while they write, and some once the region has all of theirs.
            region.wait_for_words(begun, life - 1)
            time.sleep(random.choice([0.02, 0.3]))
            publisher.kill()
            region.wait_for_words(ended, life)
            part = cut(streams["east"]) if life < LIVES else streams["east"]
            publisher = stay.enter_context(Beside(write, path, part))
        with Client(region.port) as client:
            wanted = replayed(program, streams, *words)
            until("the records are those of a replay", lambda: list(pages(client)) == wanted)
        publisher.kill()
        region.wait_for_words(ended, LIVES + 1)
        said = Counter(region.said().splitlines(keepends=True))
        same("what is said", said, {ended: LIVES + 1, begun: LIVES, b"pnuts: stream west ended\n": 1})
        print(f"  {LIVES} publishers died, and {len(wanted)} records of {MESSAGES:,} messages are there")


def check_failing_files(program: str, folder: str) -> None:
    """A file's stream fails for good, in whichever way, and it is said where and why; all others go on."""
    faults = {
        "gap": (messages(2, 1), b"1 (line 1): gap, got 2, wanted 1"),
        "shape": (messages(1, 2) + b"{}\n", b"3 (line 3): bad-shape at"),
        "long": (messages(1, 1) + b" " * 70_000 + b"\n", b"2 (line 2): too-long"),
        "again": (messages(1, 1) * 2, b"2 (line 2): out-of-step, got 1"),
    }
    files = [(name, written(folder, name, text)) for name, (text, _) in faults.items()]
    path, pipe = fifo(folder, "east")
    wanted = sorted(b"pnuts: stream %b failed at %b" % (name.encode(), where) for name, (_, where) in faults.items())
    with Staying(program, folder, [("east", path), *files]) as region, Client(region.port) as client, pipe:
        for at in (1, 2):
            pipe.write(message(at, f"east{at}", 0, "x"))
            client.wait_for(f"east{at}", row_of(f"east{at}", 0, "x"))
            until("all faults are said", lambda: sorted(region.said().splitlines()) == wanted)
        same("it is running", region.is_running(), True)


def check_ended_file(program: str, folder: str) -> None:
    """A file's end ends its stream, what no newline ends is no message, and the program serves on."""
    east = written(folder, "east", messages(1, 3) + messages(4, 1)[:-1])
    with Staying(program, folder, [("east", east)]) as region, Client(region.port) as client:
        region.wait_for_words(b"pnuts: stream east ended\n")
        client.wait_for("k003", row_of("k003", 0, "x"))
        same("what is there of the last line", client.read("k004"), {"row": None})
        with open(east, "ab") as file:
            file.write(b"\n")
        time.sleep(0.5)
        same("what is there of a line that came later", client.read("k004"), {"row": None})
        same("what is said", region.said(), b"pnuts: stream east ended\n")


MANY = 20_000
# A round takes 1,000 messages of a stream, if they are at hand.
MOST_ROUNDS = 60
STREAMS = 16
NAMES = ["east", "north", "south", "west"]
# Four streams of this many messages make rounds that are wide enough for threads.
WIDE = 8_000
BOUNDS = ["--bounds", '["n","s","w"]']
SECONDS = 30
ROUNDS = re.compile(rb"(\d+) rounds")


def rounds(region: Staying) -> int:
    """How many rounds it told of last, by --progress."""
    told = ROUNDS.findall(region.said())
    return int(told[-1]) if told else 0


def check_few_rounds(program: str, folder: str) -> None:
    """Messages that are at hand are taken a thousand a round: 20,000 in few rounds."""
    with Staying(program, folder, [("east", written(folder, "east", messages(1, MANY)))], "--progress") as region:
        until(f"it tells of {MANY} messages", lambda: b" %d (" % MANY in region.said())
        time.sleep(1.5)
        count = rounds(region)
        same(f"whether {count} rounds of {MANY} messages are at least 20 and at most {MOST_ROUNDS}", 20 <= count <= MOST_ROUNDS, True)


def check_ends_are_taken(program: str, folder: str) -> None:
    """The end of a stream is a round too: of a file with a message there are two, and then no more."""
    with Staying(program, folder, [("east", written(folder, "east", message(1, "k", 0, "x")))], "--progress") as region:
        until("it tells of two rounds", lambda: rounds(region) == 2, SECONDS)
        with Client(region.port) as client:
            same("the record", client.read("k"), {"row": row_of("k", 0, "x")})
            time.sleep(2.5)
        same("how many rounds there are later", rounds(region), 2)


def check_streams_that_end_together(program: str, folder: str) -> None:
    """Sixteen streams that end at once, without and with a message: without --stay the program ends once its session has."""
    for count in range(6):
        streams = [(f"s{at:02}", written(folder, f"s{at:02}", message(1, f"k{at:02}", 0, "x") * (count % 2))) for at in range(STREAMS)]
        with Served(program, streams) as served:
            with Client(served.port) as client:
                if count % 2:
                    client.wait_for("k15", row_of("k15", 0, "x"))
                client.end()
            until(f"it has ended, the time {count}", lambda: served.process.poll() is not None, SECONDS)
            same("how it ended", served.end(), (0, b"served 1\n", b""))


def wide_streams(folder: str) -> list[tuple[str, str]]:
    """Streams of keys that lie in a tablet each, each key once."""
    line = b'{"at":%d,"image":{"fields":{},"key":"%b%05d","master":"w","version":[1,0]}}\n'
    return [(name, written(folder, name, b"".join(line % (at, name.encode(), at) for at in range(1, WIDE + 1)))) for name in NAMES]


def settled(count: Callable[[], int]) -> int:
    """A count that has not changed for a tenth of a second: a region answers before the last of its own threads has started."""
    found, looks = count(), 0
    while looks < 10:
        time.sleep(0.01)
        found, looks = (found, looks + 1) if count() == found else (count(), 0)
    return found


def threads_started(program: str, folder: str, streams: list[tuple[str, str]], workers: int, stays: bool) -> int:
    """How many threads have started once all streams were taken."""
    watched = Watched(folder)
    words = [*BOUNDS, "--workers", str(workers)]
    last = {"do": "get", "keys": [f"{name}{os.path.getsize(path) and WIDE:05}" for name, path in streams]}
    serving: Staying | Served = Staying(program, folder, streams, *words, environment=watched.environment) if stays else (
        Served(program, streams, words=words, environment=watched.environment))
    with serving as region, Client(region.port) as client:
        wanted = [bool(os.path.getsize(path)) for _, path in streams]
        until("the last record of each stream is there", lambda: [row is not None for row in client.ask(last)["rows"]] == wanted)
        found = settled(watched.threads)
    os.remove(watched.noted)
    return found


def check_workers(program: str, folder: str) -> None:
    """Rounds of many keys start threads where there are four workers, and none where there is one, with and without --stay."""
    empty, wide = [(name, written(folder, f"no-{name}", b"")) for name in NAMES], wide_streams(folder)
    for stays in (False, True):
        idle, one, four = (threads_started(program, folder, *told, stays) for told in ((empty, 4), (wide, 1), (wide, 4)))
        same("how many threads one worker starts", one - idle, 0)
        same(f"whether four workers start some: {four}, not {idle}", four > idle, True)
        print(f"  {four - idle} threads of workers were started")
