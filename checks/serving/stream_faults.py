"""Where publishers of a stream may begin, their faults, and what they are told: checks of `checks/run streams`."""
import contextlib
import itertools
import json
import os
import signal
import threading
import time

from common.served import Client, Json, image, message, row_of, same, written
from serving.controlled import Publisher, failed, made, said_of_faults, socket_in, written_by
from serving.staying import KEYS, Staying, key_of, messages, until

LONG, MUCH = 70_000, 5_000_000
# The faults of a message, and the reason that the publisher gets for each.
Change = Json
BAD_SHAPES: dict[str, Change] = {"key": {"key": 1}, "master": {"master": 5}, "version": {"version": "x"}, "other": {"more": 1},
                                 "fields": {"fields": []}, "deleted": {"deleted": False}}
OUT_OF_RANGE: dict[str, Change] = {"key": {"key": ""}, "master": {"master": "W"}, "version": {"version": [0, 0]},
                                   "fields": {"fields": {"": "x"}}}
Fault = tuple[bytes, Json, str]


def of(at: object, **changes: object) -> bytes:
    """A message whose image has other members."""
    return json.dumps({"at": at, "image": {**image("k", 1, "x"), **changes}}).encode() + b"\n"


def faults_at(at: int) -> list[Fault]:
    """Texts that are at fault where a position is wanted, each with what its publisher is told besides that, and what is said."""
    plain = [(b"x\n", "not-json"), (b"\n", "not-json"), (of(at)[:-9] + b"\n", "not-json"), (b"\xff\n", "not-json"),
             (b"x" * LONG, "too-long"), (b"%b%b\n" % (of(at)[:-1], b" " * 65_536), "too-long")]
    shapes = [(of(at, **change), member) for member, change in BAD_SHAPES.items()]
    shapes += [(b"[]\n", "whole"), (b'{"image":{}}\n', "at"), (b'{"at":%d}\n' % at, "image"), (of("1"), "at"), (of(-1), "at")]
    ranges = [(of(at, **change), member) for member, change in OUT_OF_RANGE.items()] + [(of(0), "at"), (of(10**15 + 1), "at")]
    return [*((text, {"error": word}, word) for text, word in plain),
            *((text, {"error": "bad-shape", "member": member}, f"bad-shape {member}") for text, member in shapes),
            *((text, {"error": "out-of-range", "member": member}, f"out-of-range {member}") for text, member in ranges)]


def line_of(told: dict[str, object]) -> bytes:
    return json.dumps(told, separators=(",", ":"), sort_keys=True).encode() + b"\n"


def check_beginnings(program: str, folder: str) -> None:
    """Publishers that begin at 1, in the middle and at N + 1 are taken, and one at N + 2 is told of the gap."""
    path, east = socket_in(folder)
    with Staying(program, folder, [east]) as region, Client(region.port) as client:
        has = 0
        for first, count in ((1, 10), (1, 12), (5, 10), (15, 5), (3, 4), (1, 0), (20, 1), (1, 20), (21, 1)):
            written_by(path, messages(first, count), has)
            has = max(has, first + count - 1)
        for first in (has + 2, has + 50, 10**15):
            with Publisher(path) as publisher:
                same("what the region has", publisher.begin(), has)
                publisher.send(messages(first, 3))
                wanted = [b'{"error":"gap","got":%d,"wanted":%d}\n' % (first, has + 1)]
                same("what a publisher with a gap is told", publisher.last_lines(), wanted)
        for at in (1, has):
            client.wait_for(key_of(at), row_of(key_of(at), 0, "x"))
        same("what is there of those after a gap", client.read(key_of(has + 2)), {"row": None})
        written_by(path, messages(has + 1, 1), has)
        client.wait_for(key_of(has + 1), row_of(key_of(has + 1), 0, "x"))
        said = [failed("east", has + 1, 1, f"gap, got {first}, wanted {has + 1}") for first in (has + 2, has + 50, 10**15)]
        until(f"it says {said}", lambda: said_of_faults(region) == said)


def check_faults(program: str, folder: str) -> None:
    """Each fault, as a publisher's first line and after two others: its line to the publisher and on standard error, and the next publisher."""
    path, east = socket_in(folder)
    with Staying(program, folder, [east]) as region:
        has, said = 0, list[bytes]()
        for good in (0, 2):
            for number in range(len(faults_at(1))):
                text, told, why = faults_at(has + good + 1)[number]
                at = has + good + 1
                with Publisher(path) as publisher:
                    same("what the region has", publisher.begin(), has)
                    publisher.send(messages(has + 1, good) + text)
                    same(f"what is told of {text[:90]!r}", publisher.last_lines(), [line_of({"at": at, **told})])
                said.append(failed("east", at, good + 1, why))
                has += good
        until(f"all {len(said)} faults are said", lambda: len(said_of_faults(region)) >= len(said))
        for found, wanted in itertools.zip_longest(said_of_faults(region), said):
            same("what is said", found, wanted)
        print(f"  {len(said)} publishers were told of their faults")


def check_steps(program: str, folder: str) -> None:
    """A message that does not follow the one before is out of step, wherever its publisher began; what came before it is taken."""
    path, east = socket_in(folder)
    cases = [(1, 3, 5), (1, 2, 1), (2, 2, 3), (3, 1, 1), (4, 2, 7), (1, 5, 10**15)]
    with Staying(program, folder, [east]) as region, Client(region.port) as client:
        has, said = 0, list[bytes]()
        for first, count, got in cases:
            wanted = first + count
            with Publisher(path) as publisher:
                same("what the region has", publisher.begin(), has)
                publisher.send(messages(first, count) + message(got, "out", 1, "x"))
                line = {"at": wanted, "error": "out-of-step", "got": got}
                same("what the publisher is told", publisher.last_lines(), [line_of(line)])
            has = max(has, wanted - 1)
            said.append(failed("east", wanted, count + 1, f"out-of-step, got {got}"))
            client.wait_for(key_of(has), row_of(key_of(has), 0, "x"))
        until(f"it says {said}", lambda: said_of_faults(region) == said)
        same("what is there of them", client.read("out"), {"row": None})


def check_much_behind_a_fault(program: str, folder: str) -> None:
    """A publisher that goes on sending, megabytes after its fault, is told all the same, and the next one is taken."""
    path, east = socket_in(folder)
    with Staying(program, folder, [east]):
        for _ in range(20):
            with Publisher(path) as publisher:
                same("what the region has", publisher.begin(), 0)
                with contextlib.suppress(ConnectionError, BrokenPipeError):
                    publisher.send(b"x\n" + b" " * MUCH)
                same("what the publisher is told", publisher.last_lines(), [b'{"at":1,"error":"not-json"}\n'])
        written_by(path, messages(1, 1), 0)


def check_half_lines(program: str, folder: str) -> None:
    """Half a line that a publisher leaves is dropped, and is not joined to the next one's first: whole or not, and of any length."""
    path, east = socket_in(folder)
    halves = [b"{", messages(1, 1)[:-1], messages(1, 1)[:20], b"x", b" " * 65_000, b"\xff", b""]
    with Staying(program, folder, [east]) as region, Client(region.port) as client:
        for at, half in enumerate(halves, 1):
            written_by(path, half, at - 1)
            written_by(path, messages(at, 1) + half, at - 1)
            client.wait_for(key_of(at), row_of(key_of(at), 0, "x"))
        same("what is said", said_of_faults(region), [])


def check_taken(program: str, folder: str) -> None:
    """What a publisher is told was taken rises, is shown to readers, comes at most ten times a second, and comes for the last message."""
    path, east = socket_in(folder)
    with Staying(program, folder, [east]) as region, Client(region.port) as client, Publisher(path) as publisher:
        same("what the region has", publisher.begin(), 0)
        start, told, count = time.monotonic(), [0], 600
        sender = threading.Thread(target=send_slowly, args=[publisher, count])
        sender.start()
        while told[-1] < count:
            told.append(publisher.taken())
            shown = client.read(key_of(told[-1]))["row"]
            same(f"whether {told[-1]} is shown", shown is not None and shown["version"][1] >= told[-1] // KEYS, True)
        took = time.monotonic() - start
        sender.join()
        same(f"whether {told} rises", told == sorted(set(told)), True)
        same(f"whether {len(told)} lines in {took:.1f} seconds are at most ten a second", len(told) - 1 <= took * 10 + 2, True)
        same("whether it is told what is taken while more comes", len(told) > 3, True)


def send_slowly(publisher: Publisher, count: int) -> None:
    for at in range(1, count + 1):
        publisher.send(messages(at, 1))
        time.sleep(0.005)


def check_stopped_region(program: str, folder: str) -> None:
    """A region that is stopped by a signal and goes on reads its publishers on, at a socket and at a FIFO."""
    (path, west), (at, east) = made(folder, "west"), socket_in(folder)
    with Staying(program, folder, [east, west]) as region, Client(region.port) as client, open(path, "wb", buffering=0) as pipe, Publisher(at) as publisher:
        same("what the region has", publisher.begin(), 0)
        for number in range(1, 31):
            publisher.send(messages(number, 1))
            pipe.write(message(number, "west", number, "x"))
            # While it waits for more with something to tell, and while it does not.
            time.sleep(number % 3 * 0.07)
            os.kill(region.process.pid, signal.SIGSTOP)
            time.sleep(0.02)
            os.kill(region.process.pid, signal.SIGCONT)
            client.wait_for(key_of(number), row_of(key_of(number), 0, "x"))
            client.wait_for("west", row_of("west", number, "x"))
        same("what is said", region.said(), b"")


def check_sources_that_stand(program: str, folder: str) -> None:
    """A file, a FIFO and a socket beside one another, each with a fault: each says why, a file's stream ends, and the others go on."""
    (path, west), (at, east) = made(folder, "west"), socket_in(folder)
    north = written(folder, "north", messages(1, 2) + of(3, master="W"))
    with Staying(program, folder, [east, west, ("north", north)]) as region, Client(region.port) as client:
        with open(path, "wb", buffering=0) as pipe:
            pipe.write(messages(1, 1) + of(4))
        with Publisher(at) as publisher:
            publisher.send(messages(1, 3) + b"x\n")
            publisher.last_lines()
        wanted = {failed("north", 3, 3, "out-of-range master"), failed("west", 2, 2, "out-of-step, got 4"), failed("east", 4, 4, "not-json")}
        until("all faults are said", lambda: set(said_of_faults(region)) == wanted)
        with open(path, "wb", buffering=0) as again:
            again.write(messages(2, 2))
            written_by(at, messages(4, 1), 3)
            for number in (1, 2, 3, 4):
                client.wait_for(key_of(number), row_of(key_of(number), 0, "x"))
        same("it is running", region.is_running(), True)
