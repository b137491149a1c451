"""Takes memory from a program that stays while it reads streams, and gives it back.

  checks/run waiting-rounds PROGRAM [--cases N]

Two streams are read while a client and a control session ask. The address space is limited (as `prlimit --as` does) until a round or
a stream waits for memory, and the marks stand still; both that ask are answered meanwhile. Then the limit is lifted, and both streams
are taken to their ends. As often as it is said that a round or a stream waits, it is said that they go on.
"""
import json
import os
import pathlib
import resource
import threading
import time

from common.served import SECONDS, Client, Json, same
from serving.controlled import Session
from serving.staying import Staying, until
from serving.stream_limits import goes_on, waiting_in

NAMES, KEYS = ["east", "west"], 200_000
# How much more than what it has when streams begin it may take, which is less than they need.
MORE = 24 << 20
# For how many seconds the marks stand still.
LONG = 3
# How many keys apart those are that are looked at in the end.
APART = 997


def key_of(number: int) -> str:
    return f"k{number:08}"


def feed(path: str, first: int, keys: int) -> None:
    """Writes a stream of every second key."""
    with open(path, "w", encoding="ascii") as file:
        for at in range(1, keys + 1):
            image = f'{{"fields":{{"v":"x"}},"key":"{key_of(2 * at + first)}","master":"w","version":[1,0]}}'
            file.write(f'{{"at":{at},"image":{image}}}\n')


def limit(process: int, most: int) -> None:
    resource.prlimit(process, resource.RLIMIT_AS, (most, resource.RLIM_INFINITY))


def space_of(process: int) -> int:
    """How many bytes of address space it has."""
    pages = pathlib.Path(f"/proc/{process}/statm").read_text(encoding="ascii").split()[0]
    return int(pages) * resource.getpagesize()


def still(asking: Session, client: Client) -> Json:
    """The marks, once they have stood still for LONG seconds while both that ask were answered."""
    marks: Json = {}
    since, last = time.monotonic(), time.monotonic() + SECONDS
    while time.monotonic() < since + LONG:
        now = asking.told(do="marks")["marks"]
        same("the first key", client.read(key_of(2))["row"] is None, False)
        if now != marks:
            marks, since = now, time.monotonic()
        same("whether marks stand still", since < last, True)
    return marks


def check_waiting_rounds(program: str, folder: str, cases: int | None) -> None:
    """A round waits for memory, sessions are answered meanwhile, and rounds go on once there is some."""
    keys = cases or KEYS
    streams = [(name, os.path.join(folder, name)) for name in NAMES]
    for _, path in streams:
        os.mkfifo(path)
    control = os.path.join(folder, "control")
    with Staying(program, folder, streams, "--control", control) as server, Client(server.port) as client, Session(control) as asking:
        same("marks before", asking.told(do="marks"), {"marks": {}})
        feeds = [threading.Thread(target=feed, args=(path, at, keys), daemon=True) for at, (_, path) in enumerate(streams)]
        for thread in feeds:
            thread.start()
        until("the first messages", lambda: len(asking.told(do="marks")["marks"]) == len(NAMES))
        limit(server.process.pid, space_of(server.process.pid) + MORE)
        until("a round or a stream that waits", lambda: waiting_in(server), 4 * SECONDS)
        marks = still(asking, client)
        limit(server.process.pid, resource.RLIM_INFINITY)
        whole = {"marks": dict.fromkeys(NAMES, keys)}
        until("the ends of streams", lambda: asking.told(do="marks") == whole, 4 * SECONDS)
        lost = [number for number in range(2, 2 * keys + 2, APART) if client.read(key_of(number))["row"] is None]
        same("keys that are not there", lost, [])
        until("that what waited goes on", lambda: goes_on(server))
        print(f"a round waited at {json.dumps(marks)}, and rounds went on to {keys} messages of each stream", flush=True)
