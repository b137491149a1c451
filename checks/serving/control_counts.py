"""Checks of `checks/run control`: the counts in the reply to `stats`, damaged lines, and a cache that follows a region."""
import os
import random
import socket
import sys
import threading
import time
from pathlib import Path

from common.crates import TOP
from common.served import SECONDS, same
from serving.control_scripts import replayed
from serving.controlled import BOUNDS, CHUNK, TABLETS, Publisher, Session, adoption, given, region_in, written
from serving.staying import Staying, messages, until

DELETION = b'{"at":%d,"image":{"deleted":true,"key":"k%03d","master":"w","version":[2,%d]}}\n'
RECORD = b'{"at":%d,"image":{"fields":{"v":"y"},"key":"k%03d","master":"w","version":[2,%d]}}\n'
# Lines of a client, and of which kind they are; the last has no newline.
LINES = (
    (b'{"do":"copy","tablet":0}', "copy", False), (b'{"do":"copy","tablet":9}', "copy", True),
    (b'{"do":"get","keys":["k001","k050"]}', "get", False), (b'{"do":"get","keys":7}', "get", True),
    (b'{"do":"marks"}', "other", True), (b"x", "other", True), (b"", "other", True), (b'{"do":"halt"}', "other", True),
    (b'{"do":"read","key":"k001","version":[9,0]}', "read", True), (b'{"do":"read","key":7}', "read", True),
    (b'{"do":"scan","query":7}', "scan", True), (b'{"do":"read","key":"k001"}', "read", False),
)


def counted(records: list[int], deleted: list[int]) -> list[dict[str, int]]:
    return [{"deleted": gone, "records": there} for there, gone in zip(records, deleted, strict=True)]


def check_counts_of_records(program: str, folder: str) -> None:
    """`stats` counts the records of each tablet, and the deleted ones, beside deliveries, a loss and an adoption."""
    with region_in(folder, program) as (_, control, path), Session(control) as session:
        same("none", session.told(do="stats")["tablets"], counted([0] * TABLETS, [0] * TABLETS))
        written(path, 1, 250)
        same("records", session.told(do="stats")["tablets"], counted([30, 30, 40], [0, 0, 0]))
        given(path, 250, b"".join(DELETION % (251 + at, key, 0) for at, key in enumerate((*range(10), 60, 100))), 262)
        same("deletions, one of a new key", session.told(do="stats")["tablets"], counted([20, 30, 39], [10, 0, 2]))
        given(path, 262, RECORD % (263, 0, 1) + DELETION % (264, 1, 1) + DELETION % (265, 100, 0), 265)
        same("a record that came again", session.told(do="stats")["tablets"], counted([21, 30, 39], [9, 0, 2]))
        copy = session.copy(0)
        same("the loss", session.told(do="lose", tablet=0), {"lost": 0})
        same("a lost tablet", session.told(do="stats")["tablets"], counted([0, 30, 39], [0, 0, 2]))
        given(path, 265, RECORD % (266, 1, 2) + DELETION % (267, 2, 2), 267)
        same("what came meanwhile", session.told(do="stats")["tablets"], counted([1, 30, 39], [1, 0, 2]))
        need = session.told(do="tablets")["tablets"][0]["need"]
        same("what it needs", need, {"east": 265})
        same("the adoption", session.ask(adoption(copy)), b'{"adopted":0}\n')
        same("the tablet again", session.told(do="stats")["tablets"], counted([22, 30, 39], [8, 0, 2]))


def check_kinds_of_lines(program: str, folder: str) -> None:
    """`stats` counts the lines of clients by their kinds, which refused lines have too, and by their times."""
    wanted = {kind: {"answered": 0, "refused": 0} for _, kind, _ in sorted(LINES, key=lambda it: it[1])}
    for _, kind, is_refused in LINES:
        wanted[kind]["answered"] += 1
        wanted[kind]["refused"] += is_refused
    with region_in(folder, program) as (region, control, path), Session(control) as session:
        written(path, 1, 250)
        same("before any line", [it["answered"] for it in session.told(do="stats")["lines"]["kinds"].values()], [0] * len(wanted))
        with socket.create_connection(("127.0.0.1", region.port), timeout=SECONDS) as client, client.makefile("rb") as replies:
            client.sendall(b"\n".join(line for line, _, _ in LINES))
            client.shutdown(socket.SHUT_WR)
            replies.read()
        until("all are counted", lambda: session.told(do="stats")["lines"]["answered"] == len(LINES))
        same("the kinds", session.told(do="stats")["lines"]["kinds"], wanted)
        times = session.told(do="stats")["times"]
        same("how many are timed", times["lines"]["count"], len(LINES))
        for it in times.values():
            limits = [bucket["most"] for bucket in it["buckets"]]
            same("the buckets' limits rise", limits, sorted(set(limits)))
            in_buckets = sum(bucket["count"] for bucket in it["buckets"])
            same("no bucket has more than there are", in_buckets <= it["count"], True)
            same("their time", it["total"] <= SECONDS * 1_000_000 * it["count"], True)


DAMAGED = 20_000
WHOLE = [b'{"do":"marks"}', b'{"do":"tablets"}', b'{"do":"lose","tablet":1}', b'{"do":"notices","since":3}', b'{"do":"copy","tablet":2}',
         b'{"do":"copy","need":{"east":1},"tablet":0}', b'{"do":"read","key":"k001","version":[1,0]}', b'{"do":"get","keys":["k001","k099"]}',
         b'{"do":"scan","query":{"after":null,"from":"k","limit":2,"where":[["eq","v","x"]]}}', b'{"do":"notices","since":1000000000000000001}',
         b'{"do":"lose","tablet":18446744073709551615}', b'{"do":"read","key":"\\u00e9\\ud83d\\ude00"}', b'{"do":"adopt","lines":0}']
PIECES = [bytes([byte]) for byte in b'{}[]",:019.eE+-\\utrfn \t\r\x00\xff\xc3\xa9adeks']


def damaged(chance: random.Random) -> bytes:
    """A line with some bytes others, more, fewer or twice."""
    line = chance.choice(WHOLE)
    for _ in range(chance.randrange(4)):
        at = chance.randrange(len(line) + 1)
        end = chance.randrange(at, len(line) + 1)
        piece = chance.choice([*PIECES, b"", line[at:end]])
        line = line[:at] + piece + line[at + chance.randrange(2) :]
    return line + b"\n"


def check_damaged_lines(program: str, folder: str) -> None:
    """20,000 lines that are damaged somewhere, or whole, have byte for byte the replies of a script."""
    chance, replies = random.Random(5), []
    # (no line that announces others)
    lines = [line for line in (damaged(chance) for _ in range(DAMAGED)) if b"adopt" not in line or b'"lines":0}' in line]
    with region_in(folder, program) as (_, control, _), Session(control) as session:
        sending = threading.Thread(target=send_all, args=[session, b"".join(lines)])
        sending.start()
        while part := session.socket.recv(CHUNK):
            replies.append(part)
        sending.join(SECONDS)
    found, wanted = b"".join(replies).splitlines(), b"".join(replayed(program, lines)).splitlines()
    for at, (one, other) in enumerate(zip(found, wanted)):
        same(f"line {at} of the replies", one, other)
    same("how many lines of replies there are", len(found), len(wanted))


def send_all(session: Session, text: bytes) -> None:
    session.send(text)
    session.socket.shutdown(socket.SHUT_WR)


STARTS, EACH = 300, 10
# How many messages a publisher sends at a time.
PART = 20


class Writing:
    """A publisher that goes on after the last message that its region has, also where that starts anew, and may pause."""

    def __init__(self, path: str) -> None:
        self.path = path
        self.over, self.paused = threading.Event(), threading.Event()
        self.count = 0

    def run(self) -> None:
        while not self.over.is_set():
            try:
                with Publisher(self.path) as publisher:
                    self.write(publisher)
            except (OSError, ValueError):
                time.sleep(0.002)

    def write(self, publisher: Publisher) -> None:
        last = publisher.begin()
        while not self.over.is_set():
            if not self.paused.is_set():
                publisher.send(messages(last + 1, PART))
                last += PART
                while publisher.taken() < last:
                    pass
                self.count += 1
            time.sleep(0.001)


def check_caches(program: str, folder: str) -> None:
    """A region is killed or stopped 300 times under a cache while records change, and starts anew without records or from older
    copies: whenever it rests, the cache has its records."""
    sys.path[:0] = [str(TOP / "clients/python/src"), str(TOP / "examples/regions")]
    from cache import Cache
    from pnuts_client import Client
    from pnuts_client.saving import save

    control, stream, copies = (os.path.join(folder, name) for name in ("control", "publishers", "copies"))
    rng, over, writing, cache = random.Random(3), threading.Event(), Writing(stream), Cache(Path(control))
    threads = [threading.Thread(target=cache.run, args=[over.is_set], daemon=True), threading.Thread(target=writing.run, daemon=True)]
    for thread in threads:
        thread.start()
    for at in range(1, STARTS + 1):
        layout = ["--copies", copies] if os.path.exists(copies) and rng.random() < 0.7 else ["--bounds", BOUNDS]
        told = [*layout, "--control", control]
        with Staying(program, folder, [("east", f"listen:{stream}")], *told, is_looked_at=False) as region, Session(control) as session:
            written, loads, changes = writing.count, cache.loads, cache.changes
            until("something is written", lambda: writing.count > written)
            if rng.random() < 0.8:
                until("the cache reads all anew", lambda: cache.loads > loads)
            if rng.random() < 0.5:
                until("the cache takes a change", lambda: cache.changes > changes)
            if rng.random() < 0.3:
                with Client(f"unix:{control}") as peer:
                    save(peer, Path(copies))
            if at % EACH == 0:
                writing.paused.set()
                until(f"the cache equals its region after {at} starts", cache.equals_region)
                writing.paused.clear()
            if at == STARTS:
                over.set()
                until("the cache has ended", lambda: not threads[0].is_alive())
                writing.over.set()
                until("the publisher has ended", lambda: not threads[1].is_alive())
            elif rng.random() < 0.5:
                session.told(do="stop", seconds=1)
                region.process.wait()
    print(f"    {cache.changes:,} changes, {cache.loads:,} times all read anew, {len(cache.faults)} faults {cache.faults[:3]}")
