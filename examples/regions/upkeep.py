"""What those do who run regions, while they are read: a tablet is recovered, a machine that was lost is replaced, and all are stopped
in turn."""

from __future__ import annotations

import shutil
import threading
import time
from collections.abc import Callable, Sequence

from cache import Cache
from machines import PROXY_PORT, RANGES, SHOWN, Machine, context
from pnuts_client import Client, Control, PnutsError, Recovering, Tcp, Version

from running import until

# The tablet of the range `high` that is lost.
LOST, KEYS = 2, [f"z{number}" for number in range(250, 400)]
PATIENCE = 600.0


class Near:
    """Sessions of one machine's region, each of which must be shown nothing older than before."""

    def __init__(self, machine: Machine) -> None:
        self.address = Tcp(machine.address, PROXY_PORT + RANGES.index("high"), tls=context())
        self.reads = self.recovering = 0
        self.wrong: list[str] = []

    def run(self, is_over: Callable[[], bool]) -> None:
        shown: dict[str, Version] = {}
        with Client(self.address) as region:
            while not is_over():
                for key in KEYS:
                    try:
                        record = region.read(key)
                    except Recovering:
                        self.recovering += 1
                        continue
                    version = Version(0, 0) if record is None else record.version
                    if version < shown.get(key, Version(0, 0)):
                        self.wrong.append(f"{key} was shown in {version}, after {shown[key]}")
                    shown[key] = version
                    self.reads += 1


def lose_tablet(machine: Machine, peer: Machine, near: Near) -> float:
    """A tablet of a region is lost, and adopts a copy of another machine's region once that has what is needed."""
    over = threading.Event()
    reading = threading.Thread(target=near.run, args=[over.is_set])
    reading.start()
    try:
        until("there are readers", lambda: near.reads > len(KEYS))
        start = time.monotonic()
        with Control(f"unix:{machine.path('high', 'control')}") as region:
            region.lose(LOST)
        until("readers are told of the loss", lambda: near.recovering > 0)
        machine.run_region("high", "recover", str(LOST), "--from", peer.region_address("high"), *SHOWN)
        back, before = time.monotonic() - start, near.reads
        until("readers are shown records again", lambda: near.reads > before + len(KEYS))
        return back
    finally:
        over.set()
        reading.join()


def join(new: Machine, peers: Sequence[Machine], is_level: Callable[[str], bool]) -> float:
    """A machine that has nothing joins from copies of the others' regions. Its feeds read at a neighbour's node of the broker."""
    start = time.monotonic()
    new.node = peers[0].address
    for name in RANGES:
        # The feed counts on from a pair of its neighbour, which is older than the copies.
        shutil.copy(peers[0].path(name, "pairs"), new.path(name, "pairs"))
        sources = [word for peer in peers for word in ("--from", peer.region_address(name))]
        new.run_region(name, "save", new.path(name, "copies"), *sources, *SHOWN)
        new.start_feed(name)
        new.start_region(name)
        new.keep_copies(name)
    new.start_proxies()
    for name in RANGES:
        until(f"{new.name} has all of {name}", lambda: is_level(name), PATIENCE)
    return time.monotonic() - start


def renew(machine: Machine, is_level: Callable[[str], bool]) -> float:
    """The regions of a machine are stopped, and start anew from their copies: the front gives it no connections until they have all
    again."""
    start = time.monotonic()
    machine.set_state("drain")
    for name in RANGES:
        machine.run_region(name, "stop")
        machine.start_region(name)
    for name in RANGES:
        until(f"{machine.name} has all of {name} again", lambda: is_level(name), PATIENCE)
    machine.set_state("ready")
    return time.monotonic() - start


def faults(near: Near, cache: Cache) -> list[str]:
    """What is wrong with what was shown, once nothing is published any more. The cache still follows its region."""
    try:
        until("the cache equals its region", cache.equals_region, PATIENCE)
    except (TimeoutError, PnutsError) as fault:
        return [*near.wrong, str(fault)]
    return near.wrong
