"""A copy of a region's records, kept by the changes that its control socket tells."""

from __future__ import annotations

import time
from collections.abc import Callable
from pathlib import Path

from pnuts_client import Control, PnutsError, Record, Recovering

# How long it waits for a tablet that is recovering, and after a fault.
PAUSE = 0.05


class Cache:
    """The records that a region has. It goes on while the region is away, and after each fault, which it notes."""

    def __init__(self, control: Path) -> None:
        self.address = f"unix:{control}"
        self.records: dict[str, Record] = {}
        self.loads = self.changes = 0
        self.faults: list[str] = []

    def run(self, is_over: Callable[[], bool]) -> None:
        """Follows the region, from the beginning after a fault. What came before it is told that all is over is not taken any more."""
        while not is_over():
            try:
                self.follow(is_over)
            except (PnutsError, OSError) as fault:
                self.faults.append(f"the cache began anew: {type(fault).__name__}: {fault}")
                time.sleep(PAUSE)

    def follow(self, is_over: Callable[[], bool]) -> None:
        """Reads anew what it may have missed, and else what has changed."""
        with Control(self.address, retries=1000) as region:
            for found in region.watch(wait=1):
                if is_over():
                    return
                if found.missed:
                    self.load(region)
                for change in found.changes:
                    self.take(region, change.key)

    def load(self, region: Control) -> None:
        while True:
            try:
                self.records = {record.key: record for record in region.scan(page=1000)}
                self.loads += 1
                return
            except Recovering:
                time.sleep(PAUSE)

    def take(self, region: Control, key: str) -> None:
        """Takes a record that has changed. Where its tablet was lost since, the next changes are missed, and all is read anew."""
        try:
            record = region.read(key)
        except Recovering:
            return
        if record is not None:
            self.records[key] = record
            self.changes += 1

    def equals_region(self) -> bool:
        """Whether it has the records of its region, which has to rest."""
        with Control(self.address) as region:
            return {record.key: record for record in region.scan(page=1000)} == self.records
