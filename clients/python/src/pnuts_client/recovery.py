"""The recovery of a tablet that a region lost, from the copy of another region."""

from __future__ import annotations

import time

from . import requests
from .client import Client
from .control import Control
from .errors import CopyBehind, Recovering, Refused
from .failover import pause
from .saving import Unfit, head_of


def recover(region: Control, tablet: int, peer: Client, timeout: float) -> int | None:
    """Has a lost tablet adopt a copy of a peer, which is asked until it has what the tablet needs.

    The size of the copy, or None where the tablet serves. Raises the last refusal after the timeout.
    """
    deadline, tries = time.monotonic() + timeout, 0
    while True:
        tablets = region.tablets()
        if not 0 <= tablet < len(tablets):
            raise Unfit(f"there is no tablet {tablet}: the region has {len(tablets)}")
        lost = tablets[tablet]
        if lost.need is None:
            return None
        try:
            text = peer.ask(requests.copy(tablet, lost.need))
            head = head_of(text)
            if (head["from"], head["to"]) != (lost.start, lost.end):
                raise Unfit(f"the peer's tablet {tablet} has another range: {head['from']!r} to {head['to']!r}")
            region.adopt(text)
            return len(text)
        except (CopyBehind, Recovering, Refused) as fault:
            if not _may_pass(fault) or time.monotonic() >= deadline:
                raise
        tries += 1
        time.sleep(pause(tries))


def _may_pass(fault: Refused) -> bool:
    """Whether another try may go well: the peer will have more, or the tablet was lost once more meanwhile."""
    return isinstance(fault, CopyBehind | Recovering) or fault.reply["error"] in ("too-old", "memory", "no-entry")
