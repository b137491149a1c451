"""How a client of several regions goes on: the vectors of it."""

from __future__ import annotations

import asyncio
import tempfile
import time
import unittest
from collections.abc import Callable
from contextlib import ExitStack
from dataclasses import replace
from pathlib import Path
from typing import Any

from pnuts_client import (
    AsyncClient,
    Client,
    ConnectionFailed,
    Page,
    PnutsError,
    ProtocolError,
    Query,
    Record,
    RecordBehind,
    Refused,
    TimedOut,
    Version,
    requests,
)
from pnuts_client.errors import refusal_of
from pnuts_client.failover import Attempts, Order, Seen, Try, backoff

from .support import Region, fake, replies, vectors
from .test_vectors import as_json

FAULTS: dict[str, type[PnutsError]] = {"connection": ConnectionFailed, "timeout": TimedOut, "protocol": ProtocolError}


def fault_of(told: Any) -> PnutsError:
    """The fault that vectors tell of."""
    return FAULTS[told](told) if isinstance(told, str) else refusal_of(told)


def as_told(fault: PnutsError) -> Any:
    """A fault as vectors tell of it."""
    if isinstance(fault, Refused):
        return fault.reply
    return next(name for name, kind in FAULTS.items() if isinstance(fault, kind))


class Choices(unittest.TestCase):
    """What is asked next, without a server."""

    def test_backoffs(self) -> None:
        for failures, wanted in vectors("failover")["backoffs"]["cases"]:
            self.assertAlmostEqual(backoff(failures) * 1000, wanted)

    def test_orders(self) -> None:
        for case in vectors("failover")["orders"]:
            with self.subTest(case["about"]):
                order = Order(["region"] * case["regions"])
                tries: dict[str, Try] = {}
                for step in case["steps"]:
                    now = step["at"] / 1000
                    if "failed" in step:
                        order.failed(tries[step["failed"]], now)
                    elif "answered" in step:
                        order.answered(tries[step["answered"]])
                    else:
                        found = order.next(now, step.get("tried", ()))
                        self.assertEqual(found and found.region, step["region"], step)
                        if found is not None:
                            tries[step["try"]] = found

    def test_attempts(self) -> None:
        for case in vectors("failover")["attempts"]:
            with self.subTest(case["about"]):
                attempts = Attempts(Order(["region"] * case["regions"]), case["retries"], case["timeout"] / 1000)
                for asked, ended in zip(case["steps"][::2], case["steps"][1::2]):
                    done, deadline = attempts.next(asked["at"] / 1000)
                    self.assertEqual(done.region, asked["region"], asked)
                    self.assertAlmostEqual((deadline or 0) * 1000, asked["until"])
                    if ended["pause"] is not None:
                        self.assertAlmostEqual(attempts.failed(done, fault_of(ended["fault"]), ended["at"] / 1000) * 1000, ended["pause"])
                    else:
                        with self.assertRaises(PnutsError) as raised:
                            attempts.failed(done, fault_of(ended["fault"]), ended["at"] / 1000)
                        self.assertEqual(as_told(raised.exception), ended["fault"])
                        self.assertEqual([as_told(said) for _, said in raised.exception.others], ended["others"])


def record_of(key: str, version: list[int] | None, deleted: bool = False) -> Record | None:
    """A record of which nothing else is looked at."""
    content = {"deleted": True, "master": "w"} if deleted else {"fields": {}, "master": "w"}
    row = {"contents": [content], "key": key, "state": "deleted" if deleted else "one", "version": version}
    return None if version is None else Record(row)


class WhatWasSeen(unittest.TestCase):
    """Versions of records, without a server."""

    def _check(self, seen: Seen, step: dict[str, Any]) -> None:
        if "asks" in step:
            request = seen.guarded(requests.read(step["asks"], version_of(step)))
            self.assertEqual(request.at_least, step["for"] and tuple(step["for"]), step)
        elif "shows" in step:
            found = seen.take(step["shows"], record_of(step["shows"], step["version"], step.get("deleted", False)))
            self.assertEqual(found, step["later"] and tuple(step["later"]), step)
        else:
            query, rows = query_of(step["page"]), [record_of(*row) for row in step["rows"]]
            page = Page([row for row in rows if row], step["next"] and replace(query, after=step["next"]))
            self.assertEqual(sorted(key for key, _ in seen.older_of(query, page)), step["older"], step)

    def test_vectors(self) -> None:
        for case in vectors("failover")["seen"]:
            seen = Seen(case["size"])
            for step in case["steps"]:
                with self.subTest(case["about"]):
                    self._check(seen, step)


def version_of(call: dict[str, Any]) -> Version | None:
    """The version that a call asks for."""
    return Version(*call["version"]) if call.get("version") else None


def query_of(told: dict[str, Any]) -> Query:
    """The query of a call."""
    where = [tuple(condition) for condition in told.get("where", ())]
    return Query(told.get("from"), told.get("to"), where, told.get("limit", 100), told.get("after"))


def asked(client: Client, call: dict[str, Any]) -> Any:
    """What a client answers to a call."""
    if call["do"] == "read":
        return client.read(call["key"], version_of(call))
    if call["do"] == "get":
        return client.get(call["keys"])
    if call["do"] == "scan":
        return [record for page in client.pages(query_of(call["query"])) for record in page]
    with tempfile.TemporaryDirectory() as folder:
        client.copy(call["tablet"], Path(folder) / "copy", call["need"])
        return (Path(folder) / "copy").read_text(encoding="utf-8")


async def asked_async(client: AsyncClient, call: dict[str, Any]) -> Any:
    """What a client for asyncio answers to a call."""
    if call["do"] == "read":
        return await client.read(call["key"], version_of(call))
    if call["do"] == "get":
        return await client.get(call["keys"])
    if call["do"] == "scan":
        return [record async for page in client.pages(query_of(call["query"])) for record in page]
    with tempfile.TemporaryDirectory() as folder:
        await client.copy(call["tablet"], Path(folder) / "copy", call["need"])
        return (Path(folder) / "copy").read_text(encoding="utf-8")


class Calls(unittest.TestCase):
    """What is asked of servers, and answered."""

    def _check(self, regions: list[Region], step: dict[str, Any], ask: Callable[[], Any]) -> None:
        for region, table in zip(regions, step["regions"]):
            region.become(table)
        try:
            found, fault = as_json(ask()), None
        except PnutsError as raised:
            found, fault = None, raised
        self.assertEqual([region.unknown for region in regions], [[] for _ in regions])
        self.assertEqual((found, fault and as_told(fault)), (step.get("answer"), step.get("error")), fault)
        if fault is not None:
            self.assertEqual([as_told(said) for _, said in fault.others], step.get("others", []))
            self.assertEqual(fault.key if isinstance(fault, RecordBehind) else None, step.get("key"))

    def _check_all(self, check: Callable[[dict[str, Any], list[Region]], None]) -> None:
        for case in vectors("regions")["calls"]:
            with self.subTest(case["about"]), ExitStack() as stack:
                regions = [Region() for _ in case["steps"][0]["regions"]]
                for region in regions:
                    stack.callback(region.close)
                check(case, regions)

    def test_for_threads(self) -> None:
        def check(case: dict[str, Any], regions: list[Region]) -> None:
            addresses = [region.address for region in regions]
            with Client(addresses, retries=0, remember=case.get("remember", 100)) as client:
                for step in case["steps"]:
                    self._check(regions, step, lambda: asked(client, step["call"]))

        self._check_all(check)

    def test_for_asyncio(self) -> None:
        def check(case: dict[str, Any], regions: list[Region]) -> None:
            addresses = [region.address for region in regions]
            with asyncio.Runner() as runner:
                client = AsyncClient(addresses, retries=0, remember=case.get("remember", 100))
                for step in case["steps"]:
                    self._check(regions, step, lambda: runner.run(asked_async(client, step["call"])))
                runner.run(client.close())

        self._check_all(check)


class SilentRegion(unittest.TestCase):
    """A region that says nothing is given up after its share of the time."""

    def setUp(self) -> None:
        stack = ExitStack()
        self.addCleanup(stack.close)
        other = Region()
        stack.callback(other.close)
        other.become([{"line": {"do": "read", "key": "k"}, "reply": {"row": None}}])
        self.addresses = [f"tcp://127.0.0.1:{stack.enter_context(fake(replies()))}", other.address]

    def test_a_line_ends_where_all_say_nothing(self) -> None:
        with fake(replies()) as silent:
            addresses = [self.addresses[0], f"tcp://127.0.0.1:{silent}"]
            with Client(addresses, timeout=2) as client, self.assertRaises(TimedOut) as late:
                client.read("k")
            self.assertEqual([(where, type(said)) for where, said in late.exception.others], [(self.addresses[0], TimedOut)])
            self.assertEqual(str(late.exception), f"no reply in time ({self.addresses[0]}: no reply in time)")

    def test_a_slow_consumer_loses_no_time(self) -> None:
        row = '{"row":null}\n'
        with fake(replies(row, end=True)) as first, fake(replies(row, row)) as second:
            addresses = [f"tcp://127.0.0.1:{first}", f"tcp://127.0.0.1:{second}"]
            with Client(addresses, timeout=2) as client:
                answers = client.ask_all([requests.read("k"), requests.read("l")])
                self.assertIsNone(next(answers))
                time.sleep(2.2)
                self.assertEqual(list(answers), [None])

    def test_for_threads(self) -> None:
        with Client(self.addresses, timeout=6) as client:
            self.assertIsNone(client.read("k"))

    def test_for_asyncio(self) -> None:
        async def read_all() -> None:
            async with AsyncClient(self.addresses, timeout=6) as client:
                self.assertIsNone(await client.read("k"))

        asyncio.run(read_all())
