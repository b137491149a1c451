"""The vectors: lines as a region takes them, and replies as it gives them."""

from __future__ import annotations

import json
import socket
import time
import unittest
from dataclasses import asdict
from typing import Any

from pnuts_client import Notices, ProtocolError, Query, Record, Refused, Stats, Version, control_requests, requests
from pnuts_client.pipeline import Pipeline
from pnuts_client.requests import Request, query_of

from .support import region, vectors


def request_of(call: dict[str, Any]) -> Request[Any]:
    """The client's request for a call of the vectors."""
    word = call["do"]
    if word == "read":
        version = call.get("version")
        return requests.read(call["key"], None if version is None else Version(*version))
    if word == "get":
        return requests.get(call["keys"])
    if word == "scan":
        return requests.scan(query_of(call["query"] or None) or Query())
    if word == "copy":
        return requests.copy(call["tablet"], call.get("need"))
    if word == "notices":
        return control_requests.notices(call["since"], call["wait"])
    if word in ("marks", "stats"):
        return getattr(control_requests, word)()  # type: ignore[no-any-return]
    return requests.ask(call, lambda reply: reply)


def as_json(answer: Any) -> Any:
    """What an answer says, in the form of a reply."""
    if isinstance(answer, Record):
        return answer.as_json()
    if isinstance(answer, list):
        return [as_json(each) for each in answer]
    return answer


class Vectors(unittest.TestCase):
    """Each exchange, over bytes alone."""

    def test_lines(self) -> None:
        for exchange in vectors("lookups")["exchanges"]:
            with self.subTest(exchange["line"]):
                line = request_of(exchange["call"]).line
                self.assertEqual(json.loads(line), json.loads(exchange["line"]))
                self.assertEqual(line[-1:], b"\n")
                self.assertEqual(line.count(b"\n"), 1)

    def test_answers(self) -> None:
        for exchange in vectors("lookups")["exchanges"]:
            for step in (1, 7, 1 << 20):
                with self.subTest(exchange["line"], step=step):
                    self._is_answered(exchange, step)

    def _is_answered(self, exchange: dict[str, Any], step: int) -> None:
        pipeline: Pipeline[None] = Pipeline()
        request = request_of(exchange["call"])
        pipeline.send(request, None)
        text = "".join(line + "\n" for line in exchange["replies"]).encode()
        found: list[Any] = []
        for start in range(0, len(text), step):
            found += pipeline.receive(text[start : start + step])
        ((_, _, reply),) = found
        wanted = json.loads(exchange["replies"][0])
        if "error" in wanted:
            with self.assertRaises(Refused) as refused:
                request.answer(reply)
            self.assertEqual(refused.exception.reply, wanted)
        elif "lines" in wanted:
            self.assertEqual(request.answer(reply), text[text.index(b"\n") + 1 :])
        elif "row" in wanted:
            self.assertEqual(as_json(request.answer(reply)), wanted["row"])
        elif "next" in wanted:
            page = request.answer(reply)
            self.assertEqual(as_json(page.records), wanted["rows"])
            self.assertEqual(page.next and page.next.as_json(), wanted["next"])
        else:
            self.assertEqual(as_json(request.answer(reply)), wanted["rows"])

    def test_faults(self) -> None:
        for case in vectors("lookups")["refused"]:
            with self.subTest(case["reply"]):
                with self.assertRaises(Refused) as refused:
                    self._answered(case)
                self.assertEqual(refused.exception.reply, json.loads(case["reply"]))
        for case in vectors("lookups")["broken"]:
            with self.subTest(case["reply"]), self.assertRaises(ProtocolError):
                self._answered(case)

    def _answered(self, case: dict[str, Any]) -> None:
        pipeline: Pipeline[None] = Pipeline()
        pipeline.send(request_of(case["call"]), None)
        for request, _, reply in pipeline.receive(case["reply"].encode() + b"\n"):
            request.answer(reply)


class ControlVectors(unittest.TestCase):
    """Each exchange of a control session, over bytes alone."""

    def test_lines_and_answers(self) -> None:
        for exchange in vectors("control")["exchanges"]:
            with self.subTest(exchange["reply"]):
                request, wanted = request_of(exchange["call"]), json.loads(exchange["reply"])
                self.assertEqual(json.loads(request.line), json.loads(exchange["line"]))
                if "error" in wanted:
                    with self.assertRaises(Refused) as refused:
                        request.answer(wanted)
                    self.assertEqual(refused.exception.reply, wanted)
                else:
                    self.assertEqual(as_reply(request.answer(wanted)), wanted)

    def test_faults(self) -> None:
        for case in vectors("control")["broken"]:
            with self.subTest(case["reply"]), self.assertRaises(ProtocolError):
                request_of(case["call"]).answer(json.loads(case["reply"]))


def as_reply(answer: Any) -> Any:
    """What an answer of a control session says, in the form of a reply."""
    if isinstance(answer, Stats):
        later = {name: member for name, member in answer.reply.items() if name == "of-a-later-version"}
        told = {**asdict(answer), **later}
        del told["reply"]
        told = {name: member for name, member in told.items() if name in answer.reply}
        told["streams"] = [{name: member for name, member in it.items() if name in one} for it, one in zip(told["streams"], answer.reply["streams"])]
        told["lines"] = {name: member for name, member in told["lines"].items() if name in answer.reply["lines"]}
        told["connections"].update(dict.fromkeys(answer.reply["connections"].keys() - told["connections"], 1))
        return told
    if isinstance(answer, Notices):
        changes = [{**asdict(it), "before": it.before and list(it.before), "after": list(it.after)} for it in answer.changes]
        return {"missed": True, "next": answer.next} if answer.missed else {"next": answer.next, "notices": changes}
    return {"marks": answer}


class VectorsOfARegion(unittest.TestCase):
    """Each exchange, as the program answers it."""

    def test_replies(self) -> None:
        told = vectors("lookups")
        with region(told["streams"], bounds=told["bounds"]) as port:
            with socket.create_connection(("127.0.0.1", port), timeout=10) as connection:
                lines = connection.makefile("rb")
                _wait_for(connection, lines, "\u00fc")
                for exchange in told["exchanges"]:
                    with self.subTest(exchange["line"]):
                        connection.sendall(exchange["line"].encode() + b"\n")
                        for wanted in exchange["replies"]:
                            self.assertEqual(lines.readline().decode(), wanted + "\n")


def _wait_for(connection: socket.socket, lines: Any, key: str) -> None:
    """Until the region has taken its streams, of which this is the last key."""
    for _ in range(1000):
        connection.sendall(requests.read(key).line + requests.copy(0, {"west": 5}).line)
        row, copied = json.loads(lines.readline()), json.loads(lines.readline())
        for _ in range(copied.get("lines", 0)):
            lines.readline()
        if row["row"] is not None and "lines" in copied:
            return
        time.sleep(0.01)
    raise AssertionError("the region took no streams")
