"""Which bodies are lines of JSON as a region reads them, the file of images that are given in place of messages, and whether an image is one that
regions take: what a feed says of a refused one is what the program says."""

from __future__ import annotations

import io
import json
import os
import subprocess
import tempfile
import unittest
import unittest.mock
from contextlib import redirect_stderr
from pathlib import Path
from typing import Any

from feed.bodies import BadBody, BadInstead, Instead, fault_of, line_of, why_refused
from feed.output import Pipe
from feed.running import Batches, Lost, run
from feed.sockets import RegionSocket

from .support import Region
from .test_sockets import FakeBroker

NO_FILE = (b"{", b"[]", b"3", b'{"at":1}', b'{"at":0,"image":{}}', b'{"at":true,"image":{}}', b'{"at":1.0,"image":{}}', b'{"at":"1","image":{}}',
           b'{"at":1000000000000001,"image":{}}', b'{"at":1,"image":{},"more":1}', b'{"at":1,"image":{},"image":{}}',
           b'{"at":1,"image":{}}\n{"at":1,"image":{}}', b'{"at":1,"image":"\\ud800"}', b'{"at":1,"image":1e400}', b"\xff",
           b'{"at":1,"image":"%b"}' % (b"x" * 65_536), b"[" * 100_000)
RIGHT: dict[str, Any] = {"fields": {"n": -5, "v": "x"}, "key": "k", "master": "w", "version": [1, 0]}
GONE: dict[str, Any] = {"deleted": True, "key": "k", "master": "w", "version": [1, 0]}


class Bodies(unittest.TestCase):
    """Bodies, and the lines that they give."""

    def test_lines(self) -> None:
        for body in (b'{"a":1}', b"[]", b' {"a" : "\xc3\xa9"} ', b'"\\ud83d\\ude00"', b"1.5", b"-0", b"[" * 126 + b"]" * 126, b'"[[[[\\"{"'):
            with self.subTest(body):
                self.assertEqual(line_of(7, body), b'{"at":7,"image":' + body + b"}\n")

    def test_no_json(self) -> None:
        for body in (
            b"",
            b"{",
            b"{} {}",
            b"NaN",
            b"-Infinity",
            b"1e999",
            b"1" * 400,
            b'{"a":\n1}',
            b'{"a":1}\n',
            b"\xff",
            b"\xef\xbb\xbf{}",
            '{"a":1}'.encode("utf-16"),
            b'"\\ud83d"',
            b"[" * 127 + b"]" * 127,
            b"[" * 20000 + b"]" * 20000,
        ):
            with self.subTest(body[:40]), self.assertRaisesRegex(BadBody, "message 7 "):
                line_of(7, body)

    def test_long_lines(self) -> None:
        most = 65_536 - len(b'{"at":7,"image":""}')
        self.assertEqual(len(line_of(7, b'"' + b"x" * most + b'"')), 65_537)
        with self.assertRaisesRegex(BadBody, "message 7 is too long"):
            line_of(7, b'"' + b"x" * (most + 1) + b'"')


class Messages:
    """A source of one message without a body, and two that have one."""

    def batches(self, after: int) -> Batches:
        """See `feed.running.Source`."""
        yield [(7, BadBody("number 7 has none")), (8, b"{}"), (9, b"[")]
        raise Lost("no more")

    def describe(self, identity: int) -> str:
        """See `feed.running.Source`."""
        return f"number {identity}"

    def identity(self) -> None:
        """See `feed.running.Source`."""

    def has(self, position: int, name: str) -> bool:
        """See `feed.running.Source`."""
        return True

    def newest(self) -> None:
        """See `feed.running.Source`."""


class Lines(Pipe):
    """Keeps what is written."""

    def __init__(self) -> None:
        super().__init__(None)
        self.lines = b""

    def begin(self) -> int:
        """See `feed.output.Output`."""
        return 0

    def write(self, lines: bytes) -> None:
        """See `feed.output.Output`."""
        self.lines += lines


class Instance(unittest.TestCase):
    """Files, and what is made of them."""

    def setUp(self) -> None:
        folder = tempfile.TemporaryDirectory()
        self.addCleanup(folder.cleanup)
        self.path = Path(folder.name, "instead")

    def given(self, text: bytes) -> tuple[bytes, list[str]]:
        """What a region gets of a source beside a file of this text, and what is said."""
        self.path.write_bytes(text)
        output, said = Lines(), io.StringIO()
        with redirect_stderr(said):
            self.assertEqual(run("bodies", Messages(), output, Instead(str(self.path))), 1)
        return output.lines, said.getvalue().splitlines()

    def told(self, position: int) -> str:
        return f"bodies: position {position}, number {position + 6}: the image in {self.path} is given instead"

    def test_what_is_given(self) -> None:
        first, second, third = b'{"at":1,"image":{"k":"\xc3\xa9"}}\n', b'{"at":2,"image":{}}\n', b'{"at":3,"image":[1,2]}\n'
        bad = "bodies: message 3 is no line of JSON: Expecting value: line 1 column 2 (char 1); it is number 9"
        self.assertEqual(self.given(b""), (b"", ["bodies: number 7 has none"]))
        self.assertEqual(self.given(first), (first + second, [self.told(1), bad]))
        both = b'{"image": [1, 2], "at": 3}\n\n' + first.rstrip()
        self.assertEqual(self.given(both), (first + second + third, [self.told(1), self.told(3), "bodies: no more"]))

    def test_what_is_no_file(self) -> None:
        for text in NO_FILE:
            with self.subTest(text[:40]), self.assertRaisesRegex(BadInstead, f"^--instead {self.path}, line \\d[^\n]*$"):
                self.path.write_bytes(text)
                Instead(str(self.path))
        for path in (self.path.parent, self.path.with_name("none")):
            with self.subTest(path), self.assertRaisesRegex(BadInstead, "cannot be read"):
                Instead(str(path))


def other(**members: Any) -> dict[str, Any]:
    return {**RIGHT, **members}


def without(image: dict[str, Any], name: str) -> dict[str, Any]:
    return {key: value for key, value in image.items() if key != name}


# Images, each with the error and the member of a region, and what is to be said of a field.
WRONG: list[tuple[Any, str, str]] = [
    ([], "bad-shape whole", "object"),
    ({**GONE, "deleted": False}, "bad-shape deleted", "true"),
    ({**GONE, "fields": {}}, "bad-shape fields", "either"),
    (without(GONE, "deleted"), "bad-shape fields", "deleted"),
    (other(fields=[]), "bad-shape fields", "object"),
    (other(fields={"v": "x", "age": 1.5}), "bad-shape fields", "'age'"),
    (other(fields={"v": "x", "age": None}), "bad-shape fields", "'age'"),
    (other(fields={"v": "x", "age": 2**63}), "bad-shape fields", "'age'"),
    (without(RIGHT, "key"), "bad-shape key", "text"),
    (other(master=1), "bad-shape master", "text"),
    (other(version=[1]), "bad-shape version", "whole numbers"),
    (other(version=[1, True]), "bad-shape version", "whole numbers"),
    (other(size=1), "bad-shape other", "'size'"),
    (other(fields={"about": "x" * 4_097}), "out-of-range fields", "'about' has 4097 bytes"),
    (other(fields={"é" * 33: "x"}), "out-of-range fields", "66 bytes"),
    (other(fields={f"f{number}": 1 for number in range(65)}), "out-of-range fields", "65"),
    (other(fields={"a": "x" * 4_096, "b": "x" * 4_095}), "out-of-range fields", "8193 bytes"),
    (other(key="é" * 129), "out-of-range key", "258 bytes"),
    (other(key=""), "out-of-range key", "0 bytes"),
    (other(master="W"), "out-of-range master", "'W'"),
    (other(version=[0, 0]), "out-of-range version", "generation"),
    (other(version=[1, 10**15 + 1]), "out-of-range version", "number"),
]


def checked(text: bytes) -> tuple[int, list[dict[str, Any]]]:
    """The status of the program that checks lines, and what it tells."""
    ran = subprocess.run([os.environ["PNUTS"], "check"], input=text, capture_output=True, timeout=60)
    return ran.returncode, list(map(json.loads, ran.stdout.splitlines()))


class Images(unittest.TestCase):
    def test_faults(self) -> None:
        for image in (RIGHT, GONE, other(fields={}), other(fields={"a": "x" * 4_096, "b": "x" * 4_073, "c": 1}), other(key="é" * 128)):
            self.assertIsNone(fault_of(image))
        for image, told, why in WRONG:
            with self.subTest(str(image)[:60]):
                fault = fault_of(image)
                assert fault is not None
                self.assertEqual(f"{fault.error} {fault.member}", told)
                self.assertIn(why, fault.why)

    @unittest.skipUnless(os.environ.get("PNUTS"), "PNUTS names no program")
    def test_the_program_refuses_the_same(self) -> None:
        images = [it[0] for it in WRONG] + [RIGHT, GONE]
        lines = [json.dumps({"batches": [{"first": 1, "images": [it], "stream": "e"}], "do": "deliver"}) for it in images]
        ran = subprocess.run([os.environ["PNUTS"], "replay"], input="\n".join(lines), capture_output=True, text=True, timeout=60)
        told = [f"{it.get('error', 'taken')} {it.get('member', '')}".strip() for it in map(json.loads, ran.stdout.splitlines())]
        self.assertEqual(told, [it[1] for it in WRONG] + ["taken"] * 2)

    @unittest.skipUnless(os.environ.get("PNUTS"), "PNUTS names no program")
    def test_the_program_checks_the_same(self) -> None:
        self.assertEqual(checked(b""), (0, []))
        status, said = checked("\n".join(json.dumps(it[0]) for it in WRONG).encode())
        self.assertEqual((status, [f"{it['error']} {it['member']}" for it in said]), (1, [it[1] for it in WRONG]))
        self.assertEqual([it["line"] for it in said], list(range(1, len(WRONG) + 1)))
        self.assertEqual([it["name"] for it in said if it["name"] is not None], ["age", "age", "age", "size", "about", "é" * 33])
        lines = [json.dumps(RIGHT), json.dumps(other(fields={"age": None})), "{", json.dumps({"at": 9, "image": GONE}), json.dumps({"at": 10, "image": 3})]
        lines += ['{"at":-0,"image":{}}', '{"at":5,"image":{"deleted":true,"key":"k","master":"w","version":[1,-0]}}', '{"at":6}']
        status, said = checked("\n".join(lines).encode())
        self.assertEqual(status, 1)
        self.assertEqual([(it["line"], it["error"], it["member"], it["name"]) for it in said], [
            (2, "bad-shape", "fields", "age"), (3, "not-json", None, None), (5, "bad-shape", "whole", None), (6, "bad-shape", "at", None),
            (7, "bad-shape", "version", None), (8, "bad-shape", "image", None)])

    def test_a_feed_names_the_field(self) -> None:
        self.assertEqual(why_refused(b'{"at":7,"image":{"fields":{"age":[]},"key":"k","master":"w","version":[1,0]}}\n'),
                         "fields: the field 'age' is no text and no whole number of 64 bits")
        for line in (b"{", b"{}", b"3", b'{"image":%b}' % json.dumps(RIGHT).encode(), b"[" * 10_000):
            self.assertEqual(why_refused(line), "")
        with tempfile.TemporaryDirectory() as folder:
            region, said = Region(Path(folder, "east"), 3, refuses=7), io.StringIO()
            self.addCleanup(region.stop)
            with redirect_stderr(said), unittest.mock.patch("tests.test_sockets.image", lambda number: b'{"fields":{"age":[]},"key":"k%d"}' % number):
                run("scripted", FakeBroker(9), RegionSocket(str(region.path), lambda _: None))
            self.assertIn("\"member\":\"fields\"}: fields: the field 'age' is no text", said.getvalue())
