"""The scripts of crates/test_rows, each with its tablets, its workers and its replies, and one whose rounds are as wide as a line allows."""
import itertools
import json
import string
from collections.abc import Iterator
from typing import NamedTuple

from common.crates import TOP
from replies.slow import slow_replies
from replies.slow_lines import MAX_LINE_BYTES, Refused, command_of

ROWS = TOP / "crates" / "test_rows"


class Stored(NamedTuple):
    """A stored script. Its lines and replies are without their newlines."""

    name: str
    workers: int
    bounds: list[str]
    lines: list[bytes]
    replies: list[bytes]

    def words(self) -> list[str]:
        """The program's words for its tablets and workers."""
        return ["--bounds", json.dumps(self.bounds), "--workers", str(self.workers)]

    def commands(self) -> Iterator[list[bytes]]:
        """Each command with the lines that it announces, or as many as there are."""
        lines = iter(self.lines)
        for line in lines:
            yield [line, *itertools.islice(lines, announced(line))]


def announced(line: bytes) -> int:
    """How many lines a line announces: none where it is refused."""
    try:
        command = command_of(line, 1)
    except Refused:
        return 0
    return int(command["lines"]) if command["do"] == "adopt" else 0


def sections(name: str) -> dict[str, list[bytes]]:
    """The lines of a stored file by the heads above them."""
    parts = (b"\n" + (ROWS / name).read_bytes()).split(b"\n## ")[1:]
    heads = [part.partition(b"\n") for part in parts]
    return {head.decode(): text.removesuffix(b"\n").split(b"\n") if text else [] for head, _, text in heads}


def stored_scripts() -> Iterator[Stored]:
    """All stored scripts, in their order, but for those over readers and writers that fail, of which only the ends are stored."""
    replies = sections("stdout")
    for head, lines in sections("stdin").items():
        name, workers, *bounds = head.split(" ")
        if name.startswith("failing"):
            continue
        yield Stored(name, int(workers), bounds, lines, replies[head])


def stored(name: str) -> Stored:
    """The stored script of a name."""
    return next(script for script in stored_scripts() if script.name == name)


# Two workers have a thread for 1,200 keys, and a line takes a few more.
KEYS = ["".join(both) for both in itertools.islice(itertools.product(string.ascii_lowercase, repeat=2), 600)]
KEYS += [key.upper() for key in KEYS]
BOUNDS = [sorted(KEYS)[400], sorted(KEYS)[800]]


def delivery(first: int, number: int) -> bytes:
    """A round of an image of each key, at this version."""
    images = [{"fields": {}, "key": key, "master": "w", "version": [1, number]} for key in KEYS]
    line = json.dumps({"do": "deliver", "batches": [{"first": first, "images": images, "stream": "e"}]}, separators=(",", ":"))
    assert len(line) <= MAX_LINE_BYTES
    return line.encode()


def wide_rounds(workers: int) -> Stored:
    """Records come to three tablets, one of which is lost, and all records come again at a greater version."""
    lines = [delivery(1, 0), b'{"do":"lose","tablet":1}', delivery(len(KEYS) + 1, 1), b'{"do":"copy","tablet":0}']
    replies = slow_replies(b"".join(line + b"\n" for line in lines), BOUNDS).splitlines()
    return Stored("wide-rounds", workers, BOUNDS, lines, replies)
