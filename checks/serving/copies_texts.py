"""Texts of copies, one after another, as a slow program reads them, and texts at fault that have no end: checks of `checks/run copies`, and what
they share."""
import contextlib
import json
import os
import subprocess
import threading
from collections.abc import Iterator
from itertools import pairwise

from common.served import SECONDS, Client, Json, Served, free_port, same, written
from faults.memory_limit import limited
from replies.random_values import Streams, copied, copy_line, messages
from replies.slow_copies import Ends, read_copy
from replies.slow_lines import Refused

END = b'{"end":'
MOST = 64
# How many megabytes of address space a program has, and how many of a text it may read before it says what is wrong at its beginning.
MEGABYTES, MOST_READ = 600, 64
HEAD, IMAGE = b'{"copy":1,"from":null,"to":null}\n', b'{"fields":{"v":"%b"},"key":"k%08d","master":"w","version":[1,0]}\n'
# Texts at fault, each with what is said of it; after each come lines without end.
FAULTS = {
    "a first line that is none": (b"x\n", "line 1: bad-line"),
    "a first line that is another one": (IMAGE % (b"x", 1), "line 1: bad-line"),
    "a second line that is none": (HEAD + b"[]\n", "line 2: bad-line"),
    "an image at fault": (HEAD + IMAGE % (b"x", 2) + IMAGE % (b"x", 1), "line 3: not-rising"),
    "an end that counts other lines": (HEAD + b'{"end":7}\n', "line 2: bad-end"),
}


def pieces(text: bytes) -> Iterator[bytes]:
    """The texts of the copies, each up to its end, and what is left."""
    piece = b""
    for line in text.splitlines(keepends=True):
        piece += line
        if line.startswith(END) and line.endswith(b"\n"):
            yield piece
            piece = b""
    if piece:
        yield piece


def line_of(piece: bytes, first: int, fault: Json) -> int:
    """At which line of the whole text the copy that begins at a line has its fault."""
    lines = piece.count(b"\n")
    if fault["error"] == "truncated":
        return first + lines
    return first + (int(fault["line"]) if "line" in fault else lines) - 1


def begin_of(ends: Ends) -> str:
    return ends[0] or ""


def cut_fault(ranges: list[Ends]) -> str | None:
    """Why ranges do not cut all keys."""
    ranges = sorted(ranges, key=lambda ends: (begin_of(ends).encode(), ends[0] is not None))
    at: str | None = ""
    for ends in ranges:
        begin = begin_of(ends)
        if at is None or begin.encode() < at.encode():
            return f'two copies have the key "{begin}"'
        if begin != at:
            return f'no copy has the key "{at}"'
        at = ends[1]
    return None if at is None else f'no copy has the key "{at}"'


def fault_of(text: bytes) -> str | None:
    """Why no region starts from a text, or None."""
    ranges: list[Ends] = []
    first = 1
    for piece in pieces(text):
        if len(ranges) == MOST:
            return f"more than {MOST}"
        try:
            ranges.append(read_copy(piece)["ends"])
        except Refused as refused:
            return f"line {line_of(piece, first, refused.reply)}: {refused.reply['error']}"
        first += piece.count(b"\n")
    return cut_fault(ranges)


def refusal(program: str, path: str, *words: str) -> tuple[int, str, str]:
    """How a program ends that is to start from a text and is refused: its status, and what it writes on both outputs."""
    line = [program, "serve", "--port", "1", "--copies", path, *words, "east=/dev/null"]
    ran = subprocess.run(line, stdin=subprocess.DEVNULL, capture_output=True, text=True, timeout=SECONDS, check=False)
    return ran.returncode, ran.stdout, ran.stderr


def part_of(streams: Streams, ends: dict[str, int]) -> Streams:
    """The streams up to these positions."""
    return {name: images[: ends[name]] for name, images in streams.items()}


def messages_from(images: list[Json], first: int) -> bytes:
    """The messages of a stream from a position on."""
    return b"".join(messages(images).splitlines(keepends=True)[first - 1:])


def taken(program: str, folder: str, words: list[str], streams: Streams, tablets: int) -> list[bytes]:
    """The copies of a region that has taken the streams from their first messages on."""
    named = [(name, written(folder, name, messages(images))) for name, images in streams.items()]
    asked = {name: images for name, images in streams.items() if images}
    with Served(program, named, words=words) as served, Client(served.port) as client:
        return [copied(client, copy_line(tablet, asked)) for tablet in range(tablets)]


def marks_of(text: bytes) -> dict[str, int]:
    """The marks of a copy."""
    values = [json.loads(line) for line in text.splitlines() if line.startswith(b'{"at":')]
    return {value["stream"]: value["at"] for value in values}


def least_marks(texts: list[bytes]) -> dict[str, int]:
    """Per stream the least mark of all copies; one that is absent is none."""
    marks = [marks_of(text) for text in texts]
    names = set.intersection(*(set(each) for each in marks))
    return {name: min(each[name] for each in marks) for name in sorted(names)}


def exchanged(texts: list[bytes]) -> Iterator[bytes]:
    """The texts with two neighbours exchanged."""
    for at, _ in enumerate(pairwise(texts)):
        yield b"".join([*texts[:at], texts[at + 1], texts[at], *texts[at + 2:]])


def without_end(of: bytes) -> Iterator[bytes]:
    """A text, and lines of images after it."""
    yield of
    at = 10
    while True:
        yield b"".join(IMAGE % (b"y" * 900, number) for number in range(at, at + 200))
        at += 200


def write(path: str, text: bytes, sent: list[int]) -> None:
    """Writes a text to a FIFO for as long as somebody reads."""
    with contextlib.suppress(BrokenPipeError), open(path, "wb", buffering=0) as pipe:
        for part in without_end(text):
            left = memoryview(part)
            while left:
                count = pipe.write(left)
                sent[0], left = sent[0] + count, left[count:]


def check_faults_of_texts_without_end(program: str, folder: str) -> None:
    """A text without an end that is at fault at its beginning is refused by its line, once little of it was read, where memory is limited."""
    for name, (text, said) in FAULTS.items():
        path, sent = os.path.join(folder, f"copies{len(text)}"), [0]
        os.mkfifo(path)
        writing = threading.Thread(target=write, args=[path, text, sent], daemon=True)
        writing.start()
        line = [program, "serve", "--stay", "--port", str(free_port()), "--copies", path, "--workers", "4", "east=/dev/null"]
        ran = subprocess.run(line, stdin=subprocess.DEVNULL, capture_output=True, timeout=SECONDS, preexec_fn=limited(MEGABYTES))
        writing.join(SECONDS)
        read = sent[0] >> 20
        same(f"what is said of {name}, of which {read:,} MB were read", (ran.returncode, ran.stdout, ran.stderr.decode()),
             (1, b"", f"pnuts: copies: {said}\n"))
        same(f"whether {read} MB that were read of {name} are at most {MOST_READ}", read <= MOST_READ, True)
