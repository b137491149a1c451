"""What is fuzzed: scripts, copies, streams and the lines of sessions, each with its inputs to begin with; and what AFL++ found, tried again by
the program itself, and kept where the program is at fault."""
import hashlib
import json
import pathlib
import re
import resource
import subprocess
from collections.abc import Iterator
from typing import NamedTuple

from common.tried import first_fault
from replies.slow import slow_replies
from replies.slow_lines import Json
from replies.stored import Stored, stored, stored_scripts

TOP = pathlib.Path(__file__).resolve().parent.parent
CASES = TOP / "fuzz" / "cases"
ROWS = TOP.parent / "shared" / "rows"
MOST_BYTES = 8_192
ANNOUNCED = b'{"do":"adopt","lines":1000000}\n'
SESSION_WORDS = {"read", "get", "scan", "copy"}
# How much processor time an input may take, and how long is waited for an end.
SECONDS, PATIENCE = 1, 20
LINES = re.compile(rb"(pnuts: (read|write|too-many-turns|memory|cannot start|stream east failed|round failed|close failed)\n)?\Z")
# Which of such numbers are read is not fixed.
EDGE = re.compile(rb"[0-9]{17}|[eE][-+]?[0-9]{3}")
CRASHES, HANGS, QUEUE = "crashes", "hangs", "queue"


class Harness(NamedTuple):
    """The program's words for an input on standard input, what comes before each input, and whether a session reads it."""

    name: str
    words: list[str]
    before: bytes = b""
    is_session: bool = False


HARNESSES = [
    Harness("scripts", ["replay", "--bounds", '["k","m"]', "--workers", "2"]),
    Harness("copies", ["replay"], ANNOUNCED),
    Harness("streams", ["serve", "--sessions", "1", "--bounds", '["k"]', "east=/dev/stdin"]),
    Harness("sessions", ["serve", "--sessions", "1", "--bounds", '["k"]', "east=STREAM"], is_session=True),
]


def values_of(script: Stored) -> Iterator[Json]:
    """The commands of a script that are objects."""
    for line in script.lines:
        try:
            value = json.loads(line)
        except ValueError:
            continue
        if isinstance(value, dict):
            yield value


def images_of(script: Stored) -> Iterator[Json]:
    """The images that a script delivers."""
    for value in values_of(script):
        batches = value.get("batches")
        for batch in batches if isinstance(batches, list) else []:
            images = batch.get("images") if isinstance(batch, dict) else None
            yield from images if isinstance(images, list) else []


def stream_of(*scripts: Stored) -> bytes:
    """The images that scripts deliver, as a stream."""
    images = (image for script in scripts for image in images_of(script))
    messages = ({"at": at, "image": image} for at, image in enumerate(images, 1))
    return b"".join(json.dumps(message, separators=(",", ":")).encode() + b"\n" for message in messages)


def session_stream() -> bytes:
    """The stream that the sessions read: records, conflicts and deletions."""
    return stream_of(*map(stored, ["pages-and-continuations", "conditions-on-conflicts", "deletion-hides-and-stays"]))


def session_of(script: Stored) -> bytes:
    """The lines of a script that a session answers."""
    lines = [value for value in values_of(script) if value.get("do") in SESSION_WORDS]
    return b"".join(json.dumps(line, separators=(",", ":")).encode() + b"\n" for line in lines)


def copies_of(script: Stored) -> Iterator[bytes]:
    """The copies that a script adopts."""
    for command in script.commands():
        if len(command) > 1:
            yield b"".join(line + b"\n" for line in command[1:])


def texts_of(harness: Harness) -> Iterator[bytes]:
    """The inputs to begin with: of the stored scripts, of worked rows where they are at hand, and of what was found before."""
    for path in sorted([*(CASES / harness.name).glob("*"), *(ROWS.glob("*.in") if harness.name == "scripts" else [])]):
        yield path.read_bytes()
    for script in stored_scripts():
        if harness.name == "scripts":
            yield b"".join(line + b"\n" for line in script.lines)
        elif harness.name == "copies":
            yield from copies_of(script)
        else:
            yield stream_of(script) if harness.name == "streams" else session_of(script)


def write_inputs(harness: Harness, folder: pathlib.Path) -> None:
    """Writes the inputs to begin with, each once and none that is long."""
    folder.mkdir(parents=True)
    texts = {text for text in texts_of(harness) if 0 < len(text) <= MOST_BYTES}
    for number, text in enumerate(sorted(texts)):
        (folder / f"{number:03}").write_bytes(text)


def bounds_of(words: list[str]) -> list[str]:
    bounds: list[str] = json.loads(words[words.index("--bounds") + 1]) if "--bounds" in words else []
    return bounds


def children_seconds() -> float:
    """How much processor time programs have taken."""
    used = resource.getrusage(resource.RUSAGE_CHILDREN)
    return used.ru_utime + used.ru_stime


class Findings:
    """The inputs of one run of AFL++ that are put to the program again."""

    def __init__(self, program: str, words: list[str], harness: Harness, environment: dict[str, str]) -> None:
        self.command, self.harness = [program, *words], harness
        self.bounds = bounds_of(words)
        self.environment = {**environment, "LD_PRELOAD": environment["AFL_PRELOAD"]}
        self.crashes, self.hangs, self.judged, self.differences = 0, 0, 0, 0

    def run(self, text: bytes) -> tuple[int, bytes, bytes] | None:
        """The status, the replies and what is said, or None where there is no end."""
        try:
            ended = subprocess.run(self.command, input=self.harness.before + text, capture_output=True, env=self.environment,
                                   timeout=PATIENCE)
        except subprocess.TimeoutExpired:
            return None
        return ended.returncode, ended.stdout, ended.stderr

    def keep(self, kind: str, text: bytes) -> None:
        """Keeps an input as a case from which later runs begin."""
        folder = CASES / self.harness.name
        folder.mkdir(parents=True, exist_ok=True)
        path = folder / f"{kind}-{hashlib.sha256(text).hexdigest()[:12]}"
        path.write_bytes(text)
        print(f"fuzz: {kind}: {path}", flush=True)

    def end_fault(self, text: bytes) -> str | None:
        """Whether the program ends as the documents do not say, or late."""
        before = children_seconds()
        end = self.run(text)
        if end is None or children_seconds() - before > SECONDS:
            return "hang"
        return None if end[0] in (0, 1) and LINES.match(end[2]) and (end[0] == 1) == (end[2] != b"") else "crash"

    def reply_fault(self, text: bytes) -> str | None:
        """Where the replies are not those of the slow program."""
        end = self.run(text)
        script = self.harness.before + text
        if end is not None and end == (0, slow_replies(script, self.bounds), b""):
            return None
        self.keep("other-replies", text)
        return "other replies"

    def texts(self, folder: pathlib.Path) -> list[tuple[str, bytes]]:
        return [(path.name, path.read_bytes()) for path in sorted(folder.glob("id:*"))]

    def look(self, output: pathlib.Path) -> None:
        """Tries what was found again; of scripts and copies, each path is judged by its replies."""
        for name, text in [*self.texts(output / CRASHES), *self.texts(output / HANGS)]:
            fault = self.end_fault(text)
            if fault:
                self.crashes, self.hangs = self.crashes + (fault == "crash"), self.hangs + (fault == "hang")
                self.keep(fault, text)
        if "replay" in self.command:
            texts = [(name, text) for name, text in self.texts(output / QUEUE) if not EDGE.search(text)]
            self.judged, fault = first_fault(self.reply_fault, texts)
            self.differences += fault is not None
