"""The limits of lines, written here again: definitions cite them from the sources, so that no proof sees a limit of another number."""
import json
from collections.abc import Callable, Mapping
from typing import NamedTuple

from replies.slow_lines import Json

VERSION, LINE = 10**15, 65_536
# The sizes in which a program reads its input: a line may end at the end of a read, one byte before it, or one after.
READS = (16_384, 65_536, 262_144)
LINE_SIZES = sorted({LINE - 2, LINE + 2, *(size * times + more for size in READS for times in (1, 2) for more in (-1, 0, 1))})
# What reads lines that are commands, and which of them each has. All else is `read-only` there.
SCRIPT, SESSION, CONTROL = "script", "session", "control"
LOOKUPS = {"read", "get", "scan", "copy"}
HAS = {SESSION: LOOKUPS, CONTROL: LOOKUPS | {"adopt", "lose", "marks", "notices", "stop", "tablets"}}
READ_ONLY: Json = {"error": "read-only"}
TOO_LONG: Json = {"error": "too-long"}


class Limit(NamedTuple):
    """A limit: the refusal of a line beyond it, a line with a value of a size, the greatest size, and the sizes that are tried."""

    refusal: Json
    line: Callable[[int], Json | bytes]
    most: int
    # None: the greatest one, and one more.
    others: list[int] | None = None
    # Where it holds.
    kinds: tuple[str, ...] = (SCRIPT, SESSION, CONTROL)
    # A line that is taken has all that follow it, and is replied to at the end of input.
    is_last: bool = False
    # The reply to a line that is taken, where no script has it.
    taken: Json = None

    def sizes(self) -> list[int]:
        return self.others or [self.most, self.most + 1]

    def text(self, size: int) -> bytes:
        """The line of a size, without a newline."""
        return text_of(self.line(size))

    def is_read_only(self, kind: str) -> bool:
        """Whether its command is not had by those who send lines of this kind."""
        line = self.line(self.most)
        return isinstance(line, dict) and kind != SCRIPT and line["do"] not in HAS[kind]


def text_of(line: Json | bytes) -> bytes:
    return line if isinstance(line, bytes) else json.dumps(line, ensure_ascii=False, separators=(",", ":")).encode()


def image(**other: Json) -> Json:
    return {"fields": {"v": "x"}, "key": "k", "master": "w", "version": [1, 0], **other}


def deliver(one: Json, first: Json = 1, stream: str = "e") -> Json:
    return {"do": "deliver", "batches": [{"first": first, "images": [one], "stream": stream}]}


def scan(**query: Json) -> Json:
    return {"do": "scan", "query": query}


def fields(size: int) -> Json:
    """Fields with names and values of this size together, in texts that are not too long."""
    texts = {"a": "x" * 4_000, "b": "x" * 4_000}
    return {**texts, "c": "x" * (size - 8_003)}


def beyond(member: str) -> Json:
    return {"error": "out-of-range", "member": member}


def commands(member: str, line: Callable[[int], Json], most: int, **other: Json) -> Limit:
    return Limit(beyond(member), line, most, **other)


def delivering(of: Callable[[int], Json]) -> Callable[[int], Json]:
    return lambda n: deliver(of(n))


# The limits of an image, each with its member.
IMAGES: Mapping[str, tuple[str, Callable[[int], Json], int]] = {
    "the key of an image": ("key", lambda n: image(key="k" * n), 256),
    "a master": ("master", lambda n: image(master="w" * n), 32),
    "a generation": ("version", lambda n: image(version=[n, 0]), VERSION),
    "a version": ("version", lambda n: image(version=[1, n]), VERSION),
    "fields": ("fields", lambda n: image(fields={f"f{it}": "" for it in range(n)}), 64),
    "the name of a field": ("fields", lambda n: image(fields={"v" * n: ""}), 64),
    "the text of a field": ("fields", lambda n: image(fields={"v": "x" * n}), 4_096),
    "all fields": ("fields", lambda n: image(fields=fields(n)), 8_192),
    "fields with a number": ("fields", lambda n: image(fields={**fields(n - 21), "n": -1}), 8_192),
}

COMMANDS: Mapping[str, Limit] = {
    "keys of a get": commands("keys", lambda n: {"do": "get", "keys": ["k"] * n}, 100),
    "batches": commands("batches", lambda n: {"do": "deliver", "batches": [{"first": 1, "images": [], "stream": "e"}] * n}, 64),
    "bounds": commands("bounds", lambda n: {"do": "relayout", "bounds": [f"{it:03}" for it in range(n)]}, 63),
    "a number of notices": commands("since", lambda n: {"do": "notices", "since": n}, 10**18),
    "rows of a page": commands("query", lambda n: scan(limit=n), 1_000),
    "conditions": commands("query", lambda n: scan(where=[["has", "v"]] * n), 16),
    "the field of a condition": commands("query", lambda n: scan(where=[["has", "v" * n]]), 64),
    "the text of a condition": commands("query", lambda n: scan(where=[["eq", "v", "x" * n]]), 4_096),
    "the key of a query": commands("query", lambda n: scan(after="k" * n), 256),
    "a key": commands("key", lambda n: {"do": "read", "key": "k" * n}, 256),
    "a key's bytes": commands("key", lambda n: {"do": "read", "key": "é" * (n // 2) + "k" * (n % 2)}, 256),
    "a version to reach": commands("version", lambda n: {"do": "read", "key": "none", "version": [1, n]}, VERSION),
    **{name: commands(member, delivering(of), most) for name, (member, of, most) in IMAGES.items()},
    "the name of a stream": commands("stream", lambda n: deliver(image(), stream="e" * n), 32),
    "a position": commands("first", lambda n: deliver(image(), first=n), VERSION),
    "the name of a stream that a copy has to reach": commands("need", lambda n: {"do": "copy", "need": {"e" * n: 1}, "tablet": 0}, 32),
    "lines of a copy": commands("lines", lambda n: {"do": "adopt", "lines": n}, 1_000_000, kinds=(SCRIPT, SESSION), is_last=True),
    "lines of a copy in control sessions": commands("lines", lambda n: {"do": "adopt", "lines": n}, 10**9, kinds=(CONTROL,), is_last=True,
                                                    taken={"error": "truncated"}),
    "seconds of a wait": commands("wait", lambda n: {"do": "notices", "since": 1, "wait": n}, 60, kinds=(CONTROL,),
                                  taken={"missed": True, "next": 0}),
    "seconds of a stop": commands("seconds", lambda n: {"do": "stop", "seconds": n}, 60, others=[61, 10**9], kinds=(CONTROL,)),
    "a line": Limit(TOO_LONG, lambda n: b'{"do":"read","key":"z"}'.ljust(n), LINE, LINE_SIZES),
    "a line that begins with white space": Limit(TOO_LONG, lambda n: b'{"do":"get","keys":["z","z"]}'.rjust(n), LINE, LINE_SIZES),
    "a line that is no JSON": Limit(TOO_LONG, lambda n: b"x" * n, LINE, LINE_SIZES),
}


def message(at: int, one: Json) -> bytes:
    return text_of({"at": at, "image": one})


def giving(at: int, of: Callable[[int], Json]) -> Callable[[int], bytes]:
    return lambda n: message(at, of(n))


def messages(at: int) -> Mapping[str, Limit]:
    """The limits of a message at a position of a stream."""
    return {
        **{name: Limit(beyond(member), giving(at, of), most) for name, (member, of, most) in IMAGES.items()},
        "a line": Limit(TOO_LONG, lambda n: message(at, image()).ljust(n), LINE, LINE_SIZES),
        "a line that begins with white space": Limit(TOO_LONG, lambda n: message(at, image()).rjust(n), LINE, LINE_SIZES),
    }
