"""Random keys, images, queries and faults, from small pools so that they often meet; and streams of them."""
import json
import random
import re
import time
from collections.abc import Iterable, Sequence

from common.served import SECONDS, Client, same
from replies.slow import text_of
from replies.slow_lines import Json

KEYS = ["a", "a ", "aa", "b", "c", "ca", "d", "\u00e9", "\uffff", "\U0001f600"]
MANY_KEYS = [f"{number:03}" for number in range(128)]
FIELDS = [{}, {"v": "x"}, {"v": "xy"}, {"v": ""}, {"u": "x", "v": "y"}, {"u": ""}, {"u": "", "v": "x"}, {"u": "x"}, {"uu": ""},
          {"w": "\u00e9\n\""}]
MOST = 2**63 - 1
NUMBERS = [10, 10, 9, 0, -1, 1, 100, MOST, MOST - 1, -MOST - 1, -MOST]
TEXTS = ["10", "9", "", "-1", "x"]
NUMBERED = [{"v": 10}, {"v": "10"}, {"v": 10}, {"v": 9}, {"v": -1}, {"u": 9, "v": "9"}, {"u": "x", "v": 10}, {"u": 10}, {"w": 0}]
# Numbers as they are spelled: in a line they stand without their quotes.
SPELLED = ["#-0", "#10.0", "#1e1", "#1E2", "#-0.0", "#1e-400", "#1e400", "#010", "#+1", f"#{MOST}", f"#{MOST + 1}", f"#{MOST + 2}",
           f"#{-MOST - 1}", f"#{-MOST - 2}", f"#{2**64 - 1}", f"#{2**64}", "#-9.223372036854775808e18", "#" + "9" * 400]
UNQUOTED = re.compile(r'"#([-+.0-9eE]+)"')
MASTERS = ["w", "w", "u", "-", "0"]
WORDS = ["adopt", "copy", "deliver", "get", "lose", "marks", "notices", "read", "relayout", "scan", "tablets", "fly"]
ODD: list[Json] = [None, True, False, 0, 1, -1, 1.5, 1000.0, 2**64 - 1, 2**64, 10**15, 10**15 + 1, 10**18, 10**18 + 1, "", "k", "W", "x" * 33,
       "x" * 65, "x" * 256, "x" * 257, [], [1], [1, 2], [1, 0, 0], [0, 1], [10**15, 10**15], {}, {"v": "x"}, {"v": 7},
       "#-0", "#1e1", {"v": "#-0"}, {"v": -7}, {"EAST": 5}, {"east": 0}, [["has", "v"]] * 17, [["eq", "v", 7]], [["prefix", "v", 7]], [["has", ""]], [["is", "v"]], [["eq", "v"]], [["has", "v", "x"]]]
LARGE = ["x" * 4_097, {f"{number}": "" for number in range(65)}, {"u": "x" * 4_096, "v": "x" * 4_096}]
NO_BOUNDS = [[""], ["a", ""], ["x" * 257], ["b", "a"], ["a", "a"], ["a", "b", "b"], MANY_KEYS[:64], [*MANY_KEYS[:62], "0"]]
EDGES: dict[Json, list[Json]] = {
    "bounds": [*NO_BOUNDS, [], MANY_KEYS[:63]],
    "batches": [[], [{"first": 1, "images": [], "stream": "s"}] * 65], "fields": LARGE, "first": [0, 10**15, 10**15 + 1],
    "key": ["", "x" * 257], "keys": [[], [""], ["a"] * 101, ["a"] * 100], "lines": [0, 1_000_001], "master": ["", "W", "x" * 33],
    "need": [{"EAST": 5}, {"east": 0}, {"east": 10**15 + 1}], "since": [10**18, 10**18 + 1], "stream": ["", "E", "x" * 33],
    "query": [{"limit": 0}, {"limit": 1_001}, {"after": ""}, {"from": "x" * 257}, {"where": [["has", ""]]}],
    "version": [[0, 1], [10**15 + 1, 0], [1, 10**15 + 1]],
}
BATCH = {"first": 1, "images": [], "stream": "s"}
LENGTHS = [65_536, 65_537, 70_000]
NO_JSON = [b"", b" ", b"\r", b"nul", b"NaN", b"-Infinity", b"{'do':'marks'}", b'{"do":"marks",}', b'{"do":"marks"}}',
           b"\xff", b"\xef\xbb\xbf{}", b'"\\ud800"', b"[01]", b'"a\tb"', b'{"do":"marks"}\0', b"[" * 200 + b"]" * 200, b"+1", b".5", b'"\\x"']


def bounds_of(rng: random.Random, tablets: int) -> list[str]:
    """Bounds that divide the keys into a count of tablets."""
    if tablets == 64:
        return MANY_KEYS[2::2]
    return sorted(rng.sample([key for key in [*KEYS, "bb", "cb"] if " " not in key], tablets - 1))


def other_bounds(rng: random.Random, keys: list[str]) -> list[str]:
    """Bounds among keys, beside them, and at the lowest key that there is."""
    if keys is MANY_KEYS and rng.random() < 0.4:
        return rng.choice([[], bounds_of(rng, 64)])
    return sorted(rng.sample([*keys, "\0", "bb", "cb"], rng.choice([0, 0, 1, 1, 2, 3, 5])))


def fields(rng: random.Random, is_numbered: bool) -> Json:
    if not is_numbered or rng.random() < 0.3:
        return rng.choice(FIELDS)
    return rng.choice([*NUMBERED, {"v": rng.choice(NUMBERS)}])


def image(rng: random.Random, keys: list[str], index: int, is_numbered: bool) -> Json:
    """An image at an index of a stream: later ones have later versions, mostly."""
    number = index // 8 + rng.randrange(3)
    generation = rng.choice([1, 1, 1, 1, 1, 1, 2, 10**15])
    body = {"deleted": True} if rng.random() < 0.2 else {"fields": fields(rng, is_numbered)}
    return {**body, "key": rng.choice(keys), "master": rng.choice(MASTERS), "version": [generation, number]}


def condition(rng: random.Random, is_numbered: bool) -> Json:
    word, field = rng.choice(["has", "eq", "lt", "gt", "prefix"]), rng.choice(["u", "v", "v", "w"])
    if word == "has":
        return [word, field]
    if is_numbered and rng.random() < 0.7:
        mixed: list[str | int] = [*TEXTS, *NUMBERS, *NUMBERS]
        return [word, field, rng.choice(TEXTS) if word == "prefix" and rng.random() < 0.9 else rng.choice(mixed)]
    return [word, field, rng.choice(["", "x", "xy", "y", "\u00e9"])]


def spelled(rng: random.Random) -> Json:
    """A command that has a number as someone spells it."""
    if rng.random() < 0.5:
        word = rng.choice(["eq", "lt", "gt", "prefix"])
        return {"do": "scan", "query": {"where": [[word, "v", rng.choice(SPELLED)]]}}
    image = {"fields": {"u": 1, "v": rng.choice(SPELLED)}, "key": "a", "master": "w", "version": [1, 0]}
    return {"batches": [{"first": 1, "images": [image], "stream": "s"}], "do": "deliver"}


def query(rng: random.Random, keys: list[str], is_numbered: bool) -> Json:
    asked: Json = {}
    for name in ("from", "to", "after"):
        if rng.random() < 0.3:
            asked[name] = rng.choice([None, *keys])
    if rng.random() < 0.7:
        asked["limit"] = rng.choice([1, 2, 3, 4, 1_000])
    if rng.random() < 0.5:
        asked["where"] = [condition(rng, is_numbered) for _ in range(rng.choice([0, 1, 1, 2]))]
    return asked


def parts_of(value: Json) -> list[tuple[Json, Json]]:
    """Each part of a value: what holds it, and by which name or number."""
    names: Iterable[Json] = value if isinstance(value, dict) else range(len(value)) if isinstance(value, list) else []
    parts: list[tuple[Json, Json]] = []
    for name in names:
        parts += [(value, name), *parts_of(value[name])]
    return parts


def bent(rng: random.Random, value: Json) -> Json:
    """A value in which one part is another, is missing, or is one too many."""
    value = json.loads(json.dumps(value))
    holder, name = rng.choice(parts_of(value))
    way = rng.randrange(8)
    if way == 0 and isinstance(holder, dict):
        del holder[name]
    elif way == 1 and isinstance(holder, dict):
        holder[rng.choice(["other", "deleted", "fields", "key"])] = rng.choice(ODD)
    elif way == 2 and isinstance(holder, list):
        holder += [holder[name]] * rng.choice([1, 16, 64])
    elif name == "do":
        holder[name] = rng.choice(WORDS)
    else:
        holder[name] = rng.choice(EDGES[name] if name in EDGES and rng.random() < 0.3 else ODD)
    return value


def no_json(rng: random.Random, value: Json, is_long: bool) -> bytes:
    """Bytes that are no JSON, or a line that is too long."""
    text = text_of(value).encode()
    if is_long:
        return text.ljust(rng.choice(LENGTHS))
    return rng.choice([text[:rng.randrange(len(text))], text + b"x", *NO_JSON])


def shuffled(rng: random.Random, value: Json) -> Json:
    """The same value, with members in another order."""
    if isinstance(value, list):
        return [shuffled(rng, item) for item in value]
    if not isinstance(value, dict):
        return value
    names = rng.sample(list(value), len(value))
    return {name: shuffled(rng, value[name]) for name in names}


def unquoted(text: str) -> bytes:
    """A line in which numbers stand as they are spelled."""
    return UNQUOTED.sub(r"\1", text).encode()


def line_of(rng: random.Random, value: Json) -> bytes:
    """A value as a line: mostly compact, and otherwise with white space, escapes and members in another order."""
    if rng.random() < 0.85:
        return unquoted(text_of(value))
    text = json.dumps(shuffled(rng, value), separators=(" ,\t", ": "))
    return unquoted(f" {text}\r")


def damaged(rng: random.Random, lines: list[bytes], is_long: bool) -> list[bytes]:
    """The lines of a copy with one fault, or with one that is none."""
    lines = list(lines)
    index, other = rng.randrange(len(lines)), rng.randrange(len(lines))
    way = rng.randrange(10)
    if is_long:
        lines[index] = lines[index].ljust(rng.choice(LENGTHS))
    elif way == 0:
        del lines[index]
    elif way == 1:
        lines.insert(index, lines[other])
    elif way == 2:
        lines[index], lines[other] = lines[other], lines[index]
    elif way == 3:
        lines[0] = text_of({"copy": rng.choice([1, 1, 2]), "from": rng.choice([None, *KEYS]), "to": rng.choice([None, *KEYS])}).encode()
    elif way == 4:
        lines[-1] = text_of({"end": rng.choice([0, 1, len(lines) - 1, 2**64 - 1])}).encode()
    elif way == 5:
        lines.append(rng.choice([b"", b"{}", lines[index]]))
    elif way == 6:
        lines[index] = rng.choice(NO_JSON)
    elif way == 7:
        lines[0] = text_of({**json.loads(lines[0]), "copy": rng.choice([0, 1, 2, 2, 3, 1.0, -1, "2"])}).encode()
    else:
        lines[index] = unquoted(text_of(bent(rng, json.loads(lines[index]))))
    return lines


NAMES = ["east", "north", "west"]
LONGEST = 400

Streams = dict[str, list[Json]]


def streams_of(rng: random.Random, keys: list[str], lengths: Sequence[int] = ()) -> Streams:
    """Up to three streams of random images, of these lengths or of random ones, half of the time with whole numbers."""
    is_numbered = rng.random() < 0.5
    lengths = lengths or [rng.randrange(1, LONGEST) for _ in range(rng.randrange(1, len(NAMES) + 1))]
    return {name: [image(rng, keys, index, is_numbered) for index in range(length)] for name, length in zip(NAMES, lengths)}


def messages(images: list[Json]) -> bytes:
    return b"".join(json.dumps({"at": at, "image": each}).encode() + b"\n" for at, each in enumerate(images, start=1))


def copy_line(tablet: int, streams: Streams) -> Json:
    """Asks for a copy that reaches the ends of all streams."""
    return {"do": "copy", "need": {name: len(images) for name, images in streams.items()}, "tablet": tablet}


def copied(client: Client, line: Json) -> bytes:
    """Asks until the tablet reaches the need."""
    last = time.monotonic() + SECONDS
    while time.monotonic() < last:
        reply = client.ask(line)
        if "lines" in reply:
            return b"".join(client.reply() for _ in range(reply["lines"]))
        same("why there is no copy", reply["error"], "behind")
    raise TimeoutError(f"no copy came: {line}")
