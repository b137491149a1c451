"""Scripts and streams for the benches, made from seeds: the same on every machine.

New keys have images of some 480 bytes in five fields. Of mixed images most are the first of a new key, and the others are a next version, an older one, one of the same version
with other fields, or a deletion. Some lines are delivered twice. Fields have 100 to 600 bytes in all.
"""
import dataclasses
import json
import random
from collections.abc import Callable

WORDS = "amber birch cedar delta ember fjord grove haven inlet jetty karst ledge marsh north oasis pines quarry river stone".split()
PLAIN_WORDS = WORDS[:15] + ["\u00e9tang"]
RARE = ["\u00e9tang", "\u6771\u4eac", '"quoted"', "back\\slash", "\u0141\u00f3d\u017a"]
# Conditions beside one on the state.
MORE: list[list[list[str]]] = [[], [["has", "city"]], [["gt", "about", "h"]], [["prefix", "title", "s"]]]
STATES = ["active", "away", "blocked", "idle", "invited"]
MASTERS = ["asia-south", "eu-north", "us-east", "us-west"]
FIELDS = ["about", "city", "email", "motto", "notes", "title"]
STREAMS = ["east", "north", "south", "west"]
IMAGES_IN_LINE = 64
MOST_LINE_BYTES = 63_000
NEW, OLDER, EQUAL, NEXT_GENERATION = 0.6, 0.05, 0.005, 0.01
DELETED, TWICE, ABSENT = 0.03, 0.05, 0.05


def text_of(value: object) -> str:
    return json.dumps(value, ensure_ascii=False, separators=(",", ":"), sort_keys=True)


def line_of(value: object) -> bytes:
    return text_of(value).encode() + b"\n"


@dataclasses.dataclass(frozen=True)
class Image:
    stream: str
    position: int
    text: str


def key_of(number: int) -> str:
    """Distinct keys of 12 to 40 bytes, which come in no order."""
    mixed = number * 2_654_435_761 % 2**32
    kind = ("profile", "session", "item")[mixed % 3]
    word = WORDS[mixed // 3 % len(WORDS)]
    return f"{kind}:{mixed:08x}" if kind == "session" else f"{kind}:{mixed:08x}:{word}.{WORDS[number % len(WORDS)]}"


def phrase(rng: random.Random, size: int) -> str:
    words: list[str] = []
    while sum(map(len, words)) + len(words) < size:
        words.append(rng.choice(RARE if rng.random() < 0.03 else WORDS))
    return " ".join(words)


def fields(rng: random.Random) -> dict[str, str]:
    size = rng.randint(100, 600)
    names = rng.sample(FIELDS, rng.randint(2, len(FIELDS)))
    return {"state": rng.choice(STATES), **{name: phrase(rng, size // len(names)) for name in names}}


def new_image(key: str) -> str:
    """An image of some 480 bytes, in five fields."""
    rng = random.Random(key)
    texts = {name: " ".join(rng.choices(PLAIN_WORDS, k=12)) for name in ["city", "name", "note", "road", "text"]}
    return text_of({"fields": texts, "key": key, "master": "home", "version": [1, len(key)]})


def image_of_values(key: str, kind: type) -> str:
    """An image of ten fields of six to ten digits, as texts or as numbers."""
    rng = random.Random(key)
    values = {f"field-{at}": kind(rng.randint(10**5, 10**10 - 1)) for at in range(10)}
    return text_of({"fields": values, "key": key, "master": "home", "version": [1, len(key)]})


def new_keys(count: int) -> list[str]:
    """A given number of keys, in a mixed order."""
    keys = [f"record-{at:08}" for at in range(count)]
    random.Random(count).shuffle(keys)
    return keys


def bounds(count: int, tablets: int) -> list[str]:
    """The arguments that divide a given number of new keys into equal tablets."""
    return ["--bounds", text_of([f"record-{count * at // tablets:08}" for at in range(1, tablets)])]


def new_deliveries(count: int, in_line: int = IMAGES_IN_LINE, image: Callable[[str], str] = new_image) -> bytes:
    """A script that delivers images of new keys."""
    keys, lines = new_keys(count), []
    for at in range(0, count, in_line):
        images = [Image("east", at + 1 + index, image(key)) for index, key in enumerate(keys[at : at + in_line])]
        lines.append(delivery(images))
    return b"".join(lines)


def new_messages(keys: list[str], first: int = 1) -> bytes:
    """Part of a stream, from this position on, of images of new keys."""
    return "".join(f'{{"at":{at},"image":{new_image(key)}}}\n' for at, key in enumerate(keys, first)).encode()


class Data:
    """Mixed images of streams with the scripts that deliver them, and lookups of their records."""

    def __init__(self, images: int, seed: int = 1) -> None:
        self.rng = random.Random(seed)
        self.latest: dict[str, tuple[int, int]] = {}
        self.keys: list[str] = []
        positions = dict.fromkeys(STREAMS, 0)
        self.images: list[Image] = []
        for _ in range(images):
            stream = self.rng.choice(STREAMS)
            positions[stream] += 1
            self.images.append(Image(stream, positions[stream], text_of(self.image())))

    def image(self) -> dict[str, object]:
        key, version = self.key_and_version()
        said = {"key": key, "master": self.rng.choice(MASTERS), "version": list(version)}
        is_deleted = version != (1, 0) and self.rng.random() < DELETED
        return {**said, "deleted": True} if is_deleted else {**said, "fields": fields(self.rng)}

    def key_and_version(self) -> tuple[str, tuple[int, int]]:
        if not self.keys or self.rng.random() < NEW:
            self.keys.append(key_of(len(self.keys)))
            self.latest[self.keys[-1]] = (1, 0)
            return self.keys[-1], (1, 0)
        key, way = self.rng.choice(self.keys), self.rng.random()
        generation, number = self.latest[key]
        if way < OLDER:
            return key, (generation, max(number - self.rng.randint(1, 3), 0))
        if way >= OLDER + EQUAL:
            is_next = self.rng.random() < NEXT_GENERATION
            self.latest[key] = (generation + 1, 0) if is_next else (generation, number + 1)
        return key, self.latest[key]

    def some_key(self) -> str:
        return f"zz:absent:{self.rng.randrange(10**9)}" if self.rng.random() < ABSENT else self.rng.choice(self.keys)

    def deliveries(self) -> bytes:
        """Lines of up to 64 images, in a batch for each stream, of which some come twice."""
        lines: list[bytes] = []
        part: list[Image] = []
        for image in self.images:
            is_full = sum(len(it.text.encode()) + 1 for it in part) + len(image.text.encode()) > MOST_LINE_BYTES
            if len(part) == IMAGES_IN_LINE or is_full:
                lines.append(delivery(part))
                part = []
            part.append(image)
        lines.append(delivery(part))
        again = [line for line in lines if self.rng.random() < TWICE]
        return b"".join([*lines, *again])

    def streams(self) -> dict[str, bytes]:
        """The messages of each stream."""
        return {
            name: "".join(f'{{"at":{it.position},"image":{it.text}}}\n' for it in self.images if it.stream == name).encode()
            for name in STREAMS
        }

    def last_reads(self) -> list[bytes]:
        """A read for each stream, which is refused until the stream's last message was taken."""
        last = {it.stream: json.loads(it.text) for it in self.images}
        return [line_of({"do": "read", "key": it["key"], "version": it["version"]}) for it in last.values()]

    def reads(self, count: int) -> bytes:
        return b"".join(line_of({"do": "read", "key": self.some_key()}) for _ in range(count))

    def gets(self, count: int, keys: int = 20) -> bytes:
        return b"".join(line_of({"do": "get", "keys": [self.some_key() for _ in range(keys)]}) for _ in range(count))

    def pages(self, count: int, limit: int) -> bytes:
        """Pages from keys anywhere, so that most are full."""
        return b"".join(line_of({"do": "scan", "query": {"from": self.some_key(), "limit": limit}}) for _ in range(count))

    def conditions(self, count: int, limit: int = 100) -> bytes:
        """Pages of records whose fields meet one or two conditions."""
        return b"".join(line_of({"do": "scan", "query": self.conditional(limit)}) for _ in range(count))

    def conditional(self, limit: int) -> dict[str, object]:
        state = self.rng.choice(STATES)
        more = self.rng.choice(MORE)
        return {"from": self.some_key(), "limit": limit, "where": [["eq", "state", state], *more]}


def delivery(images: list[Image]) -> bytes:
    """One line that delivers images."""
    batches = []
    for stream in sorted({image.stream for image in images}):
        own = [image for image in images if image.stream == stream]
        texts = ",".join(image.text for image in own)
        batches.append(f'{{"first":{own[0].position},"images":[{texts}],"stream":"{stream}"}}')
    return f'{{"batches":[{",".join(batches)}],"do":"deliver"}}\n'.encode()
