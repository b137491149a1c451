"""A plain, slow region: each tablet keeps all images in one list, and finds each record by going through it.

docs/lines.md says what it has to reply.
"""
import copy
import json
import functools
from collections.abc import Callable

from replies.slow_copies import Content, Ends, Value, comparable, content_of, has_number, is_in, meet, read_copy
from replies.slow_lines import MAX_LINE_BYTES, Json, Refused, command_of

MAX_STREAMS = 16
MAX_NOTICES = 1_024


Marks = dict[str, int]
Record = tuple[list[int], list[Content]]
Change = tuple[str, list[int] | None, list[int]]


def text_of(value: Json) -> str:
    return json.dumps(value, ensure_ascii=False, separators=(",", ":"), sort_keys=True)


def greater(one: Marks, other: Marks) -> Marks:
    """Of each stream the greater position."""
    return {name: max(one.get(name, 0), other.get(name, 0)) for name in sorted({*one, *other})}


def lesser(one: Marks, other: Marks) -> Marks:
    """Of each stream of both the lesser position."""
    return {name: min(one[name], other[name]) for name in sorted({*one} & {*other})}


def shortfall(has: Marks, wanted: Marks) -> tuple[str, int, int] | None:
    """The first stream that falls short, with both positions."""
    short = [(name, has.get(name, 0), at) for name, at in sorted(wanted.items()) if has.get(name, 0) < at]
    return short[0] if short else None


def record_of(images: list[Json]) -> Record:
    """The greatest version of images of one key, and the contents that came with it."""
    version = max(image["version"] for image in images)
    contents: list[Content] = []
    for image in images:
        if image["version"] == version and content_of(image) not in contents:
            contents.append(content_of(image))
    return version, sorted(contents)


def shown_content(content: Content) -> Json:
    kind, fields, master = content
    if kind == 0:
        return {"deleted": True, "master": master}
    return {"fields": {name: value for name, (_, value) in fields}, "master": master}


def row_of(key: str, record: Record) -> Json:
    version, contents = record
    kinds = {kind for kind, _, _ in contents}
    state = "deleted" if kinds == {0} else "one" if len(contents) == 1 else "conflict"
    return {"contents": list(map(shown_content, contents)), "key": key, "state": state, "version": version}


def is_met(condition: Json, fields: dict[str, Value]) -> bool:
    word, field, *operand = condition
    if field not in fields or word == "has":
        return field in fields
    asked, has = comparable(operand[0]), fields[field]
    if asked[0] != has[0]:
        return False
    if word == "prefix":
        return str(has[1]).startswith(str(asked[1]))
    holds: bool = {"eq": has == asked, "lt": has < asked, "gt": has > asked}[word]
    return holds


def is_shown(record: Record, conditions: list[Json]) -> bool:
    return any(kind == 1 and all(is_met(condition, dict(fields)) for condition in conditions)
               for kind, fields, _ in record[1])


class Tablet:
    """The images of a range of keys, and how far each stream was taken into all of it and into any part. What it needs is None
    where it serves."""

    def __init__(self, ends: Ends) -> None:
        self.ends = ends
        self.images: list[Json] = []
        self.cover: Marks = {}
        self.reach: Marks = {}
        self.need: Marks | None = None

    def records(self) -> dict[str, Record]:
        """Each key with the greatest version that came, and the contents that came with it."""
        images: dict[str, list[Json]] = {}
        for image in self.images:
            images.setdefault(image["key"], []).append(image)
        return {key: record_of(images[key]) for key in sorted(images)}

    def take(self, images: list[Json], marks: Marks) -> list[Change]:
        """Joins the images of its range, and answers which records changed."""
        before = self.records()
        self.images = self.images + [image for image in images if is_in(self.ends, image["key"])]
        self.cover, self.reach = greater(self.cover, marks), greater(self.reach, marks)
        after = self.records()
        return [(key, before[key][0] if key in before else None, after[key][0])
                for key in after if before.get(key) != after[key]]

    def copy_lines(self) -> list[str]:
        images = [{"key": key, "version": record[0], **shown_content(content)}
                  for key, record in self.records().items() for content in record[1]]
        marks = [{"at": at, "stream": name} for name, at in sorted(self.cover.items())]
        head = {"copy": 2 if any(map(has_number, images)) else 1, "from": self.ends[0], "to": self.ends[1]}
        return list(map(text_of, [head, *marks, *images, {"end": len(marks) + len(images)}]))


def made_of(tablets: list[Tablet], ends: Ends) -> Tablet:
    """A tablet that serves a range with what others have."""
    made, parts = Tablet(ends), [tablet for tablet in tablets if meet(tablet.ends, ends)]
    made.images = [image for tablet in tablets for image in tablet.images if is_in(ends, image["key"])]
    made.cover = functools.reduce(lesser, [part.cover for part in parts])
    made.reach = functools.reduce(greater, [part.reach for part in parts])
    return made


class Region:
    """Answers line after line."""

    def __init__(self, bounds: list[str]) -> None:
        self.tablets = [Tablet(ends) for ends in zip([None, *bounds], [*bounds, None])]
        self.marks: Marks = {}
        self.log: list[Change | None] = []
        self.announced, self.text = 0, b""

    def copied(self) -> "Region":
        """A region that goes on from here by itself. Both share their lists, which are replaced and never changed."""
        region = copy.copy(self)
        region.tablets = [copy.copy(tablet) for tablet in self.tablets]
        return region

    def tablet_of(self, key: str) -> int:
        return next(number for number, tablet in enumerate(self.tablets) if is_in(tablet.ends, key))

    def serving(self, number: int) -> Tablet:
        if self.tablets[number].need is not None:
            raise Refused("recovering", tablet=number)
        return self.tablets[number]

    def record(self, key: str) -> Record | None:
        return self.serving(self.tablet_of(key)).records().get(key)

    def deliver(self, batches: list[Json]) -> Json:
        marks, images = dict(self.marks), []
        for batch in batches:
            first, stream, last = batch["first"], batch["stream"], batch["first"] + len(batch["images"]) - 1
            if not batch["images"]:
                continue
            mark = marks.get(stream, 0)
            if first > mark + 1:
                raise Refused("gap", got=first, stream=stream, wanted=mark + 1)
            marks[stream] = max(mark, last)
            images += batch["images"]
        if len(marks) > MAX_STREAMS:
            raise Refused("too-many-streams")
        changes: list[Change | None] = [change for tablet in self.tablets for change in tablet.take(images, marks)]
        self.marks = marks
        self.log = self.log + changes
        return {"changed": len(changes)}

    def read(self, key: str, version: list[int] | None = None) -> Json:
        record = self.record(key)
        has = None if record is None else record[0]
        if version is not None and (has is None or has < version):
            raise Refused("behind", has=has)
        return {"row": None if record is None else row_of(key, record)}

    def get(self, keys: list[str]) -> Json:
        records = [(key, self.record(key)) for key in keys]
        return {"rows": [None if record is None else row_of(key, record) for key, record in records]}

    def scan(self, query: Json) -> Json:
        start, end, after = query.get("from"), query.get("to"), query.get("after")
        limit, conditions = query.get("limit", 100), query.get("where", [])
        first = max((self.tablet_of(key) for key in (start, after) if key is not None), default=0)
        rows = list[Json]()
        for number in range(first, len(self.tablets)):
            below = self.tablets[number].ends[0]
            if len(rows) > limit or below is not None and end is not None and not below < end:
                break
            rows += [row_of(key, record) for key, record in self.serving(number).records().items()
                     if is_in((start, end), key) and (after is None or after < key) and is_shown(record, conditions)]
        if len(rows) <= limit:
            return {"next": None, "rows": rows}
        rows = rows[:limit]
        ends = {"after": rows[-1]["key"], "from": start, "to": end}
        return {"next": {**ends, "limit": limit, "where": conditions}, "rows": rows}

    def lose(self, number: int) -> Json:
        tablet = self.tablets[number]
        tablet.images, tablet.need = [], tablet.reach
        self.log = [*self.log, None]
        return {"lost": number}

    def copy(self, number: int, need: Marks) -> list[str]:
        tablet = self.serving(number)
        short = shortfall(tablet.cover, need) or shortfall(tablet.cover, tablet.reach)
        if short:
            raise Refused("behind", stream=short[0], has=short[1], wanted=short[2])
        return tablet.copy_lines()

    def adopt(self, text: bytes) -> Json:
        copy = read_copy(text)
        numbers = [number for number, tablet in enumerate(self.tablets) if tablet.ends == copy["ends"]]
        if not numbers:
            raise Refused("wrong-range")
        tablet = self.tablets[numbers[0]]
        short = shortfall(copy["marks"], tablet.need or {})
        if short:
            raise Refused("too-old", stream=short[0], has=short[1], needs=short[2])
        tablet.take(copy["images"], copy["marks"])
        tablet.need = None
        self.log = [*self.log, None]
        return {"adopted": numbers[0]}

    def relayout(self, bounds: list[str]) -> Json:
        lost = [number for number, tablet in enumerate(self.tablets) if tablet.need is not None]
        if lost:
            raise Refused("still-recovering", tablet=lost[0])
        self.tablets = [made_of(self.tablets, ends) for ends in zip([None, *bounds], [*bounds, None])]
        return {"tablets": len(self.tablets)}

    def notices(self, since: int) -> Json:
        last = len(self.log)
        new = self.log[since:]
        if since > last or len(new) > MAX_NOTICES or None in new:
            return {"missed": True, "next": last}
        changes = [change for change in new if change]
        notices = [{"after": after, "before": before, "key": key, "number": number}
                   for number, (key, before, after) in enumerate(changes, since + 1)]
        return {"next": last, "notices": notices}

    def shown_tablets(self) -> Json:
        return {"tablets": [{"cover": tablet.cover, "from": tablet.ends[0], "need": tablet.need, "to": tablet.ends[1]}
                            for tablet in self.tablets]}

    def reply_to(self, line: bytes) -> str | None:
        command = command_of(line, len(self.tablets))
        word = command["do"]
        if word == "adopt":
            self.announced, self.text = command["lines"], b""
            return None
        if word == "copy":
            lines = self.copy(command["tablet"], command.get("need") or {})
            return "\n".join([text_of({"lines": len(lines)}), *lines])
        answers: dict[str, Callable[[], Json]] = {
            "deliver": lambda: self.deliver(command["batches"]), "get": lambda: self.get(command["keys"]),
            "lose": lambda: self.lose(command["tablet"]), "marks": lambda: {"marks": self.marks},
            "notices": lambda: self.notices(command["since"]), "scan": lambda: self.scan(command["query"]),
            "read": lambda: self.read(command["key"], command.get("version")), "tablets": self.shown_tablets,
            "relayout": lambda: self.relayout(command["bounds"]),
        }
        return text_of(answers[word]())

    def end_text(self) -> str:
        self.announced = 0
        return text_of(self.adopt(self.text))

    def answered(self, answer: Callable[..., str | None], *given: bytes) -> str:
        try:
            reply = answer(*given)
        except Refused as refused:
            reply = text_of(refused.reply)
        return "" if reply is None else reply + "\n"

    def feed(self, line: bytes, newline: bytes = b"\n") -> str:
        """The reply to a line, with its newline, or nothing where a command goes on."""
        if not self.announced:
            return self.answered(self.reply_to, line)
        self.text += line[:MAX_LINE_BYTES + 1] + newline
        self.announced -= 1
        return "" if self.announced else self.answered(self.end_text)

    def end(self) -> str:
        """The reply that is left at the end of the input."""
        return self.answered(self.end_text) if self.announced else ""


def slow_replies(script: bytes, bounds: list[str]) -> bytes:
    """The replies to a script, of which the last line may lack its newline."""
    region = Region(bounds)
    *lines, rest = script.split(b"\n")
    replies = [region.feed(line) for line in lines]
    if rest:
        replies.append(region.feed(rest, b""))
    return "".join([*replies, region.end()]).encode()
