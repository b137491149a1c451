"""Random talks with regions: one that loses tablets, one that it takes copies from, and one that takes the same images anew."""
import json
import random
from collections.abc import Callable, Iterable

from replies.random_values import (BATCH, KEYS, MANY_KEYS, NO_BOUNDS, bent, bounds_of, damaged, image, line_of, no_json, other_bounds,
                           query, spelled)
from replies.slow import Region, greater, text_of
from replies.slow_copies import read_copy
from replies.slow_lines import Json, Refused, command_of

TABLETS = [1, 1, 2, 3, 3, 64]
WORKERS = [1, 2, 3, 5, 16]
MESSAGES = 40
FIRST_FORM, SECOND_FORM = b'{"copy":1,', b'{"copy":2,'
LONG = 0.005
RELAID = 1 / 3
NUMBERED = 1 / 3


class Talk:
    """The lines for one region, with the slow program's replies."""

    def __init__(self, rng: random.Random, name: str, bounds: list[str]) -> None:
        self.rng, self.name, self.bounds = rng, name, bounds
        self.region = Region(bounds)
        self.lines: list[bytes] = []
        self.answers: list[str] = []
        self.workers = rng.choice(WORKERS)

    def head(self) -> bytes:
        return " ".join(["##", self.name, str(self.workers), *self.bounds]).encode() + b"\n"

    def script(self) -> bytes:
        return self.head() + b"".join(line + b"\n" for line in self.lines)

    def replies(self) -> bytes:
        return self.head() + "".join([*self.answers, self.region.end()]).encode()

    def say(self, line: bytes) -> str:
        self.lines.append(line)
        self.answers.append(self.region.feed(line))
        return self.answers[-1]

    def ask(self, **command: Json) -> str:
        return self.say(line_of(self.rng, command))


class Meeting:
    """The talks of one seed and of those of their events, of which 0 is none.

    Talks that are to be stored have no long line, and do not show 64 tablets.
    """

    def __init__(self, seed: int, events: Iterable[int], is_stored: bool = False) -> None:
        self.rng = rng = random.Random(seed)
        self.is_relaid, self.is_numbered = rng.random() < RELAID, rng.random() < NUMBERED
        tablets = rng.choice(TABLETS)
        self.keys = MANY_KEYS if tablets == 64 else KEYS
        self.long = 0 if is_stored else LONG
        names = ["east", "west"] if rng.random() < 0.8 else [f"s{number:02}" for number in range(18)]
        self.streams = {name: [image(rng, self.keys, index, self.is_numbered) for index in range(MESSAGES)] for name in names}
        bounds = bounds_of(rng, tablets)
        self.first = Talk(rng, f"random-{seed}-first", bounds)
        self.second = Talk(rng, f"random-{seed}-second", bounds)
        self.again = Talk(rng, f"random-{seed}-again", bounds_of(rng, 64 if self.keys is MANY_KEYS else rng.randrange(1, 4)))
        self.accepted: list[Json] = []
        self.copies: list[list[bytes]] = []
        self.closing = 0
        for event in filter(None, events):
            rng.seed(event)
            self.go_on()
        rng.seed(seed + 1)
        self.settle()
        self.take_again()
        self.close()

    def talks(self) -> list[Talk]:
        return [self.first, self.second, self.again]

    def batch(self, name: str, mark: int, is_gap: bool) -> Json:
        before = mark + self.rng.randrange(1, 4) if is_gap else max(mark - self.rng.choice([0, 0, 1, 3]), 0)
        images = self.streams[name][before:before + self.rng.randrange(5)]
        return {"first": before + 1, "images": images, "stream": name}

    def deliver(self, talk: Talk, batches: list[Json]) -> None:
        reply = talk.ask(do="deliver", batches=batches)
        if talk is self.first and "changed" in reply:
            self.accepted += [image for batch in batches for image in batch["images"]]

    def take(self, talk: Talk) -> None:
        """A round of what comes next, or came before, or is too far ahead."""
        names = list(self.streams)
        if talk is self.second and len(names) > 16:
            names = list(self.first.region.marks)
        batches, marks = [], dict(talk.region.marks)
        count = self.rng.choice([1, 1, 2, 3]) if len(self.streams) == 2 else self.rng.choice([1, 4, 17])
        for name in self.rng.choices(names, k=count if names else 0):
            batch = self.batch(name, marks.get(name, 0), self.rng.random() < 0.04)
            marks[name] = max(marks.get(name, 0), batch["first"] + len(batch["images"]) - 1)
            batches.append(batch)
        self.deliver(talk, batches or [BATCH])

    def tablet(self) -> int:
        return self.rng.randrange(len(self.first.region.tablets))

    def copied(self, tablet: int, need: Json) -> list[bytes]:
        """The lines of a copy of the second region, which are kept; none where it is refused."""
        members = {} if need is None and self.rng.random() < 0.5 else {"need": need}
        head, *lines = self.second.ask(do="copy", tablet=tablet, **members).rstrip("\n").split("\n")
        if "lines" in head:
            self.copies.append([line.encode() for line in lines])
        return [line.encode() for line in lines]

    def bounds(self) -> list[str]:
        """The bounds of the first region's tablets."""
        starts = (tablet.ends[0] for tablet in self.first.region.tablets[1:])
        return [start for start in starts if start is not None]

    def follow(self) -> None:
        """The second region gets the tablets of the first."""
        if [tablet.ends for tablet in self.second.region.tablets] != [tablet.ends for tablet in self.first.region.tablets]:
            self.second.ask(do="relayout", bounds=self.bounds())

    def relay(self) -> None:
        """Other tablets, the same anew, or bounds that are none. The second region mostly follows the first."""
        rng = self.rng
        if rng.random() < 0.15:
            self.first.ask(do="relayout", bounds=rng.choice(NO_BOUNDS))
        self.first.ask(do="relayout", bounds=self.bounds() if rng.random() < 0.1 else other_bounds(rng, self.keys))
        if rng.random() < 0.6:
            self.first.ask(do=rng.choice(["copy", "copy", "lose"]), tablet=self.tablet())
        if rng.random() < 0.7:
            self.follow()
        elif rng.random() < 0.5:
            self.second.ask(do="relayout", bounds=other_bounds(rng, self.keys))

    def adopt(self, lines: list[bytes]) -> None:
        talk = self.first
        if lines[0].startswith(FIRST_FORM) and self.rng.random() < 0.1:
            lines = [lines[0].replace(FIRST_FORM, SECOND_FORM), *lines[1:]]
        talk.ask(do="adopt", lines=len(lines))
        for line in lines:
            reply = talk.say(line)
        if "adopted" in reply:
            self.accepted += read_copy(b"".join(line + b"\n" for line in lines))["images"]

    def recover(self) -> None:
        """The first region adopts what the second copies, or an older copy, or one with a fault."""
        tablet, rng = self.tablet(), self.rng
        lost = [number for number, other in enumerate(self.first.region.tablets) if other.need is not None]
        tablet = rng.choice(lost) if lost and rng.random() < 0.7 else tablet
        need = self.first.region.tablets[tablet].need
        lines = self.copied(tablet, need if rng.random() < 0.4 else rng.choice([None, {}, {"east": 3}]))
        if self.copies and rng.random() < 0.4:
            lines = rng.choice(self.copies)
        if not lines:
            return
        if rng.random() < 0.6:
            self.adopt_damaged(damaged(rng, lines, rng.random() < self.long))
        if rng.random() < 0.7:
            self.adopt(lines)

    def adopt_damaged(self, lines: list[bytes]) -> None:
        """Adopts lines where these are no copy, or one of another range: a false copy would part the regions."""
        try:
            ends = read_copy(b"".join(line + b"\n" for line in lines))["ends"]
        except Refused:
            ends = ()
        if lines and ends not in [tablet.ends for tablet in self.first.region.tablets]:
            self.adopt(lines)

    def query(self) -> Json:
        return query(self.rng, self.keys, self.is_numbered)

    def walk(self, talk: Talk, asked: Json, most: int = 6) -> list[bytes]:
        """Scans page after page."""
        lines = list[bytes]()
        while asked is not None and len(lines) < most:
            lines.append(line_of(self.rng, {"do": "scan", "query": asked}))
            asked = json.loads(talk.say(lines[-1])).get("next")
        return lines

    def read(self, talk: Talk) -> str:
        members = self.rng.choice(list[Json]([{}, {"version": None}, {"version": [1, self.rng.randrange(6)]}]))
        return talk.ask(do="read", key=self.rng.choice(self.keys), **members)

    def question(self, talk: Talk) -> Json:
        """A command that changes nothing."""
        rng, last = self.rng, len(talk.region.log)
        commands: list[Callable[[], Json]] = [
            lambda: {"do": "get", "keys": rng.choices(self.keys, k=rng.randrange(1, 5))},
            lambda: {"do": "notices", "since": max(last + rng.randrange(-7, 3), 0)},
            lambda: {"do": "copy", "need": rng.choice([None, {"east": 2, "west": 9}]), "tablet": self.tablet()},
            lambda: {"do": rng.choice(["marks", "tablets"] if len(self.keys) < 20 else ["marks"])},
            lambda: {"do": "read", "key": rng.choice(self.keys), "version": [1, rng.randrange(6)]},
            lambda: {"do": "scan", "query": self.query()},
        ]
        return rng.choice(commands)()

    def fault(self, talk: Talk) -> str | None:
        """A line that is refused, or one that only asks."""
        rng = self.rng
        if rng.random() < 0.2:
            return talk.say(no_json(rng, {"do": "marks"}, rng.random() < 10 * self.long))
        if self.is_numbered and rng.random() < 0.4:
            return self.say_harmless(talk, line_of(rng, spelled(rng)))
        batches = [self.batch(name, 0, False) for name in rng.choices(list(self.streams), k=rng.randrange(1, 3))]
        whole = rng.choice([{"do": "deliver", "batches": batches}, {"do": "deliver", "batches": batches},
                            {"do": "adopt", "lines": 3}, {"do": "lose", "tablet": 0}, self.question(talk),
                            {"bounds": ["a", "b"], "do": "relayout"}])
        return self.say_harmless(talk, line_of(rng, bent(rng, whole)))

    def say_harmless(self, talk: Talk, line: bytes) -> str | None:
        """Says a line that changes nothing."""
        try:
            word = command_of(line, len(talk.region.tablets))["do"]
        except Refused:
            word = None
        return None if word in ("adopt", "deliver", "lose", "relayout") else talk.say(line)

    def ask(self, talk: Talk) -> None:
        """Something that changes nothing."""
        way = self.rng.randrange(7)
        if way == 0:
            self.read(talk)
        elif way <= 2:
            self.walk(talk, self.query())
        elif way <= 4:
            self.fault(talk)
        else:
            talk.ask(**self.question(talk))

    def go_on(self) -> None:
        """One event: a round, a loss or a recovery, and some questions."""
        way = self.rng.randrange(8)
        if way <= 2:
            self.take(self.first)
        elif way <= 4:
            self.take(self.second)
        elif way == 5:
            self.first.ask(do="lose", tablet=self.tablet())
        else:
            self.recover()
        if self.is_relaid and self.rng.random() < (0.2 if way < 6 else 0.6):
            self.relay()
        for talk in (self.first, self.first, self.second):
            self.ask(talk)

    def settle(self) -> None:
        """Brings all that the first region took into the second, and the copies of this into what the first has lost."""
        last = self.first.region.marks
        for tablet in self.first.region.tablets:
            last = greater(last, tablet.reach)
        for name, at in sorted(last.items()):
            has = self.second.region.marks.get(name, 0)
            if has < at:
                self.deliver(self.second, [{"first": has + 1, "images": self.streams[name][has:at], "stream": name}])
        self.follow()
        for number, tablet in enumerate(self.first.region.tablets):
            if tablet.need is not None:
                self.adopt(self.copied(number, tablet.need))
        if self.long:
            self.first.ask(do="tablets")

    def take_again(self) -> None:
        """The third region takes all images that the first accepted: in another order, in other batches, and some twice."""
        rng, marks = self.rng, {"x": 0, "y": 0}
        images = rng.sample(self.accepted, len(self.accepted))
        images += images[:len(images) // 4]
        while images:
            batches = []
            for name in rng.choices(["x", "y"], k=rng.randrange(1, 4)):
                some = rng.randrange(8)
                batches.append({"first": marks[name] + 1, "images": images[:some], "stream": name})
                marks[name] += len(images[:some])
                images = images[some:]
            self.deliver(self.again, batches)
            if self.is_relaid and rng.random() < 0.2:
                self.again.ask(do="relayout", bounds=other_bounds(rng, self.keys))

    def close(self) -> None:
        """Asks the first and the third region the same, which they have to answer alike."""
        lines = [text_of({"do": "get", "keys": self.keys[at:at + 100]}).encode() for at in range(0, len(self.keys), 100)]
        for line in lines:
            self.first.say(line)
        for _ in range(4):
            lines += self.walk(self.first, self.query())
        for line in lines:
            self.again.say(line)
        self.closing = len(lines)
        if self.copies and self.rng.random() < 0.3:
            lines = self.rng.choice(self.copies)
            self.second.ask(do="adopt", lines=len(lines) + 2)
            for line in lines[self.rng.randrange(2):]:
                self.second.say(line)
