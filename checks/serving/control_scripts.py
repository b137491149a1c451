"""Checks of `checks/run control`: random lines of control sessions have the replies of scripts over regions that took the same."""
import contextlib
import json
import random
import subprocess
from collections.abc import Iterator

from common.served import Json, same
from serving.controlled import BOUNDS, TABLETS, Session, adoption, given, socket_in
from serving.staying import PAGE, Staying

SCRIPTS, TURNS, KEYS, POSITIONS = 8, 150, 100, 400
STREAMS = ("east", "west")
LAST_NOTICE = b'{"do":"notices","since":1000000000000000000}\n'
WRONG = [b'{"do":"lose"}', b'{"do":"adopt","lines":0}', b'{"do":"none"}', b'{"do":"marks","other":1}', b"[]", b"x", b"", b'{"do":"notices"}',
         b'{"do":"get","keys":[]}', b'{"do":"copy","tablet":-1}', b'{"do":"read","key":"k001","version":[0,0]}', b'{"do":"notices","since":-1}',
         b'{"do":"scan","query":{"limit":0}}', b'{"do":"tablets","tablet":0}', b'{"do":"lose","tablet":18446744073709551616}', b" " * 65_537]


class Script:
    """A random script: the lines that a control session is asked, and messages of two streams between them."""

    def __init__(self, program: str, seed: int) -> None:
        self.chance, self.program = random.Random(seed), program
        self.streams = {name: self.images() for name in STREAMS}
        self.taken = dict.fromkeys(STREAMS, 0)
        self.copies = self.copies_of_all()
        # The last number of a change that a reply told.
        self.number = 0

    def images(self) -> list[Json]:
        """The images of a stream. Keys rise for a while, so that notices are the same, whatever rounds take together."""
        images: list[Json] = []
        while len(images) < POSITIONS:
            for key in sorted(self.chance.sample(range(KEYS), self.chance.randrange(1, 40))):
                images.append({**self.content(), "key": f"k{key:03}", "master": "w", "version": [1, self.chance.randrange(20)]})
        return images

    def content(self) -> Json:
        value = self.chance.choice(["x", "é", 7, -(2**63)])
        return {"deleted": True} if self.chance.random() < 0.2 else {"fields": {"v": value}}

    def copies_of_all(self) -> list[bytes]:
        """Copies of tablets, of a region that has taken more: some positions of each stream, up to all."""
        lines, copies = [], []
        for part in (POSITIONS // 8, POSITIONS // 2, POSITIONS):
            batches = [{"first": 1, "images": images[:part], "stream": name} for name, images in self.streams.items()]
            lines.append([json.dumps({"do": "deliver", "batches": [batch]}).encode() + b"\n" for batch in batches])
        for deliveries in lines:
            ran = replayed(self.program, [*deliveries, *(b'{"do":"copy","tablet":%d}\n' % it for it in range(TABLETS))])
            while ran and (count := json.loads(ran.pop(0)).get("lines", 0)) is not None:
                copies += [b"".join(ran[:count])] * (count > 0)
                ran = ran[count:]
        return copies

    def next_messages(self, is_whole: bool) -> tuple[str, int, list[Json]]:
        """A stream, the position of its next images, and these, up to where keys rise no more. Where no tablet is lost, some that
        were taken come again."""
        name = self.chance.choice(STREAMS)
        at, images = self.taken[name], self.streams[name]
        last = at + 1
        while last < len(images) and images[last]["key"] > images[last - 1]["key"]:
            last += 1
        self.taken[name] = min(last, len(images))
        first = max(at - self.chance.choice([0, 0, 3, 50]), 0) if is_whole else at
        return name, first + 1, images[first : self.taken[name]]

    def line(self) -> bytes:
        """A line of a control session, with those that it announces."""
        kind = self.chance.randrange(10)
        if kind == 0:
            return self.chance.choice(WRONG) + b"\n"
        if kind <= 3:
            return self.adopted()
        return json.dumps(self.command()).encode() + b"\n"

    def note(self, reply: bytes) -> None:
        """Notes what later lines ask for: copies, and the numbers of changes."""
        first, _, text = reply.partition(b"\n")
        told = json.loads(first)
        self.copies += [text] * ("lines" in told)
        if isinstance(told.get("next"), int):
            self.number = told["next"]

    def command(self) -> Json:
        since = max(self.number + self.chance.randrange(-9, 2), 0)
        tablet, key = self.chance.randrange(TABLETS + 1), f"k{self.chance.randrange(KEYS):03}"
        need = {name: self.chance.randrange(POSITIONS) for name in STREAMS if self.chance.random() < 0.3}
        if self.chance.random() < 0.06:
            return {"do": "lose", "tablet": tablet}
        return self.chance.choice([
            {"do": "marks"}, {"do": "tablets"}, {"do": "copy", "tablet": tablet}, {"do": "copy", "need": need, "tablet": tablet},
            {"do": "notices", "since": since}, {"do": "notices", "since": since}, {"do": "notices", "since": self.chance.randrange(200)},
            {"do": "read", "key": key}, {"do": "read", "key": key, "version": [1, self.chance.randrange(20)]}, {"do": "get", "keys": [key, "k050"]},
            {"do": "scan", "query": {"from": key, "limit": 3}}, {"do": "scan", "query": {"where": [["eq", "v", "x"]]}},
        ])

    def adopted(self) -> bytes:
        """An adoption of a copy, which may be one of long ago, of a region that has more, or damaged."""
        lines = self.chance.choice(self.copies).splitlines(keepends=True)
        if self.chance.random() < 0.3:
            at = self.chance.randrange(len(lines))
            lines[at : at + 1] = self.chance.choice([[b"x\n"], [lines[at]] * 2, [b" " * 65_537 + b"\n"], [lines[0]]])
        return adoption(b"".join(lines))


def replayed(program: str, lines: list[bytes]) -> list[bytes]:
    """The replies of a script, each a line."""
    ran = subprocess.run([program, "replay", "--bounds", BOUNDS], input=b"".join(lines), stdout=subprocess.PIPE, check=True)
    return ran.stdout.splitlines(keepends=True)


def lines_of(first: int, images: list[Json]) -> bytes:
    """The messages of images from a position on."""
    return b"".join(json.dumps({"at": at, "image": image}).encode() + b"\n" for at, image in enumerate(images, first))


@contextlib.contextmanager
def region_of_two(folder: str, program: str, seed: int) -> Iterator[tuple[Session, dict[str, str]]]:
    """A control session of a region, and the paths of its streams."""
    sockets = {name: socket_in(folder, f"{name}-{seed}") for name in STREAMS}
    control = f"{folder}/control-{seed}"
    streams = [stream for _, stream in sockets.values()]
    streams = [(name, address) for name, (_, address) in zip(STREAMS, streams, strict=True)]
    with Staying(program, folder, streams, "--bounds", BOUNDS, "--control", control), Session(control) as session:
        yield session, {name: path for name, (path, _) in sockets.items()}


class Asked:
    """The lines that a control session was asked, each with its reply, and between them deliveries, which have none."""

    def __init__(self, session: Session, script: Script) -> None:
        self.session, self.script = session, script
        self.lines: list[bytes] = []
        self.replies: list[bytes] = []

    def ask(self, line: bytes) -> None:
        self.lines.append(line)
        self.replies.append(self.session.ask(line))
        self.script.note(self.replies[-1])

    def deliver(self, paths: dict[str, str]) -> None:
        """Has the region take messages, and asks what they changed."""
        self.ask(LAST_NOTICE)
        is_whole = all(it["need"] is None for it in self.session.told(do="tablets")["tablets"])
        name, first, images = self.script.next_messages(is_whole)
        marks = self.session.told(do="marks")["marks"]
        given(paths[name], marks.get(name, 0), lines_of(first, images), self.script.taken[name])
        batch = {"first": first, "images": images, "stream": name}
        self.lines.append(json.dumps({"batches": [batch], "do": "deliver"}).encode() + b"\n")
        self.replies.append(b"")
        self.ask(b'{"do":"notices","since":%d}\n' % self.script.number)

    def compare(self, wanted: list[bytes]) -> None:
        """Compares the replies with those of a script."""
        at = 0
        for line, reply in zip(self.lines, self.replies, strict=True):
            count = reply.count(b"\n") or 1
            if reply:
                same(f"the reply to {line[:80]!r}", reply, b"".join(wanted[at : at + count]))
            at += count
        same("how many lines a script's replies have", len(wanted), at)


def compare(program: str, folder: str, seed: int) -> int:
    """Asks a random script of a region, and compares it with the replies of a script. How many replies there were."""
    script = Script(program, seed)
    with region_of_two(folder, program, seed) as (session, paths):
        asked = Asked(session, script)
        for turn in range(TURNS):
            if turn % 8 == 0:
                asked.deliver(paths)
            else:
                asked.ask(PAGE if turn % 8 == 7 else script.line())
    asked.compare(replayed(program, asked.lines))
    return len(asked.lines)


def check_beside_scripts(program: str, folder: str) -> None:
    """Random lines, right and wrong, have byte for byte the replies of a script over a region that took the same messages."""
    count = sum(compare(program, folder, seed) for seed in range(SCRIPTS))
    print(f"    {count} replies of {SCRIPTS} scripts are alike")
