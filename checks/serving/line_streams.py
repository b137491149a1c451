"""The ways in which a line can come that is a stream's message, and what becomes of it in each: for `checks/run limits`."""
import contextlib
import itertools
import os
import random
import socket
import time
from collections.abc import Iterator, Sequence
from typing import NamedTuple

from common.served import SECONDS, TIMES, same, seconds_of, written
from common.tried import FAULTS as FAULTS_OF_A_CHECK
from replies.limit_table import LINE, image, message, messages, text_of
from replies.slow_lines import Json
from serving.controlled import Session, failed, said_of_faults
from serving.line_talks import ANSWERED, PIECES, Talk, ends_of, shut, talk_all
from serving.line_ways import AROUND, parts_of
from serving.staying import Staying, until

STREAMS, FAULTS = 16, 3
# How long a region is given to see that a FIFO's publisher has gone, whose fault was told before.
SEEN = 0.3


class Told(NamedTuple):
    """A message that is tried, how its text is cut, and what comes before and after it."""

    limit: str
    size: int
    piece: int | None
    before: int
    after: int
    is_cut: bool

    def text(self, has: int) -> bytes:
        """All that a publisher sends to a region that has all messages up to a position."""
        first = has + 1 + self.before
        before = b"".join(message(at, image()) + b"\n" for at in range(has + 1, first))
        after = b"".join(b"\n" + message(at, image()) for at in range(first + 1, first + 1 + self.after))
        return before + messages(first)[self.limit].text(self.size) + after + b"\n" * (not self.is_cut)

    def refusal(self) -> Json | None:
        """Why it is refused, if it is. A line that is cut is none, unless it is too long already."""
        limit = messages(1)[self.limit]
        is_line = "line" in self.limit
        return limit.refusal if self.size > limit.most and (self.after or not self.is_cut or is_line) else None

    def has_after(self, has: int) -> int:
        """Up to where the region has the stream then."""
        taken = self.before + (0 if self.refusal() else 1 + self.after - self.is_cut)
        return has + taken

    def __str__(self) -> str:
        return (f"{self.limit} of {self.size:,} in pieces of {self.piece or 'any size'}, with {self.before} messages before and "
                f"{self.after} after it{', cut' if self.is_cut else ''}")


def all_told(each: int, pieces: Sequence[int | None]) -> list[Told]:
    """Each limit and size, in some of all ways of cutting."""
    rng, cuttings = random.Random(2), list(itertools.product(pieces, AROUND))
    sizes = [(name, size) for name, limit in messages(1).items() for size in limit.sizes()]
    return [Told(name, size, piece, *around) for name, size in sizes for piece, around in rng.sample(cuttings, min(each, len(cuttings)))]


class Streams:
    """A region of streams of one kind, what it has of each, and the faults that it has told of each."""

    def __init__(self, region: Staying, control: str, folder: str) -> None:
        self.region, self.session, self.folder = region, Session(control), folder
        self.names = [f"s{at:02}" for at in range(STREAMS)]
        self.has = dict.fromkeys(self.names, 0)
        self.said: list[bytes] = []
        self.idle = seconds_of(lambda: self.session.told(do="marks"))

    def path(self, name: str) -> str:
        return os.path.join(self.folder, name)

    def await_end(self, told: dict[str, Told]) -> None:
        """Waits until what each stream was given has its end: its mark, and what is said of its fault."""
        faults = []
        for name, one in told.items():
            if refusal := one.refusal():
                at = self.has[name] + one.before + 1
                why = " ".join([refusal["error"], *([refusal["member"]] if "member" in refusal else [])])
                faults.append(failed(name, at, one.before + 1, why))
            self.has[name] = one.has_after(self.has[name])
        what = "; ".join(map(str, told.values()))
        marks, patience = {name: at for name, at in self.has.items() if at}, max(ANSWERED, TIMES * self.idle)
        try:
            until("the marks", lambda: self.session.told(do="marks")["marks"] == marks, patience)
            until("the faults", lambda: len(said_of_faults(self.region)) >= len(self.said) + len(faults), patience)
        except TimeoutError as fault:
            raise AssertionError(f"{fault}: {self.wrong(told, marks)}") from fault
        same(f"what is said of {what}", sorted(said_of_faults(self.region)[len(self.said) :]), sorted(faults))
        self.said = said_of_faults(self.region)

    def wrong(self, told: dict[str, Told], marks: dict[str, int]) -> str:
        """The streams that do not have what they should."""
        found = self.session.told(do="marks")["marks"]
        wrong = [f"{one}: {found.get(name)}, not {marks.get(name)}" for name, one in told.items() if found.get(name) != marks.get(name)]
        return "; ".join(wrong) or f"{self.region.said()[-300:]!r}"


def by_sockets(streams: Streams, told: dict[str, Told]) -> None:
    """Gives each to its socket. The publisher is told what the region has, and then what it has taken or why it takes no more."""
    with contextlib.ExitStack() as stay:
        talks, last = list[Talk](), dict[str, bytes]()
        for name, one in told.items():
            publisher = stay.enter_context(socket.socket(socket.AF_UNIX))
            publisher.settimeout(SECONDS)
            publisher.connect(streams.path(name))
            has, text = streams.has[name], one.text(streams.has[name])
            talk = Talk(name, text, ends_of(len(text), one.piece, limits_in(text, one)), shut(publisher) if one.is_cut else None)
            talks.append(talk.begin(publisher.fileno(), publisher.fileno()))
            last[name] = last_line(one, has)
        late = talk_all(talks, lambda talk: talk.is_over or not talk.finish and talk.came.endswith(last[talk.name]), streams.idle)
        same("who is not told all", [f"{told[talk.name]}: {talk.came!r}" for talk in late], [])
        for talk in talks:
            first, _, rest = talk.came.partition(b"\n")
            same(f"what a publisher of {told[talk.name]} is told first", first, b'{"after":%d}' % streams.has[talk.name])
            reasons = [line for line in rest.splitlines(keepends=True) if not line.startswith(b'{"taken":')]
            same(f"why no more is taken of {told[talk.name]}", reasons, [last[talk.name]] if told[talk.name].refusal() else [])
        streams.await_end(told)


def limits_in(text: bytes, one: Told) -> list[int]:
    """Where a message of a text begins, and where it is too long."""
    start = len(b"".join(text.splitlines(keepends=True)[: one.before]))
    return [start, start + LINE]


def last_line(one: Told, has: int) -> bytes:
    """The last line that a publisher is told."""
    after = one.has_after(has)
    if refusal := one.refusal():
        return text_of(dict(sorted({"at": has + one.before + 1, **refusal}.items()))) + b"\n"
    return b'{"taken":%d}\n' % after if after > has else b'{"after":%d}\n' % has


def by_fifos(streams: Streams, told: dict[str, Told]) -> None:
    """Gives each to its FIFO, once the publisher before it was seen to have gone."""
    time.sleep(SEEN)
    with contextlib.ExitStack() as stay:
        talks, nothing = list[Talk](), stay.enter_context(open(os.devnull, "rb"))
        for name, one in told.items():
            pipe = stay.enter_context(open(os.open(streams.path(name), os.O_WRONLY | os.O_NONBLOCK), "wb", buffering=0))
            text = one.text(streams.has[name])
            talk = Talk(name, text, ends_of(len(text), one.piece, limits_in(text, one)), pipe.close if one.is_cut else None)
            talks.append(talk.begin(pipe.fileno(), nothing.fileno()))
        talk_all(talks, lambda talk: talk.sent == len(talk.text), streams.idle)
        streams.await_end(told)


def file_faults(program: str, folder: str, told: Sequence[Told]) -> Iterator[str]:
    """What is wrong with messages in files, 16 of which are read at a time."""
    for at, part in enumerate(parts_of(told, STREAMS)):
        named = {f"s{number:02}": one for number, one in enumerate(part)}
        files = [(name, written(folder, name, one.text(0))) for name, one in named.items()]
        control = os.path.join(folder, "control")
        with Staying(program, folder, files, "--control", control, is_looked_at=not at) as region:
            try:
                Streams(region, control, folder).await_end(named)
            except FAULTS_OF_A_CHECK as fault:
                yield str(fault)


class StreamWay(NamedTuple):
    """A way in which messages come: how often each is tried in some way of cutting, and what is before the path of its stream."""

    each: int
    prefix: str | None

    def faults(self, program: str, folder: str) -> tuple[int, list[str]]:
        """How many messages there are, and what is wrong with some."""
        told = all_told(self.each, [None] if self.prefix is None else PIECES)
        if self.prefix is None:
            return len(told), list(itertools.islice(file_faults(program, folder, told), FAULTS))
        try:
            self.give(program, folder, told)
        except FAULTS_OF_A_CHECK as fault:
            return len(told), [str(fault)]
        return len(told), []

    def give(self, program: str, folder: str, told: Sequence[Told]) -> None:
        """Gives all to one region, one to each stream at a time. Those in as many pieces come together."""
        control, names = os.path.join(folder, "control"), [f"s{at:02}" for at in range(STREAMS)]
        for name in names if not self.prefix else ():
            os.mkfifo(os.path.join(folder, name))
        paths = [(name, f"{self.prefix}{os.path.join(folder, name)}") for name in names]
        with Staying(program, folder, paths, "--control", control) as region:
            streams = Streams(region, control, folder)
            for part in parts_of(sorted(told, key=lambda one: len(ends_of(len(one.text(0)), one.piece, []))), STREAMS):
                (by_sockets if self.prefix else by_fifos)(streams, dict(zip(names, part)))
            streams.session.socket.close()


WAYS = {
    "a stream's file": StreamWay(4, None),
    "a stream's FIFO": StreamWay(4, ""),
    "a stream's socket": StreamWay(8, "listen:"),
}
