"""The life of a feed: messages of a broker, in order, to a region."""

from __future__ import annotations

import argparse
import sys
from collections.abc import Callable, Generator, Sequence
from contextlib import closing
from functools import partial
from typing import Any, Protocol

from .bodies import BadBody, BadInstead, Instead, line_of, why_refused
from .figures import Figures
from .output import Output, RegionGone, output_of
from .positions import BadPairs, Given, Ids
from .sockets import OtherStream, Refused, RegionAway, Unusable


COPIES = "Start the region from copies of another one, which has it."
# The id of each message at the broker, and its body, or why it has none.
Batches = Generator[Sequence[tuple[Any, bytes | BadBody]], None, None]


class Lost(Exception):
    """The broker does not have what the region wants next, or what was given."""


class Unreachable(Exception):
    """The broker does not answer now. It is asked again."""


class BadWords(Exception):
    """What the words name is no broker's address, or no stream. Only other words help."""


class Source(Protocol):
    """A broker's stream."""

    def batches(self, after: int) -> Batches:
        """The messages after this position, each once and in order.

        A batch is what is at hand. An empty one comes at least once a second while there is nothing, so that the feed
        sees whether its region is there. Raises Unreachable where the broker is away, without a text while it is not known why,
        Lost, and BadWords.
        """

    def describe(self, identity: Any) -> str:
        """What the broker calls the message of this id."""

    def identity(self) -> str | None:
        """Which stream it is, once a batch was there: feeds of the same one say the same, and of others none that is known to be another."""

    def has(self, position: int, name: str) -> bool:
        """Whether the broker has the message of this position, by what `describe` called it, or may have dropped it."""

    def newest(self) -> int | None:
        """The position of the broker's newest message, as far as it was told with the last batch; None where it was not."""


def tell(name: str, what: str) -> None:
    """Writes a line for whoever runs the feed."""
    print(f"{name}: {what}", file=sys.stderr, flush=True)


def start(name: str, make: Callable[[], Source], words: argparse.Namespace) -> int:
    """Runs the source that is made of the words, or answers status 2 where they name none."""
    try:
        source, instead = make(), Instead(words.instead)
    except (BadInstead, BadWords) as fault:
        tell(name, str(fault))
        return 2
    say = partial(tell, name)
    figures = Figures(words.figures, say)
    figures.begin()
    return run(name, source, output_of(words, say), instead, figures)


def run(name: str, source: Source, output: Output, instead: Instead | None = None, figures: Figures | None = None) -> int:
    """Gives all messages to the region until it goes for good, and answers the exit status."""
    feed = _Feed(name, source, output, instead or Instead(), figures or Figures(None, partial(tell, name)))
    try:
        feed.give()
    except RegionGone:
        return 0
    except Refused as fault:
        feed.tell_refusal(fault)
    except Unusable as fault:
        tell(name, str(fault))
    except (BadBody, BadPairs, Lost) as fault:
        tell(name, str(fault))
        feed.finish()
    except BadWords as fault:
        tell(name, str(fault))
        feed.finish()
        return 2
    except OtherStream as fault:
        tell(name, str(fault))
        return 2
    except KeyboardInterrupt:
        pass
    finally:
        feed.write_figures()
    return 1


class _Feed:
    """How far the messages are given."""

    def __init__(self, name: str, source: Source, output: Output, instead: Instead, figures: Figures) -> None:
        self._name = name
        self._source = source
        self._output = output
        self._instead = instead
        self._figures = figures
        self._ids = Ids()
        self._given = Given()
        self._position = 0
        self._newest = 0
        self._away = False
        self._is_same = False

    def give(self) -> None:
        """Gives messages, from what the region wants first, as often as it is connected to."""
        self._position = self._output.begin()
        while True:
            try:
                self._give_all()
            except RegionAway as fault:
                tell(self._name, f"the region went: {fault}")
            self._ids.begin()
            self._given.begin()
            self._position = self._output.begin()
            tell(self._name, f"the region is back, and has {self._position} messages")

    def finish(self) -> None:
        """Ends the stream after a fault of the broker's."""
        try:
            self._output.finish()
        except Refused as fault:
            self.tell_refusal(fault)
        except (OtherStream, Unusable) as fault:
            tell(self._name, str(fault))

    def write_figures(self) -> None:
        """Writes how far all is in the end."""
        self._figures.note(None, self._taken())
        self._figures.write()

    def tell_refusal(self, fault: Refused) -> None:
        """Tells which message the region refused, and why, with the field where one is at fault."""
        found, line = self._ids.at(fault.position), self._given.at(fault.position)
        which = "" if found is None else f" position {fault.position}, {self._source.describe(found)}"
        why = "" if line is None else why_refused(line)
        tell(self._name, f"the region refuses{which}: {fault.reason}{why and f': {why}'}")

    def _give_all(self) -> None:
        while True:
            try:
                with closing(self._source.batches(self._position)) as batches:
                    for messages in batches:
                        self._see_broker()
                        self._see_same()
                        self._say(self._source.newest())
                        self._hand_on(messages)
                        self._keep()
            except Unreachable as fault:
                if str(fault) and not self._away:
                    tell(self._name, f"waiting for the broker: {fault}")
                    self._away = True
                self._output.pause(0.2)
                self._figures.note(None, self._taken())

    def _say(self, newest: int | None) -> None:
        """Says whose stream it is, and how far the broker is, to the region and in the figures."""
        self._figures.note(newest, self._taken())
        # A broker that does not tell it has at least what was read of it.
        self._newest = max(self._newest, self._position) if newest is None else newest
        self._output.name(self._source.identity())
        self._output.tell_newest(self._newest)

    def _see_same(self) -> None:
        """That the stream is the one of the feed before, as its figures know it, where the region had something at first."""
        if self._is_same:
            return
        self._is_same = True
        if not self._position:
            return
        before, now, last = self._figures.stream, self._source.identity(), self._figures.last
        if before and now and before != now:
            raise BadWords(f"{self._figures.path} is of a feed of {before}, and this one reads {now}: remove it where the region is to take that")
        if last and not self._source.has(*last):
            raise Lost(f"the region was given position {last[0]}, {last[1]}, which is not there: it is another one than before")

    def _keep(self) -> None:
        """Notes how far the region is, and by what the stream is known."""
        taken = self._taken()
        found = self._ids.at(taken)
        self._figures.keep(self._source.identity(), None if taken is None or found is None else (taken, self._source.describe(found)))
        self._figures.note(None, taken)
        self._ids.forget(self._output.taken)

    def _taken(self) -> int | None:
        """How far the region is, where it says so."""
        return self._output.taken if self._output.tells else None

    def _see_broker(self) -> None:
        if self._away:
            tell(self._name, "the broker is back")
            self._away = False

    def _hand_on(self, messages: Sequence[tuple[Any, bytes | BadBody]]) -> None:
        if not messages:
            self._output.check()
            return
        first = self._position + 1
        self._ids.add(first, [identity for identity, _ in messages])
        lines: list[bytes] = []
        try:
            for identity, body in messages:
                lines.append(self._line(first + len(lines), identity, body))
        finally:
            self._given.add(first, lines)
            self._output.write(b"".join(lines))
            self._position += len(lines)

    def _line(self, position: int, identity: Any, body: bytes | BadBody) -> bytes:
        """The line of a message, or the one that is given instead."""
        if line := self._instead.at(position):
            tell(self._name, f"position {position}, {self._source.describe(identity)}: the image in {self._instead.path} is given instead")
            return line
        if isinstance(body, BadBody):
            raise body
        try:
            return line_of(position, body)
        except BadBody as fault:
            raise BadBody(f"{fault}; it is {self._source.describe(identity)}") from fault
