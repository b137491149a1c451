"""The ways in which a line can come that is a command, and the replies that it has to have in each: for `checks/run limits`."""
import contextlib
import functools
import itertools
import os
import random
import socket
import subprocess
from collections.abc import Callable, Iterator, Sequence
from typing import NamedTuple, TypeVar

from common.served import SECONDS, Served, piped, rests, same, seconds_of
from common.tried import FAULTS as FAULTS_OF_A_CHECK
from replies.limit_table import COMMANDS, CONTROL, LINE, READ_ONLY, SCRIPT, SESSION, Limit, text_of
from serving.line_talks import PIECES, Talk, ends_of, shut, talk_all
from serving.staying import Staying

NONE = ("east", os.devnull)
READ, NO_ROW = b'{"do":"read","key":"z"}\n', b'{"row":null}\n'
# Which lines come before and after the one that is tried, and whether its input ends without a newline.
AROUND = [(before, after, is_cut) for before in (0, 2) for after in (0, 2) for is_cut in (False, True)]
# After how many faults no more is tried in a way.
FAULTS = 3
# What a line at its limit is not answered.
NOT_TAKEN = (b'{"error":"out-of-range"', b'{"error":"too-long"', b'{"error":"bad-shape"', b'{"error":"read-only"')

# What is cut into parts.
Item = TypeVar("Item")
# Has a talk talk to a program, until the end of the stack.
Connect = Callable[[Talk, contextlib.ExitStack], Talk]


class Server(NamedTuple):
    """What is talked to: its process, where there is one for all, and how."""

    process: int | None
    connect: Connect


class Way(NamedTuple):
    """A way in which lines come: who reads them, how many cases one server has and how many of them at once, and how it is started.

    `each` is how many of the ways of cutting its input are tried for each line; none: all.
    """

    kind: str
    each: int | None
    of_a_server: int
    at_once: int
    serving: Callable[[str, str, int], contextlib.AbstractContextManager[Server]]

    def faults(self, program: str, folder: str) -> tuple[int, list[str]]:
        """How many cases there are, and what is wrong with some. A server with which something is wrong is asked no more."""
        # Those in as many pieces are tried together.
        cases, faults = sorted(cases_of(program, self), key=lambda case: len(case.ends)), list[str]()
        left = parts_of(cases, min(self.of_a_server, len(cases)))
        while left and len(faults) < FAULTS:
            # The last server is looked at.
            found, rest = faults_of_server(program, folder, self, left.pop(0), not left)
            faults += found
            left[:0] = [rest] * bool(rest)
        return len(cases), faults


class Case(NamedTuple):
    """A text, where its pieces end, whether its input ends then, and all replies."""

    name: str
    text: bytes
    ends: list[int]
    is_cut: bool
    wanted: bytes


def talk_by(connection: socket.socket, talk: Talk, is_cut: bool) -> Talk:
    if is_cut:
        talk.finish = shut(connection)
    return talk.begin(connection.fileno(), connection.fileno())


def over_socket(family: int, address: tuple[str, int] | str) -> Connect:
    """Talks over connections to an address."""

    def connect(talk: Talk, stay: contextlib.ExitStack) -> Talk:
        connection = stay.enter_context(socket.socket(family))
        connection.settimeout(SECONDS)
        connection.connect(address)
        if family == socket.AF_INET:
            connection.setsockopt(socket.IPPROTO_TCP, socket.TCP_NODELAY, 1)
        return talk_by(connection, talk, talk.finish is not None)

    return connect


@contextlib.contextmanager
def script(program: str, folder: str, count: int) -> Iterator[Server]:
    """A program for each script, which reads a pipe."""

    def connect(talk: Talk, stay: contextlib.ExitStack) -> Talk:
        ran = stay.enter_context(subprocess.Popen([program, "replay"], stdin=subprocess.PIPE, stdout=subprocess.PIPE, bufsize=0))
        stay.callback(ran.kill)
        given, taken = piped(ran.stdin), piped(ran.stdout)
        if talk.finish:
            talk.finish = given.close
        return talk.begin(given.fileno(), taken.fileno())

    yield Server(None, connect)


@contextlib.contextmanager
def ending(program: str, folder: str, count: int) -> Iterator[Server]:
    """A program that serves `count` sessions, and ends with them."""
    with Served(program, [NONE], sessions=count) as served:
        yield Server(served.process.pid, over_socket(socket.AF_INET, ("127.0.0.1", served.port)))
        same("how it ends", served.end(), (0, b"served %d\n" % count, b""))


def staying(at: Callable[[Staying, str], tuple[int, tuple[str, int] | str]], *words: str) -> Callable[[str, str, int], contextlib.AbstractContextManager[Server]]:
    """A program that stays, with connections to one of its addresses."""

    @contextlib.contextmanager
    def serving(program: str, folder: str, count: int) -> Iterator[Server]:
        with Staying(program, folder, [NONE], *(word.format(folder=folder) for word in words)) as region:
            yield Server(region.process.pid, over_socket(*at(region, folder)))

    return serving


WAYS = {
    "a script": Way(SCRIPT, 2, 1_000_000, 16, script),
    "a session of a program that ends": Way(SESSION, 2, 16, 16, ending),
    "a connection over TCP": Way(SESSION, None, 1_000_000, 64, staying(lambda region, _: (socket.AF_INET, ("127.0.0.1", region.port)))),
    "a connection over a Unix socket": Way(SESSION, 8, 1_000_000, 64, staying(
        lambda _, folder: (socket.AF_UNIX, f"{folder}/socket"), "--socket", "{folder}/socket")),
    "a control session": Way(CONTROL, 4, 1_000_000, 15, staying(
        lambda _, folder: (socket.AF_UNIX, f"{folder}/control"), "--control", "{folder}/control")),
}


@functools.cache
def reply_of_script(program: str, name: str, size: int) -> bytes:
    """The reply of a script to a line, which is not refused as one beyond a limit."""
    line = COMMANDS[name].text(size) + b"\n"
    ran = subprocess.run([program, "replay"], input=line, stdout=subprocess.PIPE, check=True, timeout=SECONDS)
    return ran.stdout.splitlines(keepends=True)[0]


def wanted_of(program: str, kind: str, name: str, size: int) -> bytes:
    """The reply to a line of a size: a refusal, or what a script replies."""
    limit = COMMANDS[name]
    if limit.is_read_only(kind):
        return text_of(READ_ONLY) + b"\n"
    if size > limit.most:
        return text_of(limit.refusal) + b"\n"
    if SCRIPT not in limit.kinds:
        return text_of(limit.taken) + b"\n"
    said = reply_of_script(program, name, size)
    same(f"whether {name} of {size:,} is taken: {said[:80]!r}", said.startswith(NOT_TAKEN), False)
    return said


def cases_of(program: str, way: Way) -> Iterator[Case]:
    """The cases of a way: each limit and size, in all ways of cutting or in some, of which each comes for some line."""
    rng, cuttings = random.Random(1), list(itertools.product(PIECES, AROUND))
    for name, limit in COMMANDS.items():
        for size in limit.sizes() if way.kind in limit.kinds else ():
            wanted = wanted_of(program, way.kind, name, size)
            for piece, around in cuttings if way.each is None else rng.sample(cuttings, way.each):
                yield case_of(limit, name, size, wanted, piece, around)


def case_of(limit: Limit, name: str, size: int, wanted: bytes, piece: int | None, around: tuple[int, int, bool]) -> Case:
    before, after, is_cut = around
    if limit.is_last:
        after, is_cut = 0, True
    text = READ * before + limit.text(size) + b"\n" + READ * after
    text = text[: len(text) - is_cut]
    start = len(READ) * before
    told = f"{name} of {size:,} in pieces of {piece or 'any size'}, with {before} lines before and {after} after it{', cut' if is_cut else ''}"
    return Case(told, text, ends_of(len(text), piece, [start, start + LINE]), is_cut, NO_ROW * before + wanted + NO_ROW * after)


def fault_of(case: Case, talk: Talk) -> str | None:
    """What is wrong with what came."""
    if talk.came == case.wanted:
        return None
    return f"{case.name}: {talk.came[:200]!r} and so {len(talk.came):,} bytes, not {case.wanted[:200]!r}, {len(case.wanted):,} bytes"


def batch_faults(server: Server, batch: Sequence[Case], is_last: bool) -> list[str]:
    """What is wrong with cases that are tried at once. Behind the last ones, while they are still there, the program rests."""
    with contextlib.ExitStack() as stay:
        talks = [Talk(case.name, case.text, case.ends, (lambda: None) if case.is_cut else None) for case in batch]
        wanted = {id(talk): case.wanted for talk, case in zip(talks, batch)}
        idle = seconds_of(lambda: [server.connect(talk, stay) for talk in talks]) / len(talks)
        talk_all(talks, lambda talk: talk.is_over or not talk.finish and len(talk.came) >= len(wanted[id(talk)]), idle)
        faults = [fault for case, talk in zip(batch, talks) if (fault := fault_of(case, talk))]
        if server.process and is_last and not faults:
            rests(server.process, "while all are still there")
    return faults


def parts_of(cases: Sequence[Item], size: int) -> list[Sequence[Item]]:
    return [cases[at : at + size] for at in range(0, len(cases), size)]


def faults_of_server(program: str, folder: str, way: Way, cases: Sequence[Case], is_looked_at: bool) -> tuple[list[str], Sequence[Case]]:
    """What is wrong with cases of one server, and the cases that were not tried."""
    batches = parts_of(cases, way.at_once)
    try:
        with way.serving(program, folder, len(cases)) as server:
            for at, batch in enumerate(batches, 1):
                if faults := batch_faults(server, batch, is_looked_at and at == len(batches)):
                    raise Wrong(faults, cases[at * way.at_once :])
    except Wrong as wrong:
        return wrong.faults, wrong.rest
    except FAULTS_OF_A_CHECK as fault:
        return [str(fault)], []
    return [], []


class Wrong(Exception):
    """Something is wrong with a server: what it is, and the cases that it was not given."""

    def __init__(self, faults: list[str], rest: Sequence[Case]) -> None:
        super().__init__(faults[0])
        self.faults, self.rest = faults, rest
