"""Connections that are refused or end at a limit, of their count or of descriptors: checks of `checks/run stay`."""
import contextlib
import os
import re
import resource
import socket
import struct
import subprocess
import threading
import time
from collections.abc import Callable, Iterator

from common.served import SECONDS, Client, free_port, piped, same, written
from common.tried import at_once
from faults.preloaded import environment, failing_library
from serving.controlled import Publisher, Session
from serving.staying import CHUNK, PAGE, Staying, messages, until

NO_ROW = b'{"row":null}\n'
READ = b'{"do":"read","key":"z"}\n'
# How long one that waits for its turn to connect is looked at: at least this many seconds, and this many times as long as an answer took.
PATIENCE, TIMES = 0.5, 20
# How long one waits for what has to come.
PATIENT = 20
RESET = struct.pack("ii", 1, 0)
# How often clients come and go, each in its way.
ENDS = 60
# The most lines of a connection, how many more a client sends, and before how many of the last replies it waits, for how many seconds.
MOST_LINES, MORE, LAST, PAUSE = 1_000_000, 50_000, 50_000, 2
# How often several programs begin to listen at one path, and how many of them.
TRIES, AT_ONCE = 20, 3
DESCRIPTORS = 256


def none(folder: str) -> list[tuple[str, str]]:
    """A stream without a message."""
    return [("east", written(folder, "east", b""))]


def is_answered(connection: socket.socket, seconds: float = SECONDS) -> bool:
    """Whether a client is answered to a read; one that is not is ended, or waits for longer than this many seconds."""
    connection.settimeout(seconds)
    with contextlib.suppress(ConnectionError, TimeoutError):
        connection.sendall(READ)
        return connection.recv(CHUNK) == NO_ROW
    return False


@contextlib.contextmanager
def connected(port: int, count: int) -> Iterator[list[socket.socket]]:
    with contextlib.ExitStack() as stay:
        yield [stay.enter_context(socket.create_connection(("127.0.0.1", port), timeout=SECONDS)) for _ in range(count)]


def same_limit(port: int, most: int, when: str) -> None:
    """Fails unless this many clients are answered, and one more is not."""
    with connected(port, most + 1) as (*clients, late):
        start = time.monotonic()
        same(f"who is answered {when}", [is_answered(client) for client in clients], [True] * most)
        took = time.monotonic() - start
        same(f"whether one more is answered {when}", is_answered(late, max(PATIENCE, TIMES * took)), False)


def come_and_go(port: int, at: int) -> None:
    """A client that ends its input, goes away in a line, with replies on their way, or by a reset."""
    with Client(port) as client:
        client.send([READ, PAGE[:20], READ * 1_000, READ + PAGE[:20]][at % 4])
        if at % 4 == 0:
            same("the last reply", client.end(), NO_ROW)
        elif at % 4 == 3:
            client.socket.setsockopt(socket.SOL_SOCKET, socket.SO_LINGER, RESET)


def check_connection_limit(program: str, folder: str) -> None:
    """With --connections 3, just three are answered at once, at first and once 60 have come and gone, each in one of four ways."""
    with Staying(program, folder, none(folder), "--connections", "3") as region:
        same_limit(region.port, 3, "at first")
        for at in range(ENDS):
            come_and_go(region.port, at)
        same_limit(region.port, 3, f"once {ENDS} have come and gone")


def check_unregistered(program: str, folder: str) -> None:
    """A client whose socket the system does not take into a poll is let go, and counts among --connections no longer."""
    given = environment(failing_library(folder), "epoll_ctl", 1, 1, once=True)
    with Staying(program, folder, none(folder), "--connections", "1", environment=given) as region:
        with connected(region.port, 1) as (first,):
            same("whether the one that is not registered is answered", is_answered(first), False)
        with connected(region.port, 1) as (second,):
            same("whether the next one is answered", is_answered(second), True)


def reply_or_end(port: int) -> bytes:
    """What a client is told that reads once, and nothing where it is ended. One that gets neither has waited for too long."""
    with connected(port, 1) as (client,), contextlib.suppress(ConnectionError):
        client.settimeout(PATIENT)
        client.sendall(READ)
        try:
            return client.recv(CHUNK)
        except TimeoutError:
            return b"neither a reply nor the end"
    return b""


def check_ended_thread(program: str, folder: str) -> None:
    """A session thread ends where its poll fails, at once or after 300 milliseconds, in which it is given clients: the other one answers on.

    Clients that it was given are ended, and count among --connections no longer.
    """
    library = failing_library(folder)
    for pause in (0, 300):
        given = environment(library, "epoll_wait", 1, 1, once=True, pause=pause)
        with Staying(program, folder, none(folder), "--connections", "2", threads=2, environment=given) as region:
            answers = [reply_or_end(region.port) for _ in range(10)]
            same("what they are sent, of which the thread may have ended one", answers.count(NO_ROW) >= 9 and {*answers} <= {NO_ROW, b""}, True)


def send_lines(client: socket.socket) -> None:
    """Sends more lines than a connection may have."""
    with contextlib.suppress(ConnectionError):
        for _ in range((MOST_LINES + MORE) // 1_000):
            client.sendall(READ * 1_000)


def check_last_replies(program: str, folder: str) -> None:
    """A client that sends more lines than it may, and takes the last replies late, gets all to the first million, and then the end."""
    with Staying(program, folder, none(folder)) as region, connected(region.port, 1) as (client,):
        sends = threading.Thread(target=send_lines, args=[client])
        sends.start()
        client.settimeout(SECONDS)
        replies, paused = 0, False
        while part := client.recv(CHUNK):
            replies += part.count(b"\n")
            if replies > MOST_LINES - LAST and not paused:
                time.sleep(PAUSE)
                paused = True
        client.close()
        sends.join()
        same("how many replies it gets", replies, MOST_LINES)


def begun_at(program: str, folder: str, path: str, words: list[str]) -> int:
    """How many of several programs that start at one moment begin to listen at a path."""
    line = [program, "serve", "--stay", "--port", str(free_port()), *words, f"east={written(folder, 'east', b'')}"]
    started = [subprocess.Popen(line, stdout=subprocess.PIPE, stderr=subprocess.DEVNULL) for _ in range(AT_ONCE)]
    try:
        said = [piped(process.stdout).readline() for process in started]
    finally:
        for process in started:
            process.kill()
            process.communicate()
    same("whether the socket is there", os.path.exists(path), True)
    return sum(text.startswith(b"listening on") for text in said)


def check_one_listens(program: str, folder: str) -> None:
    """Of three programs that start at one path at one moment, where a socket was left or not, one listens."""
    for at in range(TRIES):
        path = os.path.join(folder, f"socket{at}")
        if at % 2:
            with socket.socket(socket.AF_UNIX) as left:
                left.bind(path)
        same("how many listen", begun_at(program, folder, path, ["--socket", path]), 1)


def check_descriptors(program: str, folder: str) -> None:
    """More connections than the system gives descriptors are refused at the start."""
    soft, hard = resource.getrlimit(resource.RLIMIT_NOFILE)
    line = [program, "serve", "--stay", "--port", str(free_port()), "--connections", str(DESCRIPTORS + 1), f"east={written(folder, 'east', b'')}"]
    resource.setrlimit(resource.RLIMIT_NOFILE, (DESCRIPTORS, hard))
    try:
        ran = subprocess.run(line, capture_output=True, timeout=SECONDS, check=False)
    finally:
        resource.setrlimit(resource.RLIMIT_NOFILE, (soft, hard))
    told = re.fullmatch(rb"pnuts: cannot start: (\d+) descriptors are needed, and %d are allowed\n" % DESCRIPTORS, ran.stderr)
    same(f"its status, and whether it says how many are needed: {ran.stderr!r}", (ran.returncode, told and int(told[1]) > DESCRIPTORS), (1, True))


def timer_of(port: int) -> int:
    """The kind of the timer that a connection of a port has in the system's table; 2 asks whether a silent client is there."""
    with open("/proc/net/tcp", encoding="ascii") as file:
        rows = [line.split() for line in file][1:]
    return next(int(row[5].split(":")[0], 16) for row in rows if row[1].endswith(f":{port:04X}") and row[3] == "01")


def check_asked_for_life(program: str, folder: str) -> None:
    """The system asks a silent client of TCP whether it is still there."""
    with Staying(program, folder, none(folder)) as region, connected(region.port, 1) as (client,):
        same("whether it is answered", is_answered(client), True)
        until("the system watches the client", lambda: timer_of(region.port) == 2)


# The limits that are tried, the last of which is enough, and what a program is started with that has to have all of it.
LIMITS, CONNECTIONS, CONTROLS = range(12, 140), 24, 16
# For how many seconds one waits who may never be accepted.
SECONDS_WITHOUT = 20.0
# What it says where the limit is too low for its words, or for the program to begin.
REFUSED = re.compile(rb"pnuts: cannot start: .*\n|pnuts: (?:memory|cannot (?:listen|open \w+)(?:: .*)?: Too many open files)\n")
# How many places there are, and how many clients come while no descriptor is left, for how many seconds.
PLACES, COMING, WITHOUT = 40, 300, 2.5


def limited(most: int) -> Callable[[], None]:
    return lambda: resource.setrlimit(resource.RLIMIT_NOFILE, (most, most))


def limit_fault(program: str, folder: str, most: int) -> str | None:
    """What is wrong with a program that is allowed `most` descriptors: it is refused, or serves all that its words allow."""
    own = os.path.join(folder, str(most))
    os.mkdir(own)
    os.mkfifo(f"{own}/west")
    line = [program, "serve", "--stay", "--sessions", "3", "--port", str(port := free_port()), "--connections", str(CONNECTIONS),
            "--control", f"{own}/control", f"east=listen:{own}/east", f"west={own}/west", f"north=listen:{own}/north"]
    nothing, pipe = subprocess.DEVNULL, subprocess.PIPE
    with subprocess.Popen(line, stdin=nothing, stdout=pipe, stderr=pipe, preexec_fn=limited(most)) as process, contextlib.ExitStack() as stay:
        stay.callback(process.kill)
        if not piped(process.stdout).readline():
            said = piped(process.stderr).read()
            is_right = process.wait(SECONDS) == 1 and REFUSED.fullmatch(said) and most < LIMITS[-1]
            return None if is_right else f"{most} descriptors: status {process.returncode}, {said!r}"
        try:
            all_are_served(stay, port, own)
        except (AssertionError, OSError, ValueError) as fault:
            return f"{most} descriptors: {fault!r}"
    return None


def all_are_served(stay: contextlib.ExitStack, port: int, folder: str) -> None:
    """Each stream has a publisher, and clients and control sessions are as many as there may be, and all are answered at once."""
    publishers = [stay.enter_context(Publisher(f"{folder}/{name}")) for name in ("east", "north")]
    clients = [stay.enter_context(socket.create_connection(("127.0.0.1", port))) for _ in range(CONNECTIONS)]
    sessions = [stay.enter_context(Session(f"{folder}/control")) for _ in range(CONTROLS)]
    pipe = stay.enter_context(open(os.open(f"{folder}/west", os.O_RDWR), "wb", buffering=0))
    for publisher in publishers:
        publisher.socket.settimeout(SECONDS_WITHOUT)
        same("what a publisher is told", publisher.begin(), 0)
        publisher.send(messages(1, 1))
    pipe.write(messages(1, 1))
    same("how many clients are answered", sum(is_answered(client, SECONDS_WITHOUT) for client in clients), CONNECTIONS)
    for session in sessions:
        session.socket.settimeout(SECONDS_WITHOUT)
        same("a control session", list(session.told(do="marks")), ["marks"])
    wanted = {"marks": {"east": 1, "north": 1, "west": 1}}
    until("all streams are taken", lambda: sessions[0].told(do="marks") == wanted, SECONDS_WITHOUT)


def check_few_descriptors(program: str, folder: str) -> None:
    """With a limit of 12 to 139 descriptors a start is refused, or all streams, connections and control sessions are served at once."""
    fault = next(filter(None, at_once(lambda most: limit_fault(program, folder, most), LIMITS)), None)
    same("the first limit with which something is wrong", fault, None)


@contextlib.contextmanager
def without_descriptors(region: Staying) -> Iterator[None]:
    """A region may open no more, until the block ends."""
    process = region.process.pid
    before = resource.prlimit(process, resource.RLIMIT_NOFILE)
    most = max(map(int, os.listdir(f"/proc/{process}/fd"))) + 1
    resource.prlimit(process, resource.RLIMIT_NOFILE, (most, before[1]))
    try:
        yield
    finally:
        resource.prlimit(process, resource.RLIMIT_NOFILE, before)


def check_places_after_want(program: str, folder: str) -> None:
    """Once clients have come for seconds while no descriptor was left, as many are answered at once as --connections allows, and no more."""
    with Staying(program, folder, none(folder), "--connections", str(PLACES)) as region:
        same_limit(region.port, PLACES, "at first")
        until("all have gone", lambda: len(set(os.listdir(f"/proc/{region.process.pid}/fd"))) < PLACES)
        before = region.rest("before descriptors are short")
        with without_descriptors(region):
            last = time.monotonic() + WITHOUT
            for _ in range(COMING):
                with contextlib.suppress(OSError), socket.create_connection(("127.0.0.1", region.port), timeout=0.01) as client:
                    client.sendall(b"{}\n")
                time.sleep(max(0.0, min(WITHOUT / COMING, last - time.monotonic())))
        with connected(region.port, PLACES) as clients:
            last = time.monotonic() + SECONDS_WITHOUT
            answered = sum(is_answered(client, max(0.1, last - time.monotonic())) for client in clients)
            same("how many are answered at once, once there are descriptors again", answered, PLACES)
        same_limit(region.port, PLACES, "once there are descriptors again")
        region.same_rest(before, "once all have gone", 1_024)
