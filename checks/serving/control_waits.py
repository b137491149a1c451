"""Checks of `checks/run control`: the words that only control sessions have, `notices` that waits, and a region that waits for memory."""
import contextlib
import json
import os
import resource
import socket
import stat
import subprocess
import threading
import time
from collections.abc import Iterator

from common.served import SECONDS, Client, in_time, same, seconds_of
from serving.controlled import TABLETS, Publisher, Session, region_in, written
from serving.staying import Staying, messages, until
from serving.stream_limits import BIG, TEXT, goes_on, waiting_in

REFUSED = {
    b'{"do":"deliver"}': b'{"error":"read-only"}\n', b'{"do":"relayout","bounds":1}': b'{"error":"read-only"}\n',
    b'{"do":"notices","since":0,"wait":61}': b'{"error":"out-of-range","member":"wait"}\n',
    b'{"do":"notices","since":0,"wait":"1"}': b'{"error":"bad-shape","member":"wait"}\n',
    b'{"do":"stop","seconds":61}': b'{"error":"out-of-range","member":"seconds"}\n',
    b'{"do":"stop","seconds":-1}': b'{"error":"bad-shape","member":"seconds"}\n',
    b'{"do":"stop","wait":1}': b'{"error":"bad-shape","member":"other"}\n',
    b'{"do":"stats","x":1}': b'{"error":"bad-shape","member":"other"}\n',
    b'{"do":"advance","seconds":1}': b'{"error":"bad-shape","member":"other"}\n',
    b"x": b'{"error":"not-json"}\n', b"x" * 65_537: b'{"error":"too-long"}\n',
}
STATS = ["bytes", "connections", "lines", "rounds", "streams", "tablets", "times", "unread", "uptime", "version"]
CONNECTIONS, LINES = ["accepted", "idle", "open", "refused"], ["answered", "kinds", "refused"]
STREAM = ["bytes", "heard", "line", "messages", "name", "newest", "path", "position", "reason", "since", "state", "stream"]


def check_words(program: str, folder: str) -> None:
    """The words that only control sessions have, those that they refuse, and the mode of their socket."""
    with region_in(folder, program) as (_, control, path), Session(control) as session:
        same("its mode", stat.S_IMODE(os.stat(control).st_mode), 0o600)
        written(path, 1, 250)
        for line, reply in REFUSED.items():
            same(f"the reply to {line[:60]!r}", session.ask(line + b"\n"), reply)
        same("marks", session.told(do="marks"), {"marks": {"east": 250}})
        same("advance", session.told(do="advance"), {"marks": {"east": 250}})
        session.told(do="lose", tablet=1)
        same("advance of a region that lost a tablet", session.told(do="advance"), {"marks": {"east": 250}})


def check_stats(program: str, folder: str) -> None:
    """`stats` has the members that the documents list, in their order, and counts."""
    with region_in(folder, program) as (region, control, path), Session(control) as session, Session(control) as other:
        written(path, 1, 250)
        line = session.ask(b'{"do":"stats"}\n')
        stats = json.loads(line)
        same("compact, in byte order", line, json.dumps(stats, separators=(",", ":"), sort_keys=True).encode() + b"\n")
        (stream,) = stats["streams"]
        for what, found, wanted in (("its", stats, STATS), ("connections'", stats["connections"], CONNECTIONS),
                                    ("lines'", stats["lines"], LINES), ("a stream's", stream, STREAM)):
            same(f"{what} members", list(found), wanted)
        same("its stream", [stream[it] for it in ("name", "path", "position", "messages", "bytes", "line", "reason")],
             ["east", path, 250, 250, len(messages(1, 250)), None, None])
        until("its stream has ended", lambda: other.told(do="stats")["streams"][0]["state"] == "ended")
        with Publisher(path) as publisher:
            publisher.begin()
            publisher.send(messages(251, 1))
            until("its stream is open", lambda: other.told(do="stats")["streams"][0]["state"] == "open")
            publisher.send(b"no message\n")
            publisher.last_lines()
        (stream,) = other.told(do="stats")["streams"]
        same("its fault", [stream["line"], stream["reason"]], [2, "not-json"])
        lines = other.told(do="stats")["lines"]
        same("what counts only clients", [lines["answered"], lines["refused"]], [0, 0])


def check_stats_of_connections(program: str, folder: str) -> None:
    """`stats` counts the connections of clients, those that were idle for too long, and the lines that were refused."""
    with region_in(folder, program, "--idle", "1") as (region, control, _), Session(control) as session:
        for _ in range(3):
            with socket.create_connection(("127.0.0.1", region.port), timeout=SECONDS) as client, client.makefile("rb") as replies:
                client.sendall(b'{"do":"read","key":"k001"}\nx\n')
                same("the replies", [replies.readline(), replies.readline()], [b'{"row":null}\n', b'{"error":"not-json"}\n'])
                same("the end of its session", replies.readline(), b"")
        until("none is open", lambda: session.told(do="stats")["connections"]["open"] == 0)
        stats = session.told(do="stats")
        same("connections", stats["connections"], {"accepted": 3, "idle": 3, "open": 0, "refused": 0})
        same("lines", [stats["lines"]["answered"], stats["lines"]["refused"]], [6, 3])


def check_waits(program: str, folder: str) -> None:
    """A `notices` that waits is answered by a change, a loss and the end of its time; others are not held up."""
    with region_in(folder, program) as (_, control, path), Session(control) as waits, Session(control) as other:
        idle = seconds_of(lambda: other.told(do="marks"))
        took = seconds_of(lambda: same("without a change", waits.ask(b'{"do":"notices","since":0,"wait":1}\n'), b'{"next":0,"notices":[]}\n'))
        same("it waits for its time", took > 0.9, True)
        in_time("and no longer", took - 1, 2.0, idle)
        same("of what was not yet", waits.ask(b'{"do":"notices","since":1,"wait":60}\n'), b'{"missed":true,"next":0}\n')
        waits.send(b'{"do":"notices","since":0,"wait":60}\n')
        time.sleep(0.2)
        in_time("another session meanwhile", seconds_of(lambda: same("marks", other.told(do="marks"), {"marks": {}})), 0.5, idle)
        written(path, 1, 1)
        told = json.loads(waits.line())
        same("the change", [told["next"], [it["key"] for it in told["notices"]]], [1, ["k001"]])
        waits.send(b'{"do":"notices","since":1,"wait":60}\n')
        same("a loss", other.told(do="lose", tablet=2), {"lost": 2})
        same("what it is told", waits.line(), b'{"missed":true,"next":2}\n')


def check_waits_whose_client_goes(program: str, folder: str) -> None:
    """Sixteen clients that go while they wait make room for others within seconds."""
    with region_in(folder, program) as (_, control, _):
        with Session(control) as session:
            idle = seconds_of(lambda: session.told(do="marks"))
        for _ in range(16):
            with Session(control) as session:
                session.send(b'{"do":"notices","since":0,"wait":60}\n')
                time.sleep(0.02)
        start = time.monotonic()
        with Session(control) as session:
            same("marks", session.told(do="marks"), {"marks": {}})
        in_time("one that makes room", time.monotonic() - start, 5.0, idle)


def check_words_of_the_program(program: str, folder: str) -> None:
    """`--control` is only with `--stay`, and its path has at most 107 bytes."""
    path = os.path.join(folder, "control")
    for words, said in (
        (["--control", path], f"pnuts: control: {path}: only with --stay\n"),
        (["--stay", "--control", "x" * 108], f"pnuts: control: {'x' * 108}: a path of more than 107 bytes\n"),
    ):
        ran = subprocess.run([program, "serve", *words, "east=/dev/null"], stderr=subprocess.PIPE, timeout=SECONDS)
        same("the status", ran.returncode, 2)
        same("what it said", ran.stderr, said.encode())


MEMORY = b'{"error":"memory"}\n'
# How much memory a region has besides what it has taken, and how often it is asked meanwhile.
SPARE_KB, TIMES = 512, 40
# What it is asked, and the first member of the reply.
WAITING = {b'{"do":"marks"}\n': "marks", b'{"do":"tablets"}\n': "tablets", b'{"do":"stats"}\n': "bytes", b'{"do":"notices","since":9999999}\n': "missed",
         b'{"do":"read","key":"k001"}\n': "row", b'{"do":"advance"}\n': "marks", b'{"do":"get","keys":["k001","k099"]}\n': "rows"}
SESSIONS = 16
LIMITS = (resource.RLIMIT_DATA, resource.RLIMIT_AS)


def taken(region: Staying, limit: int) -> int:
    """How many bytes of a limit a region has taken."""
    name = "VmData" if limit == resource.RLIMIT_DATA else "VmSize"
    with open(f"/proc/{region.process.pid}/status") as file:
        return next(int(line.split()[1]) for line in file if line.startswith(name)) << 10


def feed(publisher: Publisher) -> None:
    """Sends records for as long as they are taken."""
    with contextlib.suppress(OSError):
        for at in range(1_001, 100_000):
            publisher.send(BIG % (at, TEXT, TEXT, at))


@contextlib.contextmanager
def waiting(region: Staying, path: str, limit: int) -> Iterator[Publisher]:
    """A region of which a round or a stream waits for memory, until the block ends."""
    before = resource.prlimit(region.process.pid, limit)
    with Publisher(path) as publisher:
        same("what the region has", publisher.begin(), 1_000)
        resource.prlimit(region.process.pid, limit, (taken(region, limit) + (SPARE_KB << 10), before[1]))
        feeding = threading.Thread(target=feed, args=[publisher], daemon=True)
        feeding.start()
        until("a round or a stream waits", lambda: waiting_in(region))
        time.sleep(1.5)
        yield publisher
        if region.is_running():
            resource.prlimit(region.process.pid, limit, before)


def asked(control: str, line: bytes, member: str) -> bool:
    """Asks in a session of its own. Whether it is answered, and not refused for lack of memory; something has to come."""
    with Session(control) as session:
        session.socket.settimeout(SECONDS / 4)
        reply = session.ask(line)
        if reply == MEMORY:
            return False
        same(f"the first member of the reply {reply[:80]!r} to {line!r}", sorted(json.loads(reply or b'{"nothing":0}'))[0], member)
        return True


def check_asking_without_memory(program: str, folder: str) -> None:
    """While a region waits for memory, each line of a new session is answered or refused for lack of memory, and a tablet is lost; once there is
    memory, all is answered."""
    for limit in LIMITS:
        with region_in(folder, program, name=f"control-{limit}") as (region, control, path), Client(region.port) as client:
            written(path, 1, 1_000)
            idle = seconds_of(lambda: asked(control, b'{"do":"marks"}\n', "marks"))
            with waiting(region, path, limit):
                answered = 0
                for at in range(TIMES):
                    line, member = list(WAITING.items())[at % len(WAITING)]
                    in_time("a reply", seconds_of(lambda: asked(control, line, member)), 1.5, idle)
                    answered += asked(control, line, member)
                with contextlib.ExitStack() as stay:
                    sessions = [stay.enter_context(Session(control)) for _ in range(SESSIONS)]
                    for session in sessions:
                        session.socket.settimeout(SECONDS / 4)
                        reply = session.ask(b'{"do":"marks"}\n')
                        same(f"whether one of sixteen is answered: {reply!r}", reply == MEMORY or reply.startswith(b'{"marks":'), True)
                same("a record that is there", client.read("k001")["row"]["key"], "k001")
                until("a tablet is lost", lambda: asked(control, b'{"do":"lose","tablet":1}\n', "lost"))
            until("what waited goes on", lambda: goes_on(region))
            for line, member in WAITING.items():
                same(f"whether {line!r} is answered once there is memory", asked(control, line, member), True)
            same("the tablets", [it["need"] is None for it in Session(control).told(do="tablets")["tablets"]], [True, False, True][:TABLETS])
            print(f"  {answered} of {TIMES} lines were answered meanwhile")


def check_stopping_without_memory(program: str, folder: str) -> None:
    """While a region waits for memory a stop is taken, and the program ends by itself in its seconds."""
    for limit in LIMITS:
        with region_in(folder, program, name=f"stopped-{limit}") as (region, control, path):
            written(path, 1, 1_000)
            idle = seconds_of(lambda: asked(control, b'{"do":"marks"}\n', "marks"))
            with waiting(region, path, limit):
                until("the stop is taken", lambda: asked(control, b'{"do":"stop","seconds":3}\n', "stopping"))
                took = seconds_of(lambda: same("its status", region.process.wait(SECONDS), 0))
                in_time("the end", took, 5.0, idle)
