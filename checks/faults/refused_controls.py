"""The check of `checks/run control` that refuses each allocation of a program that is lost and recovered by a control session."""
import contextlib
import json
import os
import subprocess
import time

from common.served import SECONDS, Json, same
from faults.preloaded import Refusals
from serving.controlled import Publisher, Session, adoption
from serving.staying import Staying, until

# Refusals after which a line is asked again.
MEMORY = (b'{"error":"memory"}\n', b'{"error":"no-entry"}\n')
FENCE, AT_FENCE = b" " * 65_537 + b"\n", b'{"error":"too-long"}\n'
# What a program may say, and still go on; and why it may not start.
ROUND_FAILED = b"pnuts: round failed"
GOES_ON = (ROUND_FAILED, b"pnuts: stream east failed", b"pnuts: stream east ended", b"pnuts: stream east begins again",
           b"pnuts: cannot accept", b"pnuts: 1 lines were dropped", b"pnuts: out of memory: a stream waits", b"pnuts: streams go on",
           b"pnuts: out of memory: a round waits", b"pnuts: rounds go on")
STARTS_NOT = (b"pnuts: memory", b"pnuts: cannot start", b"pnuts: cannot listen", b"pnuts: cannot open east")
KEYS = ("a", "b", "x", "y")
MESSAGES = b"".join(b'{"at":%d,"image":{"fields":{"v":"1"},"key":"%b","master":"w","version":[1,0]}}\n' % (at, key.encode())
                    for at, key in enumerate(KEYS, 1))
# How often something is asked again, and how long a publisher waits for a line of the region.
TIMES, PATIENCE = 20, 1.0


class Ended(Exception):
    """The session ended, as one does that has no memory to begin with."""


class Asking:
    """Asks a region over control sessions, again where memory was refused, and in another session where one has ended."""

    def __init__(self, control: str) -> None:
        self.control, self.session = control, Session(control)

    def once(self, text: bytes) -> bytes:
        """The reply to a line with those that it announces; where lines became commands, their replies are passed over."""
        try:
            self.session.send(text + FENCE)
            first = self.session.reply()
            reply = first
            while reply not in (AT_FENCE, b""):
                reply = self.session.reply()
        except OSError as fault:
            raise Ended from fault
        if not first or not reply:
            raise Ended
        return first

    def ask(self, text: bytes) -> bytes:
        """The first reply that is none of memory."""
        for _ in range(TIMES):
            try:
                reply = self.once(text)
            except Ended:
                self.session.socket.close()
                self.session = Session(self.control)
                continue
            if reply not in MEMORY:
                return reply
        raise AssertionError(f"no reply to {text[:60]!r}")

    def stop(self) -> None:
        """Ends the region. Where memory was refused, the session goes on, or another one is asked."""
        for _ in range(TIMES):
            with contextlib.suppress(ConnectionError):
                self.session.send(b'{"do":"stop"}\n')
                reply = self.session.line()
                if reply not in (*MEMORY, b""):
                    same("the reply to a stop", reply, b'{"stopping":10}\n')
                    return
                if reply == b"":
                    self.session = Session(self.control)

    def told(self, **command: Json | str | int) -> Json:
        reply: Json = json.loads(self.ask(json.dumps(command).encode() + b"\n"))
        return reply


def give(region: Staying, path: str, asking: Asking) -> bool:
    """Has the region take the messages, by publisher after publisher. Whether it has them; else memory was refused, and it reads no stream."""
    last = time.monotonic() + SECONDS
    while time.monotonic() < last and region.is_running():
        with contextlib.suppress(OSError, ValueError), Publisher(path) as publisher:
            publisher.socket.settimeout(PATIENCE)
            if publisher.begin() == len(KEYS):
                until("the marks are those of all messages", lambda: asking.told(do="marks") == {"marks": {"east": len(KEYS)}})
                return True
            publisher.send(MESSAGES)
            while line := publisher.line():
                if json.loads(line) == {"taken": len(KEYS)}:
                    break
        if ROUND_FAILED in region.said():
            return False
    raise AssertionError("the messages are not taken")


def rows(asking: Asking) -> Json:
    reply = asking.told(do="scan", query={})
    same("the members of a page", list(reply), ["next", "rows"])
    return reply


def recover(asking: Asking, is_whole: bool) -> None:
    """A loss and a recovery, and what the region says of them."""
    before = rows(asking)
    keys = [it["key"] for it in before["rows"]]
    same("its records", keys, [*KEYS] if is_whole else [key for key in KEYS if key in keys])
    text = asking.ask(b'{"do":"copy","tablet":1}\n').partition(b"\n")[2]
    same("the loss", asking.told(do="lose", tablet=1), {"lost": 1})
    same("a read meanwhile", asking.told(do="read", key="x"), {"error": "recovering", "tablet": 1})
    same("the tablet's need", asking.told(do="tablets")["tablets"][1]["need"] is None, False)
    same("the adoption", asking.ask(adoption(text)), b'{"adopted":1}\n')
    same("the records afterwards", rows(asking), before)
    marks = asking.told(do="marks")
    same("marks that advance", asking.told(do="advance"), marks)
    last = asking.told(do="notices", since=10**18)
    same("the changes were missed", last["missed"], True)
    same("no change since", asking.told(do="notices", since=last["next"], wait=0), {"next": last["next"], "notices": []})
    same("a wait in vain", asking.told(do="notices", since=last["next"] - 1, wait=1), {"missed": True, "next": last["next"]})
    same("its stream", asking.told(do="stats")["streams"][0]["name"], "east")


def run_fault(program: str, folder: str, given: dict[str, str]) -> str | None:
    """What is wrong with a region of which an allocation is refused."""
    mark = given["REFUSED_MARK"]
    name = os.path.join(folder, os.path.basename(mark))
    control, path = f"{name}.control", f"{name}.east"
    words = ["--bounds", '["m"]', "--control", control, "--connections", "4"]
    region = Staying(program, folder, [("east", f"listen:{path}")], *words, threads=1, environment=given)
    try:
        with region:
            try:
                talk(region, control, path)
            finally:
                with contextlib.suppress(subprocess.TimeoutExpired):
                    region.process.wait(1)
            return said_fault(region.said(), GOES_ON)
    except (AssertionError, KeyError, OSError, ValueError) as fault:
        has_started = region.process.poll() != 1 or said_fault(region.said(), STARTS_NOT) is not None
        is_refusal = not has_started and os.path.exists(mark)
        return None if is_refusal else f"{fault!r}, status {region.process.poll()}, {region.said()!r}"
    finally:
        os.remove(region.errors)


def talk(region: Staying, control: str, path: str) -> None:
    """What is asked of a region, up to its end."""
    asking = Asking(control)
    recover(asking, give(region, path, asking))
    asking.stop()
    same("its status", region.process.wait(timeout=SECONDS), 0)
    same("its sockets", [os.path.exists(it) for it in (control, path)], [False, False])


def said_fault(said: bytes, known: tuple[bytes, ...]) -> str | None:
    """A line on standard error that is none of these."""
    return next((f"it said {line!r}" for line in said.splitlines() if not line.startswith(known)), None)


def check_refused_allocations(program: str, folder: str) -> None:
    """Each allocation is refused in turn: each line has its reply, `memory` where it was refused, and asked again all goes well."""
    print(f"{Refusals(folder).count('control', lambda given: run_fault(program, folder, given))} allocations refused")
