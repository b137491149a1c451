"""Lets each read and each write of a built program fail in turn, while a script with a recovery or a session is answered.

  checks/run failing-calls PROGRAM [WORD ..]

Each call takes a byte, or a few, and the k-th fails, for every k.

- Where a read fails, the replies to all commands that were read whole are written, and the end is status 1 with `pnuts: read`.
- Where a write fails, just the bytes before it are written, and the end is status 1 with `pnuts: write`.
- Where a session's socket fails, its replies are those, and the end is status 0 with `served 1`.
- Where it fails once, its connection ends: no second session answers what the client sends on.
"""
import contextlib
import functools
import os
import subprocess
from collections.abc import Callable, Iterator

from common.served import Client, Served, message, written
from common.tried import Cases, try_group
from faults.preloaded import environment, failing_library
from replies.slow import slow_replies
from replies.stored import stored

SECONDS = 60
# How long a client waits for the rest of a reply, until it sends the next line.
PATIENCE = 2
SCRIPT = b"".join(line + b"\n" for line in stored("recovery-keeps-arrivals").lines)
ADOPTS, ANNOUNCED = next(index for index, line in enumerate(SCRIPT.splitlines()) if b"adopt" in line), 8
STREAM = message(1, "k", 5, "x")
LINES = [b'{"do":"read","key":"k"}', b'{"do":"get","keys":["k","z"]}', b'{"do":"scan","query":{}}', b'{"do":"copy","tablet":0}',
         b'{"do":"lose","tablet":0}']
SESSION = b"".join(line + b"\n" for line in LINES)
# The replies to the lines of the session, once the stream is served.
ROW = b'{"contents":[{"fields":{"v":"x"},"master":"w"}],"key":"k","state":"one","version":[1,5]}'
REPLIES = [b'{"row":%s}\n' % ROW, b'{"rows":[%s,null]}\n' % ROW, b'{"next":null,"rows":[%s]}\n' % ROW,
           b'{"lines":4}\n{"copy":1,"from":null,"to":null}\n{"at":1,"stream":"east"}\n'
           b'{"fields":{"v":"x"},"key":"k","master":"w","version":[1,5]}\n{"end":2}\n', b'{"error":"read-only"}\n']
EMPTY = [b'{"row":null}\n', b'{"rows":[null,null]}\n', b'{"next":null,"rows":[]}\n',
         b'{"lines":2}\n{"copy":1,"from":null,"to":null}\n{"end":0}\n', b'{"error":"read-only"}\n']

Given = dict[str, str]
FaultOfCall = Callable[[int, int], str | None]


def script_end(program: str, given: Given) -> tuple[int, bytes, bytes]:
    ended = subprocess.run([program, "replay"], input=SCRIPT, capture_output=True, env=given, timeout=SECONDS)
    return ended.returncode, ended.stdout, ended.stderr


def read_fault(program: str, library: str, number: int, size: int) -> str | None:
    """What is wrong where a read of a script fails."""
    whole = SCRIPT[: (number - 1) * size].count(b"\n")
    # An adoption whose lines are not all there has no reply yet.
    commands = ADOPTS if ADOPTS < whole <= ADOPTS + ANNOUNCED else whole
    wanted = slow_replies(b"".join(SCRIPT.splitlines(keepends=True)[:commands]), [])
    got = script_end(program, environment(library, "read", number, size))
    return None if got == (1, wanted, b"pnuts: read\n") else f"{got}, not {wanted!r}"


def write_fault(program: str, library: str, number: int, size: int) -> str | None:
    """What is wrong where a write of the replies to a script fails."""
    got, wanted = script_end(program, environment(library, "write", number, size)), slow_replies(SCRIPT, [])
    due = (1, wanted[: (number - 1) * size], b"pnuts: write\n")
    return None if got == due else f"{got}"


def heard(port: int) -> tuple[bytes, bool]:
    """What a session replies, and whether its connection broke."""
    replies = b""
    with contextlib.suppress(OSError), Client(port) as client:
        client.send(SESSION)
        client.end_input()
        while part := client.socket.recv(65_536):
            replies += part
        return replies, False
    return replies, True


def heard_in_turns(port: int) -> tuple[bytes, bool]:
    """What a session replies where each line waits for the reply before it, and whether the connection ended before the client's end."""
    replies = b""
    with contextlib.suppress(ConnectionError), Client(port) as client:
        for count, line in enumerate(LINES, 1):
            client.send(line + b"\n")
            client.socket.settimeout(PATIENCE)
            with contextlib.suppress(TimeoutError):
                while not starts_so(replies, count, None):
                    part = client.socket.recv(65_536)
                    if not part:
                        return replies, True
                    replies += part
        return replies, False
    return replies, True


def starts_so(replies: bytes, count: int | None, most: int | None) -> bool:
    """Whether these are replies to a count of lines, or their first bytes: each as before or after the stream is served."""
    index = 0
    for row, empty in list(zip(REPLIES, EMPTY))[:count]:
        rest = replies[index:most]
        found = next((reply for reply in (row, empty) if rest.startswith(reply)), None)
        if found is None:
            return any(reply.startswith(rest) for reply in (row, empty)) and count is None
        index += len(found)
    return index == len(replies)


def session_fault(program: str, library: str, folder: str, call: str, number: int, size: int) -> str | None:
    """What is wrong where a call of a session's socket fails."""
    east = written(folder, f"east-{os.getpid()}", STREAM)
    with Served(program, [("east", east)], environment=environment(library, call, number, size)) as served:
        replies, is_broken = heard(served.port)
        end = served.end()
    if end != (0, b"served 1\n", b""):
        return f"{end}"
    if call == "recv" and not is_broken:
        count = SESSION[: (number - 1) * size].count(b"\n")
        return None if starts_so(replies, count, None) else f"{count} lines, {replies!r}"
    is_right = starts_so(replies, None, None) and (call == "recv" or len(replies) <= (number - 1) * size)
    return None if is_right else f"{replies!r}"


def second_session_fault(program: str, library: str, folder: str, number: int, size: int) -> str | None:
    """What is wrong where one send of a session's socket fails, and the next would not."""
    east = written(folder, f"east-{os.getpid()}", STREAM)
    with Served(program, [("east", east)], environment=environment(library, "send", number, size, once=True)) as served:
        replies, is_ended = heard_in_turns(served.port)
        end = served.end()
    is_right = is_ended and len(replies) <= (number - 1) * size and starts_so(replies, None, None)
    return None if is_right and end == (0, b"served 1\n", b"") else f"{end}, {is_ended}, {replies!r}"


def calls(name: str, find_fault: FaultOfCall, count: int, size: int) -> Cases:
    """This number of calls that fail in turn, where each takes this number of bytes."""
    texts = ((f"call {number}", b"%d" % number) for number in range(1, count + 1))
    return f"{name} of {size}", lambda number: find_fault(int(number), size), texts


def cases(program: str, folder: str) -> Iterator[Cases]:
    library = failing_library(folder) if folder else ""
    replies, session = len(slow_replies(SCRIPT, [])), sum(map(len, REPLIES))
    for size in (1, 7, 100):
        yield calls("reads", lambda at, size: read_fault(program, library, at, size), len(SCRIPT) // size, size)
        yield calls("writes", lambda at, size: write_fault(program, library, at, size), replies // size, size)
    for size in (1, 20):
        yield calls("receipts", functools.partial(session_fault, program, library, folder, "recv"), len(SESSION) // size, size)
        yield calls("sends", functools.partial(session_fault, program, library, folder, "send"), session // size, size)
    for size in (20, 100):
        # Each reply is sent alone.
        sends = sum(-(-min(len(row), len(empty)) // size) for row, empty in zip(REPLIES, EMPTY))
        yield calls("single sends", lambda at, size: second_session_fault(program, library, folder, at, size), sends, size)


def check_failing_calls(program: str, folder: str, group: str) -> None:
    """Each call fails in turn, and the replies and the end are as they should be."""
    try_group(cases(program, folder), group)
