"""Serves streams that are cut, damaged and long by a built program, and compares what it holds with what a plain, slow reader
(checks/replies/slow_copies.py) takes; and gives sessions lines that are long, cut and too many.

  checks/run damaged-streams PROGRAM [WORD ..]

A stream of five messages is cut at every byte, and each byte in
turn is replaced by `x`, a newline or 0xff, or left out. Its messages up to the first fault are served, and where there is one,
the end is status 1 with its line. A session answers 1,000,000 lines, and no line more.
"""
import os
import threading
import time
from collections.abc import Iterator

from common.served import Client, Served, message, written
from common.tried import Case, Cases, damaged, prefixes, try_group
from replies.slow import Region
from replies.slow_copies import read_stream
from replies.slow_lines import Json

SECONDS, PAUSE = 60, 0.002
LONGEST = 65_536
LAST_LINE = 1_000_000
READ, NO_ROW = b'{"do":"read","key":"z"}', b'{"row":null}\n'
STREAM = b"".join([message(1, "k", 0, "x"), message(2, "l", 0, "x"), message(3, "k", 1, "y"), message(4, "k", 0, "z"),
                   b'{"at":5,"image":{"deleted":true,"key":"l","master":"w","version":[2,0]}}\n'])


def copied(client: Client, images: list[Json]) -> list[str]:
    """The copy of a region that serves, once it has taken this number of messages."""
    last = time.monotonic() + SECONDS
    while time.monotonic() < last:
        reply = client.ask({"do": "copy", "need": {"east": len(images)} if images else {}, "tablet": 0})
        if "lines" in reply:
            return [client.reply().decode().rstrip("\n") for _ in range(reply["lines"])]
        time.sleep(PAUSE)
    raise TimeoutError(f"{len(images)} messages were not taken")


def copy_of(name: str, images: list[Json]) -> list[str]:
    """The lines of the copy of a region with one tablet that took these images of a stream."""
    region = Region([])
    if images:
        region.deliver([{"first": 1, "images": images, "stream": name}])
    return region.copy(0, {})


def stream_fault(program: str, folder: str, text: bytes) -> str | None:
    """What is wrong where a stream has a text."""
    images, has_fault = read_stream(text)
    path = written(folder, f"stream-{os.getpid()}", text)
    with Served(program, [("east", path)]) as served:
        try:
            with Client(served.port) as client:
                copy = copied(client, images)
                client.end()
        except (OSError, TimeoutError) as fault:
            return f"{fault}; {served.first!r}, {served.end()}"
        end = served.end()
    wanted = (1, b"", b"pnuts: stream east failed\n") if has_fault else (0, b"served 1\n", b"")
    return None if copy == copy_of("east", images) and end == wanted else f"{end}, {copy}"


def long_messages() -> Iterator[Case]:
    lines = STREAM.splitlines()
    for length in (LONGEST, LONGEST + 1):
        for index in (0, 2, len(lines) - 1):
            long = [*lines[:index], lines[index].ljust(length), *lines[index + 1 :]]
            yield f"message {index + 1} of {length} bytes", b"".join(line + b"\n" for line in long)
        yield f"an end of {length} bytes", STREAM + b" " * length


def session_fault(program: str, folder: str, lines: bytes, replies: bytes) -> str | None:
    """What is wrong with the replies of a session to a text, after which it sends no more."""
    with Served(program, [("east", written(folder, f"none-{os.getpid()}", b""))]) as served:
        with Client(served.port) as client:
            sender = threading.Thread(target=send_all, args=[client, lines])
            sender.start()
            got = client.replies.read()
            sender.join()
        end = served.end()
    is_right = got == replies and end == (0, b"served 1\n", b"")
    return None if is_right else f"{end}, {len(got)} bytes, the last {got[-80:]!r}"


def send_all(client: Client, lines: bytes) -> None:
    """Sends a text and no more; the session may end before all was sent."""
    try:
        client.send(lines)
        client.end_input()
    except OSError:
        pass


def session_replies(lines: bytes) -> bytes:
    """What a session without records has to reply to reads that are whole, cut or too long."""
    parts = lines.split(b"\n")
    known = {READ: NO_ROW}
    return b"".join(b'{"error":"too-long"}\n' if len(part) > LONGEST else known.get(part.strip(), b'{"error":"not-json"}\n')
                    for part in parts[: len(parts) - (not parts[-1])])


def session_lines() -> Iterator[Case]:
    for end in range(len(READ) + 1):
        yield f"a read cut after {end} bytes", READ + b"\n" + READ[:end]
    for length in (LONGEST, LONGEST + 1, 3 * LONGEST):
        long = READ.ljust(length)
        yield f"a read of {length} bytes", b"\n".join([READ, long, READ, b""])
        yield f"a last read of {length} bytes", READ + b"\n" + long


def many_lines(count: int) -> bytes:
    return (READ + b"\n") * count


def cases(program: str, folder: str) -> Iterator[Cases]:
    fault = lambda text: stream_fault(program, folder, text)
    yield "streams cut", fault, prefixes(STREAM)
    yield "streams damaged", fault, damaged(STREAM)
    yield "long messages", fault, long_messages()
    yield "session lines", lambda lines: session_fault(program, folder, lines, session_replies(lines)), session_lines()
    counts = [LAST_LINE, LAST_LINE + 1]
    answered = lambda count: session_fault(program, folder, many_lines(int(count)), NO_ROW * LAST_LINE)
    yield "lines of a session", answered, ((f"{count} lines", b"%d" % count) for count in counts)


def check_damaged_streams(program: str, folder: str, group: str) -> None:
    """What is served, and each end, is as it should be."""
    try_group(cases(program, folder), group)
