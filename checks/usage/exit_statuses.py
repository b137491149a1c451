"""Brings a built program to each of its ends but out of memory, and looks at its status and what it says.

  checks/run exit-statuses PROGRAM
"""
import os
import subprocess
import tempfile
import threading
from collections.abc import Iterator
from typing import IO

from common.served import Client, Served, message, piped, written
from common.tried import none_of

SCAN = b'{"do":"scan","query":{}}\n'
NO_ROWS = b'{"next":null,"rows":[]}\n'
NOT_JSON = b'{"error":"not-json"}\n'
IMAGE = b'{"deleted":true,"key":"k","master":"w","version":[1,0]}'
NO_LINE = b'{"error":"not-json","line":2,"member":null,"name":null}\n'
MARKS = b'{"do":"marks"}\n'
NO_MARKS = b'{"marks":{}}\n'
LAST_LINE = 1_000_000
ENDLESS = 1_000_000_000
SECONDS = 60
LONG = "/" + 107 * "p"

# A status, the replies, and what is said on standard error.
End = tuple[int, bytes | bool | None, bytes]

# By name, words, and the end that they make; of standard error its first line. Of two faults the first by rank is said.
WORDS: dict[str, tuple[list[str], End]] = {
    "the version": (["--version"], (0, b"pnuts 0.3.0\n", b"")),
    "a command's version": (["replay", "--version"], (2, b"", b"error: unexpected argument '--version' found")),
    "a word of a check": (["check", "images"], (2, b"", b"error: unexpected argument 'images' found")),
    "unknown arguments": (["replay", "--fast"], (2, b"", b"error: unexpected argument '--fast' found")),
    "an address of a script": (["replay", "--listen", "::1"], (2, b"", b"error: unexpected argument '--listen' found")),
    "a client idle for no time": (
        ["serve", "--idle", "0", "--listen", "x", "east"],
        (2, b"", b"error: invalid value '0' for '--idle <SECONDS>': 0 is not in 1..=86400"),
    ),
    "a client idle for more than a day": (
        ["serve", "--idle", "86401", "east"],
        (2, b"", b"error: invalid value '86401' for '--idle <SECONDS>': 86401 is not in 1..=86400"),
    ),
    "a socket without a path": (
        ["serve", "--socket=", "--listen", "x", "east"],
        (2, b"", b"error: a value is required for '--socket <PATH>' but none was supplied"),
    ),
    "progress with a value": (
        ["serve", "--progress=yes", "east"],
        (2, b"", b"error: unexpected value 'yes' for '--progress' found; no more were expected"),
    ),
    "bounds that are none": (["replay", "--bounds", "[7]"], (2, b"", b"pnuts: bounds")),
    "bounds and an address that are none": (["serve", "--listen", "x", "--bounds", "[7]", "east"], (2, b"", b"pnuts: bounds")),
    "a name for an address": (["serve", "--listen", "localhost", "east"], (2, b"", b"pnuts: address")),
    "an address with a port": (["serve", "--listen", "127.0.0.1:80", "east=/none"], (2, b"", b"pnuts: address")),
    "an empty address beside a socket": (["serve", "--listen=", "--socket", "/none/socket", "east=/none"], (2, b"", b"pnuts: address")),
    "a stream without a path": (["serve", "--socket", "/none/socket", "east"], (2, b"", b"pnuts: stream")),
    "a socket's path without --stay": (["serve", "--socket", "/none/socket", "east=listen:"], (1, b"", b"pnuts: cannot open east")),
    "no bounds of a server that stays": (
        ["serve", "--stay", "--bounds", "[7]", "east"],
        (2, b"", b"pnuts: bounds: [7]: an item that is no key of 1 to 256 bytes"),
    ),
    "no address of a server that stays": (["serve", "--stay", "--listen", "x", "east"], (2, b"", b"pnuts: address: x: no address of IPv4 or IPv6, and host names are not looked up")),
    "no path of a server that stays": (["serve", "--stay", "west=/none", "east="], (2, b"", b"pnuts: stream: east=: no path")),
    "no path of a socket": (["serve", "--stay", "east=listen:"], (2, b"", b"pnuts: stream: east=listen:: no path")),
    "no path, and a line end": (["serve", "--stay", "ea\nst"], (2, b"", b'pnuts: stream: "ea\\nst": no =')),
    "a socket's path that is too long": (
        ["serve", "--stay", "--socket", LONG, "east"],
        (2, b"", f"pnuts: address: {LONG}: a path of more than 107 bytes".encode()),
    ),
    "permissions of a socket that are no octal number": (["serve", "--socket-mode", "0608", "east"], (2, b"", b"pnuts: address")),
    "permissions of a socket that are too great": (
        ["serve", "--stay", "--socket", "/none/socket", "--socket-mode", "1777", "east"],
        (2, b"", b"pnuts: address: 1777: no octal number up to 777"),
    ),
    "permissions of a socket for its group": (
        ["serve", "--stay", "--socket", "/none/socket", "--socket-mode", "660", "east=/dev/null"],
        (1, b"", b"pnuts: cannot listen: /none/socket: No such file or directory"),
    ),
    "help of no command": (["help", "steal"], (2, b"", b"error: unrecognized subcommand 'steal'")),
    "a control socket without a path": (
        ["serve", "--stay", "--control=", "--listen", "x", "east"],
        (2, b"", b"error: a value is required for '--control <PATH>' but none was supplied"),
    ),
    "a control socket without --stay": (["serve", "--control", "c", "east"], (2, b"", b"pnuts: control: c: only with --stay")),
    "a control socket's path that is too long": (
        ["serve", "--stay", "--control", LONG, "east"],
        (2, b"", f"pnuts: control: {LONG}: a path of more than 107 bytes".encode()),
    ),
    "no address, and a control socket without --stay": (["serve", "--control", "c", "--listen", "x", "east"], (2, b"", b"pnuts: address")),
    "a control socket in no folder": (
        ["serve", "--stay", "--socket", "/none/socket", "--control", "/none/control", "east=/dev/null"],
        (1, b"", b"pnuts: cannot listen: /none/control: No such file or directory"),
    ),
    "a control socket where another file is": (
        ["serve", "--stay", "--socket", "/none/socket", "--control", "/dev/null", "east=/dev/null"],
        (1, b"", b"pnuts: cannot listen: /dev/null: Address already in use"),
    ),
    "copies that are not there": (
        ["serve", "--copies", "/none", "--listen", "192.0.2.1", "east=/none"],
        (1, b"", b"pnuts: copies: /none: No such file or directory"),
    ),
    "copies without a tablet": (["serve", "--copies", "/dev/null", "east=/none"], (1, b"", b'pnuts: copies: no copy has the key ""')),
    "a stream that does not open": (["serve", "--socket", "/none/socket", "east=/none"], (1, b"", b"pnuts: cannot open east")),
    "a socket in no folder": (["serve", "--socket", "/none/socket", "east=/dev/null"], (1, b"", b"pnuts: cannot listen")),
    "an address of no machine": (["serve", "--listen", "192.0.2.1", "east=/dev/null"], (1, b"", b"pnuts: cannot listen")),
    "an address of no machine, and why": (
        ["serve", "--stay", "--listen", "192.0.2.1", "east=/dev/null"],
        (1, b"", b"pnuts: cannot listen: 192.0.2.1:7070: Cannot assign requested address"),
    ),
}


def end_of(program: str, script: bytes, output: int | IO[bytes], word: str = "replay") -> End:
    with tempfile.TemporaryFile() as file:
        file.write(script)
        file.seek(0)
        ended = subprocess.run([program, word], stdin=file, stdout=output, stderr=subprocess.PIPE, timeout=SECONDS)
    return ended.returncode, ended.stdout, ended.stderr


def end_of_words(program: str, *words: str) -> End:
    """With these arguments and no input: of standard error the first line."""
    ended = subprocess.run([program, *words], stdin=subprocess.DEVNULL, capture_output=True, timeout=SECONDS)
    return ended.returncode, ended.stdout, ended.stderr.partition(b"\n")[0]


def end_of_help(program: str, *words: str) -> End:
    """Where help is asked for: whether the usage is shown."""
    status, shown, said = end_of_words(program, *words)
    return status, isinstance(shown, bytes) and b"\n\nUsage: " in shown, said


def end_of_unreadable(program: str, word: str) -> End:
    """Where standard input is a folder, which opens and cannot be read."""
    folder = os.open("/", os.O_RDONLY)
    try:
        ended = subprocess.run([program, word], stdin=folder, capture_output=True, timeout=SECONDS)
    finally:
        os.close(folder)
    return ended.returncode, ended.stdout, ended.stderr


def end_of_endless(program: str) -> End:
    """Where the second line never ends."""
    pipe = subprocess.PIPE
    running = subprocess.Popen([program, "replay"], stdin=pipe, stdout=pipe, stderr=pipe)
    block = b" " * LAST_LINE
    try:
        piped(running.stdin).write(SCAN)
        for _ in range(ENDLESS // len(block)):
            piped(running.stdin).write(block)
    except BrokenPipeError:
        pass
    replies, said = running.communicate(timeout=SECONDS)
    return running.returncode, replies, said


def end_of_session(program: str, lines: bytes) -> End:
    """Where a client sends lines, and one more once it has as many replies as are answered."""
    with tempfile.TemporaryDirectory() as folder:
        east = written(folder, "east", message(1, "k", 5, "x"))
        with Served(program, [("east", east)]) as served:
            with Client(served.port) as client:
                sender = threading.Thread(target=client.send, args=(lines,))
                sender.start()
                replies = client.replies.read(len(NOT_JSON) * LAST_LINE)
                sender.join()
                client.send(b"\n")
                replies += client.replies.read()
            status, shown, said = served.end()
    return status, replies + shown, said


def end_on_full(program: str, word: str) -> End:
    """Where standard output is full."""
    with open("/dev/full", "wb") as full:
        return end_of(program, SCAN, full, word)


def ends(program: str) -> Iterator[tuple[str, End, End]]:
    """By name, each end as it is and as it should be."""
    pipe = subprocess.PIPE
    yield "end of the script", end_of(program, SCAN + b"{", pipe), (0, NO_ROWS + NOT_JSON, b"")
    yield "no script", end_of(program, b"", pipe), (0, b"", b"")
    yield "the last line", end_of(program, b"\n" * LAST_LINE, pipe), (0, NOT_JSON * LAST_LINE, b"")
    turns = (1, NOT_JSON * LAST_LINE, b"pnuts: too-many-turns\n")
    yield "one line more", end_of(program, b"\n" * (LAST_LINE + 1), pipe), turns
    turns = (1, NO_MARKS * LAST_LINE, b"pnuts: too-many-turns\n")
    yield "one line more that asks for marks", end_of(program, MARKS * (LAST_LINE + 1), pipe), turns
    yield "a line without end", end_of_endless(program), (1, NO_ROWS, b"pnuts: too-many-turns\n")
    yield "one line more in a session", end_of_session(program, b"\n" * LAST_LINE), (0, NOT_JSON * LAST_LINE + b"served 1\n", b"")
    for word in ("check", "replay"):
        yield f"input that {word} cannot read", end_of_unreadable(program, word), (1, b"", b"pnuts: read\n")
        yield f"output of {word} that is full", end_on_full(program, word), (1, None, b"pnuts: write\n")
    yield "no line that is checked", end_of(program, b"", pipe, "check"), (0, b"", b"")
    yield "a line that regions take", end_of(program, IMAGE + b"\n" + IMAGE, pipe, "check"), (0, b"", b"")
    yield "a line that no region takes", end_of(program, IMAGE + b"\n{", pipe, "check"), (1, NO_LINE, b"")
    for name, (words, wanted) in WORDS.items():
        yield name, end_of_words(program, *words), wanted
    yield "help", end_of_help(program, "--help"), (0, True, b"")
    yield "help on a command", end_of_help(program, "serve", "--help"), (0, True, b"")
    for words in (["--help"], ["check", "--help"], ["serve", "--help"], ["replay", "--help"]):
        name = " ".join(["help", *words[:-1]])
        yield name, end_of_words(program, *name.split()), end_of_words(program, *words)


def check_exit_statuses(program: str) -> None:
    """Each end has its status, its replies and its line."""
    none_of(f"{name}: status {found[0]} and {found[2]!r}, not {wanted[0]} and {wanted[2]!r}, or other replies"
            for name, found, wanted in ends(program) if found != wanted)
