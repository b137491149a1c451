"""Where a stream's socket is, who may write, and what publishers cost: checks of `checks/run streams`."""
import array
import fcntl
import os
import socket
import stat
import struct
import subprocess
import termios
import time

from common.served import SECONDS, Client, fifo, free_port, message, row_of, same, written
from serving.controlled import Publisher, said_of_faults, socket_in, wait_for_after, written_by
from serving.staying import Staying, key_of, messages, until

UMASK = 0o022
WARM, MANY, LEAK_KB = 500, 10_000, 1_024
# How long a publisher waits in vain.
VAIN = 1.0


def refused(program: str, *words: str) -> bytes:
    """What is said where a program does not start."""
    line = [program, "serve", "--port", str(free_port()), *words]
    ran = subprocess.run(line, stdin=subprocess.DEVNULL, capture_output=True, timeout=SECONDS)
    same(f"how it ends with {words}", (ran.returncode, ran.stdout), (1, b""))
    return ran.stderr


def fails_at(program: str, path: str, why: str) -> None:
    """Does not start where a stream's socket cannot be at a path, and says so with the path and the system's reason."""
    said = refused(program, "--stay", f"east=listen:{path}").decode()
    same(f"whether it says where: {said!r}", said.startswith("pnuts: cannot ") and path in said and said.endswith(f": {why}\n"), True)


def check_address_in_use(program: str, folder: str) -> None:
    """A socket that is stale is replaced, one that a program listens on and a file that is none stay, and its mode is for its owner alone."""
    path, east = socket_in(folder)
    old = os.umask(UMASK)
    try:
        for _ in range(2):
            # The second time the first one's socket is there still, which was killed.
            with Staying(program, folder, [east]) as region, Client(region.port) as client:
                same("its kind and mode", stat.filemode(os.stat(path).st_mode), "srw-------")
                written_by(path, messages(1, 3), 0)
                fails_at(program, path, "Address already in use")
                written_by(path, messages(1, 4), 3)
                client.wait_for(key_of(4), row_of(key_of(4), 0, "x"))
        plain = written(folder, "plain", b"x")
        fails_at(program, plain, "Address already in use")
        with open(plain, "rb") as file:
            same("a file that is no socket", file.read(), b"x")
        fails_at(program, os.path.join(folder, "none", "socket"), "No such file or directory")
    finally:
        os.umask(old)
    with socket.socket(socket.AF_UNIX) as other:
        os.remove(path)
        other.bind(path)
        other.listen()
        fails_at(program, path, "Address already in use")
        same("another program's socket", os.path.exists(path), True)


def check_without_staying(program: str, folder: str) -> None:
    """Without --stay such a word is the path of a file, and what is said has no reason."""
    path, (name, address) = socket_in(folder)
    same("what is said", refused(program, f"{name}={address}"), b"pnuts: cannot open east\n")
    same("whether a socket is there", os.path.exists(path), False)


def check_two_publishers(program: str, folder: str) -> None:
    """Of three publishers at once one is taken, and the next one when it has gone, or was refused, from what the region has then."""
    path, east = socket_in(folder)
    with Staying(program, folder, [east]) as region, Publisher(path) as first:
        same("what the first is told", first.begin(), 0)
        with Publisher(path) as second, Publisher(path) as third:
            first.send(messages(1, 5))
            same("whether others are taken meanwhile", [one.is_taken(VAIN / 2) for one in (second, third)], [False, False])
            first.socket.close()
            second.socket.settimeout(SECONDS)
            same("what the second is told", second.begin(), 5)
            second.send(messages(6, 2) + b"x\n")
            second.last_lines()
            third.socket.settimeout(SECONDS)
            same("what the third is told", third.begin(), 7)
            third.send(messages(8, 1))
            same("what is taken of it", third.taken(), 8)
        until("one fault is said", lambda: len(said_of_faults(region)) == 1)


def unread(connection: socket.socket) -> int:
    """How many bytes wait to be read."""
    found = array.array("i", [0])
    fcntl.ioctl(connection, termios.FIONREAD, found)
    return found[0]


def check_deaf_publisher(program: str, folder: str) -> None:
    """A publisher that reads nothing, for so long that no more can be told it, is read on, and holds up nobody.

    Once it reads, it is told how far the region is in the end; and the next one is taken.
    """
    path, east = socket_in(folder)
    west, (_, other) = socket_in(folder, "west")
    with Staying(program, folder, [east, ("west", other)]) as region, Client(region.port) as client, Publisher(path) as deaf, Publisher(west) as publisher:
        deaf.look(), publisher.begin()
        at, told, since = 0, 0, time.monotonic()
        # The system keeps some hundred short lines for it, of which there are ten a second.
        while time.monotonic() < since + 2 * VAIN:
            at += 1
            deaf.send(messages(at, 1))
            client.wait_for(key_of(at), row_of(key_of(at), at // 100, "x"))
            time.sleep(0.05)
            if unread(deaf.socket) != told:
                told, since = unread(deaf.socket), time.monotonic()
        deaf.send(messages(at + 1, 5_000))
        last = at + 5_000
        client.wait_for(key_of(last), row_of(key_of(last), last // 100, "x"))
        publisher.send(message(1, "west", 0, "x"))
        same("what another stream's publisher is told", publisher.taken(), 1)
        same("what it reads first in the end", deaf.begin(), 0)
        while deaf.taken() != last:
            pass
        deaf.socket.close()
        wait_for_after(path, last)
        same("what is said of faults", said_of_faults(region), [])
        print(f"  {told:,} bytes were told to one that reads nothing, of {last:,} messages")


def come_and_go(path: str, at: int, has: int) -> int:
    """A publisher that goes in one of eight ways. What the region has then."""
    way, reset = at % 8, struct.pack("ii", 1, 0)
    with Publisher(path) as publisher:
        if way == 0:
            return has
        if way in (1, 2):
            same("what the region has", publisher.look(), has)
        else:
            same("what the region has", publisher.begin(), has)
        if way == 3:
            publisher.socket.setsockopt(socket.SOL_SOCKET, socket.SO_LINGER, reset)
        text = {4: b"x\n", 5: messages(has + 2, 1), 6: messages(has + 1, 3)[:-20], 7: b" " * 30_000}.get(way, messages(has + 1, 1))
        publisher.send(text)
        if way in (4, 5):
            same("how many lines a fault has", len(publisher.last_lines()), 1)
        return has + {4: 0, 5: 0, 6: 2, 7: 0}.get(way, 1)


def check_many_publishers(program: str, folder: str) -> None:
    """Ten thousand publishers come and go, each in one of eight ways: neither a descriptor nor memory is left of them."""
    path, east = socket_in(folder)
    with Staying(program, folder, [east]) as region:
        has = 0
        for at in range(WARM):
            has = come_and_go(path, at, has)
        before = region.rest("before most of them")
        start = time.monotonic()
        for at in range(MANY):
            has = come_and_go(path, at, has)
        took = time.monotonic() - start
        print(f"  {MANY:,} publishers in {took:.1f} s")
        region.same_rest(before, "once they have gone", LEAK_KB)


def check_listens_at_once(program: str, folder: str) -> None:
    """Streams whose FIFO or socket has no publisher yet hold up neither the listening nor the other streams."""
    path, east = socket_in(folder)
    silent = os.path.join(folder, "silent")
    os.mkfifo(silent)
    west, pipe = fifo(folder, "west")
    with Staying(program, folder, [("silent", silent), east, ("west", west)]) as region, Client(region.port) as client, pipe:
        same("what is there at first", client.read("k"), {"row": None})
        pipe.write(message(1, "k", 1, "x"))
        client.wait_for("k", row_of("k", 1, "x"))
        written_by(path, message(1, "k", 2, "x"), 0)
        client.wait_for("k", row_of("k", 2, "x"))
        with open(silent, "wb", buffering=0) as late:
            late.write(message(1, "k", 3, "x"))
            client.wait_for("k", row_of("k", 3, "x"))
        same("what is said of faults", said_of_faults(region), [])
