"""Sockets and FIFOs of streams whose paths are removed, renamed or made anew: checks of `checks/run streams`."""
import contextlib
import os
import socket
import stat
import time

from common.served import Client, in_time, row_of, same, seconds_of, written
from serving.controlled import Publisher, made, said_of_faults, socket_in, written_by
from serving.staying import Staying, key_of, messages, until
from serving.stream_fifos import opens, wait_for

# Within how many seconds a region listens again, and how often its path is removed.
AGAIN, TIMES = 1.0, 5
MODE = "srw-------"
# For how long a path that has something else is looked at.
WHILE = 1.5


def is_listening(path: str) -> bool:
    """Whether somebody listens at a path."""
    with contextlib.suppress(OSError), socket.socket(socket.AF_UNIX) as caller:
        caller.connect(path)
        return True
    return False


def again(path: str, idle: float, what: str) -> None:
    """Waits until a region listens at a path again, which is soon."""
    in_time(f"listening again {what}", seconds_of(lambda: until(f"it listens again {what}", lambda: is_listening(path))), AGAIN, idle)
    same(f"the socket's kind and mode {what}", stat.filemode(os.stat(path).st_mode), MODE)


def check_removed_sockets(program: str, folder: str) -> None:
    """A stream's socket whose path is removed or renamed is there again within a second, which is said, with its mode; the next publisher goes on."""
    path, east = socket_in(folder)
    with Staying(program, folder, [east]) as region, Client(region.port) as client:
        idle, has = seconds_of(lambda: client.read("k")), 0
        for at in range(TIMES):
            written_by(path, messages(has + 1, 3), has)
            has += 3
            wait_for(client, has)
            if at % 2:
                os.rename(path, f"{path}.old{at}")
            else:
                os.remove(path)
            again(path, idle, "once its path is gone")
            until("it says so", lambda: region.said().count(b"pnuts: stream east listens again at %b\n" % path.encode()) == at + 1)
        written_by(path, messages(has + 1, 1), has)
        wait_for(client, has + 1)
        same("what is said of faults", said_of_faults(region), [])


def check_a_socket_that_is_removed_under_its_publisher(program: str, folder: str) -> None:
    """A publisher whose socket's path goes is read on; the next one, which waits or comes later, is taken once it has gone."""
    path, east = socket_in(folder)
    with Staying(program, folder, [east]) as region, Client(region.port) as client:
        idle = seconds_of(lambda: client.read("k"))
        with Publisher(path) as publisher, Publisher(path) as waits:
            same("what it has", publisher.begin(), 0)
            publisher.send(messages(1, 5))
            wait_for(client, 5)
            os.remove(path)
            publisher.send(messages(6, 5))
            wait_for(client, 10)
            time.sleep(AGAIN)
            publisher.send(messages(11, 5))
            wait_for(client, 15)
            publisher.socket.close()
            waits.socket.close()
            again(path, idle, "once its publisher has gone")
        written_by(path, messages(16, 2), 15)
        wait_for(client, 17)
        same("what is said of faults", said_of_faults(region), [])


def check_a_path_of_others(program: str, folder: str) -> None:
    """Where another program's socket or a file comes to a socket's path, it stays, and it is said that the region cannot listen there; once it
    has gone, the region does. Nothing spins meanwhile."""
    path, east = socket_in(folder)
    for what in ("a file", "a socket"):
        with Staying(program, folder, [east]) as region, Client(region.port) as client, contextlib.ExitStack() as stay:
            idle = seconds_of(lambda: client.read("k"))
            written_by(path, messages(1, 3), 0)
            wait_for(client, 3)
            # In the place of the region's at one moment.
            if what == "a file":
                os.rename(written(folder, "other", b"x"), path)
            else:
                other = stay.enter_context(socket.socket(socket.AF_UNIX))
                other.bind(f"{path}.new")
                other.listen()
                os.rename(f"{path}.new", path)
            before = os.stat(path)
            until(f"it says that {what} is there", lambda: b"pnuts: cannot listen for east: %b: " % path.encode() in region.said())
            time.sleep(WHILE)
            region.rest(f"where {what} is at its path")
            same(f"whether {what} is there still", os.path.samestat(os.stat(path), before), True)
            same("how often it is said", region.said().count(b"cannot listen for east") <= 2, True)
            os.remove(path)
            again(path, idle, f"once {what} has gone")
            written_by(path, messages(4, 2), 3)
            wait_for(client, 5)


def check_fifos_made_anew(program: str, folder: str) -> None:
    """A FIFO whose path is removed and made anew is opened again, which is said, whether it has a publisher then or had one before."""
    path, east = made(folder)
    with Staying(program, folder, [east]) as region, Client(region.port) as client:
        until("it has opened the FIFO", lambda: opens(path))
        has = 0
        for at in range(TIMES):
            if at:
                with open(path, "wb", buffering=0) as pipe:
                    pipe.write(messages(has + 1, 2))
                has += 2
                wait_for(client, has)
                region.wait_for_words(b"pnuts: stream east ended\n", at)
            os.remove(path)
            time.sleep(at % 2 * WHILE)
            os.mkfifo(path)
            until("it has opened the new FIFO", lambda: opens(path))
            until("it says so", lambda: region.said().count(b"pnuts: stream east is opened again at %b\n" % path.encode()) == at + 1)
        with open(path, "wb", buffering=0) as pipe:
            pipe.write(messages(has + 1, 2))
            client.wait_for(key_of(has + 2), row_of(key_of(has + 2), 0, "x"))
        same("what is said of faults", said_of_faults(region), [])


def make_file(path: str) -> None:
    """A file with a message that is not there."""
    with open(path, "wb") as file:
        file.write(messages(50, 1))


def check_fifos_whose_paths_change(program: str, folder: str) -> None:
    """A FIFO whose path goes, or becomes a file or a folder, is read to the end of its publisher; the file is not read, nothing spins, and a FIFO
    that is there later is opened."""
    path, east = made(folder)
    with Staying(program, folder, [east]) as region, Client(region.port) as client:
        until("it has opened the FIFO", lambda: opens(path))
        for at, make in enumerate((None, make_file, os.mkdir)):
            with open(path, "wb", buffering=0) as pipe:
                pipe.write(messages(3 * at + 1, 1))
                wait_for(client, 3 * at + 1)
                os.remove(path)
                pipe.write(messages(3 * at + 2, 1))
                wait_for(client, 3 * at + 2)
                if make:
                    make(path)
                pipe.write(messages(3 * at + 3, 1))
                wait_for(client, 3 * at + 3)
            region.wait_for_words(b"pnuts: stream east ended\n", at + 1)
            time.sleep(WHILE)
            region.rest(f"where its FIFO's path is gone or another thing, made by {make}")
            same("what is there of the file", client.read(key_of(50)), {"row": None})
            if make:
                (os.rmdir if make is os.mkdir else os.remove)(path)
            os.mkfifo(path)
            until("it has opened the new FIFO", lambda: opens(path))
        with open(path, "wb", buffering=0) as pipe:
            pipe.write(messages(10, 1))
            wait_for(client, 10)
        same("what is said of faults", [line for line in said_of_faults(region) if b"cannot open" not in line], [])
