"""Stops a built program by a signal and lets it go on, in each state of each kind of connection: none is ended by that.

  checks/run signals PROGRAM [CHECK ..]
"""
import contextlib
import json
import os
import signal
import socket
import subprocess
import time

from common.served import SECONDS, Client, Served, message, piped, row_of, same, written
from serving.controlled import Publisher, Session, made, region_in, said_of_faults, socket_in
from serving.staying import CHUNK, KEYS, PAGE, Staying, key_of, messages, until
from serving.staying_clients import deaf_client
from serving.stream_fifos import opens, wait_for

# How often a program is stopped, and for how long.
TIMES, STOPPED = 4, 0.03
READ, MARKS = b'{"do":"read","key":"k001"}\n', b'{"do":"marks"}\n'
NO_ROW = b'{"row":null}\n'


def state_of(process: int) -> str:
    with open(f"/proc/{process}/stat") as file:
        return file.read().rpartition(")")[2].split()[0]


def interrupt(process: int) -> None:
    """Stops a process and lets it go on, some times: each call in which its threads wait is interrupted."""
    for _ in range(TIMES):
        os.kill(process, signal.SIGSTOP)
        until("it is stopped", lambda: state_of(process) == "T")
        time.sleep(STOPPED)
        os.kill(process, signal.SIGCONT)
        time.sleep(STOPPED)


def check_control_sessions(program: str, folder: str) -> None:
    """Control sessions that asked nothing yet, that asked, have half a line, wait for a change, have half of a copy, or take no replies."""
    with region_in(folder, program) as (region, control, path), contextlib.ExitStack() as stay:
        with Publisher(path) as publisher:
            publisher.begin()
            publisher.send(messages(1, 300))
            until("it has all", lambda: publisher.taken() == 300)
        new, asked, half, waits, adopts, deaf = (stay.enter_context(Session(control)) for _ in range(6))
        marks = b'{"marks":{"east":300}}\n'
        same("marks before", asked.ask(MARKS), marks)
        copy = asked.copy(0)
        half.send(MARKS[:7])
        number = asked.told(do="notices", since=10**18)["next"]
        waits.send(b'{"do":"notices","since":%d,"wait":60}\n' % number)
        adopts.send(b'{"do":"adopt","lines":%d}\n' % copy.count(b"\n") + copy[:100])
        deaf.socket.setblocking(False)
        with contextlib.suppress(BlockingIOError):
            for _ in range(10_000):
                deaf.socket.send(PAGE * 10)
        time.sleep(0.2)
        interrupt(region.process.pid)
        same("one that asked nothing before", new.ask(MARKS), marks)
        same("one that had asked", asked.ask(MARKS), marks)
        same("one that had half a line", half.ask(MARKS[7:]), marks)
        same("one that had half of a copy", adopts.ask(copy[100:]), b'{"adopted":0}\n')
        same("one that waited", json.loads(waits.line())["next"] > number, True)
        deaf.socket.settimeout(SECONDS)
        same("one that took nothing", [len(deaf.line()) for _ in range(50)], [len(deaf.line())] * 50)
        same("one that comes then", Session(control).ask(MARKS), marks)


def check_clients(program: str, folder: str) -> None:
    """Clients over TCP and a Unix socket that asked nothing yet, that asked, have half a line, or take no replies; and those that come then."""
    east = [("east", written(folder, "east", messages(1, KEYS)))]
    for words in (list[str](), ["--socket", f"{folder}/clients"], ["--idle", "30"]):
        with Staying(program, folder, east, *words) as region, contextlib.ExitStack() as stay:
            def connect() -> socket.socket:
                if "--socket" in words:
                    client = stay.enter_context(socket.socket(socket.AF_UNIX))
                    client.connect(words[1])
                else:
                    client = stay.enter_context(socket.create_connection(("127.0.0.1", region.port)))
                client.settimeout(SECONDS)
                return client

            new, asked, half, deaf = (connect() for _ in range(4))
            until("the record is there", lambda: answer(asked, READ) != NO_ROW)
            row = answer(asked, READ)
            half.sendall(READ[:9])
            deaf.setblocking(False)
            with contextlib.suppress(BlockingIOError):
                for _ in range(10_000):
                    deaf.send(PAGE * 10)
            time.sleep(0.2)
            interrupt(region.process.pid)
            for what, client, line in (("asked nothing before", new, READ), ("had asked", asked, READ), ("had half a line", half, READ[9:]),
                                       ("comes then", connect(), READ)):
                same(f"one that {what}, with {words}", answer(client, line), row)
            deaf.settimeout(SECONDS)
            same(f"one that took nothing, with {words}", deaf.recv(CHUNK)[:9], b'{"next":n')


def answer(client: socket.socket, line: bytes) -> bytes:
    client.sendall(line)
    return client.recv(CHUNK)


def check_sessions_that_end(program: str, folder: str) -> None:
    """Sessions without --stay, with and without --idle, that asked nothing yet, that asked, have half a line, or take no replies; and one
    that is not there yet."""
    east = [("east", written(folder, "east", messages(1, KEYS)))]
    for words in (list[str](), ["--idle", "30"]):
        with Served(program, east, 5, words) as served, contextlib.ExitStack() as stay:
            new, asked, half = (stay.enter_context(Client(served.port)) for _ in range(3))
            deaf = stay.enter_context(deaf_client(served.port))
            asked.wait_for("k001", row_of("k001", 0, "x"))
            half.send(READ[:9])
            with contextlib.suppress(BlockingIOError):
                for _ in range(10_000):
                    deaf.send(PAGE * 10)
            time.sleep(0.2)
            interrupt(served.process.pid)
            for what, client in (("asked nothing before", new), ("had asked", asked), ("comes then", stay.enter_context(Client(served.port)))):
                same(f"one that {what}, with {words}", client.read("k001"), {"row": row_of("k001", 0, "x")})
                client.end()
            half.send(READ[9:])
            same(f"one that had half a line, with {words}", json.loads(half.reply()), {"row": row_of("k001", 0, "x")})
            half.end()
            deaf.settimeout(SECONDS)
            same(f"one that took nothing, with {words}", deaf.recv(CHUNK)[:9], b'{"next":n')
            deaf.close()
            same(f"how it ends with {words}", served.end(), (0, b"served 5\n", b""))


def check_publishers(program: str, folder: str) -> None:
    """Publishers of sockets and FIFOs that wrote nothing yet, that wrote, have half a message, or wait for their turn; and streams whose publisher
    is not there yet, or has gone."""
    (late, far), (at, east), (silent, north) = made(folder, "far"), socket_in(folder), socket_in(folder, "north")
    path, west = made(folder, "west")
    with Staying(program, folder, [east, west, far, north]) as region, Client(region.port) as client, contextlib.ExitStack() as stay:
        until("it has opened the FIFO", lambda: opens(path))
        pipe = stay.enter_context(open(path, "wb", buffering=0))
        publisher, quiet = stay.enter_context(Publisher(at)), stay.enter_context(Publisher(silent))
        same("what it has", [publisher.begin(), quiet.begin()], [0, 0])
        waits, half = stay.enter_context(Publisher(at)), messages(3, 1)
        pipe.write(message(1, "west", 1, "x") + message(2, "west", 2, "x")[:30])
        publisher.send(messages(1, 2) + half[:20])
        wait_for(client, 2)
        interrupt(region.process.pid)
        pipe.write(message(2, "west", 2, "x")[30:])
        publisher.send(half[20:])
        quiet.send(message(1, "north", 1, "x"))
        with open(late, "wb", buffering=0) as first:
            first.write(message(1, "far", 1, "x"))
            for name, number in (("west", 2), ("north", 1), ("far", 1)):
                client.wait_for(name, row_of(name, number, "x"))
        wait_for(client, 3)
        publisher.socket.close()
        same("what the one that waited is told", waits.begin(), 3)
        region.wait_for_words(b"pnuts: stream far ended\n")
        interrupt(region.process.pid)
        waits.send(messages(4, 1))
        with open(late, "wb", buffering=0) as second:
            second.write(message(2, "far", 2, "x"))
            client.wait_for("far", row_of("far", 2, "x"))
        wait_for(client, 4)
        same("what is said of faults", said_of_faults(region), [])


def check_nobody(program: str, folder: str) -> None:
    """Programs at whose sockets nobody is yet accept all that come then; a script that waits for a line is answered."""
    with region_in(folder, program) as (region, control, path):
        interrupt(region.process.pid)
        with Client(region.port) as client, Session(control) as session, Publisher(path) as publisher:
            same("a client", client.read(key_of(1)), {"row": None})
            same("a control session", session.ask(MARKS), b'{"marks":{}}\n')
            same("a publisher", publisher.begin(), 0)
    with Served(program, [("east", os.devnull)]) as served:
        interrupt(served.process.pid)
        with Client(served.port) as client:
            same("a session", client.read("k"), {"row": None})
            client.end()
        same("how it ends", served.end(), (0, b"served 1\n", b""))
    with subprocess.Popen([program, "replay"], stdin=subprocess.PIPE, stdout=subprocess.PIPE, bufsize=0) as script:
        for line in (READ, READ[:9]):
            piped(script.stdin).write(line)
            time.sleep(0.1)
            interrupt(script.pid)
        piped(script.stdin).write(READ[9:])
        piped(script.stdin).close()
        same("a script", [piped(script.stdout).read(), script.wait(SECONDS)], [NO_ROW * 2, 0])


def check_copies(program: str, folder: str) -> None:
    """A text of copies that comes slowly, and streams that are read without --stay, are read to their ends."""
    path, stream = os.path.join(folder, "copies"), os.path.join(folder, "east")
    text = b'{"copy":1,"from":null,"to":null}\n{"at":5,"stream":"east"}\n{"end":1}\n'
    os.mkfifo(path)
    os.mkfifo(stream)
    line = [program, "serve", "--sessions", "1", "--socket", f"{folder}/clients", "--copies", path, f"east={stream}"]
    with subprocess.Popen(line, stdout=subprocess.PIPE, stderr=subprocess.PIPE) as served, contextlib.ExitStack() as stay:
        stay.callback(served.kill)
        with open(path, "wb", buffering=0) as copies:
            copies.write(text[:40])
            time.sleep(0.1)
            interrupt(served.pid)
            copies.write(text[40:])
        with open(stream, "wb", buffering=0) as east:
            same("the first line", piped(served.stdout).readline()[:13], b"listening on ")
            east.write(messages(1, 7)[:300])
            time.sleep(0.1)
            interrupt(served.pid)
            east.write(messages(1, 7)[300:])
        client = stay.enter_context(socket.socket(socket.AF_UNIX))
        client.connect(f"{folder}/clients")
        client.settimeout(SECONDS)
        until("all is taken", lambda: answer(client, b'{"do":"read","key":"k007"}\n') != NO_ROW)
        client.close()
        same("how it ends", [*served.communicate(timeout=SECONDS), served.returncode], [b"served 1\n", b"", 0])
