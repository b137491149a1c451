"""What clients do to the front for HTTP that wish it ill: checks of `checks/run http-front`."""
import contextlib
import random
import socket
import threading
import time

from common.served import SECONDS, rests, same, sockets
from serving.controlled import given, region_in, written
from serving.fronts import NEEDS, Frames, Front, Stream, certified, front_in
from serving.staying import messages, until

pytestmark = NEEDS

READ = b"GET /records/k001 HTTP/1.1\r\nHost: x\r\n\r\n"
PAGE = b"GET /records?limit=1000 HTTP/1.1\r\nHost: x\r\n\r\n"
GARBAGE = (b"\0" * 100, b"\x16\x03\x01\x02\x00\x01\x00\x01\xfc\x03\x03" * 20, b"GET\r\n\r\n", b"GET / HTTP/9.9\r\n\r\n", b"GET http://[::1 HTTP/1.1\r\nHost: x\r\n\r\n",
           b"GET /records/%zz HTTP/1.1\r\nHost: x\r\n\r\n", b"GET /records/k HTTP/1.1\r\nHost: x\r\nA: " + b"x" * 100_000 + b"\r\n\r\n", b"{\"do\":\"read\",\"key\":\"k\"}\n" * 50,
           b"GET /" + b"x" * 100_000 + b" HTTP/1.1\r\nHost: x\r\n\r\n", b"POST /get HTTP/1.1\r\nHost: x\r\nContent-Type: application/json\r\nContent-Length: -1\r\n\r\n",
           b"POST /get HTTP/1.1\r\nHost: x\r\nContent-Type: application/json\r\nTransfer-Encoding: chunked\r\n\r\nzz\r\n", b"PRI * HTTP/2.0\r\n\r\nSM\r\n\r\n" + b"\xff" * 50,
           b"POST /get HTTP/1.1\r\nHost: x\r\nContent-Type: application/json\r\nContent-Length: 99999999999\r\n\r\n" + b"x" * 200_000,
           b"GET /changes HTTP/1.1\r\nHost: x\r\n\r\nmore", b"OPTIONS * HTTP/1.1\r\nHost: x\r\n\r\n", b"CONNECT x:1 HTTP/1.1\r\nHost: x:1\r\n\r\n", READ * 200)
CLIENTS = 300
# How many sessions of its region a front has at most.
REGION_SESSIONS = 4


def ended(client: socket.socket, seconds: float) -> float:
    """After how long the front ends a connection."""
    start = time.monotonic()
    client.settimeout(seconds)
    with contextlib.suppress(ConnectionError):
        while client.recv(1 << 16):
            pass
    return time.monotonic() - start


def is_well(front: Front, most: float = 5.0) -> None:
    """It answers an honest client at once: on a machine that is busy, one of three times."""
    took = list[float]()
    while len(took) < 3 and min(took, default=most + 1) > most:
        start = time.monotonic()
        same("an honest read", front.asked("/records/k001")[0], 200)
        took.append(time.monotonic() - start)
    same(f"whether one of {', '.join(f'{it:.1f}' for it in took)} s is at most {most}", min(took) <= most, True)


def check_garbage(program: str, folder: str) -> None:
    """Whatever is sent, cut anywhere, is refused or answered; it goes on, and nothing is left."""
    chance = random.Random(1)
    with front_in(program, folder) as (front, _, path):
        written(path, 1, 100)
        before = sockets(front.process.pid)
        for text in GARBAGE:
            for size in (len(text), *(chance.randrange(len(text)) for _ in range(20))):
                with front.connect() as client, contextlib.suppress(ConnectionError):
                    client.sendall(text[:size])
                    if chance.random() < 0.5:
                        client.shutdown(socket.SHUT_WR)
                        client.recv(1 << 16)
            is_well(front)
        until("nothing is left", lambda: sockets(front.process.pid) <= before + REGION_SESSIONS)
        same("what it says", front.said().count("\n"), 1)


def check_slow_senders(program: str, folder: str) -> None:
    """Clients that send a byte now and then, or no more of a body, are ended within seconds; others are answered meanwhile."""
    with front_in(program, folder) as (front, _, path), contextlib.ExitStack() as stack:
        written(path, 1, 100)
        head = b"POST /get HTTP/1.1\r\nHost: x\r\nContent-Type: application/json\r\nContent-Length: 20\r\n\r\n{"
        clients = [stack.enter_context(front.connect()) for _ in range(CLIENTS)]
        start = time.monotonic()
        for at, client in enumerate(clients):
            client.sendall((b"G", head, head.replace(b"POST /get", b"GET /none"), head.replace(b"/get", b"/records/k"))[at % 4])
        while time.monotonic() < start + 5:
            for client in clients[::4]:
                client.sendall(b"x")
            is_well(front)
            same("an honest page", front.asked("/records")[0], 200)
            time.sleep(0.5)
        for client in clients:
            ended(client, SECONDS)
        took = time.monotonic() - start
        same(f"whether all were ended after {took:.0f} s", 8 < took < 40, True)


def check_slow_readers(program: str, folder: str) -> None:
    """Streams and pages whose clients take nothing are ended; the others are told all, and memory stays bounded."""
    with front_in(program, folder, "--quiet") as (front, _, path), contextlib.ExitStack() as stack:
        written(path, 1, 100)
        slow = [stack.enter_context(Stream(front, receive=4096)) for _ in range(200)]
        honest = stack.enter_context(Stream(front))
        honest.until(b"data: ")
        number, last = 101, time.monotonic() + 3 * SECONDS
        while front.metric("streams_open") > 1 and time.monotonic() < last:
            written(path, number, 5_000)
            number += 5_000
            honest.until(b'"after":[1,%d]' % ((number - 1) // 100))
        same("how many streams are left", front.metric("streams_open"), 1)
        same("how many clients were slow", front.metric("slow_total") >= len(slow), True)
        took = front.memory()
        same(f"whether {took} KB are at most 200,000", took <= 200_000, True)
        given(path, number - 1, messages(number, 100, "x" * 4_000), number + 99)
        readers = [stack.enter_context(front.connect(receive=4096)) for _ in range(10)]
        for client in readers:
            client.sendall(PAGE * 100)
        is_well(front)
        until("slow readers of pages are ended", lambda: front.metric("slow_total") >= len(slow) + len(readers), 2 * SECONDS)
        same("how many streams are left", front.metric("streams_open"), 1)


def check_flood(program: str, folder: str) -> None:
    """With fewer places than clients, each is answered in its turn; idle ones leave their places."""
    with region_in(folder, program) as (region, _, path):
        written(path, 1, 100)
        with Front(folder, "--quiet", "--connections", "50", f"tcp://127.0.0.1:{region.port}") as front:
            answered = list[bool]()

            def ask() -> None:
                for _ in range(5):
                    with front.connect() as client:
                        client.sendall(READ.replace(b"\r\n\r\n", b"\r\nConnection: close\r\n\r\n"))
                        found = b""
                        while part := client.recv(1 << 16):
                            found += part
                        answered.append(b" 200 OK" in found and found.endswith(b"]}\n"))

            clients = [threading.Thread(target=ask) for _ in range(CLIENTS)]
            for client in clients:
                client.start()
            for client in clients:
                client.join()
            same("answers", (len(answered), all(answered)), (5 * CLIENTS, True))
            with contextlib.ExitStack() as stack:
                for _ in range(50):
                    stack.enter_context(front.connect())
                time.sleep(0.5)
                is_well(front, 30.0)
            rests(front.process.pid, "after the flood")


def check_slow_reader_of_http2(program: str, folder: str) -> None:
    """In HTTP/2, a connection of which a stream takes nothing is ended, whether of records or of changes; a body that does not come is not waited for."""
    certificate, key = certified(folder)
    with region_in(folder, program) as (region, control, path):
        words = ["--certificate", certificate, "--key", key, "--control", f"unix:{control}", f"tcp://127.0.0.1:{region.port}"]
        with Front(folder, "--quiet", *words, scheme="https") as front:
            written(path, 1, 100)
            time.sleep(1)
            for asked in ("/records?limit=100", "/changes"):
                with Frames(front, certificate, 10) as client:
                    client.get(1, asked)
                    took = ended(client.socket, SECONDS)
                    same(f"whether it was ended after {took:.0f} s", 8 < took < 40, True)
            with Frames(front, certificate, 60_000) as client:
                client.post(1, "/get")
                start = time.monotonic()
                client.until(Frames.HEADERS, 1)
                took = time.monotonic() - start
                same(f"whether a body that does not come was waited for {took:.0f} s", 8 < took < 40, True)
                client.get(3, "/records/k001")
                same("another stream", b'"k001"' in client.until(Frames.DATA, 3), True)
            front.stop(SECONDS)
            same("what it says", front.said().count("\n"), 1)
