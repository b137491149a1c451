"""What the tests need: a running region, a server that does as it is told, the vectors, regions of these, and a proxy that cuts connections."""

from __future__ import annotations

import json
import os
import random
import socket
import socketserver
import ssl
import subprocess
import tempfile
import threading
import time
from collections.abc import Callable, Iterator, Mapping, Sequence
from contextlib import contextmanager, suppress
from pathlib import Path
from typing import Any


TOP = Path(__file__).resolve().parents[3]
PROGRAM = os.environ.get("PNUTS", str(TOP / "crates/pnuts/out/pnuts"))
Images = Mapping[str, Sequence[Mapping[str, Any]]]


def vectors(name: str) -> Any:
    """The vectors of a file."""
    return json.loads((TOP / "clients/vectors" / f"{name}.json").read_text(encoding="utf-8"))


def image(key: str, version: tuple[int, int] = (1, 0), **fields: str) -> dict[str, Any]:
    """An image of a record."""
    return {"fields": fields, "key": key, "master": "w", "version": list(version)}


def free_port() -> int:
    """A port that nobody listens on."""
    with socket.create_server(("127.0.0.1", 0)) as server:
        port: int = server.getsockname()[1]
        return port


@contextmanager
def region(
    streams: Images, *, sessions: int = 1, port: int | None = None, bounds: Sequence[str] = (), words: Sequence[str] = ()
) -> Iterator[int]:
    """A region that has taken the streams, and its port. It is killed at the end, whatever it does."""
    where = free_port() if port is None else port
    with tempfile.TemporaryDirectory() as folder:
        line = [PROGRAM, "serve", f"--port={where}", f"--sessions={sessions}", f"--bounds={json.dumps(list(bounds))}", *words]
        for name, images in streams.items():
            path = Path(folder) / name
            lines = [json.dumps({"at": at, "image": it}) + "\n" for at, it in enumerate(images, start=1)]
            path.write_text("".join(lines), encoding="utf-8")
            line.append(f"{name}={path}")
        program = subprocess.Popen(line, stdout=subprocess.PIPE, stderr=subprocess.DEVNULL, text=True)
        try:
            assert program.stdout is not None
            assert program.stdout.readline() == f"listening on 127.0.0.1:{where}\n"
            yield where
        finally:
            program.kill()
            program.communicate()


@contextmanager
def fake(*serves: Callable[[socket.socket], None], tls: ssl.SSLContext | None = None) -> Iterator[int]:
    """A server whose first connection is served by the first function, and so on, and its port."""

    def serve() -> None:
        for each in serves:
            try:
                plain = server.accept()[0]
                with plain if tls is None else tls.wrap_socket(plain, server_side=True) as connection:
                    each(connection)
            except OSError:
                pass

    with socket.create_server(("127.0.0.1", 0)) as server:
        thread = threading.Thread(target=serve, daemon=True)
        thread.start()
        yield server.getsockname()[1]
        server.close()


def replies(*lines: str, end: bool = False) -> Callable[[socket.socket], None]:
    """Answers each line that comes with the next of these; then ends the connection, or waits for the client to."""

    def serve(connection: socket.socket) -> None:
        asked = connection.makefile("rb")
        for line in lines:
            if not asked.readline():
                return
            connection.sendall(line.encode())
        if not end:
            asked.read()

    return serve


def rate(reads: int, work: Callable[[], object]) -> float:
    """How many reads a second, the best of three."""
    best = 0.0
    for _ in range(3):
        begin = time.perf_counter()
        work()
        best = max(best, reads / (time.perf_counter() - begin))
    return best


PIECE = 4096


class Proxy(socketserver.ThreadingTCPServer):
    """Gives each connection on to a port. With `most`, it cuts each one after at most that number of bytes of replies."""

    daemon_threads = True
    request_queue_size = 100

    def __init__(self, port: int) -> None:
        super().__init__(("127.0.0.1", 0), _Connection)
        self.port = port
        self.most = 0
        # Whether it lets anybody through, and how many connections it has cut.
        self.is_open = True
        self.cuts = 0
        self._random = random.Random(7)
        self._sockets: set[socket.socket] = set()
        threading.Thread(target=self.serve_forever, args=(0.01,), daemon=True).start()

    @property
    def address(self) -> str:
        """Where it is."""
        return f"tcp://127.0.0.1:{self.server_address[1]}"

    def allowance(self) -> int:
        """How many bytes the next connection gets, if it is cut at all."""
        return self._random.randrange(1, self.most) if self.most else 0

    def shut(self) -> None:
        """Cuts all connections, and lets nobody through any more."""
        self.is_open = False
        for each in list(self._sockets):
            self.shutdown_request(each)

    def process_request(self, request: Any, client_address: Any) -> None:
        """Takes a connection."""
        self._sockets.add(request)
        super().process_request(request, client_address)

    def handle_error(self, request: Any, client_address: Any) -> None:
        """A connection that ended is none."""

    def close(self) -> None:
        """Ends it."""
        self.shut()
        self.shutdown()
        self.server_close()


class _Connection(socketserver.BaseRequestHandler):
    server: Proxy

    def handle(self) -> None:
        if not self.server.is_open:
            return
        with socket.create_connection(("127.0.0.1", self.server.port)) as region:
            asking = threading.Thread(target=_pass_on, args=(self.request, region), daemon=True)
            asking.start()
            left = self.server.allowance()
            while data := region.recv(PIECE):
                if 0 < left <= len(data):
                    self.server.cuts += 1
                    self.request.sendall(data[:left])
                    break
                left -= len(data) if left else 0
                self.request.sendall(data)
            self.server.shutdown_request(self.request)
            asking.join()


def _pass_on(source: socket.socket, target: socket.socket) -> None:
    with suppress(OSError):
        while data := source.recv(PIECE):
            target.sendall(data)
        target.shutdown(socket.SHUT_WR)


Table = list[dict[str, Any]] | None


def plain(line: Any) -> Any:
    """A line without the members that say what holds without them."""
    if isinstance(line, dict):
        members = {name: plain(member) for name, member in line.items()}
        return {name: member for name, member in members.items() if member is not None and (name, member) != ("limit", 100) and member != []}
    return line


class Region(socketserver.ThreadingTCPServer):
    """A region whose table changes. What it is asked beside that is kept in `unknown`."""

    daemon_threads = True
    allow_reuse_address = True

    def __init__(self) -> None:
        super().__init__(("127.0.0.1", 0), _Session)
        self.table: Table = None
        # How often its connections were ended.
        self.ends = 0
        self.unknown: list[Any] = []
        self._sockets: set[Any] = set()
        threading.Thread(target=self.serve_forever, args=(0.01,), daemon=True).start()

    @property
    def address(self) -> str:
        """Where it is."""
        return f"tcp://127.0.0.1:{self.server_address[1]}"

    def become(self, table: Table) -> None:
        """Answers by another table from now on. Without one all connections end."""
        self.table = table
        if table is None:
            self.end_all()

    def end_all(self) -> None:
        """Ends all connections."""
        self.ends += 1
        for each in list(self._sockets):
            self.shutdown_request(each)

    def process_request(self, request: Any, client_address: Any) -> None:
        """Begins a session."""
        self._sockets.add(request)
        super().process_request(request, client_address)

    def handle_error(self, request: Any, client_address: Any) -> None:
        """A connection that ended is none."""

    def close(self) -> None:
        """Ends it."""
        self.end_all()
        self.shutdown()
        self.server_close()


class _Session(socketserver.StreamRequestHandler):
    server: Region

    def handle(self) -> None:
        ends = self.server.ends
        while self.server.table is not None:
            line = self.rfile.readline()
            if not line or self.server.ends != ends:
                return
            self.wfile.write(self._reply(json.loads(line)).encode())

    def _reply(self, line: Any) -> str:
        for entry in self.server.table or ():
            if plain(entry["line"]) == plain(line):
                return "".join(f"{text}\n" for text in (json.dumps(entry["reply"]), *entry.get("text", ())))
        self.server.unknown.append(line)
        return '{"error":"unknown"}\n'
