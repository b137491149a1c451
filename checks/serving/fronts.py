"""The front for HTTP, and clients of it: what the checks of `checks/run http-front` share."""
import contextlib
import functools
import http.client
import json
import os
import re
import signal
import socket
import ssl
import subprocess
import tempfile
from collections.abc import Iterator

from common.crates import TOP
from common.parts import needs
from common.served import SECONDS, Json, free_port, memory, same
from serving.controlled import region_in
from serving.staying import Staying, until

HTTP = TOP / "http"
NEEDS = needs("go", "gofmt", "curl", "openssl")
CHUNK = 1 << 16
PAIR = ["-x509", "-newkey", "ec", "-pkeyopt", "ec_paramgen_curve:prime256v1", "-nodes", "-days", "2", "-subj", "/CN=127.0.0.1",
        "-addext", "subjectAltName=IP:127.0.0.1"]


@functools.cache
def built() -> str:
    """The front, which is built once for all checks. It is gone with this process."""
    folder = tempfile.TemporaryDirectory()
    built_in.append(folder)
    path = os.path.join(folder.name, "pnuts-http")
    subprocess.run(["go", "build", "-o", path, "."], cwd=HTTP, env={**os.environ, "CGO_ENABLED": "0"}, check=True)
    return path


built_in: list[tempfile.TemporaryDirectory[str]] = []


def certified(folder: str) -> tuple[str, str]:
    """A certificate for this machine, and its key."""
    certificate, key = os.path.join(folder, "certificate.pem"), os.path.join(folder, "key.pem")
    subprocess.run(["openssl", "req", *PAIR, "-keyout", key, "-out", certificate], stderr=subprocess.DEVNULL, check=True)
    return certificate, key


class Front:
    """A front with these words, until the block ends. What it says and what it logs go to files."""

    def __init__(self, folder: str, *words: str, port: int | None = None, scheme: str = "http") -> None:
        self.port = port or free_port()
        self.address, self.scheme = f"127.0.0.1:{self.port}", scheme
        self.said_at, self.logged_at = (os.path.join(folder, f"front-{it}-{self.port}") for it in ("said", "logged"))
        with open(self.said_at, "wb") as said, open(self.logged_at, "ab") as logged:
            line = [built(), "--listen", self.address, *words]
            self.process = subprocess.Popen(line, stdin=subprocess.DEVNULL, stdout=logged, stderr=said)

    def __enter__(self) -> "Front":
        until("the front listens", lambda: "listening" in self.said() or self.process.poll() is not None)
        same("whether it runs", (self.process.poll(), self.said()), (None, f"pnuts-http: listening on {self.address}\n"))
        return self

    def __exit__(self, *_: object) -> None:
        self.process.kill()
        self.process.wait()

    @property
    def url(self) -> str:
        return f"{self.scheme}://{self.address}"

    def said(self) -> str:
        with open(self.said_at, encoding="utf-8") as file:
            return file.read()

    def logged(self) -> list[Json]:
        with open(self.logged_at, encoding="utf-8") as file:
            return [json.loads(line) for line in file]

    def memory(self) -> int:
        """Its resident memory, in KB."""
        return memory(self.process.pid)

    def metric(self, name: str) -> float:
        found = re.search(rf"^pnuts_http_{name} (\S+)$", self.asked("/metrics")[1], re.MULTILINE)
        return float(found[1]) if found else 0.0

    def asked(self, path: str) -> tuple[int, str]:
        """The status and the text of an answer, on a connection of its own."""
        with contextlib.closing(http.client.HTTPConnection(self.address, timeout=SECONDS)) as connection:
            connection.request("GET", path)
            answer = connection.getresponse()
            return answer.status, answer.read().decode()

    def connect(self, receive: int | None = None) -> socket.socket:
        """A connection, which may keep few bytes that were not taken."""
        client = socket.socket()
        if receive:
            client.setsockopt(socket.SOL_SOCKET, socket.SO_RCVBUF, receive)
        client.settimeout(SECONDS)
        client.connect(("127.0.0.1", self.port))
        return client

    def stop(self, seconds: float) -> None:
        """Stops it, and looks at how it ends."""
        self.process.send_signal(signal.SIGTERM)
        same("its status", self.process.wait(timeout=seconds), 0)


@contextlib.contextmanager
def front_in(program: str, folder: str, *words: str) -> Iterator[tuple[Front, Staying, str]]:
    """A front of a region and of its changes, the region, and the path of its stream's socket."""
    with region_in(folder, program) as (region, control, path):
        with Front(folder, *words, "--control", f"unix:{control}", f"tcp://127.0.0.1:{region.port}") as front:
            until("its changes are followed", lambda: front.metric("ranges_not_followed") == 0)
            yield front, region, path


class Stream:
    """A stream of changes, whose events are read."""

    def __init__(self, front: Front, last: str = "", receive: int | None = None) -> None:
        self.socket = front.connect(receive)
        head = f"GET /changes HTTP/1.1\r\nHost: {front.address}\r\nAccept: text/event-stream\r\n"
        self.socket.sendall(f"{head}{f'Last-Event-ID: {last}{chr(13)}{chr(10)}' if last else ''}\r\n".encode())
        self.rest = b""

    def __enter__(self) -> "Stream":
        return self

    def __exit__(self, *_: object) -> None:
        self.socket.close()

    def until(self, text: bytes) -> bytes:
        """What comes up to a text."""
        while text not in self.rest:
            part = self.socket.recv(CHUNK)
            if not part:
                raise ConnectionError(f"the stream ended: {self.rest[-200:]!r}")
            self.rest += part
        found, _, self.rest = self.rest.partition(text)
        return found + text


def curl(*words: str) -> tuple[int, str, str]:
    """The status, the head and the body that curl has of an answer."""
    ran = subprocess.run(["curl", "--silent", "--show-error", "--max-time", str(SECONDS), "--include", *words], capture_output=True, text=True)
    same(f"what curl {' '.join(words)} says", (ran.returncode, ran.stderr), (0, ""))
    head, _, body = ran.stdout.partition("\n\n") if "\r" not in ran.stdout else ran.stdout.partition("\r\n\r\n")
    return int(head.split()[1]), head, body


def header(head: str, name: str) -> str:
    found = re.search(rf"^{name}: (.*?)\r?$", head, re.MULTILINE | re.IGNORECASE)
    return found[1] if found else ""


class Frames:
    """A connection of HTTP/2, whose frames are sent and read one by one."""

    DATA, HEADERS, SETTINGS = 0, 1, 4
    WHOLE, HEAD_ALONE = 5, 4

    def __init__(self, front: Front, certificate: str, window: int) -> None:
        context = ssl.create_default_context(cafile=certificate)
        context.set_alpn_protocols(["h2"])
        self.socket = context.wrap_socket(front.connect(), server_hostname="127.0.0.1")
        same("the protocol", self.socket.selected_alpn_protocol(), "h2")
        # Each stream may have this number of bytes before the client takes some.
        self.socket.sendall(b"PRI * HTTP/2.0\r\n\r\nSM\r\n\r\n" + self.frame(self.SETTINGS, 0, 0, b"\0\4" + window.to_bytes(4, "big")))
        self.host, self.rest = front.address, b""

    def __enter__(self) -> "Frames":
        return self

    def __exit__(self, *_: object) -> None:
        self.socket.close()

    @staticmethod
    def frame(kind: int, flags: int, stream: int, payload: bytes) -> bytes:
        return len(payload).to_bytes(3, "big") + bytes([kind, flags]) + stream.to_bytes(4, "big") + payload

    def get(self, stream: int, path: str) -> None:
        self.ask(stream, self.WHOLE, {":method": "GET", ":path": path})

    def post(self, stream: int, path: str) -> None:
        """Asks without the body that should follow."""
        self.ask(stream, self.HEAD_ALONE, {":method": "POST", ":path": path, "content-type": "application/json"})

    def ask(self, stream: int, flags: int, pairs: dict[str, str]) -> None:
        """Sends a head whose names and values are written as they are."""
        texts = (bytes([len(it)]) + it.encode() for pair in ({":scheme": "https", ":authority": self.host} | pairs).items() for it in pair)
        block = b"".join(b"\0" + name + value for name, value in zip(texts, texts))
        self.socket.sendall(self.frame(self.HEADERS, flags, stream, block))

    def next(self) -> tuple[int, int, int, bytes]:
        """The next frame: its kind, flags and stream, and what it has."""
        while len(self.rest) < 9 or len(self.rest) < 9 + int.from_bytes(self.rest[:3], "big"):
            part = self.socket.recv(CHUNK)
            if not part:
                raise ConnectionError("the connection ended")
            self.rest += part
        size = 9 + int.from_bytes(self.rest[:3], "big")
        found, self.rest = self.rest[:size], self.rest[size:]
        return found[3], found[4], int.from_bytes(found[5:9], "big"), found[9:]

    def until(self, kind: int, stream: int) -> bytes:
        """What the next frame of a kind and a stream has."""
        while (found := self.next())[0] != kind or found[2] != stream:
            pass
        return found[3]
