"""Ways to a region: TLS, Unix sockets, and texts of addresses."""

from __future__ import annotations

import asyncio
import socket
import ssl
import subprocess
import tempfile
import threading
import unittest
from pathlib import Path

from pnuts_client import AsyncClient, Client, ConnectionFailed, Tcp, Unix, address_of

from .support import fake, replies
from .test_client import NONE


def certificate(folder: str) -> tuple[ssl.SSLContext, ssl.SSLContext]:
    """What a server for `localhost` and its client hold: a certificate that is made anew, and trust in it."""
    key, public = Path(folder) / "key.pem", Path(folder) / "certificate.pem"
    words = "openssl req -x509 -newkey ec -pkeyopt ec_paramgen_curve:prime256v1 -nodes -days 2 -subj /CN=localhost"
    alternatives = ["-addext", "subjectAltName=DNS:localhost"]
    subprocess.run([*words.split(), *alternatives, "-keyout", key, "-out", public], check=True, capture_output=True)
    server = ssl.SSLContext(ssl.PROTOCOL_TLS_SERVER)
    server.load_cert_chain(public, key)
    return server, ssl.create_default_context(cafile=str(public))


class Texts(unittest.TestCase):
    """Addresses as texts."""

    def test_texts(self) -> None:
        self.assertEqual(address_of("tcp://127.0.0.1:7071"), Tcp("127.0.0.1", 7071))
        self.assertEqual(address_of("tcp://[::1]"), Tcp("::1", 7070))
        self.assertEqual(address_of("unix:/run/pnuts.sock"), Unix("/run/pnuts.sock"))
        tls = address_of("tls://region.example")
        assert isinstance(tls, Tcp) and tls.tls is not None
        self.assertEqual((tls.host, tls.port, tls.tls.check_hostname), ("region.example", 7070, True))
        for text in ("", "7070", "http://a:1", "tcp://", "unix:", "tcp://a:1/path"):
            with self.subTest(text), self.assertRaises(ValueError):
                address_of(text)


class Tls(unittest.IsolatedAsyncioTestCase):
    """A server with a certificate for `localhost`."""

    def test_threads(self) -> None:
        with tempfile.TemporaryDirectory() as folder:
            server, trust = certificate(folder)
            with fake(replies(NONE), tls=server) as port, Client(Tcp("localhost", port, trust)) as client:
                self.assertIsNone(client.read("k"))

    async def test_asyncio(self) -> None:
        with tempfile.TemporaryDirectory() as folder:
            server, trust = certificate(folder)
            with fake(replies(NONE), tls=server) as port:
                async with AsyncClient(Tcp("localhost", port, trust)) as client:
                    self.assertIsNone(await client.read("k"))

    def test_another_name_is_refused(self) -> None:
        with tempfile.TemporaryDirectory() as folder:
            server, trust = certificate(folder)
            other = "other.example"
            with fake(replies(NONE), tls=server) as port:
                with Client(Tcp("localhost", port, trust, other), retries=0) as client:
                    with self.assertRaises(ConnectionFailed):
                        client.read("k")


class UnixSockets(unittest.IsolatedAsyncioTestCase):
    """A server behind a path."""

    async def test_both_clients(self) -> None:
        with tempfile.TemporaryDirectory() as folder:
            path = str(Path(folder) / "region")
            with socket.socket(socket.AF_UNIX) as server:
                server.bind(path)
                server.listen()
                thread = threading.Thread(target=_serve, args=(server, 2), daemon=True)
                thread.start()
                with Client(f"unix:{path}") as client:
                    self.assertIsNone(client.read("k"))
                async with AsyncClient(Unix(path)) as other:
                    self.assertIsNone(await other.read("k"))
                await asyncio.to_thread(thread.join, 10)


def _serve(server: socket.socket, connections: int) -> None:
    for _ in range(connections):
        with server.accept()[0] as connection:
            replies(NONE)(connection)
