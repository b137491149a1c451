"""A server of PostgreSQL of the tests' own."""

from __future__ import annotations

import os
import subprocess
import tempfile
import unittest
from pathlib import Path
from typing import Any

from .support import FEEDS, image, needs

try:
    import psycopg2
except ImportError as fault:
    raise unittest.SkipTest("missing: python3-psycopg2") from fault

# What the server refuses.
Fault: type[Exception] = psycopg2.Error
BIN = "/usr/lib/postgresql/15/bin"


class Server:
    """A server that is reached by a Unix socket in its folder alone. Root starts it as nobody."""

    def __init__(self, folder: str) -> None:
        self._folder = folder
        self._as = ["setpriv", "--reuid=nobody", "--regid=nogroup", "--clear-groups"] if os.geteuid() == 0 else []
        os.chmod(folder, 0o777)
        self.database = f"host={folder} user=pn dbname=postgres"
        self._call("initdb", "-A", "trust", "-U", "pn", "--no-sync")
        self.start()

    def _call(self, program: str, *words: str) -> None:
        told = [*self._as, f"{BIN}/{program}", "-D", f"{self._folder}/data", *words]
        subprocess.run(told, check=True, stdout=subprocess.DEVNULL, stderr=subprocess.DEVNULL, cwd="/")

    def start(self) -> None:
        """Starts it, and waits until it answers."""
        options = f"-c listen_addresses= -c unix_socket_directories={self._folder}"
        self._call("pg_ctl", "-w", "-l", f"{self._folder}/log", "-o", options, "start")

    def stop(self, mode: str = "fast") -> None:
        """Stops it: fast, or immediate, which is as a crash is."""
        self._call("pg_ctl", "-w", "-m", mode, "stop")

    def connection(self) -> Any:
        """A new connection."""
        return psycopg2.connect(self.database)

    def do(self, *statements: str) -> None:
        """Statements, each a transaction."""
        connection = self.connection()
        connection.autocommit = True
        with connection.cursor() as cursor:
            for statement in statements:
                cursor.execute(statement)
        connection.close()

    def make(self) -> None:
        """An outbox without rows."""
        schema = Path(FEEDS, "postgres-outbox.sql").read_text(encoding="utf-8")
        self.do("DROP TABLE IF EXISTS outbox; DROP FUNCTION IF EXISTS outbox_keeps_rows, outbox_forget", schema)

    def fill(self, first: int, count: int) -> None:
        """Images, a thousand in a transaction."""
        for begin in range(first, first + count, 1_000):
            images = [image(number).decode() for number in range(begin, min(begin + 1_000, first + count))]
            connection = self.connection()
            with connection, connection.cursor() as cursor:
                cursor.execute("INSERT INTO outbox (image) SELECT unnest(%s)", (images,))
            connection.close()

    def ask(self, question: str, *values: Any) -> list[Any]:
        """The rows of an answer."""
        connection = self.connection()
        with connection, connection.cursor() as cursor:
            cursor.execute(question, values)
            rows: list[Any] = cursor.fetchall()
        connection.close()
        return rows

    def forget(self, *taken: int) -> int:
        """Deletes what regions of these positions have."""
        up_to: int = self.ask("SELECT outbox_forget(VARIADIC %s::bigint[])", list(taken))[0][0]
        return up_to

    def add(self, first: int, count: int) -> None:
        """Images, each in a transaction of its own."""
        connection = self.connection()
        connection.autocommit = True
        with connection.cursor() as cursor:
            for number in range(first, first + count):
                cursor.execute("INSERT INTO outbox (image) VALUES (%s)", (image(number).decode(),))
        connection.close()


def server_of(tests: type[unittest.TestCase]) -> Server:
    """A server that ends after all tests of a class."""
    needs(f"{BIN}/pg_ctl")
    folder = tempfile.TemporaryDirectory()
    tests.addClassCleanup(folder.cleanup)
    server = Server(folder.name)
    tests.addClassCleanup(server.stop, "immediate")
    return server
