"""Images of records for brokers: made as regions take them, with versions that a database counts in the transaction of the change."""

from __future__ import annotations

import json
import re
from collections.abc import Callable, Mapping
from typing import Any

from .records import Version

MASTER, TABLE = re.compile(r"[a-z0-9-]{1,32}"), re.compile(r"[A-Za-z_][A-Za-z0-9_]*(\.[A-Za-z_][A-Za-z0-9_]*)?")
LARGEST, NUMBERS = 10**15, range(-(2**63), 2**63)
KEY_BYTES, FIELDS, NAME_BYTES, TEXT_BYTES, ALL_BYTES, NUMBER_BYTES = 256, 64, 64, 4096, 8192, 20
Send = Callable[[bytes], object]


class BadImage(ValueError):
    """What no region takes: it would end the stream at the message."""

    def __init__(self, member: str, why: str) -> None:
        super().__init__(f"{member}: {why}")
        self.member = member
        """Which member of the image it is, as regions name it, or `fields.NAME`."""


def image(key: str, version: tuple[int, int], fields: Mapping[str, str | int] | None, master: str) -> bytes:
    """A record with these fields, or one that was deleted (None), as a line without a newline. Raises BadImage."""
    _check_text("key", key, 1, KEY_BYTES)
    if not isinstance(master, str) or not MASTER.fullmatch(master):
        raise BadImage("master", f"{master!r} is not 1 to 32 of a to z, 0 to 9 and -")
    generation, number = version
    if type(generation) is not int or type(number) is not int or not (1 <= generation <= LARGEST and 0 <= number <= LARGEST):
        raise BadImage("version", f"{version!r} is not a generation from 1 on and a number, both up to {LARGEST}")
    told: dict[str, object] = {"key": key, "master": master, "version": [generation, number]}
    if fields is None:
        told["deleted"] = True
    else:
        _check_fields(fields)
        told["fields"] = dict(fields)
    return json.dumps(told, ensure_ascii=False, separators=(",", ":"), sort_keys=True).encode()


def _check_fields(fields: Mapping[str, str | int]) -> None:
    if len(fields) > FIELDS:
        raise BadImage("fields", f"{len(fields)} of them, where at most {FIELDS} are taken")
    size = 0
    for name, value in fields.items():
        size += _check_text("fields", name, 1, NAME_BYTES)
        if isinstance(value, str):
            size += _check_text(f"fields.{name}", value, 0, TEXT_BYTES)
        elif type(value) is int and value in NUMBERS:
            size += NUMBER_BYTES
        else:
            raise BadImage(f"fields.{name}", f"{value!r} is no text, and no whole number of 64 bits")
    if size > ALL_BYTES:
        raise BadImage("fields", f"{size} bytes together, where at most {ALL_BYTES} are taken")


def _check_text(member: str, text: object, least: int, most: int) -> int:
    """How many bytes a text has."""
    if not isinstance(text, str):
        raise BadImage(member, f"{text!r} is no text")
    try:
        size = len(text.encode())
    except UnicodeEncodeError as fault:
        raise BadImage(member, f"{text!r} has half a character") from fault
    if not least <= size <= most:
        raise BadImage(member, f"{size} bytes, where {least} to {most} are taken")
    return size


class Outbox:
    """Versions and images that wait for a broker, in two tables of the database that has the records: PostgreSQL, or SQLite from 3.35 on.

    `tell` writes into both in the transaction that changes a record, and `publish` gives to the broker what was committed. An image may
    reach the broker again, and in another order, where a producer ends or several run: regions take the greatest version.
    """

    def __init__(self, name: str = "pnuts", mark: str = "%s") -> None:
        """The tables are NAME_versions and NAME_images. `mark` stands for a value in the database's statements: `?` for sqlite3."""
        if not TABLE.fullmatch(name) or mark not in ("%s", "?"):
            raise ValueError(f"no name of tables, or no mark: {name!r}, {mark!r}")
        self._versions, self._images, self._mark = f"{name}_versions", f"{name}_images", mark

    def create(self, cursor: Any) -> None:
        """Makes the tables, where they are not there."""
        columns = "record_key text PRIMARY KEY, generation bigint NOT NULL, number bigint NOT NULL, live smallint NOT NULL"
        cursor.execute(f"CREATE TABLE IF NOT EXISTS {self._versions} ({columns})")
        identity = "bigserial PRIMARY KEY" if self._mark == "%s" else "integer PRIMARY KEY AUTOINCREMENT"
        cursor.execute(f"CREATE TABLE IF NOT EXISTS {self._images} (id {identity}, image text NOT NULL)")

    def tell(self, cursor: Any, key: str, fields: Mapping[str, str | int] | None, master: str) -> Version:
        """Writes the image of a record that has these fields now, or is deleted (None). Answers its version. Raises BadImage.

        A record that was deleted begins the next generation. Others who change the same record wait for the transaction.
        """
        image(key, (1, 0), fields, master)
        live, mark = int(fields is not None), self._mark
        cursor.execute(
            f"""INSERT INTO {self._versions} AS old (record_key, generation, number, live) VALUES ({mark}, 1, 0, {live})
            ON CONFLICT (record_key) DO UPDATE SET generation = old.generation + 1 - old.live,
            number = CASE WHEN old.live = 1 THEN old.number + 1 ELSE 0 END, live = {live} RETURNING generation, number""",
            (key,),
        )
        version = Version(*cursor.fetchall()[0])
        line = image(key, version, fields, master).decode()
        cursor.execute(f"INSERT INTO {self._images} (image) VALUES ({mark})", (line,))
        return version

    def publish(self, connection: Any, send: Send, most: int = 1000) -> int:
        """Gives images that wait to `send`, which returns once the broker has each for good, and forgets them. How many there were."""
        cursor = connection.cursor()
        cursor.execute(f"SELECT id, image FROM {self._images} ORDER BY id LIMIT {int(most)}")
        rows, sent = cursor.fetchall(), list[tuple[int]]()
        try:
            for identity, line in rows:
                send(line.encode())
                sent.append((identity,))
        finally:
            cursor.executemany(f"DELETE FROM {self._images} WHERE id = {self._mark}", sent)
            connection.commit()
        return len(rows)
