"""Tables of PostgreSQL that are published, each stream in a schema of its own."""

from __future__ import annotations

import json
import sys
import threading
import unittest
from pathlib import Path
from typing import Any

from .postgres_server import Fault, Server, server_of
from .support import FEEDS, feed

sys.path.insert(0, str(FEEDS.parent / "clients/python/src"))
from pnuts_client.publish import Outbox  # noqa: E402

SQL = "".join(Path(FEEDS, name).read_text(encoding="utf-8") for name in ("postgres-outbox.sql", "postgres-table.sql"))
TABLES = """
DROP TABLE IF EXISTS profiles, goods;
CREATE TABLE profiles (id text PRIMARY KEY, name text, about text);
CREATE TABLE goods (id bigint PRIMARY KEY, price int, weight numeric(8, 2), stock smallint, big bigint, sold boolean, tags text[], made timestamp, "Odd" text)
"""


class PostgresTables(unittest.TestCase):
    """Two streams of one database."""

    server: Server

    @classmethod
    def setUpClass(cls) -> None:
        cls.server = server_of(cls)

    def setUp(self) -> None:
        self.server.do(TABLES)
        for stream in ("people", "shop"):
            self.server.do(f"DROP SCHEMA IF EXISTS {stream} CASCADE; CREATE SCHEMA {stream}", f"SET search_path = {stream}; {SQL}")
        self.server.do("CALL people.publish_table('profiles', 'id')", "CALL shop.publish_table('public.goods', 'id', 'goods/', 'shop')")

    def images(self, stream: str, count: int) -> list[Any]:
        """What the feed of a stream gives, without the positions."""
        with feed("postgres-outbox", "--database", self.server.database, f"{stream}.outbox") as running:
            running.wait_for(count)
            lines = [json.loads(line) for line in running.lines]
        self.assertEqual([line["at"] for line in lines], list(range(1, count + 1)))
        return [line["image"] for line in lines]

    def test_each_stream_has_its_own(self) -> None:
        self.server.do("INSERT INTO profiles VALUES ('a', 'Ann')", "INSERT INTO goods (id, price) VALUES (1, 1500)",
                       "UPDATE profiles SET name = NULL, about = 'x'", "DELETE FROM profiles", "INSERT INTO profiles VALUES ('a', 'Anew')")
        self.assertEqual(self.images("people", 4), [
            {"fields": {"name": "Ann"}, "key": "a", "master": "postgres", "version": [1, 0]},
            {"fields": {"about": "x"}, "key": "a", "master": "postgres", "version": [1, 1]},
            {"deleted": True, "key": "a", "master": "postgres", "version": [1, 2]},
            {"fields": {"name": "Anew"}, "key": "a", "master": "postgres", "version": [2, 0]},
        ])
        self.assertEqual(self.images("shop", 1), [{"fields": {"price": 1500}, "key": "goods/1", "master": "shop", "version": [1, 0]}])
        self.assertEqual(self.server.ask("SELECT people.outbox_forget(3)")[0][0], 3)
        self.assertEqual(self.server.ask("SELECT shop.outbox_forget(1)")[0][0], 1)
        self.assertEqual([self.server.ask(f"SELECT count(*) FROM {stream}.outbox")[0][0] for stream in ("people", "shop")], [2, 1])

    def test_numbers_and_texts(self) -> None:
        self.server.do("INSERT INTO goods VALUES (-7, -1, 1.50, 3, 9223372036854775807, true, '{a,b}', '2026-11-29 12:00', 'é')")
        fields = {"Odd": "é", "big": 2**63 - 1, "made": "2026-11-29T12:00:00", "price": -1, "sold": "true", "stock": 3, "tags": '["a", "b"]', "weight": "1.50"}
        self.assertEqual(self.images("shop", 1), [{"fields": fields, "key": "goods/-7", "master": "shop", "version": [1, 0]}])

    def test_rows_that_were_there_before(self) -> None:
        self.server.do("CREATE TABLE IF NOT EXISTS old (id int PRIMARY KEY, v int)", "TRUNCATE old", "INSERT INTO old VALUES (1, 2), (2, 3)")
        self.server.do("CALL people.publish_table('old', 'id', 'old-')", "UPDATE old SET id = id")
        self.assertEqual(sorted((it["key"], it["fields"]["v"]) for it in self.images("people", 2)), [("old-1", 2), ("old-2", 3)])
        self.server.do("DROP TABLE old")

    def test_rows_that_no_region_takes(self) -> None:
        self.server.do("INSERT INTO profiles VALUES ('a')")
        long = "repeat('é', 2049)"
        for row in ("('')", f"(repeat('k', 257))", f"('b', {long})", f"('c', repeat('x', 4096), repeat('x', 4096))"):
            with self.subTest(row[:20]), self.assertRaisesRegex(Fault, "a region takes no such record"):
                self.server.do(f"INSERT INTO profiles VALUES {row}")
        for fields in ('{"a":1.5}', '{"a":9223372036854775808}', '{"a":-9223372036854775809}', '{"a":true}', '{"a":null}', '{"a":{}}', '{"":1}'):
            with self.subTest(fields), self.assertRaisesRegex(Fault, "a region takes no such record"):
                self.server.ask("SELECT people.tell('k', 'm', %s)", fields)
        many = json.dumps({f"f{at}": at for at in range(65)})
        for key, master, told in ((None, "m", "{}"), ("k", "M", "{}"), ("k", None, "{}"), ("k", "m\n", "{}"), ("k", "m", many)):
            with self.subTest((key, master)), self.assertRaisesRegex(Fault, "a region takes no such record"):
                self.server.ask("SELECT people.tell(%s, %s, %s)", key, master, told)
        least = '{"a":-9223372036854775808,"b":9223372036854775807}'
        self.assertEqual(self.server.ask("SELECT (people.tell('k', 'm-1', %s)).number", least)[0][0], 0)
        self.assertEqual(self.images("people", 2)[1]["fields"], json.loads(least))

    def test_a_role_that_changes_rows(self) -> None:
        text = (FEEDS / "README.md").read_text(encoding="utf-8").partition("\n## Tables of PostgreSQL\n")[2].partition("\n## ")[0]
        grants = [line.strip() for line in text.splitlines() if line.startswith("    GRANT ")]
        self.server.do("DROP ROLE IF EXISTS shop_app; CREATE ROLE shop_app", "GRANT ALL ON goods TO shop_app")
        change = "BEGIN; SET LOCAL ROLE shop_app; INSERT INTO goods (id) VALUES (1); UPDATE goods SET price = 1; DELETE FROM goods; COMMIT"
        with self.assertRaises(Fault):
            self.server.do(change)
        self.server.do(*(grant.replace("east", "shop") for grant in grants), change)
        self.assertEqual([it["version"] for it in self.images("shop", 3)], [[1, 0], [1, 1], [1, 2]])
        self.server.do("DROP OWNED BY shop_app; DROP ROLE shop_app")

    def test_what_is_refused(self) -> None:
        self.server.do("INSERT INTO profiles VALUES ('a', 'Ann'); CREATE TABLE IF NOT EXISTS loose (id int, other int UNIQUE)")
        for statement in ("UPDATE profiles SET id = 'b'", "TRUNCATE profiles", "CALL people.publish_table('profiles', 'name')",
                          "CALL people.publish_table('loose', 'id')", "CALL people.publish_table('loose', 'other')",
                          "CALL people.publish_table('profiles', 'nothing')", "CALL people.publish_table('profiles', 'id')"):
            with self.subTest(statement), self.assertRaises(Fault):
                self.server.do(statement)
        self.assertEqual(len(self.images("people", 1)), 1)

    def test_two_publishers_of_one_record(self) -> None:
        outbox, sent, changes, numbers = Outbox("shop.own"), list[bytes](), 50, list[int]()

        def change() -> None:
            connection = self.server.connection()
            for at in range(changes):
                with connection, connection.cursor() as cursor:
                    numbers.append(outbox.tell(cursor, "k", {"v": at}, "w").number)
            connection.close()

        connection = self.server.connection()
        with connection, connection.cursor() as cursor:
            outbox.create(cursor)
            outbox.create(cursor)
        threads = [threading.Thread(target=change) for _ in range(2)]
        for thread in threads:
            thread.start()
        for thread in threads:
            thread.join()
        self.assertEqual(outbox.publish(connection, sent.append), 2 * changes)
        self.assertEqual(outbox.publish(connection, sent.append), 0)
        connection.close()
        self.assertEqual(sorted(numbers), list(range(2 * changes)))
        self.assertEqual(sorted(json.loads(it)["version"][1] for it in sent), list(range(2 * changes)))
