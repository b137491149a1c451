"""The feed of PostgreSQL, against a server of the tests' own, and at a region's socket, with rows that are forgotten."""

from __future__ import annotations

import re
import signal
import threading
import time
import unittest

from . import resuming
from .postgres_server import Fault, Server, server_of
from .support import feed, image, wanted


class Postgres(unittest.TestCase):
    """One server for all tests, and an outbox for each."""

    server: Server

    @classmethod
    def setUpClass(cls) -> None:
        cls.server = server_of(cls)

    def setUp(self) -> None:
        self.server.make()
        self.words = ("postgres-outbox", "--database", self.server.database, "outbox")

    def test_all_from_the_first_and_what_comes_later(self) -> None:
        self.server.add(1, 300)
        with feed(*self.words) as running:
            running.wait_for(300)
            self.server.add(301, 5)
            running.wait_for(305)
            self.assertEqual(running.lines, wanted(305))

    def test_the_order_is_that_of_the_transactions(self) -> None:
        # More than ten transactions, whose numbers would be sorted otherwise as texts; and one of an earlier number that commits late.
        slow = self.server.connection()
        with feed(*self.words) as running:
            with slow.cursor() as cursor:
                cursor.execute("INSERT INTO outbox (image) VALUES (%s)", (image(1).decode(),))
            self.server.add(2, 120)
            self.assertEqual(running.lines, [])
            slow.commit()
            running.wait_for(121)
            self.assertEqual(running.lines, wanted(121))
        slow.close()

    def test_a_table_that_is_no_outbox(self) -> None:
        self.server.do("CREATE TABLE plain (id integer)")
        with feed(*self.words[:-1], "plain") as running:
            status, said = running.ended()
            self.assertEqual((status, running.lines), (2, []))
            self.assertRegex(said, "^postgres-outbox: the table plain is no outbox: [^\n]+\n$")

    def test_rows_that_are_rolled_back(self) -> None:
        connection = self.server.connection()
        with connection.cursor() as cursor:
            cursor.execute("INSERT INTO outbox (image) VALUES ('{')")
        connection.rollback()
        connection.close()
        self.server.add(1, 3)
        with feed(*self.words) as running:
            running.wait_for(3)
            self.assertEqual(running.lines, wanted(3))

    def test_stops_and_crashes(self) -> None:
        with feed(*self.words) as running:
            for first, mode in ((1, "fast"), (101, "immediate"), (201, "fast")):
                adding = threading.Thread(target=self.server.add, args=(first, 100))
                adding.start()
                running.wait_for(first + 20)
                adding.join()
                self.server.stop(mode)
                self.server.start()
            running.wait_for(300)
            self.assertEqual(running.lines, wanted(300))

    def test_rows_that_are_deleted_or_changed(self) -> None:
        self.server.add(1, 3)
        for statement in ("DELETE FROM outbox", "TRUNCATE outbox", "UPDATE outbox SET image = ''"):
            with self.subTest(statement), self.assertRaises(Fault):
                self.server.do(statement)

    def test_a_beginning_that_is_gone(self) -> None:
        self.server.add(1, 3)
        self.server.do("ALTER TABLE outbox DISABLE TRIGGER outbox_keeps_rows; DELETE FROM outbox WHERE id < 2")
        with feed(*self.words) as running:
            status, said = running.ended()
            self.assertEqual((status, running.lines), (1, []))
            self.assertIn("no longer has its head", said)

    def test_an_outbox_that_was_made_anew(self) -> None:
        self.server.add(1, 3)
        with feed(*self.words) as running:
            running.wait_for(3)
            self.server.make()
            self.server.add(1, 4)
            status, said = running.ended()
            self.assertEqual((status, running.lines), (1, wanted(3)))
            self.assertRegex(said, "another one than before|is gone")

    def test_an_outbox_that_is_not_there_yet(self) -> None:
        self.server.do("DROP TABLE outbox; DROP FUNCTION outbox_keeps_rows, outbox_forget")
        with feed(*self.words) as running:
            self.server.make()
            self.server.add(1, 2)
            running.wait_for(2)
            self.assertEqual(running.lines, wanted(2))

    def test_a_body_that_is_no_json(self) -> None:
        self.server.add(1, 1)
        self.server.do("INSERT INTO outbox (image) VALUES ('{')")
        with feed(*self.words) as running:
            status, said = running.ended()
            self.assertEqual(status, 1)
            self.assertIn("message 2 is no line of JSON", said)

    def test_a_region_that_goes(self) -> None:
        self.server.add(1, 3)
        with feed(*self.words) as running:
            running.wait_for(3)
            running.go()
            self.assertEqual(running.ended(), (0, ""))


class Unused(unittest.TestCase):
    """Words alone."""

    def test_no_server(self) -> None:
        with feed("postgres-outbox", "--database", "host=/nowhere user=pn", "outbox") as running:
            running.go()
            status, said = running.ended()
            self.assertEqual(status, 0)
            self.assertIn("waiting for the broker", said)


class PostgresResuming(resuming.Resuming):
    """A feed of PostgreSQL that begins where its region is."""

    server: Server

    @classmethod
    def setUpClass(cls) -> None:
        cls.server = server_of(cls)

    def setUp(self) -> None:
        self.server.make()
        self.words = ("postgres-outbox", "--database", self.server.database, "outbox")

    def fill(self, first: int, count: int) -> None:
        """See `resuming.Resuming`."""
        self.server.fill(first, count)

    def add_body(self, body: bytes) -> None:
        """See `resuming.Resuming`."""
        self.server.ask("INSERT INTO outbox (image) VALUES (%s) RETURNING id", body.decode())

    def id_of(self, position: int) -> str:
        """See `resuming.Resuming`."""
        xid, identity = self.server.ask("SELECT o.xid::text, id FROM outbox o ORDER BY o.xid, id OFFSET %s LIMIT 1", position)[0]
        return f"the row of xid {xid}, id {identity} of the table outbox"

    def test_rows_that_all_regions_have(self) -> None:
        self.fill(1, 5_000)
        self.assertEqual(self.server.forget(3_000, 2_000, 5_000), 2_000)
        self.assertEqual(self.server.forget(1_999), 2_000)
        self.assertEqual(self.server.ask("SELECT count(*) FROM outbox")[0][0], 3_001)
        for has in (2_000, 2_001, 3_000, 5_000):
            with self.subTest(has), self.region(has) as region, self.feed(region) as program:
                self.wait_for(region, program, 5_000)
                self.assertEqual(region.again, 0)
        self.assertEqual(self.server.forget(5_000), 5_000)
        with self.region(5_000) as region, self.feed(region) as program:
            self.fill(5_001, 3)
            self.wait_for(region, program, 5_003)
            self.assertEqual(region.again, 0)

    def test_rows_that_go_while_they_are_read(self) -> None:
        self.fill(1, 3_000)
        with self.region(slow=True) as region, self.feed(region) as program:
            for count in range(3_000, 8_000, 1_000):
                self.wait_for(region, program, count - 2_000)
                self.server.forget(region.has)
                self.fill(count + 1, 1_000)
            self.wait_for(region, program, 8_000)
            self.assertEqual(region.again, 0)
        self.assertGreater(self.server.forget(1), 4_000)

    def test_rows_that_a_region_still_wants(self) -> None:
        self.fill(1, 1_000)
        self.server.forget(900)
        for has in (0, 1, 899):
            with self.subTest(has), self.region(has) as region, self.feed(region) as program:
                status, said = program.ended()
                self.assertEqual((status, region.has), (1, has))
                self.assertIn(f"wants position {has + 1} of the table outbox, which begins at position 901", said)
                self.assertIn("from copies", said)

    def test_rows_that_go_before_a_region_that_reads_has_them(self) -> None:
        self.fill(1, 10)
        with self.region() as region, self.feed(region) as program:
            self.wait_for(region, program, 10)
            program.signal(signal.SIGSTOP)
            self.fill(11, 10)
            self.server.forget(16)
            program.signal(signal.SIGCONT)
            status, said = program.ended()
            self.assertEqual((status, region.has), (1, 10))
            self.assertIn("wants position 11 of the table outbox, which begins at position 17", said)

    def test_what_is_not_forgotten(self) -> None:
        self.fill(1, 10)
        for taken in ([11], [], [None], [3, None]):
            with self.subTest(taken), self.assertRaises(Fault):
                self.server.ask("SELECT outbox_forget(VARIADIC %s::bigint[])", taken)
        self.assertEqual(self.server.forget(0, 5), 0)
        self.server.forget(5)
        for statement in ("DELETE FROM outbox", "TRUNCATE outbox", "UPDATE outbox SET image = ''"):
            with self.subTest(statement), self.assertRaises(Fault):
                self.server.do(statement)
        self.assertEqual(self.server.ask("SELECT count(*) FROM outbox")[0][0], 6)

    def test_a_row_whose_transaction_is_open(self) -> None:
        self.fill(1, 3)
        slow = self.server.connection()
        with slow.cursor() as cursor:
            cursor.execute("INSERT INTO outbox (image) VALUES (%s)", (image(4).decode(),))
        self.fill(5, 3)
        with self.assertRaises(Fault):
            self.server.forget(4)
        self.assertEqual(self.server.forget(3), 3)
        with self.region(3) as region, self.feed(region) as program:
            time.sleep(0.5)
            slow.commit()
            self.wait_for(region, program, 7)
            self.assertEqual(region.again, 0)
        slow.close()

    def test_a_row_that_is_mended(self) -> None:
        self.fill(1, 2)
        self.add_body(b"{")
        self.fill(4, 3)
        with self.region() as region, self.feed(region) as program:
            said = program.ended()[1]
            found = re.search(r"message 3 is no line of JSON: .*; it is the row of xid (\d+), id (\d+) of the table outbox\n", said)
            assert found is not None
            mended = f"UPDATE outbox SET image = '{image(3).decode()}' WHERE xid = '{found[1]}' AND id = {found[2]}"
            with self.assertRaises(Fault):
                self.server.do(mended)
            self.server.do(f"BEGIN; SET LOCAL outbox.forgets = 'yes'; {mended}; COMMIT")
            with self.feed(region) as anew:
                self.wait_for(region, anew, 6)

    def test_a_head_that_is_a_name_alone(self) -> None:
        self.fill(1, 10)
        self.server.do("ALTER TABLE outbox DISABLE TRIGGER outbox_keeps_rows; UPDATE outbox SET image = gen_random_uuid() WHERE id = 0")
        with self.region(4) as region, self.feed(region) as program:
            self.wait_for(region, program, 10)
            self.assertEqual(region.again, 0)

    def test_stops_and_crashes_at_a_socket(self) -> None:
        with self.region() as region, self.feed(region) as program:
            for first, mode in ((1, "fast"), (101, "immediate"), (201, "fast")):
                self.server.add(first, 100)
                self.wait_for(region, program, first + 20)
                self.server.stop(mode)
                self.server.start()
            self.wait_for(region, program, 300)
            self.assertEqual(region.again, 0)
