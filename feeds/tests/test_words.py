"""Words that name no broker: each feed refuses them with one line, and status 2."""

from __future__ import annotations

import subprocess
import sys
import unittest

from .support import FEEDS

WORDS = (
    ("kafka", "--brokers", "a:b:c", "east"),
    ("kafka", "--set", "nope=1", "east"),
    ("kafka", "--set", "security.protocol=ssl", "--set", "ssl.ca.location=/nowhere", "east"),
    ("postgres-outbox", "--database", "bad", "outbox"),
    ("postgres-outbox", "--database", "nope=1", "outbox"),
    ("rabbitmq-stream", "--url", "bad", "east"),
    ("rabbitmq-stream", "--url", "amqp://a:b/", "east"),
    ("redis-stream", "--url", "bad", "east"),
    ("redis-stream", "--instead", "/nowhere", "east"),
    ("redis-stream", "--url", "redis://a:b/0", "east"),
    ("redis-stream", "--url", "redis://a/0?nope=1", "east"),
)


class Words(unittest.TestCase):
    """Programs that end at once."""

    def test_words_that_name_no_broker(self) -> None:
        for words in WORDS:
            with self.subTest(words):
                ran = subprocess.run([FEEDS / words[0], *words[1:]], capture_output=True, text=True, timeout=60, check=False)
                if "missing: python3-" in ran.stderr:
                    print(ran.stderr, end="", file=sys.stderr)
                    continue
                self.assertEqual((ran.returncode, ran.stdout), (2, ""))
                self.assertRegex(ran.stderr, f"^{words[0]}: [^\n]+\n$")
