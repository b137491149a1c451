"""Puts random scripts with their replies into crates/test_rows, in place of those that were made so before.

  checks/run random-rows N
"""
import pathlib
import random

from common.tried import parser_of
from replies.random_talks import Meeting
from replies.stored import ROWS

EVENTS = 7


def kept(path: pathlib.Path) -> bytes:
    """The scripts of a stored file that were not made at random."""
    scripts = (b"\n" + path.read_bytes()).split(b"\n## ")[1:]
    return b"\n".join(b"## " + script for script in scripts if not script.startswith(b"random-"))


def main(words: list[str]) -> int:
    parser = parser_of(__doc__)
    parser.add_argument("scripts", metavar="N", type=int, help="how many")
    count = -(-parser.parse_args(words).scripts // 3)
    meetings = (Meeting(seed, random.Random(seed).sample(range(1, 1 << 24), EVENTS), True) for seed in range(1, count + 1))
    talks = [talk for meeting in meetings for talk in meeting.talks()]
    for name, made in (("stdin", [talk.script() for talk in talks]), ("stdout", [talk.replies() for talk in talks])):
        stored = b"".join(made) + kept(ROWS / name)
        (ROWS / name).write_bytes(stored)
        print(f"crates/test_rows/{name}: {len(stored)} bytes, {len(talks)} random scripts")
    return 0
