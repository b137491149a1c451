"""Scripts whose keys rise, a leaf's worth and more at a time, beside others that fall among them. The replies have to be those of a
plain, slow program (checks/replies/slow.py).

  checks/run rising-keys PROGRAM [--cases N] [--seed S]

Tables take such keys leaf by leaf. In between, keys come again, come in the middle and are deleted; tablets are lost, and change
their bounds.
"""
import json
import random
import subprocess
from itertools import zip_longest

from common.served import same
from replies.slow import slow_replies
from replies.slow_lines import Json

# How many scripts there are, and some that are tried each time: without lines, and with a few.
SCRIPTS, KEPT = 300, [(0, [0] * 6), (1, [1, 2, 3, 4, 5, 6])]
STREAMS, MASTERS, CONTENTS = "ew", "wx", "abc"
# How many keys come at once: fewer than a leaf holds, as many, and more.
COUNTS = [1, 5, 30, 63, 64, 65, 100, 200, 400]
KEYS = 3_000
LAST = [{"do": "scan", "query": {"limit": 1000}}, {"do": "tablets"}, {"do": "notices", "since": 0}]


def key_of(number: int) -> str:
    return f"k{number:05}"


class Rising:
    """A random script: the seed of its bounds, and those of its lines, of which 0 is none."""

    def __init__(self, seed: int, lines: list[int]) -> None:
        self.random, self.seeds = random.Random(seed), lines
        self.top = 0
        self.taken = dict.fromkeys(STREAMS, 0)
        self.bounds = self.any_bounds()

    def any_bounds(self) -> list[str]:
        return sorted(key_of(number) for number in self.random.sample(range(KEYS), self.random.choice([0, 0, 1, 3, 5])))

    def image(self, key: str) -> Json:
        held: Json = {"deleted": True} if self.random.random() < 0.05 else {"fields": {"v": self.random.choice(CONTENTS)}}
        return {**held, "key": key, "master": self.random.choice(MASTERS), "version": [1, self.random.choice([0, 0, 0, 1, 2])]}

    def delivery(self, keys: list[str]) -> Json:
        stream = self.random.choice(STREAMS)
        first = self.taken[stream] + 1
        self.taken[stream] += len(keys)
        return {"do": "deliver", "batches": [{"first": first, "images": [self.image(key) for key in keys], "stream": stream}]}

    def rising(self) -> list[str]:
        """Keys that come after all others."""
        step, first = self.random.choice([1, 2]), self.top
        numbers = range(first, first + step * self.random.choice(COUNTS), step)
        self.top = numbers[-1] + 1
        keys = [key_of(number) for number in numbers]
        if self.random.random() < 0.3:
            self.random.shuffle(keys)
        return keys

    def known(self) -> str:
        return key_of(self.random.randrange(self.top + 1))

    def seeded(self, seed: int) -> Json:
        self.random.seed(seed)
        return self.line()

    def line(self) -> Json:
        kind = self.random.random()
        if kind < 0.45:
            return self.delivery(self.rising())
        if kind < 0.6:
            return self.delivery([self.known() for _ in range(self.random.choice([1, 3, 70, 150]))])
        if kind < 0.68:
            known = self.known()
            return self.delivery([f"{known}x{number:03}" for number in range(self.random.choice([10, 64, 130]))])
        if kind < 0.78:
            return {"do": self.random.choice(["lose", "copy"]), "tablet": self.random.randint(0, len(self.bounds))}
        if kind < 0.82:
            return {"do": "relayout", "bounds": self.any_bounds()}
        if kind < 0.92:
            return {"do": "scan", "query": {"after": self.known(), "limit": self.random.choice([1, 64, 100, 1000])}}
        return {"do": "get", "keys": [self.known() for _ in range(20)]}

    def lines(self) -> bytes:
        lines = [*map(self.seeded, filter(None, self.seeds)), *LAST]
        return b"".join(json.dumps(line, separators=(",", ":")).encode() + b"\n" for line in lines)


def check_rising_keys(program: str, cases: int | None, seed: int) -> None:
    """All replies are those of the slow program."""
    from common.drawn import SEEDS, seeds, st, try_drawn
    def agree(drawn: tuple[int, list[int]]) -> None:
        script = Rising(*drawn)
        bounds, lines = script.bounds, script.lines()
        words = [program, "replay", "--workers", str(1 + drawn[0] % 3), *(["--bounds", json.dumps(bounds)] if bounds else [])]
        found = subprocess.run(words, input=lines, capture_output=True, check=True).stdout.splitlines()
        for at, (reply, wanted) in enumerate(zip_longest(found, slow_replies(lines, bounds).splitlines())):
            same(f"reply {at + 1}", reply, wanted)

    try_drawn(agree, st.tuples(SEEDS, seeds(22, 6)), cases or SCRIPTS, seed, KEPT)
