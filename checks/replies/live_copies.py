"""Loads random streams into a region that serves, and tells a script of the same images, cut and ordered otherwise.

  checks/run live-copies PROGRAM [--cases N] [--seed S]

The copies of all tablets have to be the same text, from both.
"""
import json
import random
import subprocess
import tempfile

from common.served import SECONDS, Client, Json, Served, same, written
from replies.random_values import KEYS, LONGEST, MANY_KEYS, NAMES, Streams, bounds_of, copied, copy_line, messages, streams_of

# How many regions there are, and some that are tried each time: by the seed of all but the lengths of their streams.
REGIONS, KEPT = 100, [(0, [1]), (7, [399, 1, 399])]

def live_copies(program: str, words: list[str], streams: Streams, tablets: int) -> list[bytes]:
    """The copies of a region that serves, once it has taken its streams."""
    with tempfile.TemporaryDirectory() as folder:
        named = [(name, written(folder, name, messages(images))) for name, images in streams.items()]
        with Served(program, named, words=words) as served, Client(served.port) as client:
            return [copied(client, copy_line(tablet, streams)) for tablet in range(tablets)]


def deliveries(rng: random.Random, streams: Streams) -> list[Json]:
    """Lines that bring all images: in batches of any length, of which one may repeat what came before it."""
    left = {name: 0 for name in streams}
    lines = []
    while left:
        name = rng.choice(sorted(left))
        first = max(0, left[name] - rng.choice([0, 0, 0, 1, 7]))
        end = min(len(streams[name]), left[name] + rng.randrange(1, 90))
        lines.append({"batches": [{"first": first + 1, "images": streams[name][first:end], "stream": name}], "do": "deliver"})
        left[name] = end
        if end == len(streams[name]):
            del left[name]
    return lines


def script_copies(program: str, words: list[str], lines: list[Json], tablets: int) -> list[bytes]:
    """The copies of a script's region."""
    script = "".join(json.dumps(line) + "\n" for line in lines)
    ran = subprocess.run([program, "replay", *words], input=script.encode(), capture_output=True, timeout=SECONDS, check=True)
    replies = ran.stdout.splitlines(keepends=True)
    index = len(lines) - tablets
    copies = []
    for _ in range(tablets):
        count = json.loads(replies[index])["lines"]
        copies.append(b"".join(replies[index + 1 : index + 1 + count]))
        index += 1 + count
    return copies


def check_live_copies(program: str, cases: int | None, seed: int) -> None:
    """Regions that serve hold what scripts hold, over other layouts, of other streams, with other cuts."""
    from common.drawn import SEEDS, st, try_drawn
    def agree(drawn: tuple[int, list[int]]) -> None:
        rng = random.Random(drawn[0])
        tablets = rng.choice([1, 2, 4, 64])
        keys = MANY_KEYS if tablets == 64 else KEYS
        words = ["--bounds", json.dumps(bounds_of(rng, tablets)), "--workers", str(rng.choice([1, 2, 4, 16]))]
        streams = streams_of(rng, keys, drawn[1])
        asked = [copy_line(tablet, streams) for tablet in range(tablets)]
        wanted = script_copies(program, words, deliveries(rng, streams) + asked, tablets)
        same("the copies", live_copies(program, words, streams, tablets), wanted)

    try_drawn(agree, st.tuples(SEEDS, st.lists(st.integers(1, LONGEST - 1), min_size=1, max_size=len(NAMES))), cases or REGIONS, seed, KEPT)
