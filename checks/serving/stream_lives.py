"""Publishers of a stream's socket that go in the middle, the next ones, and random ones beside a plain model: checks of `checks/run streams`."""
import contextlib
import json
import random
import socket
import tempfile
import time
from collections.abc import Callable, Iterable, Iterator
from dataclasses import dataclass

from common.served import SECONDS, Client, Json, same, written
from serving.controlled import Publisher, failed, said_of_faults, socket_in, wait_for_after, written_by
from serving.staying import Beside, Staying, messages, pages, replayed, until, watch
from serving.stream_faults import faults_at, line_of

MESSAGES, CUTS, CLIENTS = 20_000, 1_000, 32
KILLED, STREAMS, OF_EACH = 60, 16, 2_000
HALVES, OF_HALF = 100, 500
# How many turns of publishers there are, and of how many a minute is told.
TURNS, TOLD = 1_000, 60
WORDS = ["--bounds", '["k030","k060"]', "--workers", "2"]
WRITERS, LIVES, MOST, BACK, JUNK = 1_000, 50, 30, 30, 400_000
# Lives that are tried each time, by their seeds.
KEPT = [list(range(LIVES))]
KEYS, VERSIONS = 40, 200
SEPARATORS, ENDS = [(",", ":"), (", ", ": "), (" ,\t", " :  ")], [b"\n", b"\n", b"\r\n", b" \n"]
PARTS, LONG = [1, 3, 10, 100, 1_000, 100_000], 5_000
# What a stream leaves of a key: the greatest version, and its contents.
Records = dict[str, tuple[int, set[str]]]


def first_of(number: int, after: int, rng: random.Random) -> int:
    """Where a publisher begins: mostly with what the region does not have, often before that, and now and then with all."""
    if number % 20 == 0:
        return 1
    return rng.randint(1, after + 1) if number % 3 == 0 else after + 1


def go_at(path: str, number: int, after: int, text: bytes, starts: list[int], rng: random.Random) -> int:
    """A publisher that goes in the middle of a stream, at the cut of a number. How many messages of the stream are whole then."""
    line = after + rng.randint(0, 2 * MESSAGES // CUTS)
    begin, end = starts[min(line, MESSAGES)], starts[min(line + 1, MESSAGES)]
    # Lines are cut everywhere, from before their first byte to before their newline.
    cut = begin + number % (end - begin) if end > begin else begin
    with Publisher(path) as publisher:
        # One that has not read what the region said leaves a reset connection.
        same(f"what the region has at cut {number}", publisher.look() if number % 2 else publisher.begin(), after)
        publisher.send(text[starts[first_of(number, after, rng) - 1] : cut])
    return min(line, MESSAGES)


def starts_of(text: bytes) -> list[int]:
    """Where each line begins, and where the last one ends."""
    starts = [0]
    for line in text.splitlines(keepends=True):
        starts.append(starts[-1] + len(line))
    return starts


def check_thousand_cuts(program: str, folder: str) -> None:
    """A stream is cut a thousand times, in lines and between, and the next publisher comes at once: the region says what it has, and has all in the end.

    Another stream loads meanwhile, and 32 clients read: nobody is shown an older version.
    """
    rng = random.Random(1)
    path, east = socket_in(folder)
    streams = {"east": messages(1, MESSAGES), "west": messages(1, MESSAGES // 2, "y")}
    text, starts = streams["east"], starts_of(streams["east"])
    told = [east, ("west", written(folder, "west", streams["west"]))]
    with Staying(program, folder, told, *WORDS) as region, Beside(watch, region.port, CLIENTS), Client(region.port) as client:
        after = 0
        for number in range(CUTS):
            after = go_at(path, number, after, text, starts, rng)
        with Publisher(path) as publisher:
            same("what the region has after all", publisher.begin(), after)
            publisher.send(text[starts[after] :])
            wanted = replayed(program, streams, *WORDS)
            until("the records are those of a replay", lambda: list(pages(client)) == wanted)
        same("what is said of faults", said_of_faults(region), [])
        print(f"  {CUTS} publishers went, the last one after {after:,} messages; {len(wanted)} records of {MESSAGES:,} are there")


def write_slowly(is_over: Callable[[], bool], path: str, text: bytes) -> None:
    """Writes a stream from where the region is, in parts of any size."""
    starts, rng = starts_of(text), random.Random()
    with Publisher(path) as publisher:
        left = memoryview(text)[starts[publisher.begin()] :]
        while left:
            part = rng.randint(1, 2_000)
            publisher.send(left[:part])
            left = left[part:]
            time.sleep(0.0005)
        while not is_over():
            time.sleep(0.01)


@contextlib.contextmanager
def killed_again_and_again(path: str, text: bytes, times: int) -> Iterator[None]:
    """Publishers that are killed, one after another, while the next one waits already or comes at once. The last one is left."""
    with contextlib.ExitStack() as stay:
        publisher = stay.enter_context(Beside(write_slowly, path, text))
        for at in range(times):
            time.sleep(random.random() * 0.05)
            if at % 2:
                before, publisher = publisher, stay.enter_context(Beside(write_slowly, path, text))
                time.sleep(0.01)
                before.kill()
            else:
                publisher.kill()
                publisher = stay.enter_context(Beside(write_slowly, path, text))
        yield


def check_killed_publishers(program: str, folder: str) -> None:
    """Sixty publishers are killed while they write, and the next one waits already or comes at once: in the end all is there."""
    path, east = socket_in(folder)
    streams = {"east": messages(1, MESSAGES)}
    with Staying(program, folder, [east], *WORDS) as region, Beside(watch, region.port, CLIENTS), Client(region.port) as client:
        with killed_again_and_again(path, streams["east"], KILLED):
            wanted = replayed(program, streams, *WORDS)
            until("the records are those of a replay", lambda: list(pages(client)) == wanted)
        same("what is said of faults", said_of_faults(region), [])


def check_sixteen_streams(program: str, folder: str) -> None:
    """Sixteen streams by sockets, whose publishers go in turn in the middle of a line, have all records in the end."""
    named = {f"s{at:02}": socket_in(folder, f"s{at:02}") for at in range(STREAMS)}
    streams = {name: messages(1, OF_EACH, name) for name in named}
    starts = {name: starts_of(text) for name, text in streams.items()}
    with Staying(program, folder, [told for _, told in named.values()], *WORDS) as region, contextlib.ExitStack() as stay:
        stay.enter_context(Beside(watch, region.port, CLIENTS))
        publishers = {name: Publisher(path) for name, (path, _) in named.items()}
        for part in range(1, 11):
            whole = part * OF_EACH // 10
            for name, (path, _) in named.items():
                after = publishers[name].begin()
                same(f"what the region has of {name}", after, whole - OF_EACH // 10)
                publishers[name].send(streams[name][starts[name][after] : starts[name][whole] + (30 if part < 10 else 0)])
                if part < 10:
                    publishers[name].socket.close()
                    publishers[name] = Publisher(path)
        client = stay.enter_context(Client(region.port))
        wanted = replayed(program, streams, *WORDS)
        until("the records are those of a replay", lambda: list(pages(client)) == wanted)
        for publisher in publishers.values():
            publisher.socket.close()
        same("what is said of faults", said_of_faults(region), [])


def last_taken(path: str, after: int) -> int:
    """A publisher that ends its side once it has sent messages. The last position that it is told."""
    with Publisher(path) as publisher:
        same("what the region has", publisher.begin(), after)
        publisher.send(messages(after + 1, OF_HALF))
        publisher.socket.shutdown(socket.SHUT_WR)
        told = after
        while line := publisher.line():
            told = json.loads(line)["taken"]
        return told


def check_half_closed_publishers(program: str, folder: str) -> None:
    """A hundred publishers that end their side with their last message: each is told in the end that all of it was taken."""
    path, east = socket_in(folder)
    with Staying(program, folder, [east], *WORDS):
        for after in range(0, HALVES * OF_HALF, OF_HALF):
            same("what a publisher is told last", last_taken(path, after), after + OF_HALF)


def check_turns_that_are_told(program: str, folder: str) -> None:
    """Of a thousand publishers that come and go within a minute sixty are told, and then that the last one has gone."""
    path, east = socket_in(folder)
    ended, begun = b"pnuts: stream east ended\n", b"pnuts: stream east begins again\n"
    with Staying(program, folder, [east]) as region:
        start = time.monotonic()
        for at in range(TURNS):
            written_by(path, messages(at + 1, 1), at)
        wait_for_after(path, TURNS)
        most = TOLD * (1 + int(time.monotonic() - start) // 60)
        said = region.said()
        same("whether few are told", (said.count(ended) <= most, said.count(begun) <= most), (True, True))
        until("the last end is told", lambda: region.said().endswith(ended), 2 * SECONDS)
        written_by(path, messages(TURNS + 1, 1), TURNS)
        until("a later turn is told", lambda: region.said().endswith(begun + ended))


def image_at(at: int) -> Json:
    """The image at a position, which is the same each time."""
    rng = random.Random(at)
    found: Json = {"key": f"k{rng.randrange(KEYS)}", "master": rng.choice("we"), "version": [1, rng.randrange(VERSIONS)]}
    body: Json = {"deleted": True} if rng.random() < 0.1 else {"fields": {"v": rng.choice("xyz") * rng.randint(0, 40)}}
    return found | body


def message_at(at: int) -> bytes:
    rng = random.Random(-at)
    return json.dumps({"at": at, "image": image_at(at)}, separators=rng.choice(SEPARATORS)).encode() + rng.choice(ENDS)


def sorted_json(content: object) -> str:
    return json.dumps(content, sort_keys=True)


def records_of(last: int) -> Records:
    """What the messages up to a position leave."""
    records: Records = {}
    for image in map(image_at, range(1, last + 1)):
        number = image["version"][1]
        before, contents = records.get(str(image["key"]), (-1, set()))
        content = sorted_json({name: image[name] for name in ("deleted", "fields", "master") if name in image})
        if number >= before:
            records[str(image["key"])] = (number, {content} | (contents if number == before else set()))
    return records


@dataclass
class Life:
    """What a publisher sends, the reason that it is told and said, and the last position that the region has then."""

    text: bytes
    reason: bytes | None
    said: bytes | None
    after: int


def random_life(rng: random.Random, has: int) -> Life:
    """A publisher's messages in step from any position that it may begin at, and then half a line, a fault, or its end."""
    count = rng.choice([0, rng.randint(1, MOST)])
    first = rng.choice([has + 1, rng.randint(max(1, has - BACK), has + 1), 1 if has < 10 * BACK else has])
    wanted = first + count if count else has + 1
    text = b"".join(map(message_at, range(first, first + count)))
    after, way = max(has, wanted - 1), rng.random()
    if way < 0.2:
        return Life(text + message_at(wanted)[: rng.randint(0, 40)].rstrip(b"\r\n"), None, None, after)
    if way < 0.5:
        fault, told, why = rng.choice(faults_at(wanted))
        behind = rng.choice([b"", message_at(wanted), b" " * rng.randint(0, JUNK)])
        return Life(text + fault + behind, line_of({"at": wanted, **told}), failed("east", wanted, count + 1, why), after)
    if way < 0.7:
        got = rng.choice([at for at in (1, first, wanted - 1, wanted + 1, wanted + MOST, 10**15) if at > (0 if count else has + 1) and at != wanted])
        told = {"at": wanted, "error": "out-of-step", "got": got} if count else {"error": "gap", "got": got, "wanted": wanted}
        why = f"out-of-step, got {got}" if count else f"gap, got {got}, wanted {wanted}"
        return Life(text + message_at(got), line_of(told), failed("east", wanted, count + 1, why), after)
    return Life(text, None, None, after)


def pieces_of(rng: random.Random, text: bytes) -> Iterable[bytes]:
    at = 0
    while at < len(text):
        size = rng.choice(PARTS) if len(text) < LONG else JUNK
        yield text[at : at + size]
        at += size


def live(rng: random.Random, path: str, has: int, life: Life) -> None:
    """Sends what a publisher sends. Some hear the region out, and some go at once."""
    with Publisher(path) as publisher:
        begins = rng.random() < 0.5
        if begins:
            same("what the region has", publisher.begin(), has)
        with contextlib.suppress(ConnectionError):
            for piece in pieces_of(rng, life.text):
                publisher.send(piece)
        if life.reason is None and rng.random() < 0.5:
            return
        if not begins:
            same("what the region has", publisher.begin(), has)
        with contextlib.suppress(OSError):
            publisher.socket.shutdown(socket.SHUT_WR)
        same("what a publisher is told", publisher.last_lines(), [life.reason] if life.reason else [])


def live_on(program: str, folder: str, lives: Iterable[int]) -> None:
    """Publishers of these seeds, one after another, at a region of their own; 0 is none."""
    path, east = socket_in(folder)
    has, said = 0, list[bytes]()
    with Staying(program, folder, [east], "--bounds", '["k2"]') as region, Client(region.port) as client:
        for rng in map(random.Random, filter(None, lives)):
            life = random_life(rng, has)
            live(rng, path, has, life)
            has = life.after
            said += [life.said] if life.said else []
        with Publisher(path) as publisher:
            same("what the region has after all", publisher.begin(), has)
        until(f"all {len(said)} faults are said", lambda: len(said_of_faults(region)) >= len(said))
        same("what is said", said_of_faults(region), said)
        for key, (number, contents) in records_of(has).items():
            row = client.read(key)["row"]
            same(f"the version of {key}", row["version"], [1, number])
            same(f"the contents of {key}", sorted(map(sorted_json, row["contents"])), sorted(contents))


def check_random_publishers(program: str, cases: int | None, seed: int) -> None:
    """A thousand random publishers, fifty after one another: each is told what a plain model says, and what they leave is what it says, too."""
    from common.drawn import seeds, try_drawn
    def agree(lives: list[int]) -> None:
        with tempfile.TemporaryDirectory() as folder:
            live_on(program, folder, lives)

    try_drawn(agree, seeds(LIVES), (cases or WRITERS) // LIVES, seed, KEPT)
