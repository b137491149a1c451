"""Measures what greedy clients of a program that stays cost an honest one, a stream and its memory.

  checks/run turns PROGRAM [ROW ..] [--records N] [--seconds S]

300,000 small records, 2,000 of 4 KB, 2,000 of 64 fields, and one of 30,000 contents. One session thread: an honest client reads, a line at
a time, beside 1, 8 and 64 clients that send one kind of line without end and take all replies: `scan` (all records, and shows none), `page`
(1,000 rows of 4 KB), `copy`, `get` (100 keys), `nested` (64 KB of `[`), and scans that show none: `prefixes` (15 of 4,000 bytes), `fields`
(16 conditions, each on the last of 64 fields with long names) and `contents` (of the one record). A row says how long its reads took, at their
middle, for 999 of 1,000 of them, and at most.
`stream` says how fast a stream loads alone and beside four that scan; `deaf` what 1,024 clients cost that ask for pages and copies and
take nothing; `unread` what 200 such clients keep of 1,000 rows that are rewritten before each of them asks, where memory is limited; `scarce`
whether an honest client loses a reply where memory is limited, and whether a stream goes on.

Exit status 0 where each row is as wanted: 999 of 1,000 reads within 10 ms beside 8, and within 50 ms beside 64; the stream at least half as
fast; at most 256 MB, and of rows that are rewritten the limit of unread replies and 20 MB more; clients that have gone cost at most a fourth of
the processor time that their first replies take where they are taken.
"""
import contextlib
import json
import os
import resource
import select
import socket
import statistics
import subprocess
import tempfile
import time
from collections.abc import Callable, Iterator
from typing import NamedTuple

from common.served import AT_REST, SECONDS, Client, processor_seconds, share
from common.tried import program_parser
from serving.staying import CHUNK, Beside, Staying, raise_descriptors, until

BIG_RECORDS, BIG_TEXT = 2_000, 4_000
WIDE_RECORDS, WIDE_FIELDS, CONTENTS = 2_000, 64, 30_000
# For how many seconds the records may be read in.
LOADING = 600
GREEDY = (1, 8, 64)
WANTED_MS = {1: 10.0, 8: 10.0, 64: 50.0}
STREAMED, SCANNERS, SLOWEST = 60_000, 4, 0.5
DEAF, DEAF_BUFFER, DEAF_MB, DEAF_SHARE = 1_024, 1 << 12, 256, 0.25
LIMIT_MB, SCARCE_CLIENTS, SCARCE_READS = 700, 300, 200
# Clients that each leave rows unread which are then rewritten, and what they may cost: the limit, and more.
UNREAD, UNREAD_ROWS, UNREAD_MB, BEFORE = 200, 1_000, 64 + 20, 3
UNREAD_PAGE = b'{"do":"scan","query":{"from":"u","limit":1000}}\n'
SCAN = b'{"do":"scan","query":{"limit":1000,"where":[["eq","v","none has it"]]}}\n'
PAGE = b'{"do":"scan","query":{"from":"p","limit":1000}}\n'
COPY = b'{"do":"copy","need":{},"tablet":0}\n'
GET = b'{"do":"get","keys":[%b]}\n' % b",".join(b'"k%06d"' % (number * 37) for number in range(100))
NESTED = b"[" * 65_000 + b"\n"


def field_name(number: int) -> str:
    """A name of 64 bytes, of which only the last two tell it from others."""
    return f"{'f' * 62}{number:02}"


def scan_of(first: str, end: str, conditions: list[list[str]]) -> bytes:
    """A scan of the keys from one to another."""
    return json.dumps({"do": "scan", "query": {"from": first, "to": end, "where": conditions}}).encode() + b"\n"


LAST_FIELD = field_name(WIDE_FIELDS - 1)
PREFIXES = scan_of("p", "q", [["prefix", "v", "y" * BIG_TEXT]] * 14 + [["prefix", "v", "y" * (BIG_TEXT - 1) + "z"]])
FIELDS = scan_of("f", "g", [["has", LAST_FIELD]] * 15 + [["eq", LAST_FIELD, "none has it"]])
CONTENTS_SCAN = scan_of("c", "d", [["eq", "v", "none has it"]])
LINES = {"scan": SCAN, "page": PAGE, "copy": COPY, "get": GET, "nested": NESTED, "prefixes": PREFIXES, "fields": FIELDS, "contents": CONTENTS_SCAN}


class Row(NamedTuple):
    """A row of the table, and whether it is as wanted."""

    name: str
    told: str
    is_wanted: bool


def messages(first: int, count: int, key: str, text: str) -> bytes:
    line = b'{"at":%%d,"image":{"fields":{"v":"%b"},"key":"%b%%06d","master":"w","version":[1,%%d]}}\n' % (text.encode(), key.encode())
    return b"".join(line % (at, at, at) for at in range(first, first + count))


def images(first: int, count: int, key: str, fields: Callable[[int], dict[str, object]]) -> Iterator[bytes]:
    """Messages whose images have some fields each, all of one version. Where the key has no number in it they are of one record."""
    for index in range(count):
        image = {"fields": fields(index), "key": key.format(index), "master": "w", "version": [1, 1]}
        yield json.dumps({"at": first + index, "image": image}, sort_keys=True).encode() + b"\n"


def write_records(folder: str, records: int) -> str:
    """A stream of all records."""
    path, wide = os.path.join(folder, "east"), {field_name(number): number for number in range(WIDE_FIELDS)}
    with open(path, "wb") as file:
        file.write(messages(1, records, "k", "x"))
        file.write(messages(records + 1, BIG_RECORDS, "p", "y" * BIG_TEXT))
        at = records + BIG_RECORDS + 1
        file.writelines(images(at, WIDE_RECORDS, "f{:06}", lambda index: dict(wide)))
        file.writelines(images(at + WIDE_RECORDS, CONTENTS, "c", lambda index: {"v": f"{index:06}"}))
    return path


def wait_until_loaded(region: Staying) -> None:
    """Waits until the stream of all records is taken, however busy the machine is."""
    until("all records are there", lambda: b"stream east ended" in region.said(), LOADING)


def ask_without_end(is_over: Callable[[], bool], port: int, count: int, line: bytes, ready: "socket.socket | Quiet") -> None:
    """Clients that send a line again and again, as fast as it is taken, and take all replies."""
    poll, left = select.epoll(), dict[int, memoryview]()
    batch = line * max(1, CHUNK // len(line))
    with contextlib.ExitStack() as stay:
        clients = [stay.enter_context(socket.create_connection(("127.0.0.1", port))) for _ in range(count)]
        found = {client.fileno(): client for client in clients}
        for client in clients:
            client.setblocking(False)
            left[client.fileno()] = memoryview(batch)
            poll.register(client, select.EPOLLIN | select.EPOLLOUT | select.EPOLLET)
        answered = 0
        while not is_over():
            for number, _ in poll.poll(0.1):
                with contextlib.suppress(BlockingIOError):
                    while True:
                        left[number] = left[number][found[number].send(left[number]) :] or memoryview(batch)
                with contextlib.suppress(BlockingIOError):
                    while took := found[number].recv(1 << 18):
                        answered += took.count(b"\n")
                        ready.send(answered.to_bytes(8, "little"))


@contextlib.contextmanager
def greedy(port: int, count: int, line: bytes) -> Iterator[Callable[[], int]]:
    """Greedy clients beside, and how many lines of replies they have."""
    mine, theirs = socket.socketpair(socket.AF_UNIX, socket.SOCK_DGRAM)
    theirs.setblocking(False)
    last = [0]

    def answered() -> int:
        with contextlib.suppress(BlockingIOError):
            while True:
                last[0] = int.from_bytes(mine.recv(8, socket.MSG_DONTWAIT), "little")
        return last[0]

    with mine, theirs, Beside(ask_quietly, port, count, line, theirs):
        yield answered


def ask_quietly(is_over: Callable[[], bool], port: int, count: int, line: bytes, ready: socket.socket) -> None:
    with contextlib.suppress(ConnectionError):
        ask_without_end(is_over, port, count, line, Quiet(ready))


class Quiet:
    """A socket that drops what it has no room for."""

    def __init__(self, sends: socket.socket) -> None:
        self.sends = sends

    def send(self, text: bytes) -> None:
        with contextlib.suppress(BlockingIOError):
            self.sends.send(text)


def reads_of(port: int, seconds: float) -> list[float]:
    """How many milliseconds each of some reads took, one after another. The last is as long as it was waited for."""
    took, last = list[float](), time.monotonic() + seconds
    with Client(port) as client:
        client.socket.settimeout(max(4 * seconds, 20.0))
        while not took or time.monotonic() < last:
            start = time.perf_counter()
            with contextlib.suppress(TimeoutError):
                client.read(f"k{len(took) * 7 % 1000 + 1:06}")
            took.append((time.perf_counter() - start) * 1_000)
    return took


def told_of(took: list[float]) -> str:
    took = sorted(took)
    return f"{len(took):7,} reads  p50 {statistics.median(took):9.2f}  p99.9 {at_999(took):9.2f}  most {took[-1]:9.2f} ms"


def at_999(took: list[float]) -> float:
    return sorted(took)[min(len(took) - 1, len(took) * 999 // 1_000)]


def read_rows(region: Staying, seconds: float, names: list[str]) -> Iterator[Row]:
    """Reads alone, and beside greedy clients of each kind."""
    yield Row("alone", told_of(reads_of(region.port, seconds)), True)
    for name in names:
        for count in GREEDY:
            with greedy(region.port, count, LINES[name]) as answered:
                time.sleep(0.5)
                before, start = answered(), time.monotonic()
                took = reads_of(region.port, seconds)
                lines = (answered() - before) / (time.monotonic() - start)
            told = f"{told_of(took)}  beside {lines:9,.1f} lines a second"
            yield Row(f"{name} x {count}", told, at_999(took) <= WANTED_MS[count])
            time.sleep(1)


def stream_row(program: str, folder: str, east: str) -> Row:
    """How many messages a second go in, alone and beside clients that scan."""
    rates = []
    for number, count in enumerate((0, SCANNERS)):
        path = os.path.join(folder, f"west{number}")
        os.mkfifo(path)
        with Staying(program, folder, [("east", east), ("west", path)], threads=1) as region, contextlib.ExitStack() as stay:
            wait_until_loaded(region)
            if count:
                stay.enter_context(greedy(region.port, count, SCAN))
                time.sleep(0.5)
            start = time.monotonic()
            with open(path, "wb") as pipe:
                pipe.write(messages(1, STREAMED, "w", "z"))
            until("the stream is taken", lambda: b"stream west ended" in region.said(), 300)
            rates.append(STREAMED / (time.monotonic() - start))
    return Row("stream", f"{rates[0]:10,.0f} messages a second alone, {rates[1]:10,.0f} beside {SCANNERS} scanners", rates[1] >= SLOWEST * rates[0])


def deaf_client(port: int, line: bytes) -> socket.socket:
    """A client that asks and takes nothing, and whose own system holds little for it."""
    client = socket.socket()
    client.setsockopt(socket.SOL_SOCKET, socket.SO_RCVBUF, DEAF_BUFFER)
    client.settimeout(SECONDS)
    client.connect(("127.0.0.1", port))
    client.sendall(line * 4)
    return client


def memory_at_rest(region: Staying, seconds: float = 3) -> int:
    """Its resident memory in MB, once it has not grown for some seconds."""
    most, since = region.memory(), time.monotonic()
    while time.monotonic() - since < seconds:
        time.sleep(0.1)
        if region.memory() > most + 1_024:
            most, since = region.memory(), time.monotonic()
    return most >> 10


def taken_seconds(region: Staying, line: bytes) -> float:
    """How long a processor takes for a reply that its client takes."""
    before = processor_seconds(region.process.pid)
    with socket.create_connection(("127.0.0.1", region.port), timeout=SECONDS) as client:
        client.sendall(line)
        client.shutdown(socket.SHUT_WR)
        while client.recv(CHUNK):
            pass
    return processor_seconds(region.process.pid) - before


def deaf_row(program: str, folder: str, east: str, count: int) -> Row:
    """What clients cost that take nothing, and once they have gone: who has ended its input may still take the reply that waits for room."""
    with Staying(program, folder, [("east", east)], "--connections", "4096", threads=1, is_looked_at=False) as region:
        wait_until_loaded(region)
        before = memory_at_rest(region)
        taken = count / 2 * (taken_seconds(region, COPY) + taken_seconds(region, PAGE))
        with contextlib.ExitStack() as stay:
            for number in range(count):
                stay.enter_context(deaf_client(region.port, COPY if number % 2 else PAGE))
            grown = memory_at_rest(region) - before
            spent = processor_seconds(region.process.pid)
        until("it rests", lambda: share(region.process.pid) <= AT_REST, LOADING)
        spent = processor_seconds(region.process.pid) - spent
    told = f"{count:,} clients that take nothing cost {grown:,} MB above {before:,}, and {spent:.1f} seconds of {taken:.1f} once gone"
    return Row("deaf", told, grown <= DEAF_MB and spent <= DEAF_SHARE * taken)


def limited_region(program: str, folder: str, streams: list[tuple[str, str]]) -> Staying:
    """A region whose memory is limited."""
    soft = resource.getrlimit(resource.RLIMIT_AS)
    resource.setrlimit(resource.RLIMIT_AS, (LIMIT_MB << 20, soft[1]))
    try:
        return Staying(program, folder, streams, "--connections", "4096", threads=1)
    finally:
        resource.setrlimit(resource.RLIMIT_AS, soft)


def rewriting(turn: int) -> bytes:
    """Messages that write all rows anew."""
    line = b'{"at":%%d,"image":{"fields":{"v":"%b"},"key":"u%%06d","master":"w","version":[1,%%d]}}\n' % (b"y" * BIG_TEXT)
    return b"".join(line % (at, at % UNREAD_ROWS, at) for at in range(1 + turn * UNREAD_ROWS, 1 + (turn + 1) * UNREAD_ROWS))


def unread_row(program: str, folder: str) -> Row:
    """What clients keep that take nothing of rows which are then rewritten, and whether the stream goes on."""
    path = os.path.join(folder, "unread")
    os.mkfifo(path)
    with limited_region(program, folder, [("west", path)]) as region, contextlib.ExitStack() as stay:
        with open(path, "wb") as pipe:
            for turn in range(BEFORE):
                pipe.write(rewriting(turn))
            pipe.flush()
            before = memory_at_rest(region)
            for number in range(UNREAD):
                stay.enter_context(deaf_client(region.port, COPY if number % 2 else UNREAD_PAGE))
                pipe.write(rewriting(BEFORE + number))
                pipe.flush()
            for turn in range(BEFORE):
                pipe.write(rewriting(BEFORE + UNREAD + turn))
        goes_on = ended_within(region, b"stream west ended", LOADING)
        time.sleep(BEFORE)
        grown = (region.memory() >> 10) - before
    told = f"{UNREAD} clients keep {grown:,} MB above {before:,} of rows that are rewritten, the stream {'goes on' if goes_on else 'stopped'}"
    return Row("unread", told, grown <= UNREAD_MB and goes_on)


def scarce_row(program: str, folder: str, east: str) -> Row:
    """Whether an honest client loses replies, and a stream stops, where memory is limited."""
    path = os.path.join(folder, "scarce")
    os.mkfifo(path)
    region = limited_region(program, folder, [("east", east), ("west", path)])
    lost, refused = 0, 0
    with region, contextlib.ExitStack() as stay:
        wait_until_loaded(region)
        clients = [stay.enter_context(deaf_client(region.port, PAGE)) for _ in range(SCARCE_CLIENTS)]
        with open(path, "wb") as pipe:
            pipe.write(messages(1, STREAMED // 10, "w", "z" * 100))
            for _ in range(SCARCE_READS):
                got = asked_alone(region.port)
                lost, refused = lost + (got == b""), refused + (b"memory" in got)
            for client in clients:
                client.close()
            time.sleep(3)
        goes_on = ended_within(region, b"stream west ended", 60)
    told = f"{lost} replies lost and {refused} refused of {SCARCE_READS}, the stream {'goes on' if goes_on else 'stopped'}"
    return Row("scarce", told, lost == 0 and goes_on)


def asked_alone(port: int) -> bytes:
    """The reply to a page that a new client takes at once, or none where the connection ends."""
    with contextlib.suppress(OSError), Client(port) as client:
        client.send(PAGE)
        return client.reply()
    return b""


def ended_within(region: Staying, words: bytes, seconds: float) -> bool:
    with contextlib.suppress(TimeoutError):
        until("the words", lambda: words in region.said(), seconds)
        return True
    return False


def rows(program: str, folder: str, records: int, seconds: float, names: list[str]) -> Iterator[Row]:
    """All rows, or those of these names."""
    east, kinds = write_records(folder, records), [name for name in LINES if not names or name in names]
    if kinds:
        with Staying(program, folder, [("east", east)], threads=1) as region:
            wait_until_loaded(region)
            yield from read_rows(region, seconds, kinds)
    if not names or "stream" in names:
        yield stream_row(program, folder, east)
    if not names or "deaf" in names:
        yield deaf_row(program, folder, east, DEAF)
    if not names or "unread" in names:
        yield unread_row(program, folder)
    if not names or "scarce" in names:
        yield scarce_row(program, folder, east)


def main(words: list[str]) -> int:
    parser = program_parser(__doc__)
    parser.add_argument("rows", metavar="ROW", nargs="*", choices=[[], *LINES, "stream", "deaf", "unread", "scarce"], help="only these rows")
    parser.add_argument("--records", metavar="N", type=int, default=300_000)
    parser.add_argument("--seconds", metavar="S", type=float, default=5)
    given, failed = parser.parse_args(words), 0
    raise_descriptors()
    with tempfile.TemporaryDirectory() as folder:
        try:
            for row in rows(given.program, folder, given.records, given.seconds, given.rows):
                failed += not row.is_wanted
                print(f"{row.name:<12} {row.told}{'' if row.is_wanted else '  WRONG'}", flush=True)
        except (AssertionError, OSError, subprocess.SubprocessError) as fault:
            print(f"WRONG: {fault}")
            return 1
    return 1 if failed else 0
