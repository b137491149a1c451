"""What streams do where words, memory and time are short: checks of `checks/run streams`."""
import contextlib
import fcntl
import os
import re
import resource
import socket
import threading
import time
from collections.abc import Iterator

from common.served import SECONDS, Client, row_of, same
from serving.controlled import Publisher, made, said_of_faults, socket_in
from serving.staying import Staying, key_of, messages, until

# Of how many streams how many publishers are at fault: as many as are told in a minute. Each but the first of a stream gives two lines:
# more than the mailbox and a pipe of so many bytes hold.
STREAMS, AT_FAULT, PIPE = 16, 60, 4_096
DROPPED = re.compile(rb"pnuts: (\d+) lines were dropped")
MEGABYTE = 1_000_000
# How much memory a region is left with, and a message that takes some of it.
LITTLE, TEXT = MEGABYTE, b"y" * 4_000
# How many of these are more than there is memory for.
FILLED = 10 * LITTLE // len(TEXT)
BIG = b'{"at":%d,"image":{"fields":{"a":"%b","b":"%b"},"key":"big%d","master":"w","version":[1,0]}}\n'
# How long a region is looked at, and how often a second it may wake up while nothing comes: it looks at each of 16 paths twice.
LOOKED, WAKE_UPS = 3.0, 40


def read_all(handle: int, wanted: int) -> list[bytes]:
    """Reads lines until a given number has come, with those that were dropped."""
    os.set_blocking(handle, False)
    text = b""

    def counted() -> int:
        nonlocal text
        with contextlib.suppress(BlockingIOError):
            text += os.read(handle, 1 << 20)
        return sum(int(found[1]) if (found := DROPPED.fullmatch(line)) else 1 for line in text.splitlines())

    until(f"{wanted} lines are said or counted", lambda: counted() >= wanted and text.endswith(b"\n"))
    return text.splitlines()


def check_many_words(program: str, folder: str) -> None:
    """Where standard error takes no more for long, a bounded number of lines waits, and what is dropped is counted, to the line."""
    paths, streams = zip(*(socket_in(folder, f"s{at}") for at in range(STREAMS)))
    ours, theirs = os.pipe()
    fcntl.fcntl(ours, fcntl.F_SETPIPE_SZ, PIPE)
    with open(ours, "rb"), Staying(program, folder, streams, errors=theirs) as region:
        os.close(theirs)
        for path in paths * AT_FAULT:
            with Publisher(path) as publisher:
                publisher.send(b"x\n")
                same("what a publisher is told", publisher.last_lines(), [b'{"after":0}\n', b'{"at":1,"error":"not-json"}\n'])
        wanted = STREAMS * (2 * AT_FAULT - 1)
        lines = read_all(ours, wanted)
        dropped = sum(int(found[1]) for line in lines if (found := DROPPED.fullmatch(line)))
        said = sum(not DROPPED.fullmatch(line) for line in lines)
        same("how many lines are said or counted", said + dropped, wanted)
        same("whether some were dropped", dropped > 0, True)
        same("it is running", region.is_running(), True)
        print(f"  of {wanted:,} lines {dropped:,} were dropped, and counted")


@contextlib.contextmanager
def little_memory(region: Staying) -> Iterator[None]:
    """A region has little more memory than it has now, until the block ends."""
    process = region.process.pid
    with open(f"/proc/{process}/status") as file:
        now = next(int(line.split()[1]) for line in file if line.startswith("VmData")) * 1_024
    before = resource.prlimit(process, resource.RLIMIT_DATA)
    resource.prlimit(process, resource.RLIMIT_DATA, (now + LITTLE, before[1]))
    try:
        yield
    finally:
        resource.prlimit(process, resource.RLIMIT_DATA, before)


def fill(publisher: Publisher) -> None:
    """Sends more than there is memory for."""
    for at in range(1, FILLED + 1):
        publisher.send(BIG % (at, TEXT, TEXT, at))


def take_up_to(publisher: Publisher, last: int) -> None:
    """Waits until a publisher is told that all was taken up to a position."""
    while publisher.taken() < last:
        pass


def waiting_in(region: Staying) -> set[bytes]:
    """What it has told of that waited for memory: a stream, or a round."""
    return set(re.findall(rb"pnuts: out of memory: a (\w+) waits\n", region.said()))


def goes_on(region: Staying) -> bool:
    """Whether all that waited for memory goes on: it is told as often as that it waits."""
    said = region.said()
    return all(said.count(b"a %b waits\n" % what) == said.count(b"pnuts: %bs go on\n" % what) for what in waiting_in(region))


def check_little_memory(program: str, folder: str) -> None:
    """Where no memory is left a stream or a round waits, what was taken is shown, and once there is some the same publisher is read on."""
    (path, west), (at, east) = made(folder, "west"), socket_in(folder)
    with Staying(program, folder, [east, west], threads=2) as region, Client(region.port) as client:
        with open(path, "wb", buffering=0) as pipe:
            pipe.write(messages(1, 1))
        client.wait_for(key_of(1), row_of(key_of(1), 0, "x"))
        with Publisher(at) as publisher:
            same("what was taken before", publisher.begin(), 0)
            filling = threading.Thread(target=fill, args=(publisher,), daemon=True)
            with little_memory(region):
                filling.start()
                until("a stream or a round waits", lambda: waiting_in(region) != set())
                same("a record that is there", client.read(key_of(1)), {"row": row_of(key_of(1), 0, "x")})
                time.sleep(LOOKED)
                same("whether the publisher still waits", filling.is_alive(), True)
            take_up_to(publisher, FILLED)
            until("what waited goes on", lambda: goes_on(region))
        with open(path, "wb", buffering=0) as pipe:
            pipe.write(messages(2, 1))
        client.wait_for(key_of(2), row_of(key_of(2), 0, "x"))
        same("streams that failed", said_of_faults(region), [])
        print(f"  {FILLED:,} messages were taken")


def wake_ups(region: Staying) -> int:
    """How often its threads went to sleep so far."""
    count, tasks = 0, f"/proc/{region.process.pid}/task"
    for task in os.listdir(tasks):
        with open(f"{tasks}/{task}/status") as file:
            count += sum(int(line.split()[1]) for line in file if line.startswith("voluntary_ctxt"))
    return count


def rests(region: Staying, when: str) -> None:
    before = wake_ups(region)
    time.sleep(LOOKED)
    found = (wake_ups(region) - before) / LOOKED
    same(f"whether {found:.0f} wake-ups a second {when} are at most {WAKE_UPS}", found <= WAKE_UPS, True)


def check_streams_at_rest(program: str, folder: str) -> None:
    """Sixteen streams that wait, that have silent publishers, half a line each, and whose publishers went: a region hardly ever wakes up."""
    sockets = [socket_in(folder, f"s{at}") for at in range(8)]
    fifos = [made(folder, f"f{at}") for at in range(8)]
    streams = [stream for _, stream in sockets + fifos]
    with Staying(program, folder, streams) as region, contextlib.ExitStack() as stay:
        time.sleep(1)
        rests(region, "without a publisher")
        publishers = [stay.enter_context(Publisher(path)) for path, _ in sockets]
        pipes = [stay.enter_context(open(path, "wb", buffering=0)) for path, _ in fifos]
        for publisher, pipe in zip(publishers, pipes):
            publisher.send(messages(1, 100) + messages(101, 1)[:30])
            pipe.write(messages(1, 100) + messages(101, 1)[:30])
        for publisher in publishers:
            same("what a publisher is told first", publisher.begin(), 0)
            while publisher.taken() < 100:
                pass
        time.sleep(1)
        rests(region, "with silent publishers")
        # Others wait until the silent ones have gone.
        for path, _ in sockets:
            stay.enter_context(socket.socket(socket.AF_UNIX)).connect(path)
        rests(region, "with publishers that wait")
        for pipe in pipes:
            pipe.close()
        for publisher in publishers:
            publisher.socket.close()
        until("it says of all FIFOs that they ended", lambda: region.said().count(b" ended\n") >= len(pipes), SECONDS)
        time.sleep(1)
        rests(region, "whose publishers went")
        same("what is said of faults", said_of_faults(region), [])
