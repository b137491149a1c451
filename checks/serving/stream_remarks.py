"""What publishers say of their streams, besides messages: checks of `checks/run streams`."""
import json
import random
import time

from common.served import Json, same
from serving.controlled import Publisher, Session, failed, region_in, said_of_faults, wait_for_after
from serving.staying import Staying, messages, until
from serving.stream_faults import line_of

LIMIT = 256
MANY, STORM = 2_000, 100_000
LEAK_KB = 2_048
NEWEST = b'{"newest":%d}\n'
# Texts as JSON that may say whose stream it is, and what they are.
TEXTS: list[tuple[bytes, str]] = [
    (b'{"stream":"a"}', "a"), (b'{"stream":"%b"}' % (b"a" * LIMIT), "a" * LIMIT), (b'{"stream":"%b"}' % ("\u00e9" * (LIMIT // 2)).encode(), "\u00e9" * (LIMIT // 2)),
    (b'{"stream":"\\u00e9\\n\\u0000\\"\\\\"}', '\u00e9\n\0"\\'), (b'{"stream": \t"a b" } \r', "a b"), (b'{"stream":"%b"}' % (b"\\u0061" * LIMIT), "a" * LIMIT),
    (b'{"stream":"b","stream":"a"}', "a"),
]
# Lines that begin as one that says whose stream it is, and are none.
NONE = [
    (b'{"stream":""}', "at"), (b'{"stream":"%b"}' % (b"a" * (LIMIT + 1)), "at"), (b'{"stream":"%b"}' % ("\u00e9" * (LIMIT // 2 + 1)).encode(), "at"), (b'{"stream":7}', "at"),
    (b'{"stream":null}', "at"), (b'{"stream":["a"]}', "at"), (b'{"stream":"a","more":1}', "at"), (b'{"stream":"a","at":1}', "image"), (b'{"stream" :"a"}', "at"),
    (b' {"stream":"a"}', "at"), (b'{"newest":-1}', "at"), (b'{"newest":1.0}', "at"), (b'{"newest":"1"}', "at"), (b'{"newest":%d}' % (10**15 + 1), "at"),
    (b'{"newest":1,"more":1}', "at"), (b'{"newest" :1}', "at"), (b'{"Newest":1}', "at"),
]
BROKEN = [b'{"stream":"a"', b'{"stream":"a"}}', b'{"stream":"\\x"}', b'{"stream":"\xff"}', b'{"newest":1', b'{"newest":01}', b'{"newest":}', b'{"stream":', b'{"', b"{"]


def stream_in(session: Session) -> Json:
    """What `stats` says of the stream."""
    told: Json = session.told(do="stats")["streams"][0]
    return told


def said_by(told: Json) -> list[object]:
    return [told["stream"], told["newest"]]


def refused_in(region: Staying) -> list[bytes]:
    return [line for line in region.said().splitlines() if b" refused a writer" in line]


def other_line(has: str, got: str) -> bytes:
    return line_of({"error": "other-stream", "got": got, "has": has})


def check_other_streams(program: str, folder: str) -> None:
    """The first stream that a publisher says is kept; one of another is told so, and nothing of it is taken; silent publishers are taken."""
    with region_in(folder, program) as (region, control, path), Session(control) as session:
        same("at first", said_by(stream_in(session)), [None, None])
        has = 0
        for said, is_taken in ((None, True), ("redis-stream a", True), ("redis-stream b", False), (None, True), ("redis-stream a", True), ("\n\x1b[2J\"", False)):
            with Publisher(path) as publisher:
                same("what the region has", publisher.begin(), has)
                first = b"" if said is None else json.dumps({"stream": said}, separators=(",", ":")).encode() + b"\n"
                publisher.send(first + messages(has + 1, 5) + NEWEST % (has + 9))
                if is_taken:
                    has += 5
                    while publisher.taken() < has:
                        pass
                else:
                    same("what it is told", publisher.last_lines(), [other_line("redis-stream a", str(said))])
            until("its messages are shown or not", lambda: stream_in(session)["position"] == has)
        same("whose it is", said_by(stream_in(session)), ["redis-stream a", has + 4])
        same("what is said of faults", said_of_faults(region), [])
        same("what is said of them, once a minute", refused_in(region), [b"pnuts: stream east refused a writer: " + other_line("redis-stream a", "redis-stream b").strip()])


def check_changed_places(program: str, folder: str) -> None:
    """Two publishers that change places, each with more messages than the other region has: neither is taken where it does not belong."""
    with region_in(folder, program) as (_, east, east_path), region_in(folder, program, name="west") as (_, west, west_path):
        with Session(east) as first, Session(west) as second:
            for path, name, count in ((east_path, "a", 10), (west_path, "b", 200)):
                with Publisher(path) as publisher:
                    publisher.begin()
                    publisher.send(b'{"stream":"%b"}\n' % name.encode() + messages(1, count))
                    while publisher.taken() < count:
                        pass
            for path, name, after, other in ((east_path, "b", 10, "a"), (west_path, "a", 200, "b")):
                with Publisher(path) as publisher:
                    same("what the region has", publisher.begin(), after)
                    publisher.send(b'{"stream":"%b"}\n' % name.encode() + messages(after + 1, 50))
                    same("what it is told", publisher.last_lines(), [other_line(other, name)])
            same("what they have", [stream_in(it)["position"] for it in (first, second)], [10, 200])


def check_texts(program: str, folder: str) -> None:
    """Texts of up to 256 bytes, however they are written, and what begins alike and is none: that is refused as other lines are."""
    for number, (line, text) in enumerate(TEXTS):
        with region_in(folder, program, name=f"control-{number}") as (_, control, path), Session(control) as session:
            with Publisher(path) as publisher:
                publisher.begin()
                publisher.send(line + b"\n" + messages(1, 1))
                same("what is taken", publisher.taken(), 1)
            same(f"whose {line[:40]!r} is", stream_in(session)["stream"], text)
    with region_in(folder, program) as (region, control, path), Session(control) as session:
        faults = [(line, {"error": "bad-shape", "member": member}) for line, member in NONE] + [(line, {"error": "not-json"}) for line in BROKEN]
        for line, told in faults:
            with Publisher(path) as publisher:
                same("what the region has", publisher.begin(), 0)
                publisher.send(line + b"\n" + messages(1, 1))
                same(f"what is told of {line[:40]!r}", publisher.last_lines(), [line_of({"at": 1, **told})])
        for line in (b'{"stream":"a"}', b'{"newest":1}'):
            for long in (line[:-1] + b" " * 65_536 + b"}\n", line[:-1] + b" " * 70_000):
                with Publisher(path) as publisher:
                    publisher.begin()
                    publisher.send(long)
                    same("what is told of a long one", publisher.last_lines(), [b'{"at":1,"error":"too-long"}\n'])
        same("what was kept", said_by(stream_in(session)), [None, None])
        until("all are said", lambda: len(said_of_faults(region)) == len(faults) + 4)


def check_first_alone(program: str, folder: str) -> None:
    """Only the first line says whose stream it is; after others it is refused, and what came before it is taken."""
    with region_in(folder, program) as (region, control, path), Session(control) as session:
        has = 0
        for first, count in ((messages(1, 2), 2), (NEWEST % 7, 0), (b'{"stream":"a"}\n', 0)):
            with Publisher(path) as publisher:
                same("what the region has", publisher.begin(), has)
                publisher.send(first + b'{"stream":"a"}\n' + messages(3, 1))
                has += count
                same("what it is told", publisher.last_lines(), [line_of({"at": has + 1, "error": "bad-shape", "member": "at"})])
        same("what is kept", said_by(stream_in(session)), ["a", 7])
        until("all are said", lambda: said_of_faults(region) == [failed("east", 3, line, "bad-shape at") for line in (3, 1, 1)])


def check_newest(program: str, folder: str) -> None:
    """What a publisher says last of its broker is shown, whether it falls or not; it moves no position, and costs no round."""
    with region_in(folder, program) as (_, control, path), Session(control) as session, Publisher(path) as publisher:
        publisher.begin()
        same("before it says anything", stream_in(session)["heard"], None)
        publisher.send(messages(1, 5))
        until("all are taken", lambda: stream_in(session)["position"] == 5)
        rounds = session.told(do="stats")["rounds"]
        for newest in (5, 10**15, 3, 0, 7):
            publisher.send(NEWEST % newest)
            until(f"it shows {newest}", lambda wanted=newest: stream_in(session)["newest"] == wanted)  # type: ignore[misc]
        time.sleep(1.2)
        told = session.told(do="stats")
        same("rounds", told["rounds"], rounds)
        stream = told["streams"][0]
        same("what is shown", [stream[it] for it in ("position", "messages", "newest", "stream", "state")], [5, 5, 7, None, "open"])
        same("how long ago it was said", stream["heard"] in (1, 2), True)
        publisher.send(messages(6, 1))
        until("the next is taken", lambda: stream_in(session)["position"] == 6)
        publisher.socket.close()
        until("it is gone", lambda: stream_in(session)["state"] == "ended")
        same("what stays", stream_in(session)["newest"], 7)


def check_many(program: str, folder: str) -> None:
    """A storm of such lines, alone and between messages: all messages are taken in order, and neither memory nor others suffer."""
    with region_in(folder, program) as (region, control, path), Session(control) as session:
        with Publisher(path) as publisher:
            publisher.begin()
            publisher.send(b"".join(NEWEST % at + messages(at, 1) for at in range(1, MANY + 1)) + NEWEST % 1)
            while publisher.taken() < MANY:
                pass
            until("the last is shown", lambda: stream_in(session)["newest"] == 1)
            before, start = region.rest("before the storm"), time.monotonic()
            publisher.send(b"".join(NEWEST % at for at in range(STORM)))
            publisher.send(messages(MANY + 1, 1))
            while publisher.taken() < MANY + 1:
                pass
            print(f"  {STORM:,} lines in {time.monotonic() - start:.1f} s")
            region.same_rest(before, "after the storm", LEAK_KB)
        stream = stream_in(session)
        same("what is shown", [stream[it] for it in ("position", "messages", "bytes", "newest")], [MANY + 1, MANY + 1, len(messages(1, MANY + 1)), STORM - 1])


def check_parts(program: str, folder: str) -> None:
    """What a publisher says, cut at each byte, and texts of both kinds in random pieces: the messages are those without it."""
    with region_in(folder, program) as (_, control, path), Session(control) as session:
        at = 0
        while True:
            text = b'{"stream":"a"}\n' + NEWEST % (at + 70) + messages(at + 1, 1) + NEWEST % (at + 71)
            if at >= len(text):
                break
            with Publisher(path) as publisher:
                same("what the region has", publisher.begin(), at)
                publisher.send(text[:at])
                time.sleep(0.002)
                publisher.send(text[at:])
                same("what is taken", publisher.taken(), at + 1)
                until("what is said is shown", lambda wanted=at + 71: said_by(stream_in(session)) == ["a", wanted])  # type: ignore[misc]
            at += 1
        chosen, has = random.Random(7), at
        with Publisher(path) as publisher:
            same("what the region has", publisher.begin(), has)
            lines = [b'{"stream":"a"}\n']
            for _ in range(MANY):
                if chosen.random() < 0.5:
                    lines.append(NEWEST % chosen.choice((0, 7, has, 10**15)))
                else:
                    has += 1
                    lines.append(messages(has, 1, "x" * chosen.choice((1, 10, 3_000))))
            text = b"".join(lines)
            while text:
                count = chosen.choice((1, 3, 20, 300, 100_000))
                publisher.send(text[:count])
                text = text[count:]
            while publisher.taken() < has:
                pass
        wait_for_after(path, has)


def check_gone_at_once(program: str, folder: str) -> None:
    """Publishers that go amid what they say of their streams leave nothing behind."""
    with region_in(folder, program) as (region, control, path), Session(control) as session:
        whole = b'{"stream":"a"}\n{"newest":7}\n'
        for at in range(len(whole) + 1):
            with Publisher(path) as publisher:
                same("what the region has", publisher.begin(), 0)
                publisher.send(whole[:at])
        with Publisher(path) as publisher:
            same("what the region has", publisher.begin(), 0)
            publisher.send(whole + messages(1, 1))
            same("what is taken", publisher.taken(), 1)
        same("what is shown", said_by(stream_in(session)), ["a", 7])
        same("what is said of faults", said_of_faults(region), [])
