"""Checks of `checks/run control`: streams after a recovery that went further than they did, and the states that `stats` shows of them."""
import contextlib
import os
import time

from common.served import same
from serving.controlled import BOUNDS, TABLETS, Publisher, Session, adoption, failed, given, region_in, said_of_faults
from serving.staying import Staying, messages, until
from serving.stream_fifos import opens

# How far the region and its peer have the stream, and a second one.
HAS, PEER_HAS, SECOND = 20, 700, 1_300


def copies_up_to(program: str, folder: str, last: int, name: str) -> list[bytes]:
    """The copies of all tablets of a peer that has a stream up to a position."""
    with region_in(folder, program, name=name) as (_, control, path), Session(control) as session:
        given(path, 0, messages(1, last), last)
        return [session.copy(tablet) for tablet in range(TABLETS)]


def recover(session: Session, copies: list[bytes], is_lost: bool, last: int) -> None:
    """Adopts all copies, and has the marks advance to where they go."""
    for tablet, text in enumerate(copies):
        if is_lost:
            same("the loss", session.told(do="lose", tablet=tablet), {"lost": tablet})
        same("the adoption", session.ask(adoption(text)), b'{"adopted":%d}\n' % tablet)
    same("the marks once they advance", session.told(do="advance"), {"marks": {"east": last}})


def check_publishers_after_an_advance(program: str, folder: str) -> None:
    """Once tablets adopted copies that go further, with or without a loss, and marks advanced, a socket's next publisher is told the marks: it may
    begin one past them, and not two."""
    copies = {last: copies_up_to(program, folder, last, f"peer{last}") for last in (PEER_HAS, SECOND)}
    for is_lost in (True, False):
        with region_in(folder, program, name=f"own{is_lost}") as (region, control, path), Session(control) as session:
            given(path, 0, messages(1, HAS), HAS)
            for last in (PEER_HAS, SECOND):
                recover(session, copies[last], is_lost, last)
                with Publisher(path) as publisher:
                    same("what the next publisher is told", publisher.begin(), last)
                    publisher.send(messages(last + 2, 1))
                    same("why one at two past them is refused", publisher.last_lines(), [b'{"error":"gap","got":%d,"wanted":%d}\n' % (last + 2, last + 1)])
                given(path, last, messages(last + 1, 30), last + 30)
                same("the marks", session.told(do="marks"), {"marks": {"east": last + 30}})
                same("the position of stats", session.told(do="stats")["streams"][0]["position"], last + 30)
                # What the region has already is taken, too, and changes nothing.
                given(path, last + 30, messages(last - 5, 40), last + 34)


def check_a_publisher_that_is_there(program: str, folder: str) -> None:
    """A publisher that is there while marks advance goes on where it is, and the next one is told the marks."""
    copies = copies_up_to(program, folder, PEER_HAS, "peer")
    with region_in(folder, program, name="own") as (region, control, path), Session(control) as session, Publisher(path) as publisher:
        same("what it has", publisher.begin(), 0)
        publisher.send(messages(1, HAS))
        until("it is taken", lambda: session.told(do="marks") == {"marks": {"east": HAS}})
        recover(session, copies, True, PEER_HAS)
        publisher.send(messages(HAS + 1, 10))
        time.sleep(0.3)
        same("the marks do not fall", session.told(do="marks"), {"marks": {"east": PEER_HAS}})
        publisher.socket.close()
        given(path, PEER_HAS, messages(PEER_HAS + 1, 5), PEER_HAS + 5)
        same("what is said of faults", said_of_faults(region), [])


def check_fifos_after_an_advance(program: str, folder: str) -> None:
    """The next publisher of a FIFO begins up to one past marks that advanced, too."""
    copies, path, control = copies_up_to(program, folder, PEER_HAS, "peer"), os.path.join(folder, "east"), os.path.join(folder, "own")
    os.mkfifo(path)
    with Staying(program, folder, [("east", path)], "--bounds", BOUNDS, "--control", control) as region, Session(control) as session:
        until("it has opened the FIFO", lambda: opens(path))
        last, said = HAS, list[bytes]()
        for first, count in ((1, HAS), (PEER_HAS + 2, 1), (PEER_HAS + 1, 9), (PEER_HAS + 4, 11)):
            if first == PEER_HAS + 2:
                recover(session, copies, True, PEER_HAS)
                said = [failed("east", PEER_HAS + 1, 1, f"gap, got {first}, wanted {first - 1}")]
                last = PEER_HAS
            else:
                last = max(last, first + count - 1)
            with open(path, "wb", buffering=0) as pipe:
                pipe.write(messages(first, count))
                until(f"the marks are {last}", lambda: session.told(do="marks") == {"marks": {"east": last}})
                until("the fault is said", lambda: said_of_faults(region) == said)
            until("its end is seen", lambda: session.told(do="stats")["streams"][0]["state"] in ("ended", "failed"))
            time.sleep(0.3)


def state_in(session: Session, at: int) -> str:
    state: str = session.told(do="stats")["streams"][at]["state"]
    return state


def check_states_of_streams(program: str, folder: str) -> None:
    """`stats` shows a stream as open while a publisher is there, and only then: one that writes nothing, half a line, a message or a fault, or
    that goes before it is told anything."""
    fifo, control, socket = (os.path.join(folder, name) for name in ("west", "control", "east"))
    os.mkfifo(fifo)
    with Staying(program, folder, [("east", f"listen:{socket}"), ("west", fifo)], "--control", control) as region, Session(control) as session:
        has = {"east": 0, "west": 0}
        same("before any publisher", [state_in(session, at) for at in (0, 1)], ["waiting", "waiting"])
        for text in (b"", b'{"at":', messages(1, 2), b"", b"x\n", b"", messages(1, 3), messages(1, 1)[:-3], b""):
            end = "failed" if text == b"x\n" else "ended"
            taken = text.count(b"\n") if text.startswith(b'{"at":1') else 0
            with Publisher(socket) as publisher:
                same("what it has", publisher.begin(), has["east"])
                until(f"east is open before {text[:20]!r}", lambda: state_in(session, 0) == "open")
                publisher.send(text)
                time.sleep(0.1)
                same(f"whether east is open after {text[:20]!r}", state_in(session, 0), "failed" if end == "failed" else "open")
            has["east"] = max(has["east"], taken)
            until(f"east has {end} after {text[:20]!r}", lambda: state_in(session, 0) == end)
            with open(fifo, "wb", buffering=0) as pipe:
                pipe.write(text)
                if text:
                    until(f"west is open after {text[:20]!r}", lambda: state_in(session, 1) == ("failed" if end == "failed" else "open"))
            until(f"west is not open any more after {text[:20]!r}", lambda: state_in(session, 1) != "open")
            time.sleep(0.3)
        with contextlib.ExitStack() as stay:
            for _ in range(20):
                stay.enter_context(Publisher(socket)).socket.close()
        time.sleep(0.5)
        same("whether east is open once all have gone", state_in(session, 0) == "open", False)
