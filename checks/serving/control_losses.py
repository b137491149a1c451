"""Checks of `checks/run control`: tablets that are lost and recovered again and again, and adoptions of very many lines."""
import contextlib
import itertools
import json
import os
import random
import socket
import subprocess
import sys
import threading
import time
from collections.abc import Callable, Iterator

import pytest

from common.crates import TOP
from common.served import SECONDS, Client, same
from serving.controlled import TABLETS, Publisher, Session, adoption, region_in, written
from serving.staying import CHUNK, KEYS, Asker, Beside, Staying, Swarm, messages, pages, until

READERS, PART, PAUSE = 16, 200, 0.01
# For how long tablets are lost and recovered, where nothing else is said.
TIME = 8.0
RECOVERING = b'{"error":"recovering","tablet":'


class PatientAsker(Asker):
    """One that may be told that a tablet is recovering, and how often it was."""

    recovering = 0

    def look(self) -> None:
        if self.rest.startswith(RECOVERING):
            self.rest, self.is_waiting = b"", False
            PatientAsker.recovering += 1
        else:
            super().look()


def read_on(is_over: Callable[[], bool], port: int, said: str) -> None:
    """Readers of a region, who are shown nothing older, whatever is lost. What they saw goes to a file."""
    with Swarm(port, READERS, kind=PatientAsker) as swarm:
        swarm.run(is_over)
        with open(said, "w", encoding="utf-8") as file:
            json.dump({"reads": len(swarm.took), "recovering": PatientAsker.recovering, "newest": swarm.newest()}, file)


def write_on(is_over: Callable[[], bool], paths: list[str], said: str) -> None:
    """Writes the same stream to regions, without end, and says up to where."""
    with contextlib.ExitStack() as stack:
        publishers = [stack.enter_context(Publisher(path)) for path in paths]
        for publisher in publishers:
            publisher.begin()
        for first in itertools.count(1, PART):
            if is_over():
                break
            for publisher in publishers:
                publisher.send(messages(first, PART))
                with contextlib.suppress(BlockingIOError):
                    publisher.socket.recv(CHUNK, 0x40)
            time.sleep(PAUSE)
        with open(said, "w", encoding="utf-8") as file:
            file.write(str(first - 1))


def recover(session: Session, peer: Session, tablet: int) -> int:
    """Loses a tablet, and has it adopt a copy of the peer, once that has what is needed. How often the peer was behind."""
    same("the loss", session.told(do="lose", tablet=tablet), {"lost": tablet})
    need, behind = session.told(do="tablets")["tablets"][tablet]["need"], 0
    while True:
        reply = peer.ask(json.dumps({"do": "copy", "need": need, "tablet": tablet}).encode() + b"\n")
        first, _, text = reply.partition(b"\n")
        if text:
            break
        same("why there is no copy", json.loads(first)["error"], "behind")
        behind += 1
        time.sleep(0.001)
    same("the adoption", session.ask(adoption(text)), b'{"adopted":%d}\n' % tablet)
    return behind


def check_losses_and_recoveries(program: str, folder: str, seconds: float | None) -> None:
    """Tablets of two regions are lost and recovered from one another beside a publisher: 16 readers of each see nothing older."""
    chance, over = random.Random(1), time.monotonic() + (seconds or TIME)
    count, behind, said = 0, 0, [os.path.join(folder, name) for name in ("first", "second", "last")]
    with contextlib.ExitStack() as stack:
        regions = [stack.enter_context(region_in(folder, program, name=name)) for name in ("control-1", "control-2")]
        sessions = [stack.enter_context(Session(control)) for _, control, _ in regions]
        with contextlib.ExitStack() as beside:
            beside.enter_context(Beside(write_on, [path for _, _, path in regions], said[2]))
            until("there are records", lambda: sessions[0].told(do="marks")["marks"].get("east", 0) > 10 * KEYS)
            for (region, _, _), file in zip(regions, said, strict=False):
                beside.enter_context(Beside(read_on, region.port, file))
            while time.monotonic() < over:
                at = chance.randrange(2)
                behind += recover(sessions[at], sessions[1 - at], chance.randrange(TABLETS))
                count += 1
                time.sleep(PAUSE)
        last = {"marks": {"east": int(open(said[2], encoding="utf-8").read())}}
        for session in sessions:
            until("a region has all", lambda: session.told(do="marks") == last)
            same("marks that advance", session.told(do="advance"), last)
        shown = [list(pages(stack.enter_context(Client(region.port)))) for region, _, _ in regions]
        same("the records of both regions are equal", shown[0] == shown[1], True)
        same("how many records there are", len(shown[0]), KEYS)
        copies = [[session.copy(tablet) for tablet in range(TABLETS)] for session in sessions]
        same("the copies of both regions are equal", copies[0] == copies[1], True)
    seen = [json.load(open(file, encoding="utf-8")) for file in said[:2]]
    for told in seen:
        print(f"    {told['reads']:,} reads, of which {told['recovering']:,} were refused: recovering")
    same("readers were shown records and losses", all(sum(told[name] for told in seen) for name in ("reads", "recovering")), True)
    print(f"    {count} losses and recoveries, {behind} copies that were behind, {last['marks']['east']:,} messages")


MARKS = b'{"do":"marks"}\n'
# Announced lines, of which the first is none of a copy; how many lines one session has, more than one of clients may have; and how
# many are sent at a time.
ADOPTED, LINES, BLOCK = (1_000_000, 1_500_000), 1_200_000, 1_000
# Records of one tablet of which a copy is saved, and one recovered; what it takes is some gigabytes.
RECORDS, LONG = 2_000_000, 600


def send(session: Session, parts: Iterator[bytes]) -> threading.Thread:
    """Sends parts while something else is done."""

    def work() -> None:
        with contextlib.suppress(ConnectionError):
            for part in parts:
                session.send(part)

    sending = threading.Thread(target=work, daemon=True)
    sending.start()
    return sending


def check_long_adoptions(program: str, folder: str) -> None:
    """An adoption of 1,000,000 lines and more is replied to after its last line, and the session goes on, which says how far it was."""
    with region_in(folder, program) as (_, control, path), Session(control) as session:
        written(path, 1, 50)
        session.socket.settimeout(SECONDS * 2)
        for count in ADOPTED:
            parts = [b'{"do":"adopt","lines":%d}\n' % count, *[b"x\n" * BLOCK] * (count // BLOCK), MARKS]
            sending = send(session, iter(parts))
            same(f"the replies to {count:,} lines", [session.line(), session.line()], [b'{"error":"bad-line","line":1}\n', b'{"marks":{"east":50}}\n'])
            sending.join()
            same("and then to a loss", [session.told(do="lose", tablet=1), session.told(do="tablets")["tablets"][1]["need"]],
                 [{"lost": 1}, {"east": 50}])


def check_many_lines(program: str, folder: str) -> None:
    """A control session has as many lines as it likes: 1,200,000 of them are all answered."""
    with region_in(folder, program) as (_, control, path), Session(control) as session:
        written(path, 1, 5)
        sending = send(session, (b"{}\n" * BLOCK for _ in range(LINES // BLOCK)))
        count = 0
        while count < LINES and (part := session.socket.recv(CHUNK)):
            count += part.count(b"\n")
        sending.join()
        same("how many replies there are", count, LINES)
        same("the marks", session.ask(MARKS), b'{"marks":{"east":5}}\n')
        session.socket.shutdown(socket.SHUT_WR)
        same("what comes last", session.line(), b"")


def write_copies(path: str) -> None:
    """A text of one copy with many records."""
    with open(path, "wb") as file:
        file.write(b'{"copy":1,"from":null,"to":null}\n{"at":%d,"stream":"east"}\n' % RECORDS)
        for first in range(0, RECORDS, BLOCK):
            file.write(b"".join(b'{"fields":{"v":"x"},"key":"k%07d","master":"w","version":[1,0]}\n' % at for at in range(first, first + BLOCK)))
        file.write(b'{"end":%d}\n' % (RECORDS + 1))


def ctl(control: str, *words: str) -> str:
    """What the tool writes, which goes well."""
    environment = {**os.environ, "PYTHONPATH": str(TOP / "clients/python/src"), "PYTHONDONTWRITEBYTECODE": "1"}
    line = [sys.executable, "-m", "pnuts_client.ctl", "--control", control, *words]
    ran = subprocess.run(line, env=environment, stdin=subprocess.DEVNULL, capture_output=True, text=True, timeout=LONG)
    same(f"how pnuts-ctl {words[0]} ends", (ran.returncode, ran.stderr), (0, ""))
    return ran.stdout


def check_big_tablets(program: str, folder: str, big: bool) -> None:
    """A tablet of 2,000,000 records is saved, lost, and recovered from a peer by `pnuts-ctl`; with --big alone, as it takes gigabytes."""
    if not big:
        pytest.skip("it takes gigabytes, and --big is not told")
    copies, saved = os.path.join(folder, "copies"), os.path.join(folder, "saved")
    write_copies(copies)
    controls = [os.path.join(folder, name) for name in ("control-1", "control-2")]
    started = [Staying(program, folder, [("east", f"listen:{control}-east")], "--copies", copies, "--control", control) for control in controls]
    with started[0] as region, started[1] as peer, Session(controls[0]) as session:
        ctl(controls[0], "save", saved)
        with open(copies, "rb") as one, open(saved, "rb") as other:
            same("whether what is saved is what was read", one.read() == other.read(), True)
        os.remove(saved)
        same("the loss", session.told(do="lose", tablet=0), {"lost": 0})
        start = time.monotonic()
        ctl(controls[0], "recover", "0", "--from", f"tcp://127.0.0.1:{peer.port}", "--timeout", str(LONG))
        took = time.monotonic() - start
        same("its records", session.told(do="stats")["tablets"], [{"deleted": 0, "records": RECORDS}])
        with Client(region.port) as client:
            for at in (0, RECORDS // 2, RECORDS - 1):
                same("a record", client.read(f"k{at:07}")["row"]["version"], [1, 0])
        until("the marks", lambda: session.told(do="marks") == {"marks": {"east": RECORDS}})
        print(f"  {RECORDS:,} records were recovered in {took:.0f} s")
