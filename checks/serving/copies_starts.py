"""The checks of `checks/run copies` of regions that start."""
import json
import os
import random
import signal
import socket
import subprocess
import sys
import tempfile
import threading
import time
from pathlib import Path

from common.crates import TOP
from common.served import Client, Served, message, same, written
from common.tried import at_once
from faults.preloaded import Refusals
from replies.random_values import KEYS, MANY_KEYS, bounds_of, copied, copy_line, streams_of
from serving.controlled import Session
from serving.copies_texts import exchanged, fault_of, least_marks, messages_from, part_of, refusal, taken
from serving.staying import Staying, until

REGIONS = 100
KILLS, STARTS, RECUT = 1_000, 200, 60
ZEROS, LAST_POSITION = 5 << 30, 10**15
# What a program may say where an allocation is refused before it listens.
STARTS_NOT = (b"pnuts: memory", b"pnuts: copies: memory", b"pnuts: cannot start", b"pnuts: cannot listen", b"pnuts: cannot open")


def region_fault(program: str, seed: int) -> str | None:
    """What is wrong with a region that starts from the copies of another, and goes on with its streams."""
    rng = random.Random(seed)
    tablets = rng.choice([1, 2, 4, 64])
    words = ["--workers", str(rng.choice([1, 2, 4, 16]))]
    bounds = ["--bounds", json.dumps(bounds_of(rng, tablets))]
    streams = streams_of(rng, MANY_KEYS if tablets == 64 else KEYS)
    ends = {name: rng.randrange(len(images) + 1) for name, images in streams.items()}
    with tempfile.TemporaryDirectory() as folder:
        texts = taken(program, folder, [*words, *bounds], part_of(streams, ends), tablets)
        wanted = taken(program, folder, [*words, *bounds], streams, tablets)
        path = written(folder, "copies", b"".join(rng.sample(texts, tablets)))
        named, control = [], os.path.join(folder, "control")
        for name, images in streams.items():
            first = rng.randrange(1, ends[name] + 2)
            named.append((name, written(folder, f"{name}.rest", messages_from(images, first))))
        with Staying(program, folder, named, *words, "--copies", path, "--control", control, is_looked_at=seed % 10 == 0) as region:
            with Client(region.port) as client:
                found = [copied(client, copy_line(tablet, streams)) for tablet in range(tablets)]
            with Session(control) as session:
                same("the marks", session.told(do="marks"), {"marks": {name: len(images) for name, images in streams.items()}})
        if found != wanted:
            return f"the copies of seed {seed} are not those of a region that took all"
        whole = [(name, written(folder, f"{name}.all", messages_from(images, 1))) for name, images in streams.items()]
        with Served(program, whole, words=[*words, "--copies", path]) as served, Client(served.port) as client:
            found = [copied(client, copy_line(tablet, streams)) for tablet in range(tablets)]
        return None if found == wanted else f"the copies of seed {seed} without --stay are not those of a region that took all"


def check_random_regions(program: str, folder: str) -> None:
    """Regions of 1 to 64 tablets start from the copies of others in any order, and go on in the middle of their streams: in the end
    they hold what a region holds that took all."""
    faults = [fault for fault in at_once(lambda seed: region_fault(program, seed), range(REGIONS)) if fault]
    same("what is wrong", faults[:1], [])


def some_texts(program: str, folder: str, bounds: list[str]) -> list[bytes]:
    """The copies of a region with some records of which some are in conflict."""
    streams = streams_of(random.Random(7), KEYS)
    few = {name: images[:30] for name, images in streams.items()}
    return taken(program, folder, ["--bounds", json.dumps(bounds)], few, len(bounds) + 1)


def check_faults(program: str, folder: str) -> None:
    """A text that is cut at each line, or has a line damaged, doubled, left out or exchanged, or copies of two layouts, is refused
    with its line or key before anything listens."""
    texts = some_texts(program, folder, ["b", "ca"])
    others = some_texts(program, folder, ["c"])
    whole = b"".join(texts)
    same("a text of copies", fault_of(whole), None)
    lines = whole.splitlines(keepends=True)
    cases = [b"".join(lines[:at]) for at in range(len(lines))]
    cases += [b"".join(lines[:at]) + lines[at][: len(lines[at]) // 2] for at in range(len(lines))]
    for at, line in enumerate(lines):
        before, after = b"".join(lines[:at]), b"".join(lines[at + 1:])
        cases += [before + b"x" + line + after, before + line + line + after, before + after, before + b" " * 70_000 + line + after]
    cases += list(exchanged(lines))
    for at, text in enumerate(texts):
        cases += [b"".join(texts[:at] + texts[at + 1:]), whole + text]
    cases += [texts[0] + others[1], others[0] + texts[1] + texts[2], whole + b"\n", whole + b"{", b"\0" * 100, whole * 30]
    faults = list(at_once(lambda text: file_fault(program, folder, text), cases))
    same("what is wrong", [fault for fault in faults if fault][:1], [])
    print(f"    {len(cases)} texts")


def file_fault(program: str, folder: str, text: bytes) -> str | None:
    """What is wrong with a program that is given a text in a file."""
    with tempfile.NamedTemporaryFile(dir=folder) as file:
        file.write(text)
        file.flush()
        return text_fault(program, text, file.name)


def text_fault(program: str, text: bytes, path: str) -> str | None:
    """What is wrong with a program that is given a text at a path."""
    wanted = fault_of(text)
    if wanted is None:
        with Served(program, [("east", "/dev/null")], words=["--copies", path]) as served:
            return None if served.first.startswith(b"listening on ") else f"it does not start from {text[:200]!r}"
    ended = refusal(program, path, "--workers", "4")
    right = (1, "", f"pnuts: copies: {wanted}\n")
    return None if ended == right else f"{ended}, not {right}, of {text[:300]!r}"


def check_any_order(program: str, folder: str) -> None:
    """Copies start a region in any order, and their layout is its own; with marks that the region takes as the least."""
    texts = some_texts(program, folder, ["b", "c", "ca"])
    for text in exchanged(texts):
        path, control = written(folder, "copies", text), os.path.join(folder, "control")
        with Staying(program, folder, [("east", "/dev/null")], "--copies", path, "--control", control, "--workers", "2", is_looked_at=False):
            with Session(control) as session:
                same("the tablets", [it["from"] for it in session.told(do="tablets")["tablets"]], [None, "b", "c", "ca"])
                same("the copies", [session.copy(tablet) for tablet in range(4)], texts)
                same("the marks", session.told(do="marks"), {"marks": least_marks(texts)})


def check_words(program: str, folder: str) -> None:
    """A file that is not there, or no file, is named."""
    gone = os.path.join(folder, "gone")
    same("no file", refusal(program, gone)[:2], (1, ""))
    same("why there is no file", refusal(program, gone)[2].startswith(f"pnuts: copies: {gone}: "), True)
    same("a folder", refusal(program, folder), (1, "", "pnuts: copies: read\n"))
    status, shown, said = refusal(program, "")
    same("an empty path", (status, shown, bool(said)), (2, "", True))


def recut_fault(program: str, seed: int) -> str | None:
    """What is wrong with a region that starts from the copies of one layout in another, and goes on with its streams."""
    rng = random.Random(seed)
    streams = streams_of(rng, MANY_KEYS)
    ends = {name: rng.randrange(len(images) + 1) for name, images in streams.items()}
    bounds, others = (sorted(rng.sample(MANY_KEYS, rng.choice(counts))) for counts in ([0, 1, 7, 63], [1, 3, 7, 63]))
    with tempfile.TemporaryDirectory() as folder:
        had, wanted = (taken(program, folder, ["--bounds", json.dumps(it)], part_of(streams, ends), len(it) + 1) for it in (bounds, others))
        path, control = written(folder, "copies", b"".join(rng.sample(had, len(had)))), os.path.join(folder, "control")
        rest = [(name, written(folder, f"{name}.rest", messages_from(images, ends[name] + 1))) for name, images in streams.items()]
        with Staying(program, folder, [(name, os.devnull) for name in streams], "--copies", path, "--bounds", json.dumps(others),
                     "--control", control, is_looked_at=False), Session(control) as session:
            tablets = [session.copy(tablet) for tablet in range(len(wanted))]
        if tablets != wanted:
            return f"the tablets of seed {seed} are not those of a region of the other layout that took the same images"
        all_taken = taken(program, folder, ["--bounds", json.dumps(others)], streams, len(wanted))
        with Staying(program, folder, rest, "--copies", path, "--bounds", json.dumps(others), is_looked_at=False) as region:
            with Client(region.port) as client:
                found = [copied(client, copy_line(tablet, streams)) for tablet in range(len(wanted))]
        return None if found == all_taken else f"the copies of seed {seed} are not those of a region that took all"


def check_other_bounds(program: str, folder: str) -> None:
    """Copies of one layout start a region of another, which is as one of that layout that took the same images, and goes on so."""
    faults = [fault for fault in at_once(lambda seed: recut_fault(program, seed), range(RECUT)) if fault]
    same("what is wrong", faults[:1], [])


def check_bounds_of_other_moments(program: str, folder: str) -> None:
    """Tablets of different marks are cut, and are not joined: it is said which would be, and nothing listens."""
    early, late = (some_texts_up_to(program, folder, count)[at] for at, count in ((0, 10), (1, 30)))
    path = written(folder, "copies", early + late)
    status, shown, said = refusal(program, path, "--bounds", '["a"]')
    same("the end", (status, shown), (1, ""))
    same("what is said", said.startswith("pnuts: copies: bounds: tablet 1 would join copies of different marks: behind: the tablet has 10 of stream "), True)
    with Staying(program, folder, [("east", os.devnull)], "--copies", path, "--bounds", '["a","b","ca"]', is_looked_at=False):
        pass


def some_texts_up_to(program: str, folder: str, count: int) -> list[bytes]:
    """The copies of a region of two tablets that took the first images of each stream, up to this number."""
    streams = streams_of(random.Random(7), KEYS)
    return taken(program, folder, ["--bounds", '["b"]'], {name: images[:count] for name, images in streams.items()}, 2)


def check_no_copies(program: str, folder: str) -> None:
    """What has no copies is refused at once, however much it is: nothing, 5 GB of zeros, zeros without an end."""
    zeros = os.path.join(folder, "zeros")
    with open(zeros, "wb") as file:
        file.truncate(ZEROS)
    for path, why in ((os.devnull, 'no copy has the key ""'), (zeros, "line 1: bad-line"), ("/dev/zero", "line 1: bad-line")):
        same(path, refusal(program, path, "--workers", "4"), (1, "", f"pnuts: copies: {why}\n"))


def check_slow_texts(program: str, folder: str) -> None:
    """A text that is written while it is read is one like any other, and one whose publisher goes is cut short."""
    whole = b"".join(some_texts(program, folder, ["b", "ca"]))
    for text in (whole, whole[:-9]):
        path = os.path.join(folder, f"fifo-{len(text)}")
        os.mkfifo(path)
        writing = threading.Thread(target=write_slowly, args=[path, text])
        writing.start()
        same(f"{len(text)} bytes", text_fault(program, text, path), None)
        writing.join()


def write_slowly(path: str, text: bytes) -> None:
    """Writes a text a piece after another."""
    with open(path, "wb", buffering=0) as file:
        for at in range(0, len(text), 1 + len(text) // 20):
            file.write(text[at : at + 1 + len(text) // 20])
            time.sleep(0.01)


def check_killed_starts(program: str, folder: str) -> None:
    """A start that is killed at any moment leaves the file of copies, and the next one serves them."""
    texts = some_texts(program, folder, ["b"])
    path, control = written(folder, "copies", b"".join(texts)), os.path.join(folder, "control")
    words = ["--copies", path, "--control", control, "--socket", os.path.join(folder, "socket")]
    line = [program, "serve", "--stay", *words, f"east=listen:{folder}/publishers"]
    rng = random.Random(5)
    for _ in range(STARTS):
        start = subprocess.Popen(line, stdout=subprocess.DEVNULL, stderr=subprocess.DEVNULL)
        time.sleep(rng.uniform(0, 0.05))
        start.kill()
        start.wait()
    with Staying(program, folder, [("east", f"listen:{folder}/publishers")], *words), Session(control) as session:
        same("the copies", [session.copy(tablet) for tablet in range(2)], texts)
    same("the file", Path(path).read_bytes(), b"".join(texts))


def check_too_many_streams(program: str, folder: str) -> None:
    """Copies of more than 16 streams are refused; of 16, some of which no word names, they are not, and their marks stay."""
    for count in (16, 17):
        marks = "".join(f'{{"at":{at},"stream":"s{at:02}"}}\n' for at in range(1, count + 1))
        path = written(folder, "copies", f'{{"copy":1,"from":null,"to":null}}\n{marks}{{"end":{count}}}\n'.encode())
        if count == 17:
            same("17 streams", refusal(program, path), (1, "", "pnuts: copies: too-many-streams\n"))
            continue
        control = os.path.join(folder, "control")
        with Staying(program, folder, [("s01", "/dev/null")], "--copies", path, "--control", control), Session(control) as session:
            same("the marks", session.told(do="marks"), {"marks": {f"s{at:02}": at for at in range(1, count + 1)}})


def check_publishers(program: str, folder: str) -> None:
    """A publisher at a socket is told what the copies have of its stream. What comes next is taken, and what would leave a gap is not."""
    for mark in (5, LAST_POSITION - 2):
        path = written(folder, "copies", f'{{"copy":1,"from":null,"to":null}}\n{{"at":{mark},"stream":"east"}}\n{{"end":1}}\n'.encode())
        address, control = os.path.join(folder, "publishers"), os.path.join(folder, "control")
        with Staying(program, folder, [("east", f"listen:{address}")], "--copies", path, "--control", control), Session(control) as session:
            until("the stream has its position", lambda: session.told(do="stats")["streams"][0]["position"] == mark)
            gap = f'{{"error":"gap","got":{mark + 2},"wanted":{mark + 1}}}\n'
            for at, wanted, then in ((mark + 2, gap, mark), (mark + 1, "", mark + 1)):
                with socket.socket(socket.AF_UNIX) as publisher, publisher.makefile("rb") as told:
                    publisher.connect(address)
                    publisher.sendall(message(at, "k", 0, "x"))
                    publisher.shutdown(socket.SHUT_WR)
                    said = told.read().decode().replace(f'{{"taken":{at}}}\n', "")
                same(f"what the publisher of {at} is told", said, f'{{"after":{mark}}}\n{wanted}')
                until("the marks are those wanted", lambda: session.told(do="marks") == {"marks": {"east": then}})


def check_refused_allocations(program: str, folder: str) -> None:
    """Each allocation of a start is refused in turn: it says so before it listens, or serves what the copies have."""
    texts = some_texts(program, folder, ["b"])
    path = written(folder, "copies", b"".join(texts))

    def run_fault(given: dict[str, str]) -> str | None:
        served = Served(program, [("east", "/dev/null")], words=["--copies", path, "--workers", "2"], environment=given)
        with served:
            if not served.first:
                status, shown, said = served.end()
                last = said.splitlines()[-1] if said else b""
                is_right = status == 1 and not shown and last.startswith(STARTS_NOT)
                return None if is_right else f"status {status}, {shown!r}, {said!r}"
            try:
                with Client(served.port) as client:
                    client.socket.settimeout(2.0)
                    reply = client.ask({"do": "copy", "tablet": 1})
                    if "lines" not in reply:
                        return None if reply.get("error") in ("memory", "no-entry") else f"it replies {reply}"
                    text = b"".join(client.reply() for _ in range(reply["lines"]))
                    return None if text == texts[1] else f"it serves {text!r}"
            except (OSError, ValueError):
                return None if os.path.exists(given["REFUSED_MARK"]) else "it does not reply"

    print(f"{Refusals(folder).count('copies', run_fault)} allocations refused")


def check_killed_saves(program: str, folder: str, cases: int | None) -> None:
    """Of saves that are killed at random moments each leaves the file that was there, or a whole one."""
    sys.path.insert(0, str(TOP / "clients/python/src"))
    from pnuts_client import Client as Peer
    from pnuts_client.saving import save

    path = Path(folder) / "saved"
    texts = some_texts(program, folder, ["b", "ca"])
    control, source = os.path.join(folder, "control"), written(folder, "copies", b"".join(texts))
    rng, kinds, longest = random.Random(11), [0, 0], 0.0

    def begin() -> int:
        """A process that saves, and ends with 0 where it has."""
        child = os.fork()
        if not child:
            status = 1
            try:
                with Peer(f"unix:{control}") as peer:
                    status = int(save(peer, path) != len(texts))
            finally:
                os._exit(status)
        return child

    with Staying(program, folder, [("east", "/dev/null")], "--copies", source, "--control", control):
        for _ in range(20):
            start = time.monotonic()
            same("how a save ends", os.waitpid(begin(), 0)[1], 0)
            longest = max(longest, time.monotonic() - start)
        whole = path.read_bytes()
        for _ in range(cases or KILLS):
            path.write_bytes(b"old")
            child = begin()
            time.sleep(rng.uniform(0, longest))
            os.kill(child, signal.SIGKILL)
            os.waitpid(child, 0)
            found = path.read_bytes()
            if found not in (b"old", whole):
                raise AssertionError(f"a save that was killed left {found[:200]!r}")
            kinds[found == whole] += 1
            for part in Path(folder).glob(".saved.*"):
                part.unlink()
    same("some were killed before they ended, and some after", all(kinds), True)
    print(f"    {kinds[0]} killed before the file was there, {kinds[1]} after")
