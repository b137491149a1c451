"""Looks for data races by ThreadSanitizer, in builds of the program and of the cases of live regions, without proofs.

  checks/run races [--messages N] [--program FILE] [--live FILE]

Four streams are loaded by four workers while four clients read, get, scan and copy; then the cases of live regions run. Each
access is compiled so that ThreadSanitizer sees it, atomic ones as what they are. Needs the compiler's library of ThreadSanitizer,
and some minutes for the first builds, which are kept in out/.

Exit status 0 where no race is reported, each reply and answer is right.
"""
import json
import os
import pathlib
import subprocess
import tempfile
import threading
from collections.abc import Iterator
from typing import IO

from common.crates import TOP
from common.served import Client, Served, fifo, message, row_of, same
from common.tried import parser_of
from serving.instrumented import LIVE_THREADS, THREADS, built

CASES = TOP / "crates" / "test_serving"
NAMES = ["east", "north", "south", "west"]
KEYS = 400
WORDS = ["--bounds", '["k100","k200","k300"]', "--workers", "4"]
SETTINGS = "halt_on_error=0 exitcode=66 report_thread_leaks=0"


def key_of(number: int) -> str:
    return f"k{number % KEYS:03}"


class Asking(threading.Thread):
    """A client that asks in each way until the streams are over."""

    def __init__(self, port: int, over: threading.Event) -> None:
        super().__init__()
        self.port, self.over = port, over
        self.replies = 0
        self.fault: Exception | None = None

    def ask_all(self, client: Client, number: int) -> None:
        row = client.read(key_of(number))["row"]
        same("a row", row, row and row_of(key_of(number), row["version"][1], "x"))
        client.ask({"do": "get", "keys": [key_of(number + index) for index in range(0, KEYS, 50)]})
        client.ask({"do": "scan", "query": {"limit": 1_000}})
        copied = client.ask({"do": "copy", "tablet": number % 4})
        for _ in range(copied["lines"]):
            json.loads(client.reply())
        self.replies += 4

    def run(self) -> None:
        try:
            with Client(self.port) as client:
                number = 0
                while not self.over.is_set():
                    self.ask_all(client, number)
                    number += 1
                client.end()
        except (AssertionError, OSError, KeyError, ValueError) as fault:
            self.fault = fault


def load(pipe: IO[bytes], messages: int) -> None:
    """Writes a stream: each key again and again, at a greater version each time."""
    with pipe:
        for at in range(1, messages + 1):
            pipe.write(message(at, key_of(at), at // KEYS, "x"))


def environment(folder: str) -> dict[str, str]:
    return {**os.environ, "TSAN_OPTIONS": f"{SETTINGS} log_path={folder}/report"}


def races(what: str, folder: str, status: int) -> int:
    """Shows the reports and the end of a run. How many races there are, where a bad end counts as one."""
    reports = b"".join(path.read_bytes() for path in pathlib.Path(folder).glob("report*"))
    found = reports.count(b"WARNING: ThreadSanitizer")
    print(f"{reports[:5_000].decode(errors='replace')}races: {found} in {what}, status {status}", flush=True)
    return found or status


def live_cases() -> Iterator[tuple[bytes, bytes]]:
    """The cases of live regions, and their answers."""
    lines, answers = ((CASES / name).read_bytes().splitlines(keepends=True) for name in ("stdin", "stdout"))
    return ((line, answer) for line, answer in zip(lines, answers, strict=True) if line.startswith(b"live "))


def run_cases(program: str) -> int:
    """Runs each case of live regions."""
    found = 0
    for line, answer in live_cases():
        with tempfile.TemporaryDirectory() as folder:
            ended = subprocess.run([program], env=environment(folder), input=line, stdout=subprocess.PIPE)
            found += races(f"the case {line[:40].decode().strip()}", folder, ended.returncode or int(ended.stdout != answer))
    return found


def serve(program: str, folder: str, messages: int) -> tuple[int, int]:
    """The status, and how many replies there were."""
    pipes, over = [fifo(folder, name) for name in NAMES], threading.Event()
    streams = [(name, path) for name, (path, _) in zip(NAMES, pipes)]
    with Served(program, streams, 4, WORDS, environment(folder)) as served:
        feeders = [threading.Thread(target=load, args=[pipe, messages]) for _, pipe in pipes]
        clients = [Asking(served.port, over) for _ in NAMES]
        for one in [*clients, *feeders]:
            one.start()
        for one in feeders:
            one.join()
        over.set()
        for one in clients:
            one.join()
        status = served.end()[0]
    same("what clients met", [str(one.fault) for one in clients if one.fault], [])
    return status, sum(one.replies for one in clients)


def run_server(program: str, messages: int) -> int:
    """Serves streams and clients."""
    with tempfile.TemporaryDirectory() as folder:
        status, replies = serve(program, folder, messages)
        return races(f"{len(NAMES)} streams of {messages} messages and {replies} replies", folder, status)


def main(words: list[str]) -> int:
    parser = parser_of(__doc__)
    parser.add_argument("--messages", type=int, default=20_000, help="of each stream (default: %(default)s)")
    parser.add_argument("--program", help="a build for ThreadSanitizer, in place of one that is made")
    parser.add_argument("--live", help="one of the program of crates/test_serving")
    told = parser.parse_args(words)
    found = run_server(told.program or str(built(THREADS)), told.messages)
    return 1 if found + run_cases(told.live or str(built(LIVE_THREADS))) else 0
