"""Control sessions of a running region, which the program that PNUTS names serves."""

from __future__ import annotations

import asyncio
import contextlib
import io
import json
import re
import socket
import subprocess
import tempfile
import threading
import time
import unittest
from collections.abc import Iterator
from contextlib import contextmanager
from pathlib import Path

from pnuts_client import AsyncControl, BadLine, Client, ConnectionFailed, Control, Notices, Recovering, Refused, Version, requests
from pnuts_client.ctl import main
from tests.support import PROGRAM, image

BOUNDS = '["g","p"]'


class Fed:
    """A region that stays, with a control socket, and the socket of its one stream."""

    def __init__(self, folder: Path) -> None:
        self.control, self.clients, self.stream = (str(folder / name) for name in ("control", "clients", "east"))
        self.process = subprocess.Popen(
            [PROGRAM, "serve", "--stay", f"--socket={self.clients}", f"--control={self.control}", f"--bounds={BOUNDS}", f"east=listen:{self.stream}"],
            stdout=subprocess.PIPE, stderr=subprocess.DEVNULL,
        )
        assert self.process.stdout is not None
        assert self.process.stdout.readline().startswith(b"listening on ")

    def write(self, first: int, *keys: str, number: int = 0) -> None:
        """Writes messages, and waits until they are taken."""
        with socket.socket(socket.AF_UNIX) as writer:
            writer.connect(self.stream)
            with writer.makefile("rwb") as file:
                assert json.loads(file.readline()) == {"after": first - 1}
                for at, key in enumerate(keys, start=first):
                    file.write(json.dumps({"at": at, "image": image(key, (1, number), v=key)}).encode() + b"\n")
                file.flush()
                while json.loads(file.readline())["taken"] < first + len(keys) - 1:
                    pass

    def close(self) -> None:
        self.process.kill()
        self.process.communicate()


@contextmanager
def fed() -> Iterator[Fed]:
    with tempfile.TemporaryDirectory() as folder:
        region = Fed(Path(folder))
        try:
            yield region
        finally:
            region.close()


def said(*words: str) -> tuple[int, str]:
    """The status of the program that runs regions, and what it writes on standard output."""
    with contextlib.redirect_stdout(io.StringIO()) as shown:
        status = main(words)
    return status, shown.getvalue()


class ControlTest(unittest.TestCase):
    """The calls of threads."""

    def test_words(self) -> None:
        with fed() as region, Control(f"unix:{region.control}") as control:
            self.assertEqual(control.marks(), {})
            region.write(1, "a", "h", "q")
            self.assertEqual(control.marks(), {"east": 3})
            self.assertEqual(control.advance(), {"east": 3})
            self.assertEqual([(it.start, it.end, it.need) for it in control.tablets()], [(None, "g", None), ("g", "p", None), ("p", None, None)])
            found = control.notices(0)
            self.assertEqual([(it.key, it.before, it.after) for it in found.changes], [(it, None, Version(1, 0)) for it in "ahq"])
            self.assertIsNotNone(control.read("h"))
            with self.assertRaises(Refused):
                control.lose(3)

    def test_counts(self) -> None:
        with fed() as region, Control(f"unix:{region.control}") as control, Client(f"unix:{region.clients}") as client:
            region.write(1, "a", "h", "q")
            client.read("a")
            with self.assertRaises(BadLine):
                client.read("")
            stats = control.stats()
            (stream,) = stats.streams
            self.assertEqual((stream.name, stream.path, stream.position, stream.messages), ("east", region.stream, 3, 3))
            self.assertEqual((stream.reason, stream.line), (None, None))
            self.assertIn(stream.since, (0, 1, 2))
            self.assertEqual((stats.connections.open, stats.connections.accepted), (1, 1))
            self.assertEqual((stats.lines.answered, stats.lines.refused), (2, 1))
            self.assertGreater(stats.bytes, 0)
            self.assertEqual(stats.reply["rounds"], stats.rounds)

    def test_a_fault_of_a_stream_is_told(self) -> None:
        with fed() as region, Control(f"unix:{region.control}") as control:
            region.write(1, "a")
            with socket.socket(socket.AF_UNIX) as writer:
                writer.connect(region.stream)
                writer.sendall(b"no message\n")
                writer.makefile("rb").read()
            (stream,) = control.stats().streams
            self.assertEqual(stream.line, 1)
            self.assertIn("not-json", str(stream.reason))

    def test_watch(self) -> None:
        with fed() as region, Control(f"unix:{region.control}") as control:
            changes = control.watch()
            self.assertEqual(next(changes), Notices(0, [], True))
            writing = threading.Timer(0.3, region.write, [1, "a"])
            writing.start()
            self.assertEqual([it.key for it in next(changes).changes], ["a"])
            writing.join()
            control.lose(0)
            self.assertEqual(next(changes), Notices(2, [], True))

    def test_watch_of_a_region_that_began_anew(self) -> None:
        with tempfile.TemporaryDirectory() as folder:
            first = Fed(Path(folder))
            with Control(f"unix:{first.control}") as control:
                first.write(1, "a")
                changes = control.watch(0)
                self.assertEqual([it.key for it in next(changes).changes], ["a"])
                control.stop()
                first.process.wait(timeout=10)
                first.close()
                second = Fed(Path(folder))
                second.write(1, "a", "h")
                self.assertEqual(next(changes), Notices(2, [], True))
                second.close()
                with self.assertRaises(ConnectionFailed):
                    next(changes)

    def test_a_line_that_changes_after_the_region_ended_the_session(self) -> None:
        with tempfile.TemporaryDirectory() as folder:
            first = Fed(Path(folder))
            with Control(f"unix:{first.control}") as control:
                control.marks()
                first.close()
                second = Fed(Path(folder))
                self.assertEqual(control.lose(1), 1)
                second.close()


class ProgramTest(unittest.TestCase):
    """What the program does for those who run regions."""

    def test_status_save_and_stop(self) -> None:
        with fed() as region, tempfile.TemporaryDirectory() as folder:
            region.write(1, "a", "h", "q")
            words = ["--control", region.control, "--json"]
            self.assertEqual(said(*words, "ready"), (0, ""))
            self.assertEqual(json.loads(said(*words, "status")[1])["marks"], {"east": 3})
            status, text = said(*words[:2], "status")
            self.assertEqual(status, 0)
            self.assertRegex(text, r"(?m)^east  .*  3  .*" + re.escape(region.stream))
            self.assertRegex(text, r"(?m)^1 +g +p +serves( +1 +0)?$")
            texts = []
            peers: list[list[str]] = [[], ["--from", f"unix:{region.clients}"]]
            for at, more in enumerate(peers):
                path = Path(folder) / str(at)
                self.assertEqual(json.loads(said(*words, "save", str(path), *more)[1])["tablets"], 3)
                texts.append(path.read_bytes())
            self.assertEqual(texts[0], texts[1])
            with Client(f"unix:{region.clients}") as client:
                self.assertEqual(texts[0], b"".join(client.ask(requests.copy(it)) for it in range(3)))
            self.assertEqual(said(*words, "stop"), (0, ""))
            self.assertEqual(region.process.wait(timeout=10), 0)

    def test_a_save_is_whole_or_not_at_all(self) -> None:
        with fed() as region, tempfile.TemporaryDirectory() as folder, Control(f"unix:{region.control}") as control:
            region.write(1, "a", "h", "q")
            control.lose(2)
            with contextlib.redirect_stderr(io.StringIO()) as errors:
                self.assertEqual(said("--control", region.control, "save", f"{folder}/all")[0], 1)
            self.assertEqual(errors.getvalue(), "pnuts-ctl: recovering: tablet 2\n")
            self.assertEqual(list(Path(folder).iterdir()), [])

    def test_recovery(self) -> None:
        with fed() as region, fed() as peer, Control(f"unix:{region.control}") as control:
            region.write(1, "a", "h", "q", "h", number=1)
            peer.write(1, "a")
            self.assertEqual(control.lose(1), 1)
            with self.assertRaises(Recovering):
                control.read("h")
            words = ["--control", region.control, "recover", "1", "--from", f"unix:{peer.clients}"]
            with contextlib.redirect_stderr(io.StringIO()) as errors:
                self.assertEqual(said(*words, "--timeout", "0.2")[0], 1)
            self.assertEqual(errors.getvalue(), "pnuts-ctl: behind: 1 of stream east, 4 wanted\n")
            self.assertRegex(said(words[0], words[1], "status")[1], r"(?m)^1 +g +p +recovering, needs east 4( +0 +0)?$")
            writing = threading.Timer(0.3, peer.write, [2, "h", "q", "h"], {"number": 1})
            writing.start()
            status, text = said(*words)
            self.assertEqual(status, 0)
            self.assertRegex(text, r"^tablet 1 adopted \d+ bytes\n$")
            writing.join()
            self.assertIsNotNone(control.read("h"))
            self.assertEqual(said(*words), (0, "tablet 1 serves\n"))

    def test_watch(self) -> None:
        with fed() as region:
            writing = threading.Thread(target=write_and_stop, args=[region])
            with contextlib.redirect_stderr(io.StringIO()):
                writing.start()
                status, text = said("--control", region.control, "--json", "watch")
            writing.join()
            self.assertEqual(status, 1)
            first, second, lost = map(json.loads, text.splitlines())
            self.assertEqual(first, {"number": 1, "key": "a", "before": None, "after": [1, 0]})
            self.assertEqual(second["after"], [1, 1])
            self.assertEqual(lost, {"missed": True, "next": 3})

    def test_words_that_are_wrong(self) -> None:
        for text in ("", "none", "recover 1", "recover --from unix:x", "exporter --listen 9107"):
            with self.subTest(text), contextlib.redirect_stderr(io.StringIO()), self.assertRaises(SystemExit) as ended:
                main(text.split())
            self.assertEqual(ended.exception.code, 2)

    def test_a_region_that_is_not_there(self) -> None:
        with contextlib.redirect_stderr(io.StringIO()) as errors:
            self.assertEqual(said("--control", "/nowhere/control", "ready", "--timeout", "0.1")[0], 1)
        self.assertIn("/nowhere/control", errors.getvalue())
        with contextlib.redirect_stderr(io.StringIO()) as errors:
            self.assertEqual(said("--control", "/nowhere/control", "save", "x", "--from", "nowhere")[0], 1)
        self.assertEqual(errors.getvalue(), "pnuts-ctl: no address of a region: 'nowhere'\n")
        ended = subprocess.Popen(["true"])
        ended.wait()
        with contextlib.redirect_stderr(io.StringIO()) as errors:
            self.assertEqual(said("--control", "/nowhere/control", "ready", "--process", str(ended.pid))[0], 1)
        self.assertIn(f"process {ended.pid} has ended", errors.getvalue())


def write_and_stop(region: Fed) -> None:
    """What happens to a region that is watched."""
    time.sleep(0.5)
    region.write(1, "a")
    region.write(2, "a", number=1)
    with Control(f"unix:{region.control}") as control:
        control.lose(0)
        time.sleep(0.2)
        control.stop()


class TaskTest(unittest.IsolatedAsyncioTestCase):
    """The calls of tasks."""

    async def test_words_and_waits(self) -> None:
        with fed() as region:
            async with AsyncControl(f"unix:{region.control}") as control:
                waiting = [asyncio.create_task(control.notices(0, 30)) for _ in range(3)]
                await asyncio.sleep(0.1)
                await asyncio.to_thread(region.write, 1, "a")
                self.assertEqual([it.next for it in await asyncio.gather(*waiting)], [1, 1, 1])
                self.assertEqual(await control.marks(), {"east": 1})
                self.assertEqual((await control.stats()).rounds, 1)
                self.assertEqual(await control.lose(1), 1)

    async def test_watch_of_a_region_that_began_anew(self) -> None:
        with tempfile.TemporaryDirectory() as folder:
            first = Fed(Path(folder))
            async with AsyncControl(f"unix:{first.control}") as control:
                changes = control.watch()
                self.assertTrue((await anext(changes)).missed)
                await asyncio.to_thread(first.write, 1, "a")
                self.assertEqual((await anext(changes)).next, 1)
                first.close()
                second = Fed(Path(folder))
                await asyncio.to_thread(second.write, 1, "a", "h")
                self.assertEqual(await anext(changes), Notices(2, [], True))
                second.close()


if __name__ == "__main__":
    unittest.main()
