"""Copies of all tablets in a file, from one region or several, and bounds of tablets of like size."""

from __future__ import annotations

import contextlib
import io
import json
import os
import random
import signal
import socket
import stat
import tempfile
import unittest
from collections.abc import Iterator, Mapping, Sequence
from contextlib import ExitStack, contextmanager
from pathlib import Path
from unittest.mock import patch

from pnuts_client import Client, Control, PnutsError, ctl
from pnuts_client.saving import NoCopy, as_json, copies_in, save, sizes_of

from .support import fake, image, region, replies

FIRST = '{"copy":1,"from":null,"to":"g"}\n{"at":3,"stream":"east"}\n{"end":1}\n'
OLDER = FIRST.replace('"at":3', '"at":2')
LAST = '{"copy":1,"from":"g","to":null}\n{"at":3,"stream":"east"}\n{"end":1}\n'
WHOLE = '{"copy":1,"from":null,"to":null}\n{"end":0}\n'
RECOVERING = '{"error":"recovering","tablet":1}\n'
BEHIND = '{"error":"behind","has":2,"stream":"east","wanted":3}\n'
NO_TABLET = '{"error":"out-of-range","member":"tablet"}\n'
NO_PEER = "tcp://127.0.0.1:1"
Range = tuple[str | None, str | None]


def given(text: str) -> str:
    """The reply of a copy."""
    lines = text.count("\n")
    return f'{{"lines":{lines}}}\n{text}'


@contextmanager
def peers(*shown: tuple[str, ...]) -> Iterator[list[str]]:
    """Regions whose sessions answer these replies, one after another, and their addresses."""
    with ExitStack() as stack:
        yield [f"tcp://127.0.0.1:{stack.enter_context(fake(replies(*it)))}" for it in shown]


class SavingTest(unittest.TestCase):
    """What a file is written from."""

    def setUp(self) -> None:
        folder = tempfile.TemporaryDirectory()
        self.addCleanup(folder.cleanup)
        self.path = Path(folder.name) / "copies"

    def saved(self, *shown: tuple[str, ...], more: tuple[str, ...] = ()) -> int:
        """How many tablets are saved from these regions, and from more addresses before them."""
        with peers(*shown) as addresses, ExitStack() as stack:
            clients = [stack.enter_context(Client(it, retries=0)) for it in (*more, *addresses)]
            count = save(clients, self.path)
        return count

    def test_of_one_region(self) -> None:
        self.assertEqual(self.saved((given(FIRST), given(LAST))), 2)
        self.assertEqual(self.path.read_text(encoding="utf-8"), FIRST + LAST)
        self.assertEqual(self.saved((given(WHOLE),)), 1)
        self.assertEqual(self.path.read_text(encoding="utf-8"), WHOLE)

    def test_another_is_asked_where_one_recovers_or_is_behind(self) -> None:
        self.assertEqual(self.saved((BEHIND, RECOVERING), (given(OLDER), BEHIND), (given(LAST),)), 2)
        self.assertEqual(self.path.read_text(encoding="utf-8"), OLDER + LAST)

    def test_another_is_asked_where_one_is_gone(self) -> None:
        self.assertEqual(self.saved((given(FIRST), given(LAST)), more=(NO_PEER,)), 2)

    def test_another_layout_is_passed_over(self) -> None:
        self.assertEqual(self.saved((given(FIRST), RECOVERING), (given(WHOLE),), (given(LAST),)), 2)
        self.assertEqual(self.path.read_text(encoding="utf-8"), FIRST + LAST)

    def test_a_save_is_whole_or_not_at_all(self) -> None:
        self.path.write_text("before", encoding="utf-8")
        for shown, said in (
            (((given(FIRST), RECOVERING), (NO_TABLET,)), "recovering: tablet 1"),
            (((given(FIRST), NO_TABLET),), "no tablet has the keys from 'g' on"),
            (((given(FIRST), given(WHOLE)),), "the copy of tablet 1 begins at None, not at 'g'"),
            ((), "there is no region to copy from"),
        ):
            with self.subTest(said), self.assertRaises(PnutsError) as raised:
                self.saved(*shown)
            self.assertEqual(str(raised.exception), said)
            self.assertEqual(list(self.path.parent.iterdir()), [self.path])
            self.assertEqual(self.path.read_text(encoding="utf-8"), "before")

    def mode_of(self) -> tuple[int, int, int]:
        """Owner, group and mode of the file, once it is saved."""
        self.saved((given(WHOLE),))
        found = self.path.stat()
        return found.st_uid, found.st_gid, stat.S_IMODE(found.st_mode)

    def test_a_save_has_the_mode_of_the_file_before_it_or_of_its_folder(self) -> None:
        own = (os.geteuid(), self.path.parent.stat().st_gid)
        for folder, mode in ((0o750, 0o640), (0o700, 0o600), (0o755, 0o640), (0o777, 0o600), (0o1777, 0o600)):
            self.path.parent.chmod(folder)
            self.assertEqual(self.mode_of(), (*own, mode))
            self.path.unlink()
        self.path.parent.chmod(0o750)
        self.path.write_text("before", encoding="utf-8")
        for mode, then in ((0o444, 0o644), (0o600, 0o600), (0o664, 0o664)):
            self.path.chmod(mode)
            self.assertEqual(self.mode_of(), (*own, then))
        self.path.unlink()
        self.path.symlink_to("/etc/hostname")
        self.assertEqual(self.mode_of(), (*own, 0o640))

    def test_a_save_of_a_service_that_may_change_no_owner(self) -> None:
        self.path.parent.chmod(0o750)
        own = (os.geteuid(), self.path.parent.stat().st_gid)
        with patch("pnuts_client.files.os.fchown", side_effect=PermissionError):
            self.assertEqual(self.mode_of(), (*own, 0o640))
            self.assertEqual(self.mode_of(), (*own, 0o640))

    @unittest.skipIf(os.geteuid(), "it needs root")
    def test_a_save_of_root_is_the_service_s(self) -> None:
        self.path.parent.chmod(0o750)
        os.chown(self.path.parent, 7_001, 7_002)
        self.assertEqual(self.mode_of(), (7_001, 7_002, 0o640))
        self.assertEqual(self.mode_of(), (7_001, 7_002, 0o640))
        os.chown(self.path, 7_003, 7_004)
        self.path.chmod(0o600)
        self.assertEqual(self.mode_of(), (7_003, 7_004, 0o600))
        self.path.parent.chmod(0o777)
        self.assertEqual(self.mode_of(), (0, 0, 0o600))

    def test_a_file_of_another_user_is_left(self) -> None:
        self.path.write_text("before", encoding="utf-8")
        self.path.parent.chmod(0o750)
        with patch("pnuts_client.files.os.geteuid", return_value=os.geteuid() + 1), self.assertRaisesRegex(OSError, "another user's"):
            self.saved((given(WHOLE),))
        self.assertEqual([*self.path.parent.iterdir()], [self.path])

    def test_a_save_that_is_ended_leaves_nothing(self) -> None:
        def end(connection: socket.socket) -> None:
            replies(given(FIRST), end=True)(connection)
            os.kill(os.getpid(), signal.SIGTERM)

        self.addCleanup(signal.signal, signal.SIGTERM, signal.getsignal(signal.SIGTERM))
        with fake(end, end) as port:
            self.assertEqual(ctl.main(["save", str(self.path), "--from", f"tcp://127.0.0.1:{port}"]), 130)
        self.assertEqual(list(self.path.parent.iterdir()), [])

    def test_the_program_saves_again_and_again(self) -> None:
        sleeps: list[float] = []

        def slept(seconds: float) -> None:
            sleeps.append(seconds)
            if len(sleeps) == 3:
                raise KeyboardInterrupt

        errors, said = io.StringIO(), io.StringIO()
        connections = (replies(given(FIRST), given(LAST)), replies(RECOVERING), replies(given(WHOLE)))
        with fake(*connections) as port, patch("pnuts_client.ctl.time.sleep", slept):
            with contextlib.redirect_stderr(errors), contextlib.redirect_stdout(said):
                words = ["save", str(self.path), "--from", f"tcp://127.0.0.1:{port}", "--every", "5"]
                self.assertEqual(ctl.main(words), 130)
        self.assertEqual(sleeps, [5.0, 5.0, 5.0])
        self.assertEqual(errors.getvalue(), "pnuts-ctl: recovering: tablet 1\n")
        self.assertEqual(said.getvalue(), f"{self.path}: 2 tablets, {len(FIRST + LAST)} bytes\n{self.path}: 1 tablets, {len(WHOLE)} bytes\n")
        self.assertEqual(self.path.read_text(encoding="utf-8"), WHOLE)


def copy(ends: Range, marks: Mapping[str, int], keys: Sequence[str], form: int = 1) -> bytes:
    """The text of a copy."""
    lines: list[object] = [{"copy": form, "from": ends[0], "to": ends[1]}]
    lines += [{"at": at, "stream": name} for name, at in sorted(marks.items())]
    lines += [image(key) for key in keys] + [{"end": len(marks) + len(keys)}]
    return "".join(json.dumps(it, ensure_ascii=False, separators=(",", ":")) + "\n" for it in lines).encode()


LOW = copy((None, "m"), {"east": 5, "west": 2}, ["a", "b", "c"])
HIGH = copy(("m", None), {"east": 7}, ["m", "n", "é"], 2)


class LayoutsTest(unittest.TestCase):
    def test_files(self) -> None:
        with tempfile.TemporaryDirectory() as folder:
            path = Path(folder, "copies")
            path.write_bytes(LOW + HIGH)
            self.assertEqual(list(copies_in(path)), [LOW, HIGH])
            path.write_bytes(LOW + HIGH[:-10])
            with self.assertRaisesRegex(NoCopy, "cut short"):
                list(copies_in(path))

    def test_tablets_of_like_size(self) -> None:
        chosen = random.Random(1)
        keys = sorted(f"{chosen.randrange(10**6):06}" for _ in range(5_000))
        sizes = sizes_of([copy((None, "3"), {}, [it for it in keys if it < "3"]), copy(("3", None), {}, [it for it in keys if it >= "3"])])
        bounds = sizes.bounds(8)
        counts = [sum(low <= it < high for it in keys) for low, high in zip(["", *bounds], [*bounds, "~"])]
        self.assertEqual((len(counts), sizes.count), (8, 5_000))
        self.assertLess(max(counts) - min(counts), 200)
        self.assertEqual(sizes_of([copy((None, None), {}, ["a"])]).bounds(8), [])
        self.assertEqual(sizes_of([copy((None, None), {}, [])]).bounds(2), [])

    def test_bounds_stand_between_single_quotes(self) -> None:
        told = as_json(["it's", "\\", '"', "é"])
        self.assertNotIn("'", told)
        self.assertEqual(json.loads(told), ["it's", "\\", '"', "é"])

    def test_a_region(self) -> None:
        images = [image(f"k{number:03}", (1, 0), v="x" * 200) for number in range(300)]
        with tempfile.TemporaryDirectory() as folder, region({"east": images}, bounds=["k200"], words=["--stay", f"--control={folder}/c"]):
            with Control(f"unix:{folder}/c") as control:
                while control.marks() != {"east": 300}:
                    pass
            words, told = ["--control", f"{folder}/c"], []
            with contextlib.redirect_stdout(io.StringIO()):
                self.assertEqual(ctl.main([*words, "save", f"{folder}/copies"]), 0)
            shown: list[list[str]] = [[], ["--copies", f"{folder}/copies"]]
            for more in shown:
                out, said = io.StringIO(), io.StringIO()
                with contextlib.redirect_stdout(out), contextlib.redirect_stderr(said):
                    self.assertEqual(ctl.main([*words, "tablets", "--into", "4", *more]), 0)
                told.append((json.loads(out.getvalue()), said.getvalue()))
        self.assertEqual(told[0], told[1])
        bounds = ["", *told[0][0], "l"]
        sizes = [sum(low <= f"k{number:03}" < high for number in range(300)) for low, high in zip(bounds, bounds[1:])]
        self.assertEqual(len(sizes), 4)
        self.assertLess(max(sizes) - min(sizes), 40)
        self.assertIn("300 images, ", told[0][1])


if __name__ == "__main__":
    unittest.main()
