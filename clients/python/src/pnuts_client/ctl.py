"""Runs a region by its control socket."""

from __future__ import annotations

import argparse
import json
import os
import signal
import ssl
import sys
import time
from collections.abc import Callable, Sequence
from contextlib import ExitStack
from dataclasses import asdict
from pathlib import Path
from typing import Any

from .client import Client
from .connection import Address, Unix, address_of
from .control import Control
from .control_requests import LAST_NUMBER, Notice, Tablet
from .errors import ConnectionFailed, PnutsError, TimedOut
from .failover import pause
from .figures import Beside
from .recovery import recover
from .saving import MOST_TABLETS, as_json, copies, copies_in, save, sizes_of
from .status import shown_bytes, shown_status, shown_tablets

DEFAULT_CONTROL = "/run/pnuts/control"
EXAMPLES = """examples:
  pnuts-ctl status
  pnuts-ctl --json watch --since 0
  pnuts-ctl save region.copies --from tcp://10.0.0.2:7070 --from tcp://10.0.0.3:7070
  pnuts-ctl save /var/lib/pnuts/copies --every 600
  pnuts-ctl tablets --into 8
  pnuts-ctl recover 3 --from tcp://10.0.0.2:7070
  pnuts-ctl exporter --listen 127.0.0.1:9107

The exit status is 0, 1 where it does not come to that, 2 for wrong words, and 130 after an interrupt.
"""
PEER = "a region, as tcp://HOST:PORT, tls://HOST:PORT or unix:PATH"
Words = argparse.Namespace
Command = Callable[[Control, Words], int]


def parser() -> argparse.ArgumentParser:
    """Reads the program's words."""
    layout = argparse.RawDescriptionHelpFormatter
    words = argparse.ArgumentParser(prog="pnuts-ctl", description=__doc__, epilog=EXAMPLES, formatter_class=layout)
    words.add_argument("--control", metavar="PATH", default=os.environ.get("PNUTS_CONTROL", DEFAULT_CONTROL),
                       help="the region's control socket (default: PNUTS_CONTROL, or %(default)s)")
    words.add_argument("--json", action="store_true", help="write JSON, a value a line, and not text for people")
    kinds = words.add_subparsers(required=True, metavar="COMMAND", title="commands")

    def command(does: Command, name: str, what: str) -> argparse.ArgumentParser:
        added = kinds.add_parser(name, help=what, description=f"{what[0].upper()}{what[1:]}.")
        added.set_defaults(does=does)
        return added

    command(show_status, "status", "show what the region holds and does")
    watch = command(show_changes, "watch", "show what changes, a record a line, until the region ends or it is interrupted")
    watch.add_argument("--since", type=int, metavar="N", help="begin after the change of this number (default: now)")
    copied = command(save_copies, "save", "write the copies of all tablets into a file, which is there whole or not at all")
    copied.add_argument("file", type=Path, metavar="FILE", help="the file")
    copied.add_argument("--from", dest="peers", action="append", default=[], metavar="ADDRESS",
                        help=f"{PEER}; of several, a later one is asked where an earlier one has no copy (default: the control socket's)")
    copied.add_argument("--every", type=_seconds, metavar="SECONDS", help="write it anew again and again, until it is interrupted")
    _add_certificates(copied)
    laid = command(show_tablets, "tablets", "show the tablets, or keys that cut them into others of like size")
    laid.add_argument("--into", type=_tablets, metavar="N", help="propose bounds of this many, as --bounds takes them: all copies are read")
    laid.add_argument("--copies", type=Path, metavar="FILE", help="read them in a file that was saved (default: those of the region)")
    lost = command(recover_tablet, "recover", "have a lost tablet adopt the copy of a peer, which is asked until it has what is needed")
    lost.add_argument("tablet", type=int, metavar="TABLET", help="its number, from 0")
    lost.add_argument("--from", dest="peer", required=True, metavar="ADDRESS", help=f"the peer: {PEER}")
    _add_certificates(lost)
    lost.add_argument("--timeout", type=float, default=60.0, metavar="SECONDS", help="for how long (default: %(default)s)")
    ready = command(wait_for_region, "ready", "wait until the region answers")
    ready.add_argument("--timeout", type=float, default=60.0, metavar="SECONDS", help="for how long (default: %(default)s)")
    ready.add_argument("--process", type=int, metavar="PID", help="give up once this process, which is the region's, has ended")
    stopped = command(stop_region, "stop", "end the region once all lines that have come are answered, and wait for that")
    stopped.add_argument("--seconds", type=int, default=10, metavar="N", help="end it after this many at most, 0 to 60 (default: %(default)s)")
    shown = command(export, "exporter", "show the region to people at /, to Prometheus at /metrics, and to load balancers at /healthz (needs python3-prometheus-client)")
    shown.add_argument("--listen", type=_address, default=("127.0.0.1", 9107), metavar="ADDRESS:PORT", help="where (default: 127.0.0.1:9107)")
    shown.add_argument("--silence", type=int, metavar="SECONDS", help="/healthz is 503 also where a stream brought nothing for longer")
    shown.add_argument("--feeds", type=Path, metavar="FOLDER", help="the folder of the files STREAM.json that feeds write by --figures")
    shown.add_argument("--lag", type=_seconds, metavar="SECONDS",
                       help="/healthz is 503 also where a stream lags for longer, or its feed does not tell, as it is for /healthz?lag=SECONDS")
    shown.add_argument("--copies", type=Path, metavar="FILE", help="the file of copies whose age is shown")
    return words


def _add_certificates(words: argparse.ArgumentParser) -> None:
    words.add_argument("--authority", metavar="FILE", help="certificates that vouch for tls:// (default: the machine's own)")
    words.add_argument("--certificate", metavar="FILE", help="the certificate, with its key, to show to tls://")


def _peer(words: Words, text: str) -> Address:
    """A peer that the words name, with its certificates."""
    context = ssl.create_default_context(cafile=words.authority)
    if words.certificate:
        context.load_cert_chain(words.certificate)
    return address_of(text, context)


def _seconds(text: str) -> float:
    """Seconds, some of them."""
    try:
        seconds = float(text)
    except ValueError:
        seconds = 0.0
    if not 0 < seconds <= 1e9:
        raise argparse.ArgumentTypeError(f"no seconds: {text!r}")
    return seconds


def _tablets(text: str) -> int:
    """A number of tablets."""
    if not text.isdecimal() or not 1 <= int(text) <= MOST_TABLETS:
        raise argparse.ArgumentTypeError(f"no number from 1 to {MOST_TABLETS}: {text!r}")
    return int(text)


def _address(text: str) -> tuple[str, int]:
    """A host and a port."""
    host, _, port = text.rpartition(":")
    if not host or not port.isdecimal() or int(port) > 65_535:
        raise argparse.ArgumentTypeError(f"no ADDRESS:PORT: {text!r}")
    return host.strip("[]"), int(port)


def main(given: Sequence[str] | None = None) -> int:
    """Does what the words say. The exit status."""
    words = parser().parse_args(given)
    try:
        with Control(Unix(words.control), retries=1) as region:
            does: Command = words.does
            return does(region, words)
    except (PnutsError, OSError, ValueError) as fault:
        print(f"pnuts-ctl: {fault}", file=sys.stderr)
        return 1
    except KeyboardInterrupt:
        return 130


def say(words: Words, value: Any, text: str) -> None:
    """Writes a value as JSON, or text."""
    print(json.dumps(value, separators=(",", ":")) if words.json else text, flush=True)


def show_status(region: Control, words: Words) -> int:
    stats, tablets, marks = region.stats(), region.tablets(), region.marks()
    value = {"marks": marks, "stats": stats.reply, "tablets": [_as_json(it) for it in tablets]}
    say(words, value, shown_status(stats, tablets))
    return 0


def _as_json(tablet: Tablet) -> dict[str, Any]:
    return {"cover": tablet.cover, "from": tablet.start, "need": tablet.need, "to": tablet.end}


def show_changes(region: Control, words: Words) -> int:
    since = region.notices(LAST_NUMBER).next if words.since is None else words.since
    for found in region.watch(since):
        if found.missed:
            say(words, {"missed": True, "next": found.next}, f"{found.next}: some changes before this one were missed")
        for change in found.changes:
            say(words, asdict(change), _shown(change))
    return 0


def _shown(change: Notice) -> str:
    return f"{change.number}: {change.key} {change.before or '-'} -> {change.after}"


def save_copies(region: Control, words: Words) -> int:
    addresses = [_peer(words, it) for it in words.peers] or [Unix(words.control)]
    # What is written so far is removed where it is ended, too.
    signal.signal(signal.SIGTERM, signal.default_int_handler)
    if words.every is None:
        _save_once(words, addresses)
        return 0
    while True:
        try:
            _save_once(words, addresses)
        except (PnutsError, OSError) as fault:
            print(f"pnuts-ctl: {fault}", file=sys.stderr, flush=True)
        time.sleep(words.every)


def _save_once(words: Words, addresses: Sequence[Address]) -> None:
    """Writes the file, whole or not at all."""
    with ExitStack() as stack:
        count = save([stack.enter_context(Client(it, retries=1)) for it in addresses], words.file)
    size = words.file.stat().st_size
    say(words, {"bytes": size, "path": str(words.file), "tablets": count}, f"{words.file}: {count} tablets, {size} bytes")


def show_tablets(region: Control, words: Words) -> int:
    if words.into is None:
        tablets = region.tablets()
        say(words, [_as_json(it) for it in tablets], shown_tablets(region.stats(), tablets))
        return 0
    with Client(Unix(words.control), retries=1) as asked:
        sizes = sizes_of(copies_in(words.copies) if words.copies else copies(asked))
    bounds = sizes.bounds(words.into)
    each = shown_bytes(sizes.size // (len(bounds) + 1))
    print(f"{sizes.count} images, {shown_bytes(sizes.size)}: {len(bounds) + 1} tablets of some {each} each", file=sys.stderr)
    print(as_json(bounds))
    return 0


def recover_tablet(region: Control, words: Words) -> int:
    with Client(_peer(words, words.peer)) as peer:
        size = recover(region, words.tablet, peer, words.timeout)
    text = f"tablet {words.tablet} serves" if size is None else f"tablet {words.tablet} adopted {size} bytes"
    say(words, {"bytes": size, "tablet": words.tablet}, text)
    return 0


def wait_for_region(region: Control, words: Words) -> int:
    deadline, tries = time.monotonic() + words.timeout, 0
    while True:
        try:
            region.marks()
            return 0
        except (ConnectionFailed, TimedOut) as fault:
            if words.process is not None and not _is_there(words.process):
                raise PnutsError(f"process {words.process} has ended: {fault}") from fault
            if time.monotonic() >= deadline:
                raise
            tries += 1
            time.sleep(pause(tries))


def _is_there(process: int) -> bool:
    """Whether a process has not ended."""
    try:
        os.kill(process, 0)
    except ProcessLookupError:
        return False
    except PermissionError:
        pass
    return True


def stop_region(region: Control, words: Words) -> int:
    region.stop(words.seconds)
    deadline = time.monotonic() + words.seconds + 5
    while Path(words.control).exists():
        if time.monotonic() > deadline:
            raise PnutsError(f"the region was told to stop, and is still there after {words.seconds + 5} seconds")
        time.sleep(0.01)
    return 0


def export(region: Control, words: Words) -> int:
    try:
        from .exporter import Shown, serve
    except ModuleNotFoundError as fault:
        raise PnutsError(f"{fault.name} is not installed: it is in Debian's python3-prometheus-client") from fault
    host, port = words.listen
    with Control(Unix(words.control), timeout=5.0, retries=1) as watched:
        serve(region, watched, host, port, Shown(Beside(words.feeds, words.copies), words.silence, words.lag))
    return 0


if __name__ == "__main__":
    sys.exit(main())
