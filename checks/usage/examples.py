"""Does what docs/lines.md, docs/streams.md and docs/control.md show first, and looks whether the replies are those that are shown.

  checks/run examples PROGRAM
"""
import json
import os
import socket
from collections.abc import Iterator

from common.crates import TOP
from common.served import SECONDS, same
from serving.controlled import Publisher, socket_in
from serving.staying import Staying

INDENT = "    "
FIRST = '{"at":1,"image":{"fields":{"v":"x"},"key":"k","master":"w","version":[1,0]}}\n'


def shown(page: str) -> Iterator[str]:
    """The lines of a page's first example, without the command of a shell."""
    was_code = False
    for line in (TOP / f"docs/{page}.md").read_text(encoding="utf-8").splitlines():
        if was_code and not line.startswith(INDENT):
            return
        was_code = line.startswith(INDENT)
        if was_code and not line.startswith(f"{INDENT}$ "):
            yield line.removeprefix(INDENT)


def talk(path: str, page: str, *own: str) -> None:
    """Sends the lines with members of its own, and waits for the others."""
    lines = list(shown(page))
    same("whether there is an example", lines != [], True)
    with socket.socket(socket.AF_UNIX) as client, client.makefile("rb") as replies:
        client.settimeout(SECONDS)
        client.connect(path)
        for number, line in enumerate(lines, 1):
            if not json.loads(line).keys().isdisjoint(own):
                client.sendall(f"{line}\n".encode())
            else:
                same(f"line {number} of the example of docs/{page}.md", replies.readline().decode().rstrip("\n"), line)


def region(program: str, folder: str) -> Staying:
    stream = socket_in(folder)[1]
    return Staying(program, folder, [stream], "--socket", os.path.join(folder, "region"), "--control", os.path.join(folder, "control"))


def give_first(folder: str) -> None:
    """Gives the region the one record that the examples have."""
    with Publisher(socket_in(folder)[0]) as publisher:
        same("what the region has", publisher.begin(), 0)
        publisher.send(FIRST.encode())
        same("what is taken", publisher.taken(), 1)


def check_lines(program: str, folder: str) -> None:
    """A session."""
    with region(program, folder):
        give_first(folder)
        talk(os.path.join(folder, "region"), "lines", "do")


def check_streams(program: str, folder: str) -> None:
    """A feed."""
    with region(program, folder):
        talk(socket_in(folder)[0], "streams", "stream", "image")


def check_control(program: str, folder: str) -> None:
    """A control session, which ends the region."""
    with region(program, folder) as served:
        give_first(folder)
        talk(os.path.join(folder, "control"), "control", "do")
        same("its status", served.process.wait(SECONDS), 0)
