"""The first program of a machine: mounts what is the machine's own, and runs its services as `systemctl` asks for it.

It is started in the machine's network by `machines.py`, which waits for its socket.
"""
from __future__ import annotations

import json
import os
import socket
import subprocess
import sys
import threading
from pathlib import Path

sys.dont_write_bytecode = True
sys.path[0] = str(Path(__file__).resolve().parents[1])
from operate.units import JOURNAL, Services, answer  # noqa: E402

# Folders that are the machine's alone, with what is installed in them.
OWN = ("/var/lib", "/opt", "/etc/default", "/etc/systemd/system")
USER = "pnuts:x:7001:7001::/nonexistent:/usr/sbin/nologin\n"
PROGRAMS = "/run/bin"
ASKING = """#!/usr/bin/python3
import json, os, socket, sys
with socket.socket(socket.AF_UNIX) as asked:
    asked.connect("/run/units.socket")
    asked.sendall(json.dumps([os.path.basename(sys.argv[0]), *sys.argv[1:]]).encode() + b"\\n")
    told = json.loads(asked.makefile().readline())
sys.stdout.write(told["said"])
sys.exit(told["status"])
"""


def mount(installed: Path) -> None:
    """The folders of the machine, with what is installed, and the user of its services."""
    users = {name: Path(f"/etc/{name}").read_text(encoding="utf-8") + line for name, line in (("passwd", USER), ("group", "pnuts:x:7001:\n"))}
    for folder in OWN:
        os.makedirs(folder, exist_ok=True)
        subprocess.run(["mount", "-t", "tmpfs", "-o", "mode=755", "none", folder], check=True)
        there = Path(f"{installed}{folder}")
        if there.is_dir():
            subprocess.run(["cp", "-r", f"{there}/.", folder], check=True)
    # What is installed is seen no more from here on.
    subprocess.run(["mount", "-t", "tmpfs", "-o", "mode=755", "none", "/run"], check=True)
    for name, text in users.items():
        path = Path("/run") / name
        path.write_text(text, encoding="utf-8")
        subprocess.run(["mount", "--bind", path, f"/etc/{name}"], check=True)
    for made in (JOURNAL, Path(PROGRAMS)):
        made.mkdir()
    for name in ("systemctl", "journalctl"):
        path = Path(PROGRAMS, name)
        path.write_text(ASKING, encoding="utf-8")
        path.chmod(0o755)


def serve(services: Services, asked: socket.socket) -> None:
    with asked, asked.makefile("rb") as lines:
        for line in lines:
            asked.sendall(json.dumps(answer(services, line)).encode() + b"\n")


def run(installed: str) -> None:
    """Serves until it is killed."""
    mount(Path(installed))
    services, listener = Services(), socket.socket(socket.AF_UNIX)
    listener.bind("/run/units.new")
    listener.listen()
    os.rename("/run/units.new", "/run/units.socket")
    while True:
        asked, _ = listener.accept()
        threading.Thread(target=serve, args=[services, asked], daemon=True).start()


if __name__ == "__main__":
    run(sys.argv[1])
