"""Installs and removes a program: by `make install` in a temporary folder, and as packages of Debian in a system of its own.
It also runs `make quick`, which builds a program without proofs in some minutes where there is none.

  checks/run install PROGRAM

That system is made by mmdebstrap in memory, from the network, and started by systemd; it has no network then. All is
apart from the system that runs the check (`unshare`), and ends with it, files included. The check needs root. Without
that, or where a package of Debian is missing, it says so and is skipped. It takes two minutes of a processor, and two gigabytes of memory.

Exit status 0 where all is as it should be, or skipped.
"""

from __future__ import annotations

import argparse
import os
import re
import shutil
import signal
import subprocess
import sys
import tempfile
import textwrap
from collections.abc import Iterator
from itertools import chain
from pathlib import Path

from common.crates import TOP
from common.parts import RUN
from common.served import message, same
from common.tried import program_parser
from usage.fresh_system import System, make_root, missing, remove_group, run
from usage.installed import check_make_install, check_quick, check_told
from usage.packaged import check_lintian, check_packages

# Where files are put, seen by nobody else: the first of these that neither the project nor the program is in.
FOLDERS = ("/mnt", "/media", "/srv")
SCRATCH = "/var/tmp"
INDENT = "    "
SHOWN = re.compile(r"^```\w+\n(.*?)^```", re.MULTILINE | re.DOTALL)

# Of each client: what comes before the lines of its README, where a program that it shows is put, what makes that ready, and what
# runs it.
CLIENTS = {
    "python": ("", "reading.py", "", "python3 -u reading.py"),
    "go": ("go mod init reading", "reading.go", "go build -o program .", "./program"),
    "javascript": ("", "reading.mjs", "", "node reading.mjs"),
}
# What each says of a record that is older than it asked for, and of changes where it is not told after which.
SAID, WATCHED = "the region still has", "some changes are not known: read anew"
# What shows a program, and one that goes on until it is ended.
SHOW = "{} 2>&1"
SHOW_ON = f"""{{}} > watched 2>&1 & watching=$!
until grep -q "{WATCHED}" watched; do kill -0 $watching; sleep 0.1; done
kill $watching; cat watched"""
# The regions for what runs after it, where the pages have them: each has the record k, and the first a control socket.
SERVED = """trap 'kill $(jobs -p) || true; wait || true; rm -r /run/pnuts' EXIT
mkdir -p /run/pnuts
ip address replace 10.0.0.1/32 dev lo
ip address replace 10.0.0.2/32 dev lo
./pnuts serve --stay --control /run/pnuts/control east=east.log > served 2>&1 &
for it in 1 2; do ./pnuts serve --stay --listen 10.0.0.$it east=east.log > served-$it 2>&1 & done
until [[ $(cat served served-1 served-2 | grep -c ended) = 3 ]]; do sleep 0.1; done"""
# What a piece of Go is put into, which its page leaves out.
FRAME = """package main

import (
%s)

func main() {
	ctx := context.Background()
%s}
"""
PACKAGES = {"context": "context", "fmt": "fmt", "pnuts": "keqapwi.example/pnuts", "control": "keqapwi.example/pnuts/control"}


def say(text: str) -> None:
    print(text, flush=True)


def whole(shown: str, path: str) -> str:
    """A program that a page shows, which may be the inside of one of Go."""
    if not path.endswith(".go") or shown.startswith("package"):
        return shown
    used = [it for name, it in PACKAGES.items() if name == "context" or f"{name}." in shown]
    return FRAME % ("".join(f'\t"{it}"\n' for it in used), textwrap.indent(shown, "\t"))


def check_client(system: System, name: str) -> int:
    """Installs a client, runs all that its page shows to readers, and its tests. How many programs it shows. Publishers have a check of their own."""
    before, path, ready, run = CLIENTS[name]
    page = (TOP / "clients" / name / "README.md").read_text(encoding="utf-8").partition("\n## Publishing\n")[0]
    lines = [it.removeprefix(INDENT) for it in page.partition("```")[0].splitlines() if it.startswith(INDENT)]
    system.run("bash", "-ec", "\n".join([f"cd {SCRATCH}; export HOME=$PWD", before, *lines]))
    enter = ". reading/bin/activate" if name == "python" else ""
    programs = SHOWN.findall(page)
    for shown in programs:
        (system.root / SCRATCH[1:] / path).write_text(whole(shown, path), encoding="utf-8")
        goes_on = WATCHED in shown
        line = (SHOW_ON if goes_on else SHOW).format(run)
        said = system.run("bash", "-ec", "\n".join([f"cd {SCRATCH}; export HOME=$PWD", SERVED, enter, ready, line]))
        wanted = WATCHED if goes_on else SAID if SAID in shown else ""
        same(f"whether a program of the client for {name} says {wanted!r}", wanted in said, True)
    system.run("bash", "-ec", f"cd {SCRATCH}; HOME=$PWD PNUTS=pnuts clients/{name}/test")
    return len(programs)


def check_clients(system: System, program: Path) -> Iterator[str]:
    """Installs each client, runs what its README shows, and its tests. Says what was done."""
    folder = system.root / SCRATCH[1:]
    shutil.copytree(TOP / "clients", folder / "clients", dirs_exist_ok=True)
    shutil.copy(program, folder / "pnuts")
    (folder / "east.log").write_bytes(message(1, "k", 0, "x"))
    for name in CLIENTS:
        count = check_client(system, name)
        yield f"the client for {name}: it is installed without a network, the {count} programs that its README shows run, and its tests pass"


def check_deb(program: Path, folder: Path) -> None:
    """Builds the packages, makes a system, and does in it with the packages all that is done with them."""
    run(["make", "-C", TOP, "deb", f"DEBS={folder}", f"PNUTS={program}"])
    packages = sorted(folder.glob("*.deb"))
    say(f"make deb: built {' and '.join(package.name for package in packages)}")
    root = folder / "root"
    make_root(root)
    say("made a new system")
    for package in packages:
        check_lintian(root, package)
    say("lintian has nothing to say against the packages")
    with System(root) as system:
        for done in chain(check_packages(system, packages), check_told(system, program), check_clients(system, program)):
            say(done)


def within(program: Path) -> int:
    """The check, where mounts, processes and files are its own."""
    folder = next(Path(it) for it in FOLDERS if not any(path.is_relative_to(it) for path in (TOP, program)))
    run(["mount", "-t", "tmpfs", "-o", "mode=755", "tmpfs", folder])
    os.environ["TMPDIR"] = tempfile.tempdir = str(folder)
    try:
        for done in chain(check_make_install(program, folder / "installed"), check_quick(folder / "quick")):
            say(done)
        check_deb(program, folder)
    except (AssertionError, TimeoutError, subprocess.SubprocessError) as fault:
        say(f"checks/run install: WRONG: {fault}")
        return 1
    return 0


def apart(program: Path) -> int:
    """Runs the check apart from this system. If this process dies, so do all the others."""
    signal.signal(signal.SIGTERM, lambda *_: sys.exit(1))
    line = ["setpriv", "--pdeathsig=KILL", "unshare", "--mount", "--pid", "--fork", "--kill-child", "--mount-proc"]
    running = subprocess.Popen([*line, RUN, "install", "--within", program])
    try:
        return running.wait()
    finally:
        running.kill()
        running.wait()
        remove_group()


def main(words: list[str]) -> int:
    parser = program_parser(__doc__)
    parser.add_argument("--within", action="store_true", help=argparse.SUPPRESS)
    told = parser.parse_args(words)
    program = Path(told.program).resolve()
    if told.within:
        return within(program)
    wanted = missing()
    if wanted:
        say(f"checks/run install: skipped, for it needs {' '.join(wanted)}")
        return 0
    return apart(program)
