"""Runs what needs real brokers: the feeds' tests, 200,000 images through each feed, both examples, and the runbooks.

  checks/run brokers PROGRAM [NAME ..]

What misses a package says so, and is skipped.
"""
import subprocess

import pytest

from common.crates import TOP
from common.parts import RUN

# The status of a command that misses what it needs.
MISSING = 2
COMMANDS = {
    "feeds": ("env", "PNUTS={program}", f"{TOP}/feeds/test"),
    "rates": (f"{TOP}/feeds/rates", "{program}"),
    "operate": (str(RUN), "operate", "{program}"),
    "postgres": (f"{TOP}/examples/postgres/demo", "--program", "{program}"),
    "regions": (f"{TOP}/examples/regions/demo", "--program", "{program}"),
}


@pytest.mark.parametrize("name", COMMANDS)
def check_brokers(program: str, name: str) -> None:
    """All is as it should be, with real brokers."""
    command = [word.format(program=program) for word in COMMANDS[name]]
    ran = subprocess.run(command, stdin=subprocess.DEVNULL, stdout=subprocess.PIPE, stderr=subprocess.STDOUT, text=True, errors="replace")
    print(ran.stdout)
    if ran.returncode == MISSING and name != "operate":
        pytest.skip(ran.stdout.strip())
    if ran.returncode:
        raise AssertionError(f"{name} ends with status {ran.returncode}")
