"""Runs the tests of the clients for Python, Go and JavaScript: the vectors, each client against the program, and what each
language has to say of its form and types.

  checks/run clients PROGRAM

Needs Debian's golang-go, nodejs and openssl; mypy and node-typescript check types where they are there. A client without its
language is skipped.
"""
import os
import signal
import subprocess

import pytest

from common.crates import TOP
from common.parts import needs
from common.tried import none_of

# What the test of each client needs.
CLIENTS = {"python": ["openssl"], "go": ["go", "gofmt"], "javascript": ["node", "openssl"]}
SECONDS = 600


def tested(name: str, program: str) -> tuple[int, str]:
    """The status of a client's test, and what it writes. Nothing that it started is left."""
    given = {**os.environ, "PNUTS": program}
    with subprocess.Popen([TOP / "clients" / name / "test"], stdin=subprocess.DEVNULL, stdout=subprocess.PIPE, stderr=subprocess.STDOUT,
                          env=given, text=True, errors="replace", start_new_session=True) as test:
        try:
            written, _ = test.communicate(timeout=SECONDS)
            return test.returncode, written
        except subprocess.TimeoutExpired:
            return 1, f"it takes more than {SECONDS} seconds"
        finally:
            if test.poll() is None:
                os.killpg(test.pid, signal.SIGKILL)


@pytest.mark.parametrize("name", [pytest.param(name, marks=needs(*tools)) for name, tools in CLIENTS.items()])
def check_clients(program: str, name: str) -> None:
    """A client's tests hold."""
    status, written = tested(name, program)
    none_of([f"{written}\nstatus {status}"] if status else [])
