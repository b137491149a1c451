"""PostgreSQL with an outbox, and a machine whose region is fed from it."""
from __future__ import annotations

import contextlib
import os
import subprocess
from collections.abc import Iterator
from pathlib import Path

from common.crates import TOP
from operate.machines import DATABASE, HOME, HUB, Machine, configure, has_module, run, shell, started, until

BIN = Path("/usr/lib/postgresql/15/bin")
POISON = '{"fields":{"text":[]},"key":"k007","master":"w","version":[9,1]}'


def lacking() -> list[str]:
    """What it cannot do without, and is not there."""
    return [*(["postgresql"] if not BIN.is_dir() else []), *(["python3-psycopg2"] if not has_module("psycopg2") else [])]


def as_nobody(*command: str) -> list[str]:
    """A command as another user than root, whom PostgreSQL refuses."""
    return ["setpriv", "--reuid=nobody", "--regid=nogroup", "--clear-groups", *command]


def psql(text: str) -> None:
    run(*shell(f"psql --quiet --set=ON_ERROR_STOP=1 <<'END'\n{text}\nEND\n"))


def add(count: int) -> None:
    """Adds this number of images."""
    psql(f"""INSERT INTO outbox (image) SELECT json_build_object('fields', json_build_object('text', at::text), 'key', 'w' || at, 'master', 'w',
        'version', json_build_array(1, 0)) FROM generate_series(1, {count}) AS at""")


def add_poison() -> None:
    psql(f"INSERT INTO outbox (image) VALUES ('{POISON}')")


@contextlib.contextmanager
def served() -> Iterator[Machine]:
    """A database with an empty outbox, and a region of it, until the block ends."""
    data = HOME / "data"
    data.mkdir()
    data.chmod(0o777)
    run(*as_nobody(str(BIN / "initdb"), "-D", f"{data}/db", "-A", "trust", "-U", "pn", "-E", "UTF8", "--no-locale", "--no-sync"))
    with open(data / "db/pg_hba.conf", "a", encoding="utf-8") as access:
        access.write("host all all 10.0.0.0/24 trust\n")
    line = as_nobody(str(BIN / "postgres"), "-D", f"{data}/db", "-c", f"listen_addresses={HUB}", "-c", f"unix_socket_directories={data}")
    with started("postgres", line):
        until("PostgreSQL answers", lambda: subprocess.run([BIN / "pg_isready", "-q"], env={**os.environ, **DATABASE}).returncode == 0)
        psql((TOP / "feeds/postgres-outbox.sql").read_text(encoding="utf-8"))
        machine = Machine(4)
        try:
            configure(machine, "postgres-outbox", f"--database postgresql://pn@{HUB}/postgres outbox", "west")
            machine.run("systemctl enable --now pnuts pnuts-feed@west")
            yield machine
        finally:
            machine.lose()
