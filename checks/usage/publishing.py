"""Does what docs/publishing.md and clients/python/README.md show to publishers: a table of PostgreSQL and one of SQLite are published,
and regions have the record.

  checks/run publishing PROGRAM

Needs unshare, ip, and Debian's postgresql, python3-psycopg2, redis-server and python3-redis.
"""
import os
import re
import subprocess
import tempfile
from pathlib import Path

from common.crates import TOP
from common.parts import needs
from common.tried import none_of

BIN = Path("/usr/lib/postgresql/15/bin")
NEEDS = needs("unshare", "ip", "setpriv", "redis-server", "psql", modules=("redis", "psycopg2"), root=True, also=() if BIN.is_dir() else ("postgresql",))
pytestmark = NEEDS

CODE = re.compile(r"```python\n(.*?)```", re.DOTALL)
SHOWN = re.compile(r"(?:^    .+\n)+", re.MULTILINE)
SECONDS = 180
# What is said of the second and the third of three images.
WRONG = '{"error":"out-of-range","line":2,"member":"version","name":null}\n{"error":"not-json","line":3,"member":null,"name":null}\n'
READ = """
for it in $(seq 600); do
    found=$(PYTHONPATH=clients/python/src python3 -c 'from pnuts_client import Client; print(Client("tcp://127.0.0.1:7070").read("tea").fields)' 2> /dev/null) || :
    [ "$found" = "{'price': 1400}" ] && break
    sleep 0.1
done
echo "$found"
"""
START = f"""
ip link set lo up
mkdir data
chown nobody data
as() {{ setpriv --reuid=nobody --regid=nogroup --clear-groups env -C / "$@"; }}
as {BIN}/initdb -D "$PWD/data/db" -A trust -U root --no-sync > /dev/null
as {BIN}/pg_ctl -D "$PWD/data/db" -w -l "$PWD/data/log" -o "-c listen_addresses= -c unix_socket_directories=$PWD/data" start > /dev/null
export PGHOST=$PWD/data PGUSER=root
"""


def shown(text: str) -> list[str]:
    """The lines of a shell that a text shows."""
    return [re.sub("^    ", "", it, flags=re.MULTILINE) for it in SHOWN.findall(CODE.sub("", text))]


def done(lines: str, folder: Path) -> str:
    """What the lines write, and then the record as a client reads it."""
    within = ["unshare", "--net", "--pid", "--fork", "--kill-child", "bash", "-c", lines]
    given = {**os.environ, "PATH": f"{folder / 'bin'}:{BIN}:/usr/bin:/bin:/usr/sbin:/sbin", "PYTHONDONTWRITEBYTECODE": "1"}
    ran = subprocess.run(within, cwd=folder, env=given, text=True, timeout=SECONDS, stdin=subprocess.DEVNULL, stdout=subprocess.PIPE, stderr=subprocess.STDOUT)
    return ran.stdout


def faults(program: str, folder: Path) -> list[str]:
    client = (TOP / "clients/python/README.md").read_text(encoding="utf-8").partition("\n## Publishing\n")[2].partition("\n## ")[0]
    postgres, check = shown((TOP / "docs/publishing.md").read_text(encoding="utf-8"))
    (redis,) = shown(client)
    (folder / "bin").mkdir()
    (folder / "bin/pnuts").symlink_to(program)
    for name in ("clients", "feeds"):
        (folder / name).symlink_to(TOP / name)
    (folder / "shop.py").write_text(CODE.findall(client)[0], encoding="utf-8")
    good = '{"deleted":true,"key":"k","master":"w","version":[1,0]}\n'
    (folder / "images").write_text(good + good.replace("[1,0]", "[0,0]") + "{\n", encoding="utf-8")
    found = [("postgres", done(START + postgres + READ, folder)), ("redis", done("ip link set lo up\n" + redis + READ, folder))]
    wrong = [f"the record of {name}: {said[-1_000:]}" for name, said in found if said.splitlines()[-1:] != ["{'price': 1400}"]]
    said = done(check, folder)
    if said != WRONG:
        wrong.append(f"what is said of images: {said}")
    return wrong


def check_publishing(program: str) -> None:
    """A table of PostgreSQL and one of SQLite are published as documents show."""
    with tempfile.TemporaryDirectory(ignore_cleanup_errors=True) as made:
        Path(made).chmod(0o755)
        none_of(faults(program, Path(made)))
