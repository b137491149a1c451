"""Fills the disk that what runs a built program writes to: `pnuts-ctl save`, and the positions that a feed keeps.

  checks/run full-disk PROGRAM [CHECK ..]

Each disk is one in memory, of a namespace of its own. Needs unshare and mount.
"""
import os
import subprocess
import sys

from common.crates import TOP
from common.parts import needs
from common.served import SECONDS, same
from serving.controlled import given, region_in
from serving.staying import messages

pytestmark = needs("unshare", "mount", also=() if os.path.exists("/proc/self/ns/mnt") else ("namespaces",))

CLIENT, FEEDS = TOP / "clients/python/src", TOP / "feeds"
KEPT = "what was there before"
COUNT = 2_000
# Runs a command beside a small disk at the folder that is given first, and shows its status and what the disk has then.
ON_DISK = """
mount -t tmpfs -o size=$1 none "$0" && printf %s "$3" > "$0/$2" && shift 3 || exit 99
"$@"; echo "status $?"; cd "$0"; ls -A; tail -c 100 ./*
"""
# Keeps positions of a stream until the disk is full, and then reads what is kept.
KEEPING = """
import sys
from feed.positions import BadPairs, Pair, Pairs
path, first, position = sys.argv[1], Pair(1, 0, ""), 1
pairs = Pairs(None, "east", first)
try:
    pairs = Pairs(path, "east", first)
    for position in range(1, 2_000_000, 1_000):
        pairs.see(position, position - 1, b"x")
except BadPairs as fault:
    kept = Pairs(path, "east", first).until(position)
    print(f"{fault}; kept up to {kept.position} of {position}")
"""


def on_disk(folder: str, size: str, name: str, text: str, *command: str) -> tuple[list[str], str]:
    """What a command says beside a disk of this size with one file, and what the disk has then."""
    disk = os.path.join(folder, "disk")
    os.makedirs(disk, exist_ok=True)
    user = [] if os.geteuid() == 0 else ["--user", "--map-root-user"]
    environment = {**os.environ, "PYTHONPATH": f"{CLIENT}:{FEEDS}", "PYTHONDONTWRITEBYTECODE": "1"}
    line = ["unshare", *user, "--mount", "bash", "-c", ON_DISK, disk, size, name, text, *command]
    ran = subprocess.run(line, env=environment, stdin=subprocess.DEVNULL, capture_output=True, text=True, timeout=SECONDS, check=True)
    return ran.stderr.splitlines(), ran.stdout


def save(folder: str, size: str, control: str) -> tuple[list[str], str]:
    path = os.path.join(folder, "disk", "copies")
    return on_disk(folder, size, "copies", KEPT, sys.executable, "-m", "pnuts_client.ctl", "--control", control, "save", path)


def check_save(program: str, folder: str) -> None:
    """Copies that fit no disk: the file is the one before, nothing is beside it, and the fault says which file and why."""
    with region_in(folder, program) as (_, control, stream):
        given(stream, 0, messages(1, COUNT, "x" * 4_000), COUNT)
        said, shown = save(folder, "100k", control)
        same("the status, the files, and what is in the file", shown, f"status 1\ncopies\n{KEPT}")
        same("how many lines say why", len(said), 1)
        for word in ("pnuts-ctl: ", os.path.join(folder, "disk", "copies"), "No space left on device"):
            same(f"whether {said} has {word}", word in said[0], True)
        said, shown = save(folder, "100m", control)
        same("what is said of faults where they fit", said, [])
        ended = shown[shown.index("status "):]
        same("the status, the files, and the last copy's end", [*ended.splitlines()[:2], '{"end":' in ended], ["status 0", "copies", True])


def check_positions(program: str, folder: str) -> None:
    """Positions of a feed that fit no disk: those before are kept whole, nothing is beside them, and the fault says which file and why."""
    path = os.path.join(folder, "disk", "pairs")
    said, shown = on_disk(folder, "20k", "other", "", sys.executable, "-c", KEEPING, path)
    same("what is said beside it", said, [])
    told, _, rest = shown.partition("\nstatus 0\n")
    same("the fault", told.partition(";")[0], f"cannot write {path}: No space left on device")
    last, _, wanted = told.rpartition("kept up to ")[2].partition(" of ")
    same("the last position that is kept", int(last), int(wanted) - 1_000)
    same("the files", rest.splitlines()[:2], ["other", "pairs"])
