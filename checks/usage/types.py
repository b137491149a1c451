"""Checks the types of all programs of Python in this repository.

  checks/run types

`mypy --strict` reads each folder by itself, and the modules of other folders that its programs load. Needs Debian's mypy.
"""
import os
import subprocess
from collections.abc import Iterator
from pathlib import Path

from common.crates import TOP
from common.parts import needs
from common.tried import none_of

pytestmark = needs("mypy")

# Folders whose programs are read together: a program is of the last that it is in. The rest is read from the top.
FOLDERS = ("", "bench", "bin", "checks", "clients", "clients/python", "docs/pictures", "examples", "examples/postgres", "examples/regions",
           "feeds", "fuzz", "packaging")
# Where programs look for modules of other folders.
MODULES = ("checks", "bench", "clients/python/src", "clients/python", "examples", "examples/regions", "feeds", "packaging")
# Modules of packages and of the toolchain whose types are told nowhere, or that may be missing.
UNTYPED = ("confluent_kafka", "kubernetes", "pika", "prometheus_client", "psycopg2", "redis", "rtlib", "selenium", "yaml")
SETTINGS = "[mypy]\n" + "".join(f"[mypy-{name}.*]\nignore_missing_imports = True\nfollow_imports = skip\n" for name in UNTYPED)
WORDS = ("--strict", "--scripts-are-modules", "--explicit-package-bases", "--follow-imports", "silent",
         "--hide-error-context", "--no-error-summary")


def is_program(path: Path) -> bool:
    """Whether a file is of Python: by its name, or by its first line."""
    if path.suffix:
        return path.suffix == ".py"
    with path.open("rb") as file:
        first = file.readline(80)
    return first.startswith(b"#!") and b"python3" in first


def programs() -> dict[str, list[str]]:
    """The files of Python of each folder, by their paths in it."""
    command = ["git", "-C", str(TOP), "ls-files", "--cached", "--others", "--exclude-standard"]
    files = subprocess.run(command, stdout=subprocess.PIPE, text=True, check=True)
    found: dict[str, list[str]] = {folder: [] for folder in FOLDERS}
    for name in files.stdout.splitlines():
        if (TOP / name).is_file() and is_program(TOP / name):
            folder = max((it for it in FOLDERS if Path(name).is_relative_to(it)), key=len)
            found[folder].append(str(Path(name).relative_to(folder)))
    return {folder: names for folder, names in found.items() if names}


def faults_of(folder: str, names: list[str], cache: str) -> Iterator[str]:
    """What is wrong in a folder's programs, each with its file and line."""
    settings = Path(cache, "settings")
    settings.write_text(SETTINGS)
    within = {**os.environ, "MYPYPATH": ":".join(str(TOP / it) for it in MODULES)}
    command = ["mypy", *WORDS, "--config-file", str(settings), "--cache-dir", cache, *names]
    ran = subprocess.run(command, cwd=TOP / folder, env=within, stdin=subprocess.DEVNULL, capture_output=True, text=True)
    faults = [line for line in ran.stdout.splitlines() if ": note: " not in line]
    yield from (str(Path(folder, fault)) for fault in faults)
    if ran.returncode and not faults:
        yield f"{folder}: mypy ends with status {ran.returncode}: {ran.stderr.strip()}"


def check_types(folder: str) -> None:
    """mypy finds nothing wrong."""
    found = programs()
    none_of(fault for where, names in found.items() for fault in faults_of(where, names, folder))
    print(f"{sum(map(len, found.values()))} files")
