"""Looks whether the sources, definitions and proofs of all crates are formatted as `rt fmt` formats them.

  checks/run format
"""
import subprocess
from collections.abc import Iterator
from pathlib import Path

from common.crates import TOP, kit
from common.tried import none_of

FOLDERS = ("src", "specs", "proofs")
SUFFIXES = (".rt", ".antt")


def files_of(crate: Path) -> Iterator[str]:
    """The files of a crate that have a format."""
    for folder in FOLDERS:
        yield from sorted(str(path.relative_to(crate)) for path in (crate / folder).rglob("*") if path.suffix in SUFFIXES)


def is_formatted(crate: Path) -> bool:
    """Whether nothing in a crate would be changed. What would be is written as the formatter tells it."""
    ran = subprocess.run([str(kit() / "bin" / "rattle"), "fmt", "--check", *files_of(crate)], cwd=crate, stdin=subprocess.DEVNULL)
    return ran.returncode == 0


def check_format() -> None:
    """Nothing would be changed."""
    crates = sorted(path.parent for path in (TOP / "crates").glob("*/src"))
    none_of(f"crates/{crate.name}: run rt fmt there" for crate in crates if not is_formatted(crate))
    print(f"{len(crates)} crates")
