"""The crates of this repository, as crates.txt lists them, and the libraries of the toolchain's kit that they stand on."""
import functools
import pathlib
import re
import subprocess
from collections.abc import Mapping

TOP = pathlib.Path(__file__).resolve().parents[2]


@functools.cache
def kit() -> pathlib.Path:
    """The folder of the toolchain."""
    ran = subprocess.run(["rt", "doc"], stdout=subprocess.PIPE, text=True, check=True)
    return pathlib.Path(ran.stdout.strip()).parent


def crates_below(crate: str) -> dict[str, str]:
    """A crate and those below it, each with its line of crates.txt."""
    lines = [line for line in (TOP / "crates.txt").read_text().splitlines() if ":" in line and not line.startswith("#")]
    known = {line.partition(":")[0].split()[0]: line for line in lines}
    found: dict[str, str] = {}
    left = [crate]
    while left:
        name = left.pop()
        if name in known and name not in found:
            found[name] = known[name]
            left += known[name].partition(":")[2].split()
    return found


def of_kit(crates: Mapping[str, str]) -> list[str]:
    """The libraries of the kit that these crates name, and those that they stand on. All stand on `std`."""
    found: set[str] = set()
    left = ["std", *(word for line in crates.values() for word in line.partition(":")[2].split() if word not in crates)]
    while left:
        name = left.pop()
        if name not in found:
            found.add(name)
            left += re.findall(r"^dep (\w+)$", (kit() / "rlibs" / f"{name}.rlib/format").read_text(), re.MULTILINE)
    return sorted(found)
