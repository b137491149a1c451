#!/usr/bin/env python3
"""Gathers the licences of those libraries of Rattle's kit that the program links, from the kit.

  packaging/licences.py FILE

writes FILE: a line for each library with its licences, and then each text once. Where there is no `rt` on the PATH, and so no
kit, a FILE that was gathered before is kept.
"""

from __future__ import annotations

import argparse
import re
import shutil
import sys
import textwrap
from collections.abc import Iterator
from pathlib import Path

sys.dont_write_bytecode = True
TOP = Path(__file__).resolve().parent.parent
sys.path.insert(0, str(TOP / "checks"))
from common.crates import crates_below, kit, of_kit  # noqa: E402

HEAD = "pnuts links these libraries of Rattle's kit. The texts of their licences follow.\n\n"
NAMES = re.compile(r"(LICEN[CS]E|COPYING|NOTICE|COPYRIGHT)\b.*")
RULE = "----"
APACHE = "TERMS AND CONDITIONS FOR USE, REPRODUCTION, AND DISTRIBUTION"
ON_DEBIAN = "The text is in /usr/share/common-licenses/Apache-2.0.\n"
PARAGRAPH = """
Files: {files}
Copyright: {holders}
License: {name}
{text}
"""


def texts_of(library: Path) -> dict[str, str]:
    """The texts of a library's licences, by the names of their files."""
    found = (path for path in sorted(library.iterdir()) if path.is_file() and NAMES.fullmatch(path.name))
    return {path.name: path.read_text(encoding="utf-8") for path in found}


def gathered(sources: Path, libraries: list[str]) -> str:
    """The lines of these libraries, and each text once."""
    texts: dict[str, list[str]] = {}
    lines = HEAD
    for library in libraries:
        own = texts_of(sources / library)
        lines += f"{library}: {' '.join(own) or 'no licence of its own in the kit'}\n"
        for name, text in own.items():
            texts.setdefault(text, []).append(f"{library}/{name}")
    return lines + "".join(f"\n{RULE} {' '.join(names)} {RULE}\n\n{text.rstrip()}\n" for text, names in texts.items())


def paragraph_of(names: list[str], text: str) -> str:
    """A text as debian/copyright has it. Debian's systems have the one of Apache elsewhere."""
    holders = re.findall(r"^Copyright (?:\(c\) |© )?(.*)$", text, re.MULTILINE) if APACHE not in text else []
    shown = ON_DEBIAN if APACHE in text else text
    return PARAGRAPH.format(
        files=" ".join(f"third-party/{name}" for name in names),
        holders="\n ".join(holders or ["the authors of " + ", ".join(name.partition("/")[0] for name in names)]),
        name=names[0].replace("/", "-"),
        text=textwrap.indent("\n".join(line.strip() or "." for line in shown.strip().split("\n")), " "),
    ).rstrip("\n") + "\n"


def paragraphs(third_party: str) -> Iterator[str]:
    """What was gathered, as the paragraphs of debian/copyright."""
    _, *parts = re.split(rf"^{RULE} (.*) {RULE}$", third_party, flags=re.MULTILINE)
    for names, text in zip(parts[::2], parts[1::2], strict=True):
        yield paragraph_of(names.split(), text)


def main() -> int:
    words = argparse.ArgumentParser(description=__doc__, formatter_class=argparse.RawDescriptionHelpFormatter)
    words.add_argument("file", metavar="FILE", type=Path)
    file = words.parse_args().file
    if shutil.which("rt") is None:
        if file.is_file():
            return 0
        words.error(f"there is no {file}, and no rt on the PATH to gather it from the toolchain")
    text = gathered(kit() / "rattle", of_kit(crates_below("pnuts")))
    if not file.is_file() or file.read_text(encoding="utf-8") != text:
        file.parent.mkdir(parents=True, exist_ok=True)
        file.write_text(text, encoding="utf-8")
    return 0


if __name__ == "__main__":
    sys.exit(main())
