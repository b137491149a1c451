"""Prints the definitions that contracts cite: of each crate, file by file, the name of each with its comment."""

import re
import sys
from collections.abc import Iterator
from pathlib import Path
from typing import NamedTuple

from common.crates import TOP
from common.tried import parser_of

WIDTH = 32

# A definition, in the group `kind` if it has fields or cases of its own.
DEFINITION = re.compile(
    r"(?P<indent> *)(?:(?:abbrev|unfoldable)(?: pub)?|pub(?: (?P<kind>record|data))?) (?P<name>\S+)(?= [:({]| *:)"
)


class Definition(NamedTuple):
    """A definition's name, and the comment above it, which is empty where there is none."""

    name: str
    comment: str


class Source(NamedTuple):
    """A file of definitions, below its crate's specs/, with the comment that it opens with."""

    path: str
    comment: str
    definitions: list[Definition]


def definitions_in(lines: list[str]) -> Iterator[Definition]:
    """The definitions of a file's lines, in order, without the fields and the cases of any."""
    comment: list[str] = []
    outer: int | None = None
    for line in lines:
        text = line.strip()
        indent = len(line) - len(line.lstrip())
        if outer is not None and text and indent <= outer:
            outer = None
        found = DEFINITION.match(line)
        if text.startswith("--"):
            comment.append(text.removeprefix("--").strip())
        elif found and outer is None:
            yield Definition(found["name"], " ".join(comment))
            outer = indent if found["kind"] else None
            comment = []
        else:
            comment = []


def opening_of(lines: list[str]) -> str:
    """The comment that a file opens with."""
    opening: list[str] = []
    for line in lines:
        if not line.startswith("--"):
            break
        opening.append(line.removeprefix("--").strip())
    return " ".join(opening)


def sources_of(crate: Path) -> Iterator[Source]:
    """The files of a crate that have definitions, in the order of their paths."""
    specs = crate / "specs"
    for path in sorted(specs.rglob("*.antt")):
        lines = path.read_text(encoding="utf-8").splitlines()
        definitions = list(definitions_in(lines))
        if definitions:
            yield Source(str(path.relative_to(specs)), opening_of(lines), definitions)


def show(crate: Path) -> None:
    """Prints a crate's definitions, if it has any."""
    sources = list(sources_of(crate))
    if not sources:
        return
    print(f"\n{crate.name}: {sum(len(source.definitions) for source in sources)} definitions")
    for source in sources:
        print(f"\n  {source.path}  {source.comment}".rstrip())
        for definition in source.definitions:
            print(f"    {definition.name:<{WIDTH}}  {definition.comment}".rstrip())


def crates_named(names: list[str]) -> list[Path]:
    """The crates of these names, or all crates in the order of their names."""
    crates = TOP / "crates"
    if not names:
        return sorted(crates.iterdir())
    for name in names:
        if not (crates / name).is_dir():
            sys.exit(f"checks/run definitions: there is no crate {name}")
    return [crates / name for name in names]


def main(words: list[str]) -> int:
    parser = parser_of(__doc__)
    parser.add_argument("crates", nargs="*", metavar="CRATE", help="a crate's name; without one, all crates")
    try:
        for crate in crates_named(parser.parse_args(words).crates):
            show(crate)
    except BrokenPipeError:
        sys.stderr.close()
    return 0
