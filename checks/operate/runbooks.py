"""The runbooks of docs/running.md: commands below a heading, each part of them for a place that a comment names."""
from __future__ import annotations

import re
from typing import NamedTuple

from common.crates import TOP

TEXT = TOP / "docs/running.md"
INDENT = "    "
PLACE = re.compile(r"# (?:on|at|beside) (.+)")
HEADING = re.compile(r"^#{2,3} (.+)$")


class Part(NamedTuple):
    """Commands, and where they are given: addresses of machines, or `the proxy`, or `the database`."""

    places: list[str]
    script: str


def blocks(heading: str) -> list[list[str]]:
    """The blocks of code below a heading, up to the next one, each as its lines."""
    found: list[list[str]] = []
    is_there = was_code = False
    for line in TEXT.read_text(encoding="utf-8").splitlines():
        if told := HEADING.match(line):
            is_there = told[1] == heading
        elif is_there and line.startswith(INDENT):
            if not was_code:
                found.append([])
            found[-1].append(line.removeprefix(INDENT))
        was_code = line.startswith(INDENT)
    return found


def runbook(heading: str, block: int = 0) -> list[Part]:
    """The parts of a block below a heading, in their order. One without a comment first has no place."""
    parts: list[Part] = []
    for line in blocks(heading)[block]:
        if told := PLACE.fullmatch(line):
            parts.append(Part(told[1].split(" and "), ""))
        else:
            if not parts:
                parts.append(Part([], ""))
            parts[-1] = parts[-1]._replace(script=f"{parts[-1].script}{line}\n")
    return parts
