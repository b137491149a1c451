"""The version and the day of the newest entry of debian/changelog, which is where the version is written."""

from __future__ import annotations

import re
from email.utils import parsedate_to_datetime
from pathlib import Path

CHANGES = Path(__file__).resolve().parent / "debian/changelog"


def _first(pattern: str) -> str:
    found = re.search(pattern, CHANGES.read_text(encoding="utf-8"), flags=re.MULTILINE)
    if found is None:
        raise ValueError(f"{CHANGES} has no line {pattern}")
    return found.group(1)


def version() -> str:
    return _first(r"^pnuts \((\S+)\)")


def day() -> str:
    """As 2026-11-26."""
    return parsedate_to_datetime(_first(r"^ -- .*>  (.*)$")).date().isoformat()
