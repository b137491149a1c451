"""Bodies of a broker's messages, as lines of a stream that a region reads; images that are given in place of those that no region takes, and which
member and field of such a one is at fault."""

from __future__ import annotations

import json
import re
from pathlib import Path
from typing import Any, NamedTuple

MAX_LINE = 65_536
MAX_DEPTH = 126
_NESTS = re.compile(r"[\[\]{}]")
_TEXT = re.compile(r'"(?:[^"\\]|\\.)*"')
LARGEST = 10**15
MOST_FIELDS, MOST_NAME, MOST_TEXT, MOST_BYTES, NUMBER = 64, 64, 4_096, 8_192, 20
MOST_KEY = 256
NAME = re.compile(r"[a-z0-9-]{1,32}")
MEMBERS = {"deleted", "fields", "key", "master", "version"}


class BadBody(Exception):
    """A body that is no line of JSON as a region reads it."""


def line_of(position: int, body: bytes) -> bytes:
    """The line of a stream that has this body at this position, from 1. Whether the body is an image is the region's to say."""
    try:
        _check(body)
    except (ValueError, RecursionError) as fault:
        raise BadBody(f"message {position} is no line of JSON: {fault}") from fault
    line = b'{"at":%d,"image":%b}\n' % (position, body)
    if len(line) > MAX_LINE + 1:
        raise BadBody(f"message {position} is too long: {len(line) - 1} bytes, where a line has at most {MAX_LINE}")
    return line


def _check(body: bytes) -> None:
    """Raises ValueError where the body is none. Python's reader takes more than a region's, so the rest is looked at here."""
    if b"\n" in body:
        raise ValueError("it has a newline")
    text = body.decode("utf-8", errors="strict")
    value = _reader.decode(text)
    if "\\u" in text:
        json.dumps(value, ensure_ascii=False).encode("utf-8", errors="strict")
    if text.count("[") + text.count("{") > MAX_DEPTH and _depth(text) > MAX_DEPTH:
        raise ValueError(f"it nests deeper than {MAX_DEPTH}")


def whole_of(digits: str) -> int | float:
    """A number without a point, as a region takes it: -0 is no whole one."""
    return -0.0 if digits == "-0" else int(digits)


def _no_number(word: str) -> Any:
    raise ValueError(f"{word} is no number")


def _real(digits: str) -> float:
    number = float(digits)
    if number in (float("inf"), float("-inf")):
        raise ValueError("a number is out of range")
    return number


def _whole(digits: str) -> int | float:
    return int(digits) if len(digits) < 300 else _real(digits)


def _depth(text: str) -> int:
    depth = most = 0
    for found in _NESTS.finditer(_TEXT.sub("", text)):
        depth += 1 if found[0] in "[{" else -1
        most = max(most, depth)
    return most


_reader = json.JSONDecoder(parse_constant=_no_number, parse_float=_real, parse_int=_whole)


class BadInstead(Exception):
    """The file cannot be read, or a line of it is none."""


class Instead:
    """The lines of a file, as a stream has them: `{"at":P,"image":I}` for each position that has another image than the broker's."""

    def __init__(self, path: str | None = None) -> None:
        self.path = path
        self._lines: dict[int, bytes] = {}
        if path is None:
            return
        try:
            text = Path(path).read_bytes()
        except OSError as fault:
            raise BadInstead(f"--instead {path} cannot be read: {fault.strerror}") from fault
        for number, line in enumerate(text.split(b"\n"), 1):
            if line.strip():
                self._add(f"--instead {path}, line {number}", line)

    def at(self, position: int) -> bytes | None:
        """The line of a stream for this position, where the file has one."""
        return self._lines.get(position)

    def _add(self, where: str, line: bytes) -> None:
        try:
            told = json.loads(line, object_pairs_hook=_members)
        except (ValueError, RecursionError) as fault:
            raise BadInstead(f"{where} is no line of JSON: {fault}") from fault
        position = told.get("at") if isinstance(told, dict) else None
        if type(position) is not int or not 1 <= position <= LARGEST or told.keys() != {"at", "image"}:
            raise BadInstead(f'{where} is not as {{"at":POSITION,"image":IMAGE}}')
        if position in self._lines:
            raise BadInstead(f"{where} has the position {position} again")
        try:
            self._lines[position] = line_of(position, json.dumps(told["image"], ensure_ascii=False, separators=(",", ":")).encode())
        except (ValueError, BadBody) as fault:
            raise BadInstead(f"{where}: {fault}") from fault


def _members(members: list[tuple[str, object]]) -> dict[str, object]:
    """An object, which has each member once."""
    made = dict(members)
    if len(made) != len(members):
        raise ValueError("a member is there twice")
    return made


class Fault(NamedTuple):
    """What a region refuses an image for, in its own words, and what is at fault, for people."""

    error: str
    member: str
    why: str


def why_refused(line: bytes) -> str:
    """What is at fault in the image of a message, or nothing where that is not seen."""
    try:
        found = fault_of(json.loads(line)["image"])
    except (ValueError, KeyError, TypeError, RecursionError):
        return ""
    return "" if found is None else f"{found.member}: {found.why}"


def fault_of(image: Any) -> Fault | None:
    """The first fault of an image, in the order in which regions look for them."""
    return _shape(image) or _limits(image)


def _bad(member: str, why: str) -> Fault:
    return Fault("bad-shape", member, why)


def _beyond(member: str, why: str) -> Fault:
    return Fault("out-of-range", member, why)


def _shape(image: Any) -> Fault | None:
    if not isinstance(image, dict):
        return _bad("whole", "an image is an object")
    if "deleted" in image and image["deleted"] is not True:
        return _bad("deleted", "it is true, or absent")
    if "deleted" in image and "fields" in image:
        return _bad("fields", "an image has either fields or deleted")
    if "deleted" not in image and (fault := _fields_shape(image.get("fields"))):
        return fault
    for name in ("key", "master"):
        if not isinstance(image.get(name), str):
            return _bad(name, "it is a text")
    version = image.get("version")
    if not isinstance(version, list) or len(version) != 2 or not all(is_whole(it) for it in version):
        return _bad("version", "it is two whole numbers")
    others = sorted(image.keys() - MEMBERS)
    return _bad("other", f"there is no member {others[0]!r}") if others else None


def is_whole(value: Any) -> bool:
    """Whether a value is a whole number as regions read it."""
    return type(value) is int and 0 <= value < 2**64


def _fields_shape(fields: Any) -> Fault | None:
    if not isinstance(fields, dict):
        return _bad("fields", "an image has an object of fields, or deleted")
    for name, value in fields.items():
        if not isinstance(value, str) and not (type(value) is int and -(2**63) <= value < 2**63):
            return _bad("fields", f"the field {name!r} is no text and no whole number of 64 bits")
    return None


def _limits(image: dict[str, Any]) -> Fault | None:
    if fault := _fields_limits(image.get("fields", {})):
        return fault
    if not 1 <= len(image["key"].encode()) <= MOST_KEY:
        return _beyond("key", f"it has {len(image['key'].encode())} bytes, and 1 to {MOST_KEY} are taken")
    if not NAME.fullmatch(image["master"]):
        return _beyond("master", f"{image['master']!r} is not 1 to 32 of a to z, 0 to 9 and -")
    generation, number = image["version"]
    if not 1 <= generation <= LARGEST or number > LARGEST:
        return _beyond("version", f"the generation is 1 to {LARGEST}, and the number {LARGEST} at most")
    return None


def _fields_limits(fields: dict[str, Any]) -> Fault | None:
    if len(fields) > MOST_FIELDS:
        return _beyond("fields", f"there are {len(fields)}, and at most {MOST_FIELDS} are taken")
    size = 0
    for name, value in fields.items():
        bytes_of_name, bytes_of_value = len(name.encode()), len(value.encode()) if isinstance(value, str) else NUMBER
        if not 1 <= bytes_of_name <= MOST_NAME:
            return _beyond("fields", f"the name {name[:80]!r} has {bytes_of_name} bytes, and 1 to {MOST_NAME} are taken")
        if bytes_of_value > MOST_TEXT:
            return _beyond("fields", f"the field {name!r} has {bytes_of_value} bytes, and at most {MOST_TEXT} are taken")
        size += bytes_of_name + bytes_of_value
    if size > MOST_BYTES:
        return _beyond("fields", f"all names and values together have {size} bytes, and at most {MOST_BYTES} are taken")
    return None
