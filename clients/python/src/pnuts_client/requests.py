"""Lines that ask a region, with the queries of scans, and what their replies mean."""

from __future__ import annotations

import json
from collections.abc import Callable, Iterable, Mapping, Sequence
from dataclasses import dataclass, replace
from typing import Any, Generic, NamedTuple, TypeVar

from .errors import ProtocolError, refusal_of
from .records import Record

Value = str | int
Condition = tuple[Value, ...]
MEMBERS = frozenset(("after", "from", "limit", "to", "where"))
MAX_KEYS = 100
"""How many keys one `get` may have."""
MAX_SIZE = 65_536 - len('{"do":"get","keys":[]}')
"""How many bytes they may have in its line, each with a comma."""

Answer = TypeVar("Answer")
_json: Callable[[Any], str] = json.JSONEncoder(ensure_ascii=False, separators=(",", ":")).encode


def has(field: str) -> Condition:
    """The field is there."""
    return ("has", field)


def eq(field: str, value: Value) -> Condition:
    """The field is this text, or this number."""
    return ("eq", field, value)


def lt(field: str, value: Value) -> Condition:
    """The field is a text less than this one, by bytes, or a number less than this one."""
    return ("lt", field, value)


def gt(field: str, value: Value) -> Condition:
    """The field is a text greater than this one, by bytes, or a number greater than this one."""
    return ("gt", field, value)


def prefix(field: str, value: str) -> Condition:
    """The field is a text that begins with this one."""
    return ("prefix", field, value)


@dataclass(frozen=True, slots=True)
class Query:
    """The records from `start` on, below `end`, above `after`, that meet all conditions of `where`; `limit` rows a page."""

    start: str | None = None
    end: str | None = None
    where: Sequence[Condition] = ()
    limit: int = 100
    after: str | None = None

    def as_json(self) -> dict[str, Any]:
        """The query as a line has it."""
        where = [list(condition) for condition in self.where]
        return {"after": self.after, "from": self.start, "limit": self.limit, "to": self.end, "where": where}

    def covers(self, key: str) -> bool:
        """Whether the key is in the range. Texts are ordered as their bytes are."""
        is_past = (self.start is None or key >= self.start) and (self.after is None or key > self.after)
        return is_past and (self.end is None or key < self.end)

    def within(self, low: str | None, high: str | None) -> Query | None:
        """The part of the query from `low` on and below `high`. None where no key can be there."""
        start = _greater(self.start, low)
        end = self.end if high is None else high if self.end is None else min(self.end, high)
        first = _greater(start, self.after)
        if end is not None and first is not None and first >= end:
            return None
        return replace(self, start=start, end=end)


def query_of(member: Any) -> Query | None:
    """The query that a reply's `next` is, None on the last page."""
    if member is None:
        return None
    if not isinstance(member, dict) or set(member) != MEMBERS:
        raise ProtocolError(f"no query: {member!r}")
    where = [tuple(condition) for condition in member["where"]]
    return Query(member["from"], member["to"], where, member["limit"], member["after"])


def meets(record: Record, where: Sequence[Condition]) -> bool:
    """Whether a scan with these conditions shows the record: a content with fields meets all of them."""
    fields = [content.fields for content in record.contents]
    return any(each is not None and all(_holds(each, *condition) for condition in where) for each in fields)


def _holds(fields: Mapping[str, Any], word: Value, field: Any, value: Value | None = None) -> bool:
    found = fields.get(field)
    if found is None or word == "has":
        return found is not None
    if not isinstance(found, str if isinstance(value, str) else int):
        return False
    if word == "prefix":
        return str(found).startswith(str(value))
    return bool({"eq": found == value, "lt": found < value, "gt": found > value}[str(word)])


def _greater(one: str | None, other: str | None) -> str | None:
    if one is None or other is None:
        return one if other is None else other
    return max(one, other)


class Request(NamedTuple, Generic[Answer]):
    """A line with its newline, and how its reply is read.

    `has_lines`: lines of text follow a reply that says how many. `reads`: asking twice changes nothing, so a line
    whose connection broke before its reply is asked anew. `work`: how many seconds longer its reply is waited for.
    `key` and `at_least`: what a line reads of one record.
    """

    line: bytes
    meaning: Callable[[Any], Answer]
    has_lines: bool = False
    reads: bool = True
    work: float = 0.0
    key: str | None = None
    at_least: tuple[int, int] | None = None

    def answer(self, reply: Any) -> Answer:
        """What the reply says; raises what it refuses."""
        try:
            if "error" in reply:
                raise refusal_of(reply, self.key)
            return self.meaning(reply)
        except (KeyError, TypeError, IndexError, AttributeError) as fault:
            raise ProtocolError(f"no reply to {self.line[:80]!r}: {reply!r}") from fault


@dataclass(frozen=True, slots=True)
class Page:
    """Records in key order, and the query for those that follow, None where these are the last."""

    records: list[Record]
    next: Query | None


def read(key: str, at_least: tuple[int, int] | None = None) -> Request[Record | None]:
    """One record, a deleted one too; None where there is none. `at_least` is the version that is required."""
    version = b"" if at_least is None else b',"version":[%d,%d]' % tuple(at_least)
    return Request(b'{"do":"read","key":%b%b}\n' % (_text(key), version), _row, key=key, at_least=at_least)


def get(keys: Sequence[str]) -> Request[list[Record | None]]:
    """The records of 1 to 100 keys, in their order."""
    return Request(b'{"do":"get","keys":[%b]}\n' % b",".join(map(_text, keys)), _rows)


def scan(query: Query) -> Request[Page]:
    """A page of what the query asks for."""
    return ask({"do": "scan", "query": query.as_json()}, _page)


def copy(tablet: int, need: Mapping[str, int] | None = None) -> Request[bytes]:
    """The text of a copy of a tablet, which reaches the positions of `need`."""
    request = ask({"do": "copy", "need": need and dict(need), "tablet": tablet}, _copy)
    return Request(request.line, _copy, has_lines=True)


def ask(command: Mapping[str, Any], meaning: Callable[[Any], Answer]) -> Request[Answer]:
    """Any command that reads and has a reply of one line."""
    return Request(_text(command) + b"\n", meaning)


def in_batches(keys: Iterable[str]) -> Iterable[list[str]]:
    """Keys in lists of at most 100, in their order, for lines that are not too long."""
    batch: list[str] = []
    left = MAX_SIZE
    for key in keys:
        size = len(_text(key)) + 1
        if batch and (len(batch) == MAX_KEYS or size > left):
            yield batch
            batch, left = [], MAX_SIZE
        batch.append(key)
        left -= size
    if batch:
        yield batch


def _text(value: Any) -> bytes:
    """JSON as a line has it. What is no UTF-8, as a surrogate that stands alone, is refused."""
    try:
        return _json(value).encode()
    except UnicodeEncodeError as fault:
        raise ValueError(f"no UTF-8: {value!r}") from fault


def _row(reply: Any) -> Record | None:
    row = reply["row"]
    return None if row is None else Record(row)


def _rows(reply: Any) -> list[Record | None]:
    return [None if row is None else Record(row) for row in reply["rows"]]


def _page(reply: Any) -> Page:
    return Page([Record(row) for row in reply["rows"]], query_of(reply["next"]))


def _copy(reply: Any) -> bytes:
    text: bytes = reply["text"]
    return text
