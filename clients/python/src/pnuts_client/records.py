"""What a region shows: records, their versions and their contents."""

from __future__ import annotations

from collections.abc import Iterator, Mapping
from typing import Any, NamedTuple


class Version(NamedTuple):
    """A version of a record. Versions are ordered by generation, and then by number."""

    generation: int
    number: int

    def __str__(self) -> str:
        return f"{self.generation}.{self.number}"


class Content:
    """One content of a record: its fields, or a deletion."""

    __slots__ = ("_content",)

    def __init__(self, content: Mapping[str, Any]) -> None:
        self._content = content

    @property
    def deleted(self) -> bool:
        """Whether it is a deletion."""
        return "deleted" in self._content

    @property
    def fields(self) -> Mapping[str, Any] | None:
        """The fields by their names, None for a deletion."""
        return self._content.get("fields")

    @property
    def master(self) -> str:
        """Who may write the record."""
        return str(self._content["master"])

    def __eq__(self, other: object) -> bool:
        return isinstance(other, Content) and self._content == other._content

    def __repr__(self) -> str:
        return f"Content({self._content!r})"


class Record:
    """A record as a region holds it: its greatest version, with every content that came with it."""

    __slots__ = ("_row",)

    def __init__(self, row: Mapping[str, Any]) -> None:
        self._row = row

    @property
    def key(self) -> str:
        """The key."""
        return str(self._row["key"])

    @property
    def version(self) -> Version:
        """The version that all contents have."""
        return Version(*self._row["version"])

    @property
    def state(self) -> str:
        """`one`, `deleted`, or `conflict` where several contents have the version."""
        return str(self._row["state"])

    @property
    def contents(self) -> list[Content]:
        """The contents, in the region's order, at least one."""
        return [Content(content) for content in self._row["contents"]]

    @property
    def fields(self) -> Mapping[str, Any] | None:
        """The fields where there is one content with fields, else None: see `state` and `contents`."""
        return self._row["contents"][0].get("fields") if self._row["state"] == "one" else None

    def as_json(self) -> Mapping[str, Any]:
        """The row as the region wrote it."""
        return self._row

    def __iter__(self) -> Iterator[Content]:
        return iter(self.contents)

    def __eq__(self, other: object) -> bool:
        return isinstance(other, Record) and self._row == other._row

    def __repr__(self) -> str:
        return f"Record({self._row!r})"
