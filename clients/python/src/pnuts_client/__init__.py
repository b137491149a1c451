"""Reads records from regions of pnuts."""

from .aio import AsyncClient
from .client import Client
from .connection import Address, Tcp, Unix, address_of
from .control import AsyncControl, Control
from .control_requests import Connections, LineCounts, Lines, Notice, Notices, Stats, StreamStats, Tablet, TabletStats, Unread
from .errors import (
    BadLine,
    ConnectionFailed,
    CopyBehind,
    NoEntry,
    OutOfMemory,
    PnutsError,
    ProtocolError,
    RecordBehind,
    Recovering,
    Refused,
    TimedOut,
)
from .records import Content, Record, Version
from .regions import AsyncRegions, Bounds, Regions
from .requests import Condition, Page, Query, Request, eq, gt, has, lt, prefix

__all__ = [
    "Address",
    "AsyncClient",
    "AsyncControl",
    "AsyncRegions",
    "BadLine",
    "Bounds",
    "Client",
    "Condition",
    "ConnectionFailed",
    "Connections",
    "Content",
    "Control",
    "CopyBehind",
    "LineCounts",
    "Lines",
    "NoEntry",
    "Notice",
    "Notices",
    "OutOfMemory",
    "Page",
    "PnutsError",
    "ProtocolError",
    "Query",
    "Record",
    "RecordBehind",
    "Recovering",
    "Refused",
    "Regions",
    "Request",
    "Stats",
    "StreamStats",
    "Tablet",
    "TabletStats",
    "Unread",
    "Tcp",
    "TimedOut",
    "Unix",
    "Version",
    "address_of",
    "eq",
    "gt",
    "has",
    "lt",
    "prefix",
]
