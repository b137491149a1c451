"""Gives a built program each value of a line at its limit, and one beyond it, in every way in which a line can come.

  checks/run limits PROGRAM [WORD ..]

The ways are scripts, sessions of a program that ends, connections over TCP and a Unix socket, control sessions, and streams from
files, FIFOs and sockets. A line comes at once, byte by byte (a long one only around its limit and at its end), or in pieces of some
sizes, with lines before and after it or none, and with a newline or at the end of input. Each has its reply, or the stream's
message is taken or refused, within a second; then the program takes no processor.
"""
import pytest

from common.tried import none_of
from serving import line_streams, line_ways

WAYS: dict[str, line_ways.Way | line_streams.StreamWay] = {**line_ways.WAYS, **line_streams.WAYS}


@pytest.mark.parametrize("way", WAYS)
def check_limits(program: str, folder: str, way: str) -> None:
    """Each value at its limit is taken, and each one beyond it is refused by its member."""
    count, faults = WAYS[way].faults(program, folder)
    none_of(faults)
    print(f"{count:,} cases")
