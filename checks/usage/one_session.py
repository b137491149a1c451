"""Reads a record in one session, again and again, until it is as wanted: `one_session.py PORT-OR-SOCKET KEY ROW`."""

from __future__ import annotations

import json
import socket
import sys
import time

SECONDS = 60
PAUSE = 0.1


def connected(address: str) -> socket.socket:
    """A connection to a port of this system or to a Unix socket, as soon as somebody listens there."""
    last = time.monotonic() + SECONDS
    while True:
        talk = socket.socket(socket.AF_INET if address.isdecimal() else socket.AF_UNIX)
        talk.settimeout(SECONDS)
        try:
            talk.connect(("127.0.0.1", int(address)) if address.isdecimal() else address)
            return talk
        except OSError:
            talk.close()
            if time.monotonic() > last:
                raise
            time.sleep(PAUSE)


def main(address: str, key: str, wanted: str) -> int:
    last = time.monotonic() + SECONDS
    with connected(address) as talk, talk.makefile("rb") as replies:
        while time.monotonic() < last:
            talk.sendall(json.dumps({"do": "read", "key": key}).encode() + b"\n")
            reply = json.loads(replies.readline())
            if reply == {"row": json.loads(wanted)}:
                return 0
            time.sleep(PAUSE)
    print(f"the record {key} was not served: {reply}")
    return 1


if __name__ == "__main__":
    sys.exit(main(*sys.argv[1:]))
