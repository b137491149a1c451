"""Serves sessions by a built program, brings it to each of its ends, and looks at what its clients see.

  checks/run sessions PROGRAM [CHECK ..]
"""
import contextlib
import json
import os
import socket
import subprocess
import threading
import time
from collections.abc import Iterator

from common.served import Client, Json, Served, fifo, free_port, image, message, rests, row_of, same, written
from serving.staying import until

MANY = 10_000


def ends_with(served: Served, status: int, shown: bytes, said: bytes) -> None:
    same("how it ended", served.end(), (status, shown, said))


def check_listening_and_served(program: str, folder: str) -> None:
    """The first line, a record that is there and stays there, and the last line."""
    east = written(folder, "east", message(1, "k", 0, "x"))
    with Served(program, [("east", east)]) as served:
        same("the first line", served.first, b"listening on 127.0.0.1:%d\n" % served.port)
        with Client(served.port) as client:
            same("what was there before the row", [got for got in client.wait_for("k", row_of("k", 0, "x")) if got], [])
            for _ in range(1000):
                same("the row", client.read("k"), {"row": row_of("k", 0, "x")})
            same("what comes after", client.end(), b"")
        ends_with(served, 0, b"served 1\n", b"")


def check_live_read(program: str, folder: str) -> None:
    """The session lines of a worked row."""
    east = written(folder, "east", message(1, "k", 5, "x"))
    row = row_of("k", 5, "x")
    with Served(program, [("east", east)]) as served, Client(served.port) as client:
        client.wait_for("k", row)
        same("a later version", client.ask({"do": "read", "key": "k", "version": [1, 9]}), {"error": "behind", "has": [1, 5]})
        same("the version", client.ask({"do": "read", "key": "k", "version": [1, 5]}), {"row": row})
        same("a get", client.ask({"do": "get", "keys": ["k", "z"]}), {"rows": [row, None]})
        same("a scan", client.ask({"do": "scan", "query": {}}), {"next": None, "rows": [row]})
        same("a copy", client.ask({"do": "copy", "tablet": 0}), {"lines": 4})
        copied = [json.loads(client.reply()) for _ in range(4)]
        same("its lines", copied, [{"copy": 1, "from": None, "to": None}, {"at": 1, "stream": "east"}, image("k", 5, "x"), {"end": 2}])
        for word in ("adopt", "deliver", "lose", "marks", "notices", "relayout", "tablets"):
            same(word, client.ask({"do": word}), {"error": "read-only"})
        for bounds in ([], ["m"], ["m", "f"], {}):
            same("a change of layout", client.ask({"bounds": bounds, "do": "relayout", "other": 7}), {"error": "read-only"})
        same("no command", client.ask({"do": "fly"}), {"error": "bad-shape", "member": "do"})
        client.end()
        ends_with(served, 0, b"served 1\n", b"")


def check_bad_words(program: str, folder: str) -> None:
    """Files that do not open, a port that is taken, and their order."""
    none, east = os.path.join(folder, "none"), written(folder, "east", b"")
    with Served(program, [("west", none), ("east", none)]) as served:
        ends_with(served, 1, b"", b"pnuts: cannot open west\n")
    with socket.socket() as taken:
        taken.bind(("127.0.0.1", 0))
        taken.listen()
        port = taken.getsockname()[1]
        with Served(program, [("east", east)], port=port) as served:
            ends_with(served, 1, b"", b"pnuts: cannot listen\n")
        with Served(program, [("east", none)], port=port) as served:
            ends_with(served, 1, b"", b"pnuts: cannot open east\n")
        with Served(program, [("east", none), ("east", none)], port=port) as served:
            ends_with(served, 2, b"", b"pnuts: stream\n")
        with Served(program, [("east", none)], port=port, words=["--bounds", "7"]) as served:
            ends_with(served, 2, b"", b"pnuts: bounds\n")


def fails(program: str, path: str, key: str, row: Json | None) -> None:
    """A session is served beside a stream that fails after the record at the key, if any."""
    with Served(program, [("east", path)]) as served:
        with Client(served.port) as client:
            if row:
                client.wait_for(key, row)
            else:
                time.sleep(0.2)
                same("what the session is answered", client.read("k"), {"row": None})
        ends_with(served, 1, b"", b"pnuts: stream east failed\n")


def check_failed_streams(program: str, folder: str) -> None:
    """The session is served to its end, and `served` is not printed."""
    row = row_of("k", 0, "x")
    fails(program, written(folder, "late", message(2, "k", 0, "x")), "k", None)
    fails(program, written(folder, "bad", message(1, "k", 0, "x") + b"{}\n"), "k", row)
    fails(program, written(folder, "long", message(1, "k", 0, "x") + b" " * 70_000 + b"\n"), "k", row)
    fails(program, written(folder, "gap", message(1, "k", 0, "x") + message(3, "k", 1, "y")), "k", row)


def has_gone(port: int) -> bool:
    """Whether a client was taken, which sends nothing and goes."""
    with contextlib.suppress(OSError), Client(port) as client:
        client.end()
        return True
    return False


def check_no_room_for_the_last_line(program: str, folder: str) -> None:
    east = written(folder, "east", b"")
    port = free_port()
    line = [program, "serve", "--sessions", "1", "--port", str(port), f"east={east}"]
    with open("/dev/full", "wb") as full:
        process = subprocess.Popen(line, stdin=subprocess.DEVNULL, stdout=full, stderr=subprocess.PIPE)
        until("a client has gone, or the program ended", lambda: process.poll() is not None or has_gone(port))
        same("what is said", process.communicate(timeout=30)[1], b"pnuts: write\n")
        same("the status", process.returncode, 1)


def check_sixteen_sessions(program: str, folder: str) -> None:
    """Each of 16 clients at once finds the record."""
    east = written(folder, "east", message(1, "k", 0, "x"))
    found = []

    def talk(port: int) -> None:
        with Client(port) as client:
            client.wait_for("k", row_of("k", 0, "x"))
            found.append(all(client.read("k") == {"row": row_of("k", 0, "x")} for _ in range(200)))

    with Served(program, [("east", east)], sessions=16) as served:
        talks = [threading.Thread(target=talk, args=[served.port]) for _ in range(16)]
        for one in talks:
            one.start()
        for one in talks:
            one.join()
        same("what the clients found", found, [True] * 16)
        ends_with(served, 0, b"served 16\n", b"")


def check_many_lines_at_once(program: str, folder: str) -> None:
    """Ten thousand lines in one write, the last without a newline: as many replies, in their order."""
    east = written(folder, "east", message(1, "k", 0, "x"))
    lines = b"".join(b'{"do":"read","key":"%d"}\n{"do":"lose","tablet":0}\n' % n for n in range(MANY // 2))
    with Served(program, [("east", east)]) as served, Client(served.port) as client:
        sender = threading.Thread(target=client.send, args=[lines + b'{"do":"fly"}'])
        sender.start()
        replies = [client.reply() for _ in range(MANY)]
        sender.join()
        same("the replies", replies, [b'{"row":null}\n', b'{"error":"read-only"}\n'] * (MANY // 2))
        same("the last reply", client.end(), b'{"error":"bad-shape","member":"do"}\n')
        ends_with(served, 0, b"served 1\n", b"")


def check_clients_that_misbehave(program: str, folder: str) -> None:
    """One sends nothing, one half a line, one goes away and one never reads, while another one is served."""
    east = written(folder, "east", b"".join(message(at, f"k{at:04}", 0, "x" * 1000) for at in range(1, 1001)))
    with Served(program, [("east", east)], sessions=5) as served:
        with contextlib.ExitStack() as stay:
            clients = [stay.enter_context(Client(served.port)) for _ in range(5)]
            clients[0].send(b'{"do":"read","ke')
            clients[1].send(b'{"do":"scan","que')
            clients[1].socket.close()
            clients[2].wait_for("k1000", row_of("k1000", 0, "x" * 1000))
            clients[2].socket.setblocking(False)
            with contextlib.suppress(BlockingIOError):
                for _ in range(100_000):
                    clients[2].socket.send(b'{"do":"scan","query":{"limit":1000}}\n' * 100)
            last = time.monotonic() + 2
            while time.monotonic() < last:
                same("what is answered meanwhile", clients[4].read("k0001"), {"row": row_of("k0001", 0, "x" * 1000)})
        ends_with(served, 0, b"served 5\n", b"")


def check_a_silent_stream(program: str, folder: str) -> None:
    """A stream that says nothing holds up no other; once it speaks, it is heard."""
    (west, pipe), east = fifo(folder, "west"), written(folder, "east", message(1, "k", 0, "x"))
    with Served(program, [("west", west), ("east", east)]) as served:
        with pipe, Client(served.port) as client:
            client.wait_for("k", row_of("k", 0, "x"))
            pipe.write(message(1, "w", 0, "y"))
            client.wait_for("w", row_of("w", 0, "y"))
        ends_with(served, 0, b"served 1\n", b"")


def check_a_stream_that_grows(program: str, folder: str) -> None:
    """A message that a FIFO is given is served before the next one is written, a hundred times over."""
    east, pipe = fifo(folder, "east")
    with Served(program, [("east", east)]) as served:
        with pipe, Client(served.port) as client:
            for at in range(1, 101):
                pipe.write(message(at, "k", at, "x"))
                shown = client.wait_for("k", row_of("k", at, "x"))
                same("what was there before", [got for got in shown if got and got["version"] != [1, at - 1]], [])
        ends_with(served, 0, b"served 1\n", b"")


def check_a_stream_that_stops_in_a_line(program: str, folder: str) -> None:
    """A message without its newline is none, and no fault."""
    half = written(folder, "half", message(1, "k", 0, "x") + message(2, "k", 1, "y")[:-1])
    with Served(program, [("east", half)]) as served:
        with Client(served.port) as client:
            client.wait_for("k", row_of("k", 0, "x"))
            time.sleep(0.2)
            same("the row", client.read("k"), {"row": row_of("k", 0, "x")})
        ends_with(served, 0, b"served 1\n", b"")


def check_a_fault_beside_a_silent_stream(program: str, folder: str) -> None:
    """A stream that waits for ever does not hold up the end that another stream's fault makes."""
    (west, pipe), bad = fifo(folder, "west"), written(folder, "bad", b"{}\n")
    with Served(program, [("west", west), ("east", bad)]) as served:
        with pipe:
            with Client(served.port) as client:
                same("what is answered", client.read("k"), {"row": None})
            ends_with(served, 1, b"", b"pnuts: stream east failed\n")


def check_sessions_at_rest(program: str, folder: str) -> None:
    """Sessions that have not asked, have half a line, 65,536 bytes of one or replies that they do not take, and silent streams: the program rests."""
    (west, pipe), east = fifo(folder, "west"), written(folder, "east", b"".join(message(at, f"k{at:04}", 0, "x" * 900) for at in range(1, 1001)))
    with Served(program, [("west", west), ("east", east)], sessions=8) as served:
        with pipe, contextlib.ExitStack() as stay:
            rests(served.process.pid, "with no client yet")
            pipe.write(message(1, "w", 0, "y") + message(2, "w", 1, "y")[:20])
            clients = [stay.enter_context(Client(served.port)) for _ in range(8)]
            clients[0].wait_for("k1000", row_of("k1000", 0, "x" * 900))
            page = b'{"do":"scan","query":{"limit":1000}}\n'
            for client, text in zip(clients[1:], (b"", page[:9], b"x" * 65_535, b"x" * 65_536, b"x" * 200_000, page * 9, page)):
                client.send(text)
            rests(served.process.pid, "with clients that ask no more")
        ends_with(served, 0, b"served 8\n", b"")


def stream_messages(name: str, count: int) -> Iterator[tuple[int, Json]]:
    """Images of a stream with their positions, whose keys and versions other streams have too."""
    salt = sum(name.encode())
    for at in range(1, count + 1):
        yield at, image(f"k{at * 7 % 50:02}", at * (salt + 3) % 40, name if at % 3 else "x", generation=1 + at % 2)


def replayed(program: str, words: list[str], names: list[str], count: int) -> Json:
    """What a script of the same messages leaves, as the pages of a region."""
    batches = [{"first": 1, "images": [one for _, one in stream_messages(name, count)], "stream": name} for name in names]
    lines = [json.dumps({"do": "deliver", "batches": [batch]}) for batch in batches]
    script = "\n".join(lines + ['{"do":"scan","query":{"limit":1000}}']) + "\n"
    ran = subprocess.run([program, "replay", *words], input=script.encode(), capture_output=True, timeout=60)
    page: Json = json.loads(ran.stdout.splitlines()[-1])
    return page


def check_four_streams_in_one_region(program: str, folder: str) -> None:
    """Streams with equal keys, ended in any order, leave what a script of their messages leaves."""
    names, words, count = ["a", "b", "c", "d"], ["--bounds", '["k2","k4"]', "--workers", "4"], 150
    pipes = [fifo(folder, name) for name in names]
    with Served(program, [(name, path) for name, (path, _) in zip(names, pipes)], words=words) as served:
        for name, (_, pipe) in reversed(list(zip(names, pipes))):
            for at, one in stream_messages(name, count):
                pipe.write(json.dumps({"at": at, "image": one}).encode() + b"\n")
            pipe.close()
        with Client(served.port) as client:
            wanted, last = replayed(program, words, names, count), time.monotonic() + 30
            while (got := client.ask({"do": "scan", "query": {"limit": 1000}})) != wanted and time.monotonic() < last:
                time.sleep(0.01)
            same("the records", got, wanted)
        ends_with(served, 0, b"served 1\n", b"")
