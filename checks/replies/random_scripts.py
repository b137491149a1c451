"""Random scripts, whose replies have to be those of a plain, slow program (checks/replies/slow.py).

  checks/run random-scripts SCRIPTS [--cases N] [--seed S] [--replay]

SCRIPTS is the program of crates/test_rows, to which three scripts are put in one input; with --replay it is `pnuts`, of which each
has a process. The three are for a region that is
lost and recovers, for one that it takes copies from, and for one that takes what the first accepted anew, in another order
and over another layout; the first and the last have to show the same records. In a third, regions change their layouts; in a
third, fields and conditions have numbers. All have to agree and, of 1,000 scripts or more, each kind of reply has to occur.
"""
import json
import subprocess
from collections.abc import Iterator

from common.tried import none_of
from replies.random_talks import Meeting, Talk
from replies.slow_lines import Json

SCRIPTS, MANY, EVENTS = 3_000, 1_000, 24
# Meetings that are tried each time, by their seeds and those of their events: without events, over 64 tablets that change, of 18 streams.
KEPT: list[tuple[int, list[int]]] = [(0, []), (7, [1, 2, 3]), (3, [1, 2, 3])]
REFUSED = ["gap", "too-many-streams", "recovering", "still-recovering", "wrong-range", "too-old", "too-long", "not-json", "truncated", "bad-end",
           "bad-line", "outside-range", "not-rising", "behind null", "behind version", "behind stream"]
SHAPES = ["whole", "do", "batches", "bounds", "deleted", "fields", "first", "images", "key", "keys", "lines", "master", "need", "query",
          "since", "stream", "tablet", "version", "other"]
RANGES = ["batches", "bounds", "fields", "first", "key", "keys", "lines", "master", "need", "query", "since", "stream", "tablet",
          "version"]
ANSWERS = ["adopted", "changed none", "changed some", "copy 1", "copy 2", "lines", "lost", "marks", "missed", "notices none",
           "notices some", "relaid", "row null", "row one", "row deleted", "row conflict", "rows more", "rows last", "rows got",
           "tablets serving", "tablets recovering"]
KINDS = {*REFUSED, *(f"bad-shape {word}" for word in SHAPES), *(f"out-of-range {word}" for word in RANGES), *ANSWERS}


def refusal_kind(reply: Json) -> str:
    word: str = reply["error"]
    if word == "behind":
        return "behind stream" if "stream" in reply else "behind null" if reply["has"] is None else "behind version"
    return f"{word} {reply['member']}" if "member" in reply else word


def kind_of(reply: Json) -> str:
    """The kind of a reply, in two words at most."""
    if "error" in reply:
        return refusal_kind(reply)
    if "row" in reply:
        return f"row {reply['row'] and reply['row']['state'] or 'null'}"
    if "rows" in reply:
        return "rows got" if "next" not in reply else "rows last" if reply["next"] is None else "rows more"
    if "notices" in reply:
        return "notices some" if reply["notices"] else "notices none"
    if isinstance(reply.get("tablets"), int):
        return "relaid"
    if "tablets" in reply:
        return "tablets recovering" if any(tablet["need"] is not None for tablet in reply["tablets"]) else "tablets serving"
    if "changed" in reply:
        return "changed some" if reply["changed"] else "changed none"
    if "copy" in reply:
        return f"copy {reply['copy']}"
    return next((word for word in ("adopted", "lines", "lost", "marks", "missed") if word in reply), "line of a copy")


def replies_of(program: str, talks: list[Talk]) -> dict[str, list[bytes]]:
    """What the program replies to each talk, by its name."""
    script = b"".join(talk.script() for talk in talks)
    ended = subprocess.run([program], input=script, capture_output=True, check=True)
    replies: dict[str, list[bytes]] = {}
    lines: list[bytes] = []
    for line in ended.stdout.splitlines(keepends=True):
        if line.startswith(b"## "):
            lines = replies.setdefault(line.split()[1].decode(), [])
        lines.append(line)
    return replies


def replayed(program: str, talk: Talk) -> list[bytes]:
    """What `pnuts replay` replies to a talk, below its head."""
    command = [program, "replay", "--bounds", json.dumps(talk.bounds), "--workers", str(talk.workers)]
    script = b"".join(line + b"\n" for line in talk.lines)
    ended = subprocess.run(command, input=script, capture_output=True, check=True)
    return [talk.head(), *ended.stdout.splitlines(keepends=True)]


def first_difference(talk: Talk, replies: list[bytes]) -> str | None:
    """The first reply that is not the slow program's, or None."""
    wanted = talk.replies().splitlines(keepends=True)
    pairs = list(zip(wanted + [b""] * len(replies), replies + [b""] * len(wanted)))
    for number, (want, got) in enumerate(pairs):
        if want != got:
            return f"{talk.name}: line {number + 1} of the replies\n  want {want[:500]!r}\n  got  {got[:500]!r}"
    return None


def differences(meeting: Meeting, replies: dict[str, list[bytes]]) -> Iterator[str]:
    yield from filter(None, (first_difference(talk, replies.get(talk.name, [])) for talk in meeting.talks()))
    shown = [replies.get(talk.name, [])[-meeting.closing :] for talk in (meeting.first, meeting.again)]
    if shown[0] != shown[1]:
        yield f"{meeting.first.name}: the same images, taken anew, show other records"


def check_random_scripts(scripts: str, cases: int | None, seed: int, replay: bool) -> None:
    """The replies are those of the slow program."""
    from common.drawn import SEEDS, seeds, st, try_drawn
    kinds, count = set[str](), -(-(cases or SCRIPTS) // 3)

    def agree(drawn: tuple[int, list[int]]) -> None:
        meeting = Meeting(*drawn)
        talks = meeting.talks()
        replies = {talk.name: replayed(scripts, talk) for talk in talks} if replay else replies_of(scripts, talks)
        none_of(differences(meeting, replies))
        kinds.update(kind_of(json.loads(line)) for lines in replies.values() for line in lines[1:])

    try_drawn(agree, st.tuples(SEEDS, seeds(EVENTS)), count, seed, KEPT)
    print(f"{len(KINDS & kinds)} kinds of replies")
    none_of(f"no reply is of the kind: {kind}" for kind in sorted(KINDS - kinds) if 3 * count >= MANY)
