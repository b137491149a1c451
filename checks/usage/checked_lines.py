"""Lines that `pnuts check` tells: what feeds say of the same images, in their own way, has to be what is told.

  checks/run checked-lines PROGRAM [--cases N] [--seed S]

Images and messages are drawn with members of all kinds. Besides, a line is told before the next one comes, and a line of 100 MB takes
no memory.
"""
import json
import random
import resource
import subprocess
import sys
from typing import Any

from common.crates import TOP
from common.served import SECONDS, piped, same

sys.path.insert(0, str(TOP / "feeds"))
from feed.bodies import fault_of  # noqa: E402

LINES = 20_000
LONG = 100_000_000
MEMORY = 300_000_000
VALUES: list[Any] = ["", "x", "x" * 4_096, "x" * 4_097, 0, -1, 2**63 - 1, 2**63, -(2**63), -(2**63) - 1, 1.5, None, True, [], {}, [1, 0], "k" * 257, "e"]
NAMES = ["deleted", "fields", "key", "master", "version", "size", "", "\u00e9"]
FIELDS = ["a", "", "n" * 64, "n" * 65, "\u00e9" * 32, "\u00e9" * 33, "b", "price"]


def drawn_image(rng: random.Random) -> Any:
    """An image, of which some members are others."""
    image: dict[str, Any] = {"key": "k", "master": "w", "version": [rng.choice([0, 1, 10**15, 10**15 + 1]), rng.choice([0, 10**15 + 1])]}
    if rng.random() < 0.3:
        image["deleted"] = True
    else:
        image["fields"] = {name: rng.choice(VALUES[:8]) for name in rng.sample(FIELDS, rng.randrange(4))}
    for _ in range(rng.choice([0, 0, 1, 2])):
        image[rng.choice(NAMES)] = rng.choice(VALUES)
    for name in rng.sample(sorted(image), rng.choice([0, 0, 0, 1])):
        del image[name]
    return image if rng.random() < 0.98 else rng.choice(VALUES)


def wanted_of(number: int, image: Any, is_message: bool) -> dict[str, Any] | None:
    """What is to be told of an image, or of its message, but for names."""
    if not is_message and isinstance(image, dict) and {"at", "image"} & image.keys():
        return None
    fault = fault_of(image)
    return None if fault is None else {"error": fault.error, "line": number, "member": fault.member}


def check_drawn_lines(program: str, cases: int | None, seed: int) -> None:
    """What is told of images and messages is what feeds say of them."""
    rng = random.Random(seed)
    images = [(drawn_image(rng), rng.random() < 0.5) for _ in range(cases or LINES)]
    lines = [json.dumps({"at": 7, "image": it} if is_message else it, ensure_ascii=rng.random() < 0.5) for it, is_message in images]
    ran = subprocess.run([program, "check"], input="\n".join(lines).encode(), capture_output=True, timeout=SECONDS)
    told = list(map(json.loads, ran.stdout.splitlines()))
    wanted = [it for it in (wanted_of(number, *image) for number, image in enumerate(images, 1)) if it]
    same("what is told", [{name: it[name] for name in ("error", "line", "member")} for it in told], wanted)
    for it in told:
        image = images[it["line"] - 1][0]
        names = image.get("fields") if it["member"] == "fields" else image if it["member"] == "other" else {}
        same(f"the name of line {it['line']}", it["name"] is None or it["name"] in names, True)
    same("the status", ran.returncode, int(bool(wanted)))


def check_lines_as_they_come(program: str) -> None:
    """A line is told before the next one comes."""
    with subprocess.Popen([program, "check"], stdin=subprocess.PIPE, stdout=subprocess.PIPE) as running:
        for number in range(1, 4):
            piped(running.stdin).write(b"[]\n")
            piped(running.stdin).flush()
            told = json.loads(piped(running.stdout).readline())
            same("what is told", told, {"error": "bad-shape", "line": number, "member": "whole", "name": None})
        piped(running.stdin).close()
        same("the status", running.wait(SECONDS), 1)


def check_long_lines(program: str) -> None:
    """A long line is told once, and takes no memory."""
    ran = subprocess.run([program, "check"], input=b" " * LONG + b"\n[]", capture_output=True, timeout=SECONDS,
                         preexec_fn=lambda: resource.setrlimit(resource.RLIMIT_AS, (MEMORY, MEMORY)))
    told = [json.loads(it) for it in ran.stdout.splitlines()]
    same("what is told", [(it["error"], it["line"]) for it in told], [("too-long", 1), ("bad-shape", 2)])
