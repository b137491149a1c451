"""Mutates real lines, and compares which of them a built program and Rust's `serde_json` read.

  checks/run json-lines PROGRAM [--cases N] [--seed S]

The lines are those of crates/test_rows, each with some bytes, numbers or parts replaced; a seed makes the same lines each time.
The program has to answer `not-json` to just those that bench/plain, which is built first, reads nothing in. Which of the numbers
are read that have 17 digits or more, or an exponent of three, is not fixed, and changes from one `serde_json` to the next: lines
with such a number may be read otherwise, and are counted. Needs cargo and Debian's librust-serde-json-dev; where these are
missing nothing is compared.
"""
import glob
import os
import pathlib
import random
import re
import subprocess
from collections.abc import Iterator
from typing import IO

from common.crates import TOP
from common.parts import needs
from common.tried import none_of
from replies.stored import stored_scripts

REGISTRY = "/usr/share/cargo/registry/serde_json-*"
pytestmark = needs("cargo", also=() if glob.glob(REGISTRY) else ("librust-serde-json-dev",))

PLAIN = TOP / "out/plain/release/plain"
NOT_JSON, COPY = b'{"error":"not-json"}\n', b'{"lines":'
# A script has at most 1,000,000 lines.
CASES, MOST_BYTES, DEEPEST = 100_000, 4_096, 140
# A line with this word may announce lines.
ADOPT = b"adopt"
EDGE = re.compile(rb"[0-9]{17}|[eE][-+]?[0-9]{3}")
PARTS = [b"{", b"}", b"[", b"]", b",", b":", b'"', b"\\", b"/", b" ", b"\t", b"\r", b"\0", b"\x1f", b"\x7f", b"null", b"true",
         b"fals", b"false", b"NaN", b"Infinity", b"-Infinity", b"nul", b"{}", b"[]", b'""', b'"":', b"//", b"/**/", b"'",
         b"\\u0000", b"\\ud800", b"\\udc00", b"\\ud83d\\ude00", b"\\ude00\\ud83d", b"\\u12", b"\\uD8", b"\\x41", b"\\n",
         b"\\b", b"\\/", b"\\'", b"\xc3\xa9", b"\xc3", b"\xa9", b"\xc0\x80", b"\xed\xa0\x80", b"\xef\xbb\xbf",
         b"\xf0\x9f\x98\x80", b"\xf4\x90\x80\x80", b"\xf8\x88\x80\x80\x80", b"\xe2\x80\xa8", b"\xff", b"\xfe\xff"]
NUMBERS = [b"0", b"-0", b"-", b"+1", b"00", b"01", b"-01", b"1.", b".5", b"1.0", b"-1.5e3", b"1e", b"1e+", b"1E-2", b"1e400",
           b"-1e400", b"1e-400", b"1e308", b"1.8e308", b"1.7976931348623157e308", b"1.7976931348623159e308", b"0e999999999999",
           b"1e99999999999999999999", b"18446744073709551615", b"18446744073709551616", b"-9223372036854775808",
           b"-9223372036854775809", b"9" * 40, b"9" * 309, b"9" * 400, b"0." + b"0" * 400 + b"1", b"4.9e-324", b"0x1", b"1_000",
           b"1e5", b"2.2250738585072011e-308", b"0.0", b"-0.0"]


def real_lines() -> list[bytes]:
    """Each line of the stored scripts once, but for very long ones."""
    lines = {line for script in stored_scripts() for line in script.lines if len(line) <= MOST_BYTES}
    return sorted(lines | {b"", b"null", b"[1,2.5,-3e4]", b'{"a":{"b":[true,false,null,"\\u00e9\\n"]}}'})


def spans_of_digits(line: bytes) -> list[tuple[int, int]]:
    """Where the numbers of a line are."""
    spans, start = [], None
    for at, byte in enumerate(line + b" "):
        if byte in b"0123456789":
            start = at if start is None else start
        elif start is not None:
            spans.append((start, at))
            start = None
    return spans


def nested(rng: random.Random, line: bytes) -> bytes:
    """The line within arrays or objects, near the deepest that is read."""
    depth: int = rng.choice([1, 2, 100, *range(120, DEEPEST)])
    opening, closing = rng.choice([(b"[", b"]"), (b'{"a":', b"}")])
    return opening * depth + line + closing * (depth - rng.choice([0, 0, 0, 1]))


def mutated_once(rng: random.Random, line: bytes, other: bytes) -> bytes:
    """A line with one part replaced, removed, repeated or put in."""
    at = rng.randrange(len(line) + 1)
    end = min(len(line), at + rng.choice([0, 1, 1, 2, 5, 20]))
    way = rng.randrange(10)
    if way <= 2:
        return line[:at] + rng.choice(PARTS) + line[end:]
    if way == 3:
        return line[:at] + bytes([rng.randrange(256)]) + line[at + 1 :]
    if way == 4:
        spans = spans_of_digits(line) or [(at, at)]
        start, stop = rng.choice(spans)
        return line[:start] + rng.choice(NUMBERS) + line[stop:]
    if way == 5:
        return line[:at] + line[at:end] * 2 + line[end:]
    if way == 6:
        return line[:at] + other[min(at, len(other)) :]
    if way == 7:
        return nested(rng, line) if rng.random() < 0.2 else line[:at]
    if way == 8:
        return line[:at] + bytes([(line + b" ")[at] ^ 1 << rng.randrange(8)]) + line[at + 1 :]
    return line[:at] + rng.choice([b" ", b"\t", b"\r", b"\0", b"\x0c", b"\xa0"]) * rng.randrange(1, 4) + line[at:]


def mutated(rng: random.Random, lines: list[bytes]) -> Iterator[bytes]:
    """Lines without end, that are mutated a few times each."""
    while True:
        line = rng.choice(lines)
        for _ in range(rng.choice([1, 1, 1, 2, 3])):
            line = mutated_once(rng, line, rng.choice(lines))
        if ADOPT not in line:
            yield line.replace(b"\n", b" ")[:60_000]


def write_lines(rng: random.Random, count: int, file: IO[bytes]) -> None:
    for _, line in zip(range(count), mutated(rng, real_lines())):
        file.write(line + b"\n")
    file.flush()
    file.seek(0)


def replies(command: list[str], script: IO[bytes], folder: str) -> IO[bytes]:
    """What a program writes to a script. An end that is not good is a fault."""
    script.seek(0)
    output = open(os.path.join(folder, "replies-" + pathlib.Path(command[0]).name), "w+b")
    subprocess.run(command, stdin=script, stdout=output, check=True)
    output.seek(0)
    return output


def first_lines(replies: IO[bytes]) -> Iterator[bytes]:
    """The replies without the lines of copies."""
    for reply in replies:
        yield reply
        for _ in range(int(reply[len(COPY) : -2]) if reply.startswith(COPY) else 0):
            next(replies)


def compare(program: str, script: IO[bytes], folder: str) -> tuple[int, list[tuple[bytes, bytes, bytes]]]:
    """How many lines are no JSON, and the lines on which both differ."""
    refused, different = 0, []
    with replies([program, "replay"], script, folder) as ours, replies([str(PLAIN), "json"], script, folder) as theirs:
        script.seek(0)
        for line, our, their in zip(script, first_lines(ours), theirs, strict=True):
            refused += their == NOT_JSON
            if (our == NOT_JSON) != (their == NOT_JSON):
                different.append((line, our, their))
    return refused, different


def check_json_lines(program: str, folder: str, cases: int | None, seed: int) -> None:
    """Both read the same lines, but for numbers at the edges."""
    subprocess.run(["cargo", "build", "--offline", "--release", "--quiet"], cwd=TOP / "bench/plain", check=True)
    with open(os.path.join(folder, "script"), "w+b") as script:
        write_lines(random.Random(seed), cases or CASES, script)
        refused, different = compare(program, script, folder)
    wrong = [each for each in different if not EDGE.search(each[0])]
    print(f"{cases or CASES} lines from seed {seed}, {refused} of them no JSON, and {len(different) - len(wrong)} with numbers at the edges read otherwise")
    none_of(f"{line!r}: {our!r}, and serde_json {their!r}" for line, our, their in wrong[:10])
