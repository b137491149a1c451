"""Gives a built program scripts and copies that are cut, damaged and long, and compares its replies with those of a plain, slow
program (checks/replies/slow.py).

  checks/run damaged-input PROGRAM [WORD ..]

- Worked copies, cut at every proper prefix, are truncated; with each byte in turn replaced by `x`, a newline or 0xff, or left
  out, they are read as docs/lines.md says, and the next commands are answered.
- Scripts are cut at every byte; what is left without its newline is a line.
- Commands and lines of a copy have 65,536 bytes, and one more.
- The replies go to outputs that break at every byte: just those before it are written, and the end is status 1 with its line.
"""
import functools
import os
import resource
import subprocess
from collections.abc import Iterator

from common.served import piped
from common.tried import Case, Cases, damaged, prefixes, try_group
from replies.slow import slow_replies
from replies.stored import stored

SECONDS = 60
TRUNCATED = b'{"error":"truncated"}\n'
ADOPT, MARKS = b'{"do":"adopt","lines":%d}\n', b'{"do":"marks"}\n'
CLOSING = b'{"do":"scan","query":{}}\n{"do":"tablets"}\n'
CUT = ["recovery-keeps-arrivals", "pages-and-continuations", "get-and-behind", "faulty-lines", "damaged-copies", "first-run",
       "relayout-merges-and-splits", "whole-numbers"]
LONGEST = 65_536
COPY = b"".join(line + b"\n" for line in stored("copy-for-a-recovery").replies[-8:])
NUMBERS = b"".join(line + b"\n" for line in stored("copy-of-numbers").lines[1:7])
SCRIPT = b"".join(line + b"\n" for line in stored("recovery-keeps-arrivals").lines)


def run(program: str, script: bytes, bounds: list[str]) -> subprocess.CompletedProcess[bytes]:
    words = [program, "replay", "--bounds", str(bounds).replace("'", '"')]
    return subprocess.run(words, input=script, capture_output=True, timeout=SECONDS)


def script_fault(program: str, script: bytes, bounds: list[str] = []) -> str | None:
    """What is wrong with the replies to a script, or with how the program ends."""
    ended, wanted = run(program, script, bounds), slow_replies(script, bounds)
    if (ended.returncode, ended.stdout, ended.stderr) == (0, wanted, b""):
        return None
    return f"status {ended.returncode}, {ended.stderr[:200]!r}, replies {ended.stdout[-300:]!r}, not {wanted[-300:]!r}"


def adoption(copy: bytes) -> bytes:
    """A script that adopts a text: commands follow it where it ends in a newline."""
    lines = copy.count(b"\n")
    if copy.endswith(b"\n"):
        return ADOPT % lines + copy + CLOSING
    return ADOPT % (lines + 1) + copy


def truncated_fault(program: str, copy: bytes) -> str | None:
    """What is wrong with the reply to an adoption of a text that is cut."""
    reply = run(program, ADOPT % 1_000_000 + copy, []).stdout
    return None if reply == TRUNCATED else f"{reply!r}"


def lengths() -> Iterator[Case]:
    """Scripts with lines of the greatest length, and of one byte more."""
    for length in (LONGEST, LONGEST + 1):
        for line in SCRIPT.splitlines()[:5]:
            yield f"a command of {length} bytes", line.ljust(length) + b"\n" + CLOSING
            yield f"a last command of {length} bytes", MARKS + line.ljust(length)
        lines = COPY.splitlines(keepends=True)
        for index, line in enumerate(lines):
            long = line[:-1].ljust(length) + b"\n"
            yield f"a line of a copy of {length} bytes", adoption(b"".join([*lines[:index], long, *lines[index + 1 :]]))
        yield f"a last line of a copy of {length} bytes", adoption(b"".join(lines)[:-1].ljust(len(COPY) + length))


def write_fault(wanted: bytes, written: bytes, status: int, said: bytes, is_whole: bool) -> str | None:
    """What is wrong with what went out to an output that breaks."""
    end = (0, b"") if is_whole else (1, b"pnuts: write\n")
    return None if wanted.startswith(written) and (status, said) == end else f"{status}, {said!r}, {written[-80:]!r}"


def sized_fault(program: str, folder: str, size: int) -> str | None:
    """What is wrong where a file takes no more than a size, and the system's signal for that is ignored."""
    wanted, path = slow_replies(SCRIPT, []), os.path.join(folder, f"sized-{size}")
    with open(path, "wb") as output:
        ended = subprocess.run([program, "replay"], input=SCRIPT, stdout=output, stderr=subprocess.PIPE, timeout=SECONDS,
                               restore_signals=False, preexec_fn=lambda: resource.setrlimit(resource.RLIMIT_FSIZE, (size, size)))
    with open(path, "rb") as output:
        written = output.read()
    is_right = written == wanted[:size]
    return write_fault(wanted, written, ended.returncode, ended.stderr, size >= len(wanted)) if is_right else f"{written!r}"


def closed_fault(program: str, count: int) -> str | None:
    """What is wrong where a pipe is closed once some replies were read, and then the rest of the script is sent."""
    lines = SCRIPT.splitlines(keepends=True)
    wanted = slow_replies(SCRIPT, [])
    pipe = subprocess.PIPE
    process = subprocess.Popen([program, "replay"], stdin=pipe, stdout=pipe, stderr=pipe)
    given, written, errors = piped(process.stdin), piped(process.stdout), piped(process.stderr)
    with process:
        given.write(b"".join(lines[:count]))
        given.flush()
        read = b"".join(written.readline() for _ in range(slow_replies(b"".join(lines[:count]), []).count(b"\n")))
        written.close()
        given.write(b"".join(lines[count:]))
        given.close()
        said = errors.read()
    return write_fault(wanted, read, process.returncode, said, False)


def full_fault(program: str) -> str | None:
    """What is wrong where the output is full."""
    with open("/dev/full", "wb") as full:
        ended = subprocess.run([program, "replay"], input=SCRIPT, stdout=full, stderr=subprocess.PIPE, timeout=SECONDS)
    return write_fault(b"", b"", ended.returncode, ended.stderr, False)


def numbers(what: str, end: int) -> list[Case]:
    """The numbers below an end, as texts."""
    return [(f"{number} {what}", b"%d" % number) for number in range(end)]


def cases(program: str, folder: str) -> Iterator[Cases]:
    fault = lambda script: script_fault(program, script)
    for name, text in (("copies", COPY), ("copies with numbers", NUMBERS)):
        yield f"{name} cut", lambda copy: truncated_fault(program, copy), prefixes(text)
        yield f"{name} damaged", lambda copy: script_fault(program, adoption(copy)), damaged(text)
    for name in CUT:
        script = stored(name)
        text = b"".join(line + b"\n" for line in script.lines)
        yield f"{name} cut", functools.partial(script_fault, program, bounds=script.bounds), prefixes(text)
    yield "long lines", fault, lengths()
    sizes = numbers("bytes", len(slow_replies(SCRIPT, [])) + 2)
    yield "files of every size", lambda size: sized_fault(program, folder, int(size)), sizes
    counts = numbers("lines", SCRIPT.count(b"\n") - len(COPY.splitlines()) - 4)
    yield "closed pipes", lambda count: closed_fault(program, int(count)), counts
    yield "a full output", lambda _: full_fault(program), [("full", b"")]


def check_damaged_input(program: str, folder: str, group: str) -> None:
    """Each reply and each end is as it should be."""
    try_group(cases(program, folder), group)
