"""Refuses each allocation of a built program in turn, and looks at the replies.

  checks/run out-of-memory PROGRAM LIVE [WORD ..]

The scripts of crates/test_rows are talked through, those with tablets by 1, 2 and 16 workers: a command is sent once the one
before it is answered, and again where its answer was `memory`, with the lines that it announces. Each reply is one of a region
in which each tablet took its part of a refused round or did not, and at the end a scan and the tablets are as without a refusal;
or there was no memory to begin with, and nothing is written. Where the line of an `adopt` was refused itself, the lines after it
are commands, each with a refusal.

Some scripts are also sent in one input, each command twice; in one a refused round comes again only after the layout was
changed; and in others all allocations are refused from one on, so that commands do not come again. Rounds as wide as a line
allows, where threads are started, have each allocation refused from the start of a thread on. A case of live regions ends well whichever
allocation is refused, and a connection that keeps input ends well or after the lines before the input that there was no memory to keep,
unless the line that asks for it cannot be read or answered.
"""
import functools
import subprocess
import tempfile
from collections.abc import Callable, Iterator

import pytest

from faults.refused_talks import SECONDS, Script
from faults.preloaded import FOR_GOOD, IN_THREADS, ONE, FindFault, Refusals
from replies.stored import Stored, stored, stored_scripts, wide_rounds

# Cases that end in one of these ways whichever allocation is refused: one of live regions in which a refused call comes again, and one of a
# connection whose input is kept between turns, with its pauses and lines: all of them, or those before a turn that had no memory to keep it.
# There is no answer where the line is not read or answered.
KEPT = tuple(f"{pauses} of {lines} lines\n".encode() for pauses, lines in (("titit", 2), ("tit", 1), ("ti", 1), ("t", 0), ("", 0)))
ENDS_WELL = {"live region": (b"live memory\n", (b"well\n",)), "kept input": (b"stay keeps on++e|tw++o|\n", KEPT)}
WORKERS = [1, 2, 16]
SENT_TWICE = ["first-run", "equal-versions-conflict", "overlap-taken", "get-and-behind", "pages-of-one-tablet",
              "two-tablets-with-2-workers", "four-tablets-with-4-workers"]
SENT_FOR_GOOD = ["first-run", "recovery-keeps-arrivals", "copy-for-a-recovery", "get-and-behind", "pages-and-continuations",
                 "two-are-lost-and-recovered", "four-tablets-with-4-workers", "relayout-merges-and-splits"]
# A script in which a round that was refused comes again only after the layout was changed.
SENT_ONCE = ["relayout-between-rounds"]
# Scripts that are no talks: their last command is cut off, or their lines are not told one by one. A refused round over 64
# tablets leaves more regions than can be gone through.
NO_TALKS = ["fewer-lines-than-announced", "no-lines-behind-an-adoption", "no-newline-behind-the-last-line",
            "lines-of-an-adoption-are-its-own", "one-to-64-tablets-and-back"]


def case_fault(program: str, line: bytes, answers: tuple[bytes, ...], given: dict[str, str]) -> str | None:
    """What is wrong with a case that is to end so, whichever allocation is refused."""
    ended = subprocess.run([program], input=line, capture_output=True, env=given, timeout=SECONDS)
    is_well = ended.stdout in {0: answers, 1: (b"",)}.get(ended.returncode, ())
    return None if is_well else f"status {ended.returncode}, {ended.stderr!r}\n{ended.stdout.decode()}"


def talks() -> Iterator[Stored]:
    """The stored scripts that are talks, each once; those with tablets for each number of workers."""
    scripts = [script for script in stored_scripts() if not script.name.startswith("random-") and script.name not in NO_TALKS]
    for script in {(*script.bounds, *script.lines): script for script in scripts}.values():
        for workers in sorted({*WORKERS, script.workers}) if script.bounds else [1]:
            yield script._replace(workers=workers)


# By name, what makes what is to go well whichever allocation is refused, and which allocations are.
Case = tuple[str, Callable[[], FindFault], dict[str, str]]


def fault_of_case(live: str, line: bytes, answers: tuple[bytes, ...]) -> FindFault:
    return functools.partial(case_fault, live, line, answers)


def fault_of_talk(program: str, script: Stored, is_repeated: bool) -> FindFault:
    return functools.partial(Script(program, script).fault, is_repeated=is_repeated)


def cases(program: str, live: str) -> Iterator[Case]:
    for script in talks():
        name = f"{script.name.partition('-with-')[0]} by {script.workers}"
        yield name, functools.partial(fault_of_talk, program, script, True), ONE
    for workers in WORKERS[1:]:
        yield f"wide rounds by {workers}", functools.partial(fault_of_talk, program, wide_rounds(workers), True), IN_THREADS
    for name in SENT_TWICE:
        yield f"{name}, each command twice", lambda: Script(program, stored(name)).fault_of_twice, ONE
    for name in SENT_ONCE:
        yield f"{name}, each command once", functools.partial(fault_of_talk, program, stored(name), False), ONE
    for name in SENT_FOR_GOOD:
        yield f"{name}, for good", functools.partial(fault_of_talk, program, stored(name), False), FOR_GOOD
    for name, (line, answers) in ENDS_WELL.items():
        yield name, functools.partial(fault_of_case, live, line, answers), ONE


@pytest.fixture(scope="module")
def refusals() -> Iterator[Refusals]:
    with tempfile.TemporaryDirectory() as folder:
        yield Refusals(folder)


def check_out_of_memory(program: str, live: str, refusals: Refusals, group: str) -> None:
    """Each allocation is refused in turn, and each time the replies are right."""
    make, which = next((make, which) for name, make, which in cases(program, live) if name == group)
    print(f"{refusals.count(group, make(), which)} allocations refused")
