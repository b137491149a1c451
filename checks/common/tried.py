"""What is tried of texts in each of which nothing may be wrong, the words of programs that try something, and calls by several processes at once,
as one process of Python uses one processor."""
import argparse
import collections
import concurrent.futures
import multiprocessing
import os
from collections.abc import Callable, Iterable, Iterator
from typing import Any, TypeVar

from common.parts import program_at

# What is to be found of a check in a program that goes on with others.
FAULTS = (AssertionError, OSError, ValueError)
# What stands in place of a byte of a text that is damaged.
OTHER_BYTES = {"x": b"x", "a newline": b"\n", "0xff": b"\xff", "nothing": b""}
# What is wrong with a text, or None; a text by its name; and some texts that have a name together.
FindFault = Callable[[bytes], str | None]
Case = tuple[str, bytes]
Cases = tuple[str, FindFault, Iterable[Case]]
FORK = multiprocessing.get_context("fork")
# More than there are processors, as each also waits for the program that it starts.
PROCESSES = 2 * len(os.sched_getaffinity(0))
Given = TypeVar("Given")
Found = TypeVar("Found")

# What a process calls: it is the one's that forked it, and so need not have a name.
CALLED: list[Callable[..., object]] = []


def parser_of(told: str | None) -> argparse.ArgumentParser:
    """A parser of a part's words, whose help is what the part's module says of itself."""
    return argparse.ArgumentParser(prog=None, description=told, formatter_class=argparse.RawDescriptionHelpFormatter)


def program_parser(told: str | None) -> argparse.ArgumentParser:
    """A parser whose first word is a built program."""
    words = parser_of(told)
    words.add_argument("program", metavar="PROGRAM", type=program_at, help="the built program")
    return words


def none_of(faults: Iterable[str]) -> None:
    """Fails where there are faults, with each in a line."""
    if found := list(faults):
        raise AssertionError("\n".join(found))


def prefixes(text: bytes) -> Iterator[Case]:
    """Each proper prefix of a text."""
    for end in range(len(text)):
        yield f"cut after {end} bytes", text[:end]


def damaged(text: bytes) -> Iterator[Case]:
    """The text with each byte in turn replaced or left out."""
    for at in range(len(text)):
        for name, byte in OTHER_BYTES.items():
            yield f"{name} in place of byte {at}", text[:at] + byte + text[at + 1 :]


def first_fault(find_fault: FindFault, cases: Iterable[Case]) -> tuple[int, str | None]:
    """How many cases there are, and the first in which something is wrong. Several are tried at a time."""
    cases = list(cases)
    faults = list(at_once(find_fault, (text for _, text in cases)))
    return len(cases), next((f"{name}: {fault}" for (name, _), fault in zip(cases, faults) if fault), None)


def try_group(cases: Iterable[Cases], group: str) -> None:
    """Tries the cases that have this name together."""
    find_fault, texts = next((find_fault, texts) for name, find_fault, texts in cases if name == group)
    count, fault = first_fault(find_fault, texts)
    none_of([fault] if fault else [])
    print(f"{count} cases")


def call(given: Any) -> Any:
    return CALLED[0](given)


def at_once(function: Callable[[Given], Found], each: Iterable[Given]) -> Iterator[Found]:
    """What a function answers to each, in their order. Where no more are asked for, some were called in vain."""
    waiting: collections.deque[concurrent.futures.Future[Found]] = collections.deque()
    with concurrent.futures.ProcessPoolExecutor(PROCESSES, FORK, CALLED.append, (function,)) as pool:
        for given in each:
            waiting.append(pool.submit(call, given))
            if len(waiting) == 2 * PROCESSES:
                yield waiting.popleft().result()
        while waiting:
            yield waiting.popleft().result()
