"""Random cases: hypothesis draws them, and finds the smallest that is wrong."""
from collections.abc import Callable, Iterable
from typing import Any, TypeVar

import pytest

pytest.importorskip("hypothesis", reason="the machine lacks python3-hypothesis")
from hypothesis import HealthCheck, example, given, reject, seed, settings, strategies as st  # noqa: E402

__all__ = ["SEEDS", "seeds", "st", "try_drawn"]

Drawn = TypeVar("Drawn")
# What a part of a case is made by. Each is as likely as another; the smallest is 0, which stands for no such part.
SEEDS = st.integers(0, 2**24 - 1)
# Numbers that are as small are told apart from seeds.
SMALL = 2**12


def seeds(most: int, least: int | None = None) -> st.SearchStrategy[list[int]]:
    """What the parts of a case are made by, in their order: as many as are told."""
    return st.lists(SEEDS, min_size=most if least is None else least, max_size=most)


def seeds_of(case: Any) -> set[int]:
    """The seeds in a case."""
    if isinstance(case, (list, tuple)):
        return set[int]().union(*map(seeds_of, case))
    return {case} if case >= SMALL else set()


def try_drawn(check: Callable[[Drawn], None], cases: st.SearchStrategy[Drawn], count: int, first: int, kept: Iterable[Drawn] = (),
              is_apart: bool = True) -> None:
    """Tries the cases that are kept, and `count` that are drawn. Fails with the smallest that is wrong, which can be kept.

    Those that are apart have no seeds of others, unless they are made smaller.
    """
    seen, done, faults = set[int](), [0], list[BaseException]()

    def agree(case: Drawn) -> None:
        if is_apart and not faults and not seen.isdisjoint(seeds_of(case)):
            reject()
        seen.update(seeds_of(case))
        try:
            check(case)
        except BaseException as fault:
            faults.append(fault)
            raise
        done[0] += 1

    print(f"{count:,} cases from seed {first}")
    tried: Any = given(cases)(agree)
    for case in kept:
        tried = example(case)(tried)
    while done[0] < count:
        limits = settings(max_examples=count - done[0], database=None, deadline=None, suppress_health_check=list(HealthCheck))
        seed(first)(limits(tried))()
        tried, first = given(cases)(agree), first + 1
