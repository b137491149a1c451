"""Tries wrong bodies of the crates: the prover has to refuse each, since a clause fails.

  checks/run edits [--stand] [--at-once N] [--together N] [--seconds N] [CRATE | CRATE/EDIT ..]

The gate tries the few of crates/CRATE/must-fail. More are in edits/CRATE.edits. Here all are tried, or those that are named,
in a copy of the crate that keeps what was proved (crates/*/out), so that a check proves anew only what an edit changes.
Edits of different functions are put in together, since each function is proved against the contracts of the others, and
only the modules of the edited functions are checked. An edit is refused where the function that it changes has no proof of
its own any more. What is not refused so is tried alone. Where the first complaint is an answer in a proof file, that answer
is dropped and the edit is tried again, so that it is not refused for the answer alone. Such an edit shows something only if
the right body, written in the edit's shape, is proved without that answer too. That body is the edit's baseline, and keeps the
meaning. Edits that need one and have none are counted.

A clause may say of some value only that there is one, as `(x : T) × ..`, itself or by a definition that it cites. An edit under
it may be refused just because nobody wrote down a witness, and so shows nothing by itself, unless another clause refuses it
too or its line `witness:` says what a wrong witness fails at. Each such edit is named, and they are counted.

A file of edits is text, a word and its value on each line, with an empty line between two edits:

  edit: a-round-joins-all-but-its-last-entry     named for what is then wrong
  witness: what a wrong witness fails at         (or the clause that needs none)
  tests: test_serving                            (where these tests alone refuse it: it is passed over here)
  file: src/table.rt                             a file of the crate
  old: if next == last {                         a text of one line, which the file has once, from the one space on
  new: if next + 1 == last {                     what replaces it. More pairs of the file, or of others, may follow
  baseline:                                      (where it has one) the pairs of the right body:
  file: src/table.rt
  old: if next == last {
  new: if last == next {

What is said of an edit of crates/CRATE/must-fail, its witness and its baseline, stands under its name without pairs. A line
that begins with `#` is a remark.

Nothing is written into the working tree. The environment's UNDER is a command that runs each check, as UNDER=nice, and
SAID a folder that gets what each check said.

Exit status: 0 where the prover refuses each edit and proves each baseline that is tried, 1 where it does not or an edit cannot
be applied, 2 for a wrong argument.
"""
import argparse
import concurrent.futures
import os
import re
import shlex
import shutil
import subprocess
import sys
import tempfile
import threading
import time
from collections.abc import Callable

from common.crates import TOP, crates_below
from common.tried import parser_of
from contracts.locations import is_at, source
from contracts.wrong_bodies import ERROR, Edit, baseline_of, edits_of, in_bundles, of_tests, texts_of, unproved_in, without_answers

ENDED = re.compile(r"^(only=\d+ proved=|logic=)", re.M)
NOT_COVERED = "the borrow checker does not cover"
MOST_OF_REASON = 200
# A bundle is tried so often, each time with fewer answers or fewer edits, before what is left is tried alone.
ATTEMPTS = 3

Texts = dict[str, str]


class Workspace:
    """A copy of a crate and of those below it, in which its edits are tried one bundle after another."""

    def __init__(self, folder: str, crate: str, seconds: int) -> None:
        self.at, self.crate, self.seconds = tempfile.mkdtemp(dir=folder), crate, seconds
        libraries = crates_below(crate)
        write(f"{self.at}/crates.txt", "\n".join(libraries.values()) + "\n")
        shutil.copyfile(f"{TOP}/HANDLES", f"{self.at}/HANDLES")
        for name in libraries:
            self.take(name)

    def take(self, name: str) -> None:
        """Copies a crate. (What a check keeps is replaced and never written in place, so that links to it do.)"""
        here, there = f"{self.at}/crates/{name}", f"{TOP}/crates/{name}"
        is_near = os.stat(TOP).st_dev == os.stat(self.at).st_dev
        how: dict[bool, Callable[[str, str], object]] = {True: os.link, False: shutil.copy2}
        shutil.copytree(f"{there}/out", f"{here}/out", copy_function=how[is_near])
        for part in ("src", "specs", "proofs"):
            if os.path.isdir(f"{there}/{part}"):
                shutil.copytree(f"{there}/{part}", f"{here}/{part}", ignore=shutil.ignore_patterns("tests"))

    def check(self, texts: Texts, modules: set[str]) -> str:
        """What a check of these modules, or of all, says with these texts in place of the crate's own."""
        at, began = f"{self.at}/crates/{self.crate}", time.time()
        only = [word for it in sorted(modules) for word in ("--only", it)]
        words = [*shlex.split(os.environ.get("UNDER", "")), "timeout", str(self.seconds), "rt", "check", *only]
        try:
            for path, text in texts.items():
                write(f"{at}/{path}", text)
            ran = subprocess.run(words, cwd=at, stdin=subprocess.DEVNULL, capture_output=True, text=True)
        finally:
            for path in texts:
                shutil.copyfile(f"{TOP}/crates/{self.crate}/{path}", f"{at}/{path}")
        if folder := os.environ.get("SAID"):
            write(f"{folder}/{self.crate}-{began:.0f}", " ".join(words) + "\n" + ran.stdout + ran.stderr)
        print(f"-- {self.crate}: a check of {len(texts)} files, {time.time() - began:.0f} seconds", flush=True)
        return ran.stdout


def write(path: str, text: str) -> None:
    with open(path, "w", encoding="utf-8") as file:
        file.write(text)


def is_proof_of(path: str, edits: list[Edit]) -> bool:
    """Whether a file is of the proof of a function that one of these edits changes. (The parts of a long function are in a folder of
    their own.)"""
    folders = [it for it in path.split("/")[1:-1] if not it.startswith("+")]
    return any(is_at("::".join([edit.crate, *folders]), location) for edit in edits for location in edit.locations if location)


class Trial:
    """Tries bundles of edits side by side, each thread in a copy of its own."""

    def __init__(self, folder: str, seconds: int) -> None:
        self.folder, self.seconds = folder, seconds
        self.own, self.lock = threading.local(), threading.Lock()
        self.without_answers: list[Edit] = []

    def check(self, edits: list[Edit], dropped: Texts) -> str:
        crate = edits[0].crate
        if getattr(self.own, "crate", None) != crate:
            self.own.copy, self.own.crate = Workspace(self.folder, crate, self.seconds), crate
        locations = {location for edit in edits for location in edit.locations}
        is_whole = None in locations or any(not location.module for location in locations if location)
        modules = set() if is_whole else {location.module for location in locations if location}
        said: str = self.own.copy.check({**texts_of(edits), **dropped}, modules)
        return said

    def say(self, edit: Edit, text: str) -> None:
        with self.lock:
            print(f"{edit.crate}/{edit.name}: {text}", flush=True)

    def try_bundle(self, edits: list[Edit], dropped: Texts | None = None, attempt: int = 0) -> int:
        """Tries edits together, without the answers that were dropped. How many were refused."""
        if not edits:
            return 0
        # (an answer that an edit of another function made unfit is left where it is)
        dropped = {path: text for path, text in (dropped or {}).items() if is_proof_of(path, edits)}
        said = self.check(edits, dropped)
        if not ENDED.search(said):
            return self.try_apart(edits, said, dropped, attempt)
        unproved = unproved_in(said)
        left = [edit for edit in edits if not self.is_refused(edit, unproved, dropped, len(edits) == 1)]
        return len(edits) - len(left) + self.try_left(edits, left, said, dropped, attempt)

    def try_left(self, edits: list[Edit], left: list[Edit], said: str, dropped: Texts, attempt: int) -> int:
        """Tries those of a bundle again that were not refused in it, together or alone."""
        less = less_answers(left, said, dropped) if attempt < ATTEMPTS else {}
        if less or attempt < ATTEMPTS and 0 < len(left) < len(edits):
            return self.try_bundle(left, {**dropped, **less}, attempt + 1)
        if len(edits) > 1:
            return sum(self.try_bundle([it], dropped, ATTEMPTS) for it in left)
        for edit in left:
            faults = (f"{path}:{line}: {text}" for path, line, text in ERROR.findall(said) if path.startswith("proofs/"))
            why = next(faults, "the measure of a loop")
            self.say(edit, f"REFUSED BY NO CLAUSE: {why[:MOST_OF_REASON]}" if unproved_in(said) else "NOT REFUSED")
        return 0

    def is_refused(self, edit: Edit, unproved: list[tuple[str, str]], dropped: Texts, is_alone: bool) -> bool:
        """Whether a clause fails, of a function that the edit changes."""
        own = [
            (function, goals)
            for function, goals in unproved
            if goals and NOT_COVERED not in goals and (is_alone or any(is_at(function, location) for location in edit.locations if location))
        ]
        if own:
            is_less = any(is_proof_of(path, [edit]) for path in dropped)
            self.without_answers += [edit] * is_less
            for _, refused in own:
                edit.note(refused)
            doubt = f"; {edit.doubt()}" * edit.shows_nothing()
            self.say(edit, f"refused: {own[0][0]}: {own[0][1]}{' (without the answers that no longer fit)' * is_less}{doubt}")
        return bool(own)

    def try_baselines(self, baselines: list[Edit]) -> int:
        """Tries right bodies together, without the answers that do not fit them. How many were proved."""
        dropped: Texts = {}
        said = self.check(baselines, dropped)
        for _ in range(ATTEMPTS):
            less = less_answers(baselines, said, dropped)
            if not less:
                break
            dropped |= less
            said = self.check(baselines, dropped)
        if not ENDED.search(said) and len(baselines) > 1:
            return sum(self.try_baselines([it]) for it in baselines)
        return sum(self.is_proved(it, said) for it in baselines)

    def is_proved(self, baseline: Edit, said: str) -> bool:
        """Whether a check proved the functions that a right body is in."""
        unproved = [f"{function}: {goals}" for function, goals in unproved_in(said)
                    if any(location is None or is_at(function, location) for location in baseline.locations)]
        has_ended = ENDED.search(said) is not None
        self.say(baseline, f"NOT PROVED: {unproved[0]}" if unproved else "proved" if has_ended else self.why_no_end(said))
        return has_ended and not unproved

    def try_apart(self, edits: list[Edit], said: str, dropped: Texts, attempt: int) -> int:
        """Goes on where a check came to no end: tries those alone whose files do not compile, and the others in halves."""
        if len(edits) == 1:
            self.say(edits[0], self.why_no_end(said))
            return 0
        faulty = {path for path, _, _ in ERROR.findall(said)}
        bad = [it for it in edits if it.files() & faulty] if faulty else edits[: len(edits) // 2]
        good = [it for it in edits if it not in bad]
        parts = [[it] for it in bad] if faulty else [bad]
        return self.try_bundle(good, dropped, attempt) + sum(self.try_bundle(it, dropped, attempt) for it in parts)

    def why_no_end(self, said: str) -> str:
        errors = [f"{path}:{line}: {text}" for path, line, text in ERROR.findall(said)]
        errors += [line for line in said.split("\n") if "error" in line]
        return f"BAD EDIT: {errors[0][:MOST_OF_REASON]}" if errors else f"UNDECIDED: no end within {self.seconds} seconds"


def less_answers(edits: list[Edit], said: str, dropped: Texts) -> Texts:
    """The proof files of the edited functions, without the answers that no longer fit."""
    wrong: dict[str, set[int]] = {}
    for path, line, _ in ERROR.findall(said):
        if path.endswith("/Answers.antt") and is_proof_of(path, edits):
            wrong.setdefault(path, set()).add(int(line))
    return {path: without_answers(dropped.get(path) or source(edits[0].crate, path), lines) for path, lines in wrong.items()}


def say_witnesses(edits: list[Edit]) -> None:
    """Counts the edits that may be refused since no witness was found."""
    asked = [it for it in edits if it.existential]
    otherwise, tried = sum(it.is_refused_otherwise for it in asked), sum(bool(it.told.witness) for it in asked)
    nothing = sum(it.shows_nothing() for it in asked)
    print(f"{len(asked)} of them under a clause that asks only for some value; {otherwise} refused by another clause, {tried} with a line `witness:`, "
          f"{nothing} that show nothing by themselves")


def bundles_of(edits: list[Edit], most: int) -> list[list[Edit]]:
    """Bundles of edits, each of one crate."""
    crates = dict.fromkeys(it.crate for it in edits)
    return [bundle for crate in crates for bundle in in_bundles([it for it in edits if it.crate == crate], most)]


def try_all(edits: list[Edit], given: argparse.Namespace) -> int:
    """Tries edits in bundles. The exit status."""
    began = time.time()
    bundles = bundles_of(edits, given.together)
    with tempfile.TemporaryDirectory(prefix="edits-") as folder:
        with concurrent.futures.ThreadPoolExecutor(given.at_once) as workers:
            trial = Trial(folder, given.seconds)
            refused = sum(workers.map(trial.try_bundle, bundles))
            baselines = [baseline for edit in trial.without_answers if (baseline := baseline_of(edit))]
            proved = sum(workers.map(trial.try_baselines, bundles_of(baselines, given.together)))
    print(f"{refused} edits refused by the prover, {len(edits) - refused} not; {len(bundles)} bundles, {(time.time() - began) / 60:.1f} minutes")
    unsure = len(trial.without_answers) - len(baselines)
    print(f"{len(trial.without_answers)} of them without answers; {proved} baselines of these proved, {len(baselines) - proved} not, {unsure} missing")
    say_witnesses(edits)
    return 1 if refused < len(edits) or proved < len(baselines) else 0


def count_of(word: str) -> int:
    number = int(word)
    if number < 1:
        raise ValueError(word)
    return number


def arguments(words: list[str]) -> argparse.Namespace:
    parser = parser_of(__doc__)
    parser.add_argument("--stand", action="store_true", help="only look whether each edit can be applied, and prove nothing")
    parser.add_argument("--at-once", type=count_of, default=max(1, (os.cpu_count() or 2) // 2), help="checks at once; half of the processors")
    parser.add_argument("--together", type=count_of, default=60, help="the most edits in one check; 60")
    parser.add_argument("--seconds", type=count_of, default=1_200, help="the most that a check may take; 1,200")
    parser.add_argument("names", nargs="*", metavar="CRATE | CRATE/EDIT", help="what is tried; all where none is named")
    return parser.parse_args(words)


def main(words: list[str]) -> int:
    given = arguments(words)
    known = [it for it in sorted(os.listdir(f"{TOP}/crates")) if edits_of(it)]
    names = given.names or known
    crates = list(dict.fromkeys(it.partition("/")[0] for it in names))
    if not set(crates) <= set(known):
        print(f"edits: no edits of {', '.join(sorted({*crates} - {*known}))}", file=sys.stderr)
        return 2
    edits = [edit for it in crates for edit in edits_of(it) if it in names or f"{it}/{edit.name.removesuffix('.edit')}" in names]
    baselines = [baseline for edit in edits if (baseline := baseline_of(edit))]
    by_tests = [edit for it in crates if it in names for edit in of_tests(it)]
    unfit = [it for it in edits + baselines + by_tests if it.why_not]
    for edit in unfit:
        print(f"{edit.told.at}: {edit.crate}/{edit.name}: it cannot be applied: {edit.why_not}")
    if unfit or given.stand:
        for edit in (it for it in edits if it.shows_nothing()):
            print(f"{edit.told.at}: {edit.crate}/{edit.name}: {edit.doubt()}")
        bad = {(it.crate, it.told.name) for it in unfit}
        print(f"{sum((it.crate, it.told.name) not in bad for it in edits)} edits can be applied, {len(bad)} not")
        say_witnesses(edits)
        return 1 if unfit else 0
    return try_all(edits, given)
