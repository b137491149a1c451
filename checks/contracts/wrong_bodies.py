"""The wrong bodies that checks/run edits tries: how files tell them, what they change, which of them go together, and what a check says of them.

They are told by edits/CRATE.edits, whose form the head of checks/run edits tells, and by crates/CRATE/must-fail.
"""
import os
import re
from typing import NamedTuple

from common.crates import TOP
from contracts.existential import existential_clauses
from contracts.locations import FUNCTION, Location, location_at, source, sources_of

CONSTANT = re.compile(r"\bconst (\w+)")
DECLARED = re.compile(r"(?m)^(?=(?: {2})?(?:pub )?[^\s:(-][^\s:]* : )")
EMPTY_MODULE = re.compile(r"(?m)^module _ .* where\n(?=\s*(?:^\S|\Z))")
VERDICT = re.compile(r"^(?:note: (src/\S+): it is not proved .*|fn (\S+): (.*))$", re.M)
NO_PART = "the borrow checker's part in its proof is not made yet"
WAITS = re.compile(rf"no proof: (?:in `[^`]*`, of this cycle of calls: )?(it calls .*|it waits .*|{NO_PART}.*)$")
ERROR = re.compile(r"^(?:\./)?((?:src|specs|proofs)/\S+?):(\d+):\d+: error(?:\[[\w-]+\])?: (.*)$", re.M)
MOST_OF_REASON = 160


class Pair(NamedTuple):
    """A text of a file of the crate, and what replaces it."""

    path: str
    old: str
    new: str


class Told:
    """An edit as a file tells it: its pairs, its baseline's, and what is said of it. `at` is where it is told."""

    def __init__(self, name: str, at: str) -> None:
        self.name, self.at = name, at
        self.pairs: list[Pair] = []
        self.baseline: list[Pair] = []
        self.tests, self.witness, self.fault = "", "", ""


def told_in(path: str, name: str = "") -> list[Told]:
    """The edits of a file. One of must-fail has pairs alone, and is named by its file."""
    told = [Told(name, os.path.relpath(path, TOP))] if name else []
    with open(path, encoding="utf-8") as file:
        lines = file.read().split("\n")
    source, old, is_baseline = "", "", False
    for number, line in enumerate(lines, 1):
        word, _, rest = line.partition(":")
        rest = rest.removeprefix(" ")
        if word == "edit":
            told.append(Told(rest.strip(), f"{os.path.relpath(path, TOP)}:{number}"))
            source, is_baseline = "", False
        elif not told or word in ("", "baseline"):
            is_baseline = is_baseline or word == "baseline"
        elif word in ("tests", "witness"):
            setattr(told[-1], word, rest)
        elif word == "file":
            source = rest.strip()
        elif word == "old":
            old = rest
        elif word == "new":
            (told[-1].baseline if is_baseline else told[-1].pairs).append(Pair(source, old, rest))
        elif not line.startswith("#"):
            told[-1].fault = f"line {number} is none of an edit"
    return told


def told_of(crate: str) -> list[Told]:
    """The crate's edits, those of the gate first. Those have their baseline, and what is said of them, in edits/CRATE.edits."""
    folder, path = f"{TOP}/crates/{crate}/must-fail", f"{TOP}/edits/{crate}.edits"
    own = told_in(path) if os.path.exists(path) else []
    said = {it.name: it for it in own}
    for told in own:
        if said[told.name] is not told:
            told.fault = f"there are two of this name, the other at {said[told.name].at}"
    gate = []
    for file in sorted(os.listdir(folder)) if os.path.isdir(folder) else []:
        [told] = told_in(f"{folder}/{file}", file.removesuffix(".edit"))
        more = said.pop(told.name, None)
        if more:
            told.baseline, told.witness = more.baseline, more.witness
            told.fault = f"{more.at} has pairs of its own" if more.pairs else ""
        gate.append(told)
    return gate + [it for it in own if it.name in said]


class Change(NamedTuple):
    """What replaces a part of a file."""

    path: str
    begins: int
    ends: int
    text: str


class Edit:
    """A wrong body: what it changes, and the functions that this is in. A location of None is in no function's body."""

    def __init__(self, crate: str, told: Told, is_baseline: bool = False) -> None:
        self.crate, self.told = crate, told
        self.name = told.name + (".baseline" if is_baseline else ".edit")
        self.changes: list[Change] = []
        self.locations: set[Location | None] = set()
        self.existential: set[str] = set()
        self.is_refused_otherwise = False
        self.why_not = told.fault
        pairs = told.baseline if is_baseline else told.pairs
        try:
            for pair in pairs:
                self.put(*pair)
        except OSError as error:
            self.why_not = str(error)
        if not pairs:
            self.why_not = self.why_not or "it names no file"

    def put(self, path: str, old: str, new: str) -> None:
        """Takes a change in, whose old text is there once in what the changes before it made."""
        text = texts_of([self]).get(path) or source(self.crate, path)
        if text.count(old) != 1:
            self.why_not = f"{path} has its old text {text.count(old)} times"
            return
        at = text.index(old)
        for change in sorted(it for it in self.changes if it.path == path):
            if change.begins < at + len(old) and at < change.begins + len(change.text):
                self.why_not = f"{path} is changed twice in one place"
            if change.begins < at:
                at -= len(change.text) - (change.ends - change.begins)
        self.locations |= locations_at(self.crate, path, at)
        self.existential |= clauses_without_witness(self.crate, path, at)
        self.changes.append(Change(path, at, at + len(old), new))

    def files(self) -> set[str]:
        return {it.path for it in self.changes}

    def shows_nothing(self) -> bool:
        """Whether a clause of its functions says of some value only that there is one, no other clause was seen to refuse it, and
        no wrong witness was tried."""
        return bool(self.existential) and not self.is_refused_otherwise and not self.told.witness

    def doubt(self) -> str:
        return f"shows nothing by itself: its contract asks only that there is some value ({', '.join(sorted(self.existential))})"

    def note(self, refused: str) -> None:
        """Notes the goals by which it was refused: a clause of another kind among them is enough."""
        clauses = {goal.rpartition("clause-")[2] for goal in refused.split(", ") if "clause-" in goal}
        self.is_refused_otherwise = self.is_refused_otherwise or not clauses <= self.existential

    def is_alone(self) -> bool:
        """Whether it changes more than bodies of functions."""
        return None in self.locations


def clauses_without_witness(crate: str, path: str, at: int) -> set[str]:
    """The clauses that say of some value only that there is one, of the function whose body has this part of a file."""
    text = source(crate, path)
    if location_at(crate, path, text, at) is None:
        return set()
    last = [it for it in FUNCTION.finditer(text) if it.start() <= at][-1]
    return set(existential_clauses(text, last.start(), last[1]))


def locations_at(crate: str, path: str, at: int) -> set[Location | None]:
    """The functions that a change is for: the one whose body has it, or those that use the constant that is changed."""
    text = source(crate, path)
    constant = CONSTANT.search(text[text.rfind("\n", 0, at) + 1 : text.find("\n", at)])
    if not constant:
        return {location_at(crate, path, text, at)}
    use = re.compile(rf"\b{constant[1]}\b")
    texts = {it: source(crate, it) for it in sources_of(crate)}
    used = {location_at(crate, it, text, found.start()) for it, text in texts.items() for found in use.finditer(text)}
    return used - {None} or {None}


def edits_of(crate: str) -> list[Edit]:
    """The crate's edits that the prover has to refuse, those of the gate first."""
    return [Edit(crate, told) for told in told_of(crate) if not told.tests]


def of_tests(crate: str) -> list[Edit]:
    """The crate's wrong bodies that meet every contract, and that tests alone refuse."""
    return [Edit(crate, told) for told in told_of(crate) if told.tests]


def baseline_of(edit: Edit) -> Edit | None:
    """The right body in the shape of an edit, if one is kept."""
    return Edit(edit.crate, edit.told, is_baseline=True) if edit.told.baseline else None


def in_bundles(edits: list[Edit], most: int) -> list[list[Edit]]:
    """Puts edits together that change bodies of different functions, each into the first bundle that it fits."""
    alone = [[it] for it in edits if it.is_alone()]
    shared: list[list[Edit]] = []
    for edit in (it for it in edits if not it.is_alone()):
        fits = lambda bundle: len(bundle) < most and not any(edit.locations & other.locations for other in bundle)
        bundle = next(filter(fits, shared), None)
        if bundle is None:
            bundle = []
            shared.append(bundle)
        bundle.append(edit)
    return shared + alone


def texts_of(edits: list[Edit]) -> dict[str, str]:
    """The files that edits change, each with all of the changes."""
    texts = {}
    for path in sorted({path for edit in edits for path in edit.files()}):
        text = source(edits[0].crate, path)
        changes = sorted((it for edit in edits for it in edit.changes if it.path == path), key=lambda it: -it.begins)
        for change in changes:
            text = text[: change.begins] + change.text + text[change.ends :]
        texts[path] = text
    return texts


def without_answers(text: str, lines: set[int]) -> str:
    """A proof file without the declarations that have one of these lines, and without those that use them."""
    named: list[tuple[str | None, str]] = []
    gone: set[str] = set()
    first = 1
    for block in DECLARED.split(text):
        name = re.match(r"\s*(?:pub )?(\S+) :", block)
        last = first + block.count("\n")
        named.append((name[1] if name else None, block))
        if name and any(first <= line < last for line in lines):
            gone.add(name[1])
        first = last
    while more := users_of(gone, named):
        gone |= more
    return EMPTY_MODULE.sub("", "".join(block for name, block in named if name not in gone))


def users_of(gone: set[str], named: list[tuple[str | None, str]]) -> set[str]:
    """The names of declarations that use one that is gone, and are not gone themselves."""
    if not gone:
        return set()
    uses = re.compile(rf"(?<![\w.-])(?:{'|'.join(map(re.escape, gone))})(?![\w-])")
    return {name for name, block in named if name and name not in gone and uses.search(block)}


def unproved_in(said: str) -> list[tuple[str, str]]:
    """The functions that have no proof of their own, each with the goals that no proof file answers."""
    found, notes = [], []
    for it in VERDICT.finditer(said):
        if it[1]:
            notes += re.findall(r"\(`([^`]*)`\)", it[0])[:1]
        elif it[3].startswith(("not proved", "no proof")):
            if not WAITS.match(it[3]):
                found.append((it[2], goals(it[3], notes)))
            notes = []
    return found


def goals(text: str, notes: list[str]) -> str:
    """The goals that a line of an unproved function and the notes above it name, or none where only answers and measures are refused."""
    named = re.findall(r"`([^`]*)`", text.partition("did not prove ")[2].partition(";")[0]) + notes
    clauses = ", ".join(it for it in dict.fromkeys(named) if not it.endswith("-smaller"))
    if clauses or named or not text.startswith("no proof"):
        return clauses
    return text[len("no proof: ") :][:MOST_OF_REASON]
