"""Looks whether what documents name is there: files, headings, commands and their options, contracts. And whether they tell of all commands.

  checks/run links

- Each link of a document leads to a file of the repository and, after `#`, to a heading of it.
- Each name in docs/guarantees.md is that of a function or a clause of the crates; a function in parentheses is of its section's crate.
- Each `make` TARGET, part of `checks/run`, command of `pnuts-ctl`, path of a program and option of one that a document names is there.
- The documents have at most as many words as they may.
- Each target, command of `pnuts-ctl` and example is told of in a document, and each option of a feed in feeds/README.md.
"""
import re
import subprocess
from collections.abc import Iterable, Iterator
from functools import cache
from pathlib import Path

from common.crates import TOP
from common.tried import none_of

LINK = re.compile(r"\[[^\]]*\]\(([^)\s]+)\)")
HEADING = re.compile(r"^#+ (.+)$", re.MULTILINE)
FENCE = re.compile(r"^```[^\n]*\n(.*?)^```", re.MULTILINE | re.DOTALL)
CODE = re.compile(r"`([^`\n]+)`")
INDENTED = re.compile(r"^    (?! )(.+)$", re.MULTILINE)
OPTION = re.compile(r"--[a-z][a-z-]*")
ADDED = re.compile(r"add_argument\(\s*\"(--[a-z-]+)\"")
TARGET = re.compile(r"^([a-z][a-z-]*):(?!=)", re.MULTILINE)
# How a program of Go adds an option.
FLAG = re.compile(r"options\.\w+\((?:&\S+ )?\"([a-z-]+)\"")
COMMAND = re.compile(r"command\(\w+, \"(\w+)\"")
NAME = re.compile(r"(?:[A-Za-z]\w*::)*([a-z]\w*_\w+)")
FUNCTION = re.compile(r"\bfn (\w+)")
CLAUSE = re.compile(r"\bensures (\w+) \{")
# Options that each program of Python has by itself.
BY_ARGPARSE = {"--help"}
# Targets that are for others of the Makefile.
INNER = {"toolchain", "licences"}
# What a line of a shell ends a program's words with.
ENDS = {"|", "&", ";", "&&", "||", "<", ">", "#"}
# The most words of documents together.
LIMITS = ((900, r"README\.md"), (1_200, r"docs/architecture\.md"), (5_000, r"docs/guarantees\.md"), (17_000, r"(?:docs|bench)/\w+\.md"))
FEEDS = ("redis-stream", "rabbitmq-stream", "kafka", "postgres-outbox")
# Folders of programs that documents name by a path.
FOLDERS = ("checks/", "bench/", "feeds/", "http/", "fuzz/", "packaging/", "clients/", "examples/", "docs/", "edits/", "crates/")


@cache
def tracked() -> frozenset[str]:
    """The files of the repository and their folders."""
    ran = subprocess.run(["git", "-C", TOP, "ls-files", "--cached", "--others", "--exclude-standard"], stdout=subprocess.PIPE, text=True, check=True)
    files = ran.stdout.splitlines()
    return frozenset(files) | {str(above) for it in files for above in Path(it).parents}


@cache
def text_of(name: str) -> str:
    return (TOP / name).read_text(encoding="utf-8")


def documents() -> list[str]:
    return sorted(it for it in tracked() if it.endswith(".md"))


def plain(name: str) -> str:
    """A document without its blocks of code."""
    return INDENTED.sub("", FENCE.sub("", text_of(name)))


def slug(heading: str) -> str:
    """What a link to a heading has after `#`."""
    words = re.sub(r"[^\w\- ]", "", heading.replace("`", "").lower())
    return words.strip().replace(" ", "-")


@cache
def headings(name: str) -> frozenset[str]:
    return frozenset(slug(it) for it in HEADING.findall(FENCE.sub("", text_of(name))))


def dead_links(name: str) -> Iterator[str]:
    for link in LINK.findall(CODE.sub("", plain(name))):
        path, _, anchor = link.partition("#")
        if "://" in link:
            continue
        there = (TOP / name).parent.joinpath(path).resolve() if path else TOP / name
        found = str(there.relative_to(TOP)) if there.is_relative_to(TOP) else ""
        if found not in tracked():
            yield f"{name} leads to {link}, which is not there"
        elif anchor and anchor not in headings(found):
            yield f"{name} leads to {link}, where no heading is of this name"


def crate_names(crate: str) -> tuple[set[str], set[str]]:
    """The functions and the clauses of a crate."""
    text = "\n".join(it.read_text() for it in sorted((TOP / "crates" / crate / "src").rglob("*.rt")))
    return set(FUNCTION.findall(text)), set(CLAUSE.findall(text))


def unknown_promises(name: str = "docs/guarantees.md") -> Iterator[str]:
    """Names of the guarantees that no contract has."""
    crates = {it: crate_names(it) for it in sorted(path.name for path in (TOP / "crates").iterdir())}
    every = {word for functions, clauses in crates.values() for word in functions | clauses} | set(re.findall(r"\w+", text_of("crates.txt")))
    for section in re.split(r"^## ", text_of(name), flags=re.MULTILINE):
        crate = next(iter(CODE.findall(section.partition("\n")[0])), None)
        for group in re.findall(r"\((`[^()]*`)\)", section):
            for code in CODE.findall(group):
                word = code.rpartition("::")[2]
                if crate and re.fullmatch(r"(?:[A-Z]\w*::)?[a-z]\w*", code) and word not in crates[crate][0] and "_" in word:
                    yield f"{name} names {code}, which is no function of {crate}"
        for code in CODE.findall(section):
            found = NAME.fullmatch(code)
            if found and found.group(1) not in every:
                yield f"{name} names {code}, which is no function and no clause"


def lines_of_code(name: str) -> Iterator[list[str]]:
    """The words of each line of code in a document."""
    text = text_of(name)
    blocks = [line for block in FENCE.findall(text) for line in block.splitlines()]
    for line in [*blocks, *INDENTED.findall(text), *CODE.findall(FENCE.sub("", text))]:
        yield line.split()


@cache
def sources(folder: str) -> str:
    """The programs of Python in a folder, together."""
    paths = [it for it in tracked() if it.startswith(folder) and (TOP / it).is_file() and not it.endswith((".md", ".svg", ".json"))]
    return "\n".join((TOP / it).read_text(errors="replace") for it in paths)


def options_of(*folders: str) -> set[str]:
    return {option for it in folders for option in ADDED.findall(sources(it))} | BY_ARGPARSE


@cache
def programs() -> dict[str, set[str]]:
    """The options of each program that documents name, by how they name it."""
    feeds = {it: options_of(f"feeds/{it}", "feeds/feed/") for it in FEEDS}
    benches = {it: options_of(it) for it in tracked() if it.startswith("bench/") and "." not in it and (TOP / it).is_file()}
    return {"pnuts-ctl": options_of("clients/python/src/pnuts_client/ctl.py"), **feeds, **{f"feeds/{it}": known for it, known in feeds.items()},
            **benches, "checks/run": options_of("checks/"), "fuzz/fuzz": options_of("fuzz/fuzz"),
            "pnuts-http": {f"--{it}" for it in FLAG.findall(text_of("http/main.go"))} | BY_ARGPARSE, "http/bench/compare": options_of("http/bench/compare"),
            "packaging/install": options_of("packaging/install"), "packaging/deb": options_of("packaging/deb"),
            "packaging/tools/pnuts-ctl": options_of("clients/python/src/pnuts_client/ctl.py")}


def words_after(program: str, words: list[str]) -> Iterator[list[str]]:
    """The words of a program in a line, up to the end of its command."""
    for index, word in enumerate(words):
        if word == program:
            later = words[index + 1:]
            yield later[:next((at for at, it in enumerate(later) if it in ENDS), len(later))]


def parts() -> set[str]:
    """The parts of `checks/run`."""
    told = subprocess.run([TOP / "checks/run", "--help"], stdout=subprocess.PIPE, text=True, check=True).stdout
    return set(re.findall(r"^  ([a-z-]+)  ", told, re.MULTILINE))


def commands() -> set[str]:
    return set(COMMAND.findall(text_of("clients/python/src/pnuts_client/ctl.py")))


def targets() -> set[str]:
    return set(TARGET.findall(text_of("Makefile")))


def wrong_words(name: str) -> Iterator[str]:
    """Commands and options in a document that no program has."""
    known = {"make": targets() | set(TARGET.findall(makefile_beside(name))), "checks/run": parts(), "pnuts-ctl": commands()}
    for words in lines_of_code(name):
        for program, subcommands in known.items():
            for later in words_after(program, words):
                first = next((it for it in later if re.fullmatch(r"[a-z][a-z-]*", it) and not it.startswith("-")), None)
                if first and later.index(first) == 0 and first not in subcommands:
                    yield f"{name} names {program} {first}, which is not there"
        for program, options in programs().items():
            for later in words_after(program, words):
                for option in OPTION.findall(" ".join(later)):
                    if option not in options:
                        yield f"{name} names {program} {option}, which is not there"
        for word in words:
            if word.startswith(FOLDERS) and re.fullmatch(r"[\w./-]+", word) and "NAME" not in word and "CRATE" not in word:
                if word.rstrip("/") not in tracked() and "/out/" not in word and not word.startswith(("checks/replies/slow", "fuzz/cases")):
                    yield f"{name} names {word}, which is not there"


def makefile_beside(name: str) -> str:
    """The Makefile in a document's folder, which its commands may be of."""
    path = (TOP / name).parent / "Makefile"
    return path.read_text() if path.is_file() else ""


def untold() -> Iterator[str]:
    """What is there, and no document tells of."""
    told = [words for name in documents() for words in lines_of_code(name)]
    for target in sorted(targets() - INNER):
        if not any(target in words and words[0] in ("make", "sudo") for words in told):
            yield f"no document tells of make {target}"
    for command in sorted(commands()):
        if not any(words == [command] or command in words and words[0] == "pnuts-ctl" for words in told):
            yield f"no document tells of pnuts-ctl {command}"
    for feed in FEEDS:
        here = " ".join(" ".join(words) for words in lines_of_code("feeds/README.md"))
        for option in sorted(options_of(f"feeds/{feed}", "feeds/feed/") - BY_ARGPARSE):
            if option not in OPTION.findall(here):
                yield f"feeds/README.md does not tell of {option} of {feed}"
    for folder in sorted({Path(it).parts[1] for it in tracked() if it.startswith("examples/") and len(Path(it).parts) > 2}):
        if not any(f"examples/{folder}" in text_of(name) for name in documents() if not name.startswith("examples/")):
            yield f"no document tells of examples/{folder}"


def too_long() -> Iterator[str]:
    """Documents with more words than they may have."""
    for limit, names in LIMITS:
        paths = [it for it in documents() if re.fullmatch(names, it)]
        count = sum(len(text_of(it).split()) for it in paths)
        if count > limit:
            yield f"{' and '.join(paths)} have {count} words, and at most {limit} are wanted"


def all_faults() -> Iterator[str]:
    yield from too_long()
    for name in documents():
        yield from dead_links(name)
        yield from wrong_words(name)
    yield from unknown_promises()
    yield from untold()


def once(faults: Iterable[str]) -> list[str]:
    return list(dict.fromkeys(faults))


def check_links() -> None:
    """Nothing that documents name is missing, and they tell of all."""
    none_of(once(all_faults()))
    print(f"{len(documents())} documents")
