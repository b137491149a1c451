"""Looks whether the words of the sources are told where somebody looks for them, and whether what is told is there.

  checks/run words

Commands, members, refusals, options and the reasons that publishers of streams are told are read off the sources. Each has to stand
in the pages of docs/ that it is for; commands also in README.md, the slow program and, with their members, the fuzzer's words; what sessions
have, by the table of commands, with its members in clients/README.md and in each client; what control sessions have besides in the client
for Python.
Commands and options that README.md, docs/ or the packages name have to be those of the program, and its version is the same in
all files (bin/version).
"""
import re
import subprocess
from collections.abc import Iterable, Iterator
from pathlib import Path

from common.crates import TOP
from common.tried import none_of

COMMAND = re.compile(r'"(\w+)" => Some\(CommandWord::(\w+)\)')
# A row of the table of commands: its name, who may say it, its kind, its members.
ROW = re.compile(r"CommandWord::(\w+) => row\(\s*CommandUsers::(\w+),\s*LineKind::(\w+),\s*&\[([^\]]*)\]")
# What control sessions have besides, and the members of that.
CONTROL = re.compile(r'"(\w+)" => Some\(ControlWord::(\w+)\)')
CONTROL_ROW = re.compile(r"ControlWord::(\w+) => &\[([^\]]*)\]")
MEMBER = re.compile(r'(?:MemberName|Member)::\w+ => "(\w+)"')
ERROR = r'\\?"error\\?":\\?"([a-z-]+)'
REFUSAL = re.compile(rf'\b\w+_(?:error|reply)\(\s*alloc,\s*"([a-z-]+)"|{ERROR}')
REASON = re.compile(rf'\b(?:Stream|Image)Fault::\w+[^\n]* => "([a-z-]+)"|{ERROR}')
OPTION = re.compile(r'\b(?:option|number|plain|path|flag)\(\s*alloc,\s*"([a-z-]+)"')
TOLD_COMMAND = re.compile(r'"do":"(\w+)"')
TOLD_OPTION = re.compile(r"pnuts (?:serve|replay)[^\n|]*?(--[a-z-]+)")

# The refusals that sessions do not have.
OF_SCRIPTS = {"gap", "too-many-streams", "bad-line", "outside-range", "not-rising", "bad-end", "truncated", "wrong-range", "too-old", "still-recovering"}
# Options that clap has by itself.
BY_CLAP = {"--help", "--version"}


def sources(crate: str) -> str:
    return "\n".join(it.read_text() for it in sorted((TOP / "crates" / crate / "src").rglob("*.rt")))


def found(pattern: re.Pattern[str], text: str) -> set[str]:
    return {next(filter(None, it.groups())) for it in pattern.finditer(text)}


def text_of(paths: Iterable[Path]) -> str:
    return "\n".join(it.read_text(errors="replace") for it in paths if it.is_file())


def below(*folders: str) -> list[Path]:
    return [it for folder in folders for it in sorted((TOP / folder).rglob("*")) if "__pycache__" not in it.parts]


def has_word(text: str, word: str) -> bool:
    return re.search(rf"(?<![\w-]){re.escape(word)}(?![\w-])", text) is not None


def missing(kind: str, words: Iterable[str], where: str, text: str) -> Iterator[str]:
    return (f"{where} does not tell of the {kind} {word}" for word in sorted(words) if not has_word(text, word))


def unknown(kind: str, words: Iterable[str], known: set[str], where: str) -> Iterator[str]:
    return (f"{where} tells of the {kind} {word}, which the program does not have" for word in sorted(set(words) - known))


def clients() -> dict[str, list[Path]]:
    """The document on sessions, and the sources of each client."""
    sources = {"Python": below("clients/python/src"), "JavaScript": below("clients/javascript/src"),
               "Go": [it for it in below("clients/go") if not it.stem.endswith("_test")]}
    return {"clients/README.md": [TOP / "clients/README.md"], **{f"the client for {name}": paths for name, paths in sources.items()}}


def versions() -> list[str]:
    """What bin/version finds."""
    ran = subprocess.run([TOP / "bin/version"], stdout=subprocess.PIPE, text=True)
    return ran.stdout.splitlines() if ran.returncode else []


def members_in(listed: str) -> set[str]:
    """The names in a list of members, but for that of the word."""
    return set(re.findall(r'"(\w+)"', listed)) - {"do"}


def commands_of(users: str, protocol: str) -> dict[str, set[str]]:
    """The words of the commands that these may say, with their members, by the table."""
    words = {name: word for word, name in COMMAND.findall(protocol)}
    return {words[name]: members_in(listed) for name, row_users, _kind, listed in ROW.findall(protocol) if row_users == users}


def commands_of_controls(protocol: str) -> dict[str, set[str]]:
    """The words of the commands that control sessions have besides, with their members."""
    members = {name: members_in(listed) for name, listed in CONTROL_ROW.findall(protocol)}
    return {word: members.get(name, set()) for word, name in CONTROL.findall(protocol)}


def all_members(*commands: dict[str, set[str]]) -> set[str]:
    return {member for them in commands for members in them.values() for member in members}


def uneven(protocol: str, refused: set[str], commands: set[str]) -> Iterator[str]:
    """What the tables and the words beside them do not have in common."""
    by_users = [commands_of(users, protocol) for users in ("Scripts", "Controls", "Sessions")]
    if set().union(*by_users) != commands:
        yield "the table of commands does not have a row for each word"
    members = all_members(*by_users, commands_of_controls(protocol))
    yield from (f"the member {it} of a command has no word in a refusal" for it in sorted(members - refused))


def all_faults() -> Iterator[str]:
    protocol = sources("pn_protocol")
    commands = found(COMMAND, protocol)
    lookups, of_controls = commands_of("Sessions", protocol), commands_of("Controls", protocol)
    members = found(MEMBER, protocol + sources("pn_record")) - {"whole", "other"}
    controls, refusals = commands_of_controls(protocol), found(REFUSAL, protocol)
    options = {f"--{it}" for it in found(OPTION, sources("pn_arguments"))}
    reasons = found(REASON, sources("pn_stay"))
    readme = (TOP / "README.md").read_text()
    if min(map(len, (commands, members, refusals, options, reasons))) < 5 or not lookups or not of_controls:
        yield "the sources do not say their words in the way that this script reads them"
    yield from uneven(protocol, members, commands)
    for kind, words, pages in (("command", commands | set(controls), "lines control"), ("member", members, "lines"), ("refusal", refusals, "lines"),
                               ("option", options, "program"), ("reason", reasons, "streams")):
        names = [f"docs/{it}.md" for it in pages.split()]
        yield from missing(kind, words, " and ".join(names), text_of(TOP / it for it in names))
    yield from missing("command", commands, "README.md", readme)
    yield from missing("command", commands, "the slow program (checks)", text_of(below("checks")))
    words_of_fuzzer = (TOP / "fuzz/words.dict").read_text()
    yield from missing("command", commands, "fuzz/words.dict", words_of_fuzzer)
    of_scripts = commands_of("Scripts", protocol)
    yield from missing("member", all_members(lookups, of_controls, of_scripts), "fuzz/words.dict", words_of_fuzzer)
    for where, paths in clients().items():
        yield from missing("command", lookups, where, text_of(paths))
        yield from missing("member", all_members(lookups), where, text_of(paths))
        yield from missing("refusal", refusals - OF_SCRIPTS, where, text_of(paths))
    client = text_of(clients()["the client for Python"])
    yield from missing("command", set(controls) | set(of_controls), "the client for Python", client)
    yield from missing("member", all_members(controls, of_controls), "the client for Python", client)
    told = readme + text_of(sorted((TOP / "docs").glob("*.md")))
    yield from unknown("command", TOLD_COMMAND.findall(told), commands | set(controls), "README.md or docs/")
    yield from unknown("option", TOLD_OPTION.findall(told + text_of(below("packaging"))), options | BY_CLAP, "README.md, docs/ or packaging/")
    yield from versions()


def check_words() -> None:
    """No word of the sources is missing, and none is told that is not there."""
    none_of(all_faults())
