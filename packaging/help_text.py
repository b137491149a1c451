"""Reads what the program says with `--help`, as clap lays it out, and the words that pnuts-ctl takes."""

from __future__ import annotations

import argparse
import re
import subprocess
import sys
from dataclasses import dataclass, field
from pathlib import Path

sys.path.insert(0, str(Path(__file__).resolve().parents[1] / "clients/python/src"))
from pnuts_client.ctl import parser  # noqa: E402

SECONDS = 60
ENTRY = re.compile(r" {2,6}(?P<words>\S.*?)(?: {2,}(?P<text>.*))?$")
KNOWN = ("Commands", "Arguments", "Options")


@dataclass
class Entry:
    """A command, an argument or an option, as it is written, and what it is."""

    words: str
    text: str

    @property
    def names(self) -> list[str]:
        """An option's names, the dashes included."""
        return re.findall(r"(?:^|, )(--?[\w-]+)", self.words)

    @property
    def value(self) -> str | None:
        """What an option's value is called, where it takes one."""
        found = re.search(r" <?([A-Z][^<> ]*)>?$", self.words)
        return found.group(1) if found else None

    @property
    def is_path(self) -> bool:
        """Whether an option's value is a file."""
        return self.value in ("PATH", "FILE", "FOLDER")


@dataclass
class Help:
    """What one `--help` says."""

    about: str
    usage: str
    entries: dict[str, list[Entry]] = field(default_factory=dict)
    further: dict[str, list[str]] = field(default_factory=dict)

    @property
    def commands(self) -> list[str]:
        """The names of the commands, without clap's own."""
        return [it.words for it in self.entries.get("Commands", []) if it.words != "help"]

    @property
    def help(self) -> Entry | None:
        """The command that prints what this says, where there is one."""
        return next((it for it in self.entries.get("Commands", []) if it.words == "help"), None)

    @property
    def arguments(self) -> list[Entry]:
        return self.entries.get("Arguments", [])

    @property
    def options(self) -> list[Entry]:
        return self.entries.get("Options", [])

    @property
    def has_streams(self) -> bool:
        """Whether an argument is the name of something and its file."""
        return any("=PATH" in it.words for it in self.arguments)

    @property
    def has_file(self) -> bool:
        """Whether an argument is a file."""
        return any(it.words == "FILE" for it in self.arguments)


def asked(program: str, *words: str) -> str:
    """What the program prints for these words."""
    ended = subprocess.run([program, *words], stdin=subprocess.DEVNULL, capture_output=True, text=True, timeout=SECONDS, check=True)
    return ended.stdout


def _entries_of(lines: list[str]) -> list[Entry]:
    """The entries of a section. A text may begin on its entry's line or below it, further in."""
    found: list[Entry] = []
    for line in lines:
        entry = ENTRY.fullmatch(line)
        if entry:
            found.append(Entry(entry["words"], entry["text"] or ""))
        elif line.strip() and found:
            found[-1].text = f"{found[-1].text} {line.strip()}".strip()
    return found


def parsed(text: str) -> Help:
    """Parses what `--help` prints."""
    before, _, rest = text.partition("Usage: ")
    usage, *lines = rest.split("\n")
    said = Help(" ".join(before.split()), usage.strip())
    title = ""
    parts: dict[str, list[str]] = {title: []}
    for line in lines:
        head = re.fullmatch(r"(\w[^:]*):", line)
        if head:
            title = head.group(1)
            continue
        if line[:1].strip():
            title = ""
        parts.setdefault(title, []).append(line)
    for title, below in parts.items():
        if title in KNOWN:
            said.entries[title] = _entries_of(below)
        elif any(line.strip() for line in below):
            said.further[title] = below
    return said


def help_of(program: str) -> tuple[Help, dict[str, Help]]:
    """What the program says of itself, and of each of its commands."""
    whole = parsed(asked(program, "--help"))
    return whole, {name: parsed(asked(program, name, "--help")) for name in whole.commands}


def _entry_of(action: argparse.Action) -> Entry:
    """An option or an argument of pnuts-ctl."""
    value = "" if action.nargs == 0 else str(action.metavar or action.dest.upper())
    return Entry(f"{', '.join(action.option_strings)} {value}".strip(), (action.help or "") % vars(action))


def _help_of_parser(words: argparse.ArgumentParser, about: str) -> Help:
    actions = [it for it in words._actions if not isinstance(it, argparse._SubParsersAction)]
    entries = {kind: [_entry_of(it) for it in actions if bool(it.option_strings) == (kind == "Options")] for kind in KNOWN[1:]}
    return Help(about, "", entries)


def help_of_tools() -> tuple[Help, dict[str, Help]]:
    """What pnuts-ctl says of itself, and of each of its commands."""
    whole = parser()
    (commands,) = (it for it in whole._actions if isinstance(it, argparse._SubParsersAction))
    about = {it.dest: it.help or "" for it in commands._choices_actions}
    return _help_of_parser(whole, whole.description or ""), {name: _help_of_parser(it, about[name]) for name, it in commands.choices.items()}
