"""Completion as shells do it: one on a terminal of its own, in which words of a program are typed and completed."""

from __future__ import annotations

import os
import pty
import re
import select
import signal
import subprocess
import time
from pathlib import Path

SECONDS = 60
# How much of what a shell showed is told where it is not what is wanted.
SHOWN = 1_000

# In both, Control-X A inserts all completions of the word before the cursor, and Control-A goes to the line's beginning.
BASH = r"""
PS1='> '
bind 'set enable-bracketed-paste off' '"\C-xa": insert-completions' '"\C-a": beginning-of-line'
shown() { printf '<%s>' "$@"; echo .; }
"""
ZSH = r"""
PROMPT='> '; unset zle_bracketed_paste; unsetopt prompt_sp; bindkey -e; zmodload zsh/complist
autoload -Uz compinit; compinit -u -D
zle -C all-matches complete-word _generic; bindkey '^Xa' all-matches
zstyle ':completion:all-matches:*' insert true; zstyle ':completion:all-matches::::' completer _all_matches _complete
shown() { printf '<%s>' "$@"; echo .; }
"""
LINES = {
    "bash": (["bash", "--norc", "--noprofile", "-i"], BASH, "source {path}"),
    "zsh": (["zsh", "--no-rcs", "-i"], ZSH, "source {path}; compdef _{program} {program}"),
}


class Shell:
    """A bash or zsh that has read a program's completion, in a folder."""

    def __init__(self, name: str, program: str, completion: Path, folder: Path) -> None:
        self._name = name
        line, start, read = LINES[name]
        self._pid, self._terminal = pty.fork()
        if self._pid == 0:
            os.environ.update(INPUTRC="/dev/null", TERM="dumb", COLUMNS="1000")
            os.execvp(line[0], line)
        self._ask(f"{start}{read.format(path=completion, program=program)}; cd {folder}; echo rea''dy\n".encode(), rb"(ready)\r\n")

    def __enter__(self) -> Shell:
        return self

    def __exit__(self, *_: object) -> None:
        os.kill(self._pid, signal.SIGKILL)
        os.waitpid(self._pid, 0)
        os.close(self._terminal)

    def _ask(self, typed: bytes, wanted: bytes) -> bytes:
        """Types, and waits until what is wanted is shown."""
        os.write(self._terminal, typed)
        seen = b""
        last = time.monotonic() + SECONDS
        while time.monotonic() < last:
            if select.select([self._terminal], [], [], 1)[0]:
                seen += os.read(self._terminal, 65_536)
                found = re.search(wanted, seen)
                if found:
                    return found.group(1)
        raise TimeoutError(f"{self._name} did not show {wanted!r} within {SECONDS} s, but {seen[-SHOWN:]!r}")

    def completed(self, line: str) -> list[str]:
        """The words of the line, of which the last one stands for all its completions."""
        shown = self._ask(line.encode() + b"\x18a\x01shown \n", rb"\n((?:<[^\r\n]*>)+)\.\r\n")
        return re.findall(r"<(.*?)>", shown.decode())


def completed_by_fish(completion: Path, folder: Path, line: str) -> list[str]:
    """The completions of a line's last word."""
    script = f"source {completion}; complete --do-complete $argv[1]"
    ran = subprocess.run(["fish", "--no-config", "--command", script, line], cwd=folder, capture_output=True, text=True, timeout=SECONDS, check=True)
    return [it.partition("\t")[0] for it in ran.stdout.splitlines()]
