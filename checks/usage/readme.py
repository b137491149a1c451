"""Does what README shows under its quick start, as somebody does who has the program and pastes the text, and looks at what is written.

  checks/run readme PROGRAM

The blocks of `bash` are given to bash one after another as its input, in a folder for all, with `pnuts` on the PATH and a network of
their own. After "It prints" come the lines that they write on both outputs. In the end nothing that they started may run.
"""
import os
import pathlib
import re
import subprocess

from common.crates import TOP
from common.parts import needs
from common.served import same

pytestmark = needs("unshare", "ip", "bash")

START, END = "## Quick start\n", "\n## "
# A block of code, its kind, and the line of text before it.
BLOCK = re.compile(r"^(\S[^\n]*)\n\n```(\w*)\n(.*?)^```$", re.MULTILINE | re.DOTALL)
# Writes what still runs.
LEFT = "jobs -r\n"
SECONDS = 120


def written_by(script: str, folder: pathlib.Path) -> str:
    """What bash and all that it starts write on both outputs."""
    user = [] if os.geteuid() == 0 else ["--user", "--map-root-user"]
    within = ["unshare", *user, "--net", "--pid", "--fork", "--kill-child", "bash"]
    given = {**os.environ, "PATH": f"{folder / 'bin'}:{os.environ['PATH']}", "PYTHONDONTWRITEBYTECODE": "1"}
    ran = subprocess.run(within, cwd=folder, env=given, text=True, timeout=SECONDS, check=True, input=f"ip link set lo up\n{script}",
                         stdout=subprocess.PIPE, stderr=subprocess.STDOUT)
    return ran.stdout


def check_readme(program: str, folder: str) -> None:
    """What is written is what is shown, and nothing is left running."""
    here = pathlib.Path(folder)
    (here / "bin").mkdir()
    (here / "bin/pnuts").symlink_to(program)
    (here / "clients").symlink_to(TOP / "clients")
    blocks: list[tuple[str, str, str]] = BLOCK.findall((TOP / "README.md").read_text(encoding="utf-8").partition(START)[2].partition(END)[0])
    script = "".join(text for _, kind, text in blocks if kind == "bash")
    shown = [text for told, kind, text in blocks if kind != "bash" and told == "It prints"]
    same("what is written", written_by(script + LEFT, here), "".join(shown))
    same("whether something is shown", shown != [], True)
