"""The parts of the checks: programs, and modules that pytest tries, with what each may be told and needs. `checks/run` has these words as options,
and pytest as fixtures."""
import argparse
import ast
import configparser
import importlib.util
import os
import re
import shutil
import sys
from collections.abc import Iterable, Sequence
from pathlib import Path
from typing import TYPE_CHECKING, Any

if TYPE_CHECKING:
    import pytest

CHECKS = Path(__file__).resolve().parent.parent
SETTINGS = CHECKS / "pytest.ini"
# What runs a part by its name.
RUN = CHECKS / "run"
# How a module says which part it is of.
NAMED = re.compile(r"checks/run ([a-z][a-z-]*)")
CHECK = "\ndef check_"
MAIN = "\ndef main(words: list[str]) -> int:\n"
PROCESSORS = len(os.sched_getaffinity(0))


def program_at(word: str) -> str:
    """The whole path of a program."""
    if not os.access(word, os.X_OK) or os.path.isdir(word):
        raise argparse.ArgumentTypeError(f"there is no program {word}")
    return os.path.abspath(word)


# Programs, which stand before all other words.
PROGRAMS = {"program": "the built program", "scripts": "the program of crates/test_rows", "live": "the program of crates/test_serving"}
OPTIONS: dict[str, dict[str, Any]] = {
    "cases": {"type": int, "metavar": "N", "help": "how many cases are drawn, or made (default: each check's own number)"},
    "seed": {"type": int, "metavar": "S", "default": 1, "help": "what cases are drawn by (default: %(default)s)"},
    "seconds": {"type": float, "metavar": "S", "help": "for how long tablets are lost (default: the check's own)"},
    "soak": {"type": float, "metavar": "S", "default": 60, "help": "for how many seconds sessions are abused (default: %(default)s)"},
    "big": {"action": "store_true", "help": "also what takes gigabytes"},
    "log": {"action": "append", "metavar": "LOG", "help": "what a check said of all functions of its crates; may be repeated"},
    "replay": {"action": "store_true", "help": "each script has a process of PROGRAM"},
}


def needs(*tools: str, modules: tuple[str, ...] = (), root: bool = False, also: tuple[str, ...] = ()) -> "pytest.MarkDecorator":
    """Skips checks where programs, modules of Debian's python3-.., root or anything else is missing, and says why."""
    import pytest
    lacks = [it for it in tools if not shutil.which(it)]
    lacks += [f"python3-{it.replace('_', '-')}" for it in modules if not importlib.util.find_spec(it)]
    lacks += [*["root"] * (root and os.geteuid() != 0), *also]
    return pytest.mark.skipif(bool(lacks), reason=f"the machine lacks {', '.join(lacks)}")


def told(text: str) -> str:
    """What a module says of itself."""
    return ast.get_docstring(ast.parse(text)) or ""


def texts(mark: str) -> dict[Path, str]:
    """The modules that have a text, each with its own."""
    found = ((path, path.read_text(encoding="utf-8")) for path in sorted(CHECKS.glob("*/*.py")))
    return {path: text for path, text in found if mark in text}


def programs() -> dict[str, Path]:
    """The modules that are parts of their own: those with a `main` of its words."""
    return {path.stem.replace("_", "-"): path for path in texts(MAIN)}


def modules() -> dict[str, list[Path]]:
    """The modules with checks, by the parts that they are of."""
    found: dict[str, list[Path]] = {}
    for path, text in texts(CHECK).items():
        if MAIN not in text and (named := NAMED.search(told(text))):
            found.setdefault(named[1], []).append(path)
    return found


def abouts() -> dict[str, tuple[str, str]]:
    """The folder of each part, and what it tries: as the module of its name says, or the settings of pytest."""
    settings = configparser.ConfigParser()
    settings.read(SETTINGS, encoding="utf-8")
    lines = (line.partition(": ") for line in settings["pytest"]["markers"].strip().splitlines())
    marks = {name: about for name, _, about in lines}
    found = dict[str, tuple[str, str]]()
    for name, paths in [*((name, [path]) for name, path in programs().items()), *modules().items()]:
        own = [it for it in paths if it.stem.replace("_", "-") == name]
        found[name] = (paths[-1].parent.name, told(own[0].read_text(encoding="utf-8")) if own else marks[name])
    return found


def first(about: str) -> str:
    """What a part tries, in its first words."""
    return " ".join(about.partition("\n\n")[0].split())


def functions(path: Path) -> list[ast.FunctionDef]:
    """The checks and fixtures of a module."""
    return [it for it in ast.parse(path.read_text(encoding="utf-8")).body
            if isinstance(it, ast.FunctionDef) and (it.name.startswith("check_") or "fixture" in " ".join(map(ast.unparse, it.decorator_list)))]


def parser_of(part: str, paths: Iterable[Path]) -> argparse.ArgumentParser:
    """The words of a part: the programs and options that its checks use, and the names of checks."""
    found = [it for path in paths for it in functions(path)]
    used = {it.arg for function in found for it in function.args.args}
    checks = (f"  {it.name[6:]}: {' '.join((ast.get_docstring(it) or '').split())}" for it in found if it.name.startswith("check_"))
    parser = argparse.ArgumentParser(f"run {part}", description=abouts()[part][1], epilog="\n".join(["checks:", *checks]),
                                     formatter_class=argparse.RawDescriptionHelpFormatter)
    for name in (it for it in PROGRAMS if it in used):
        parser.add_argument(name, metavar=name.upper(), type=program_at, help=PROGRAMS[name])
    parser.add_argument("names", metavar="CHECK", nargs="*", help="checks, or words of their cases' names; all without any")
    for name in (it for it in OPTIONS if it in used):
        parser.add_argument(f"--{name}", **OPTIONS[name])
    return parser


def run(part: str, words: list[str]) -> int:
    """Has pytest try a part. The status."""
    own = words.index("--") if "--" in words else len(words)
    given = vars(parser_of(part, modules()[part]).parse_intermixed_args(words[:own]))
    names = given.pop("names")
    told = ((name, each) for name, value in given.items() for each in (value if isinstance(value, list) else [value]))
    options = [f"--{name}" if value is True else f"--{name}={value}" for name, value in told if value not in (None, False)]
    return tried([part], [*options, *words[own + 1 :]], names)


def chosen(parts: Sequence[str], names: Sequence[str]) -> list[str]:
    """What pytest is told to try of parts: all, or the checks of these names, and of those the cases with these words."""
    found = modules()
    paths = list(dict.fromkeys(path for part in parts for path in found[part]))
    checks = {it.name[6:]: f"{path}::{it.name}" for path in paths for it in functions(path)}
    cases = [it for it in names if it not in checks]
    nodes = [checks[it] for it in names if it in checks] or [str(it) for it in paths]
    return [*nodes, *(["-k", " or ".join(cases)] if cases else [])]


def tried(parts: Sequence[str], words: Sequence[str], names: Sequence[str] = (), at_once: bool = False) -> int:
    """Has pytest try parts, and several checks at once where it may and can. The status."""
    try:
        import pytest
    except ImportError:
        print("checks/run: Debian's python3-pytest is missing", file=sys.stderr)
        return 1
    os.environ["PYTHONDONTWRITEBYTECODE"] = "1"
    several = ["-n", str(PROCESSORS)] if at_once and importlib.util.find_spec("xdist") else []
    return int(pytest.main(["-c", str(SETTINGS), "--rootdir", str(CHECKS), *several, *words, *chosen(parts, names)]))
