"""What the benches share: processor time and instructions of a run, servers that are measured beside one another, and tables."""
import dataclasses
import os
import pathlib
import re
import resource
import shutil
import subprocess
import sys
import tempfile
from collections.abc import Callable, Sequence

CALLGRIND = ["valgrind", "--tool=callgrind", "--callgrind-out-file=/dev/null"]
TICKS = os.sysconf("SC_CLK_TCK")
OPTIONS = ["-std=c11", "-D_GNU_SOURCE", "-O2", "-Wall", "-Wextra", "-Wconversion", "-Wshadow", "-Werror", "-pthread"]


@dataclasses.dataclass(frozen=True)
class Measure:
    """A figure that is taken of a program, and the most that is wanted."""

    name: str
    most: float
    take: Callable[[str], float]


def report(measures: list[Measure], program: str) -> int:
    """Takes all figures, and prints a table. The status is 0 where all are within what is wanted."""
    rows, is_missed = [], False
    for measure in measures:
        print(measure.name, flush=True)
        figure = measure.take(program)
        is_missed = is_missed or figure > measure.most
        rows.append([measure.name, f"{figure:.3f}", f"{measure.most:.2f}", "MISSED" if figure > measure.most else ""])
    print_table(["figure", "", "at most", ""], rows)
    return 1 if is_missed else 0


def least_seconds(command: list[str], lines: bytes, runs: int) -> float:
    """The least processor time of a few runs over the same lines."""
    with tempfile.NamedTemporaryFile() as script:
        script.write(lines)
        script.flush()
        return min(processor_seconds(command, script.name) for _ in range(runs))


def most_memory(process: int) -> int:
    """The most memory that a process has had so far, in KiB."""
    with open(f"/proc/{process}/status") as status:
        return next((int(line.split()[1]) for line in status if line.startswith("VmHWM:")), 0)


def processor_seconds(command: list[str], script: str, replies: str = os.devnull) -> float:
    """The processor time of one run that reads a file and writes another."""
    before = resource.getrusage(resource.RUSAGE_CHILDREN)
    with open(script, "rb") as lines, open(replies, "wb") as output:
        subprocess.run(command, stdin=lines, stdout=output, check=True)
    after = resource.getrusage(resource.RUSAGE_CHILDREN)
    return after.ru_utime + after.ru_stime - before.ru_utime - before.ru_stime


def collected(said: bytes) -> int:
    """How many instructions valgrind says that it counted."""
    found = re.search(rb"Collected : (\d+)", said)
    if not found:
        raise ChildProcessError(f"valgrind counted nothing: {said.decode(errors='replace')[-500:]}")
    return int(found[1])


def instructions(command: list[str], lines: bytes) -> tuple[int, bytes]:
    """How many instructions a program takes over these lines, and what it writes."""
    ran = subprocess.run([*CALLGRIND, *command], input=lines, capture_output=True, check=True)
    return collected(ran.stderr), ran.stdout


def is_valgrind_there() -> bool:
    is_there = shutil.which("valgrind") is not None
    if not is_there:
        print("bench: valgrind is missing, which counts instructions", file=sys.stderr)
    return is_there


def print_table(heads: list[str], rows: list[list[str]]) -> None:
    """Prints rows below their heads, the first column to the left and the others to the right."""
    widths = [max(len(row[at]) for row in [heads, *rows]) for at in range(len(heads))]
    print()
    for row in [heads, *rows]:
        first, *others = (word.rjust(width) for word, width in zip(row, widths))
        print("  ".join([row[0].ljust(len(first)), *others]).rstrip(), flush=True)


def rows_of(figures: dict[int, list[float]]) -> str:
    """A line for each number with its figures, separated by tabs: whole ones from 100 on."""
    rows = ([number, *(round(figure, 4) if figure < 100 else round(figure) for figure in found)] for number, found in figures.items())
    return "".join("\t".join(map(str, row)) + "\n" for row in rows)


def write_figures(path: pathlib.Path, figures: dict[int, list[float]]) -> None:
    path.write_text(rows_of(figures), encoding="utf-8")


def tell_unproved(program: str) -> None:
    """Says so where a program's version says that nothing of it is proved: figures are then of another build than is delivered."""
    version = subprocess.run([program, "--version"], capture_output=True, text=True, check=True).stdout.strip()
    if "not proved" in version:
        print(f"bench: {program} is {version}: it was built without proofs", flush=True)


def are_programs(*words: str) -> bool:
    """Whether each word is a program, of which those that are none are named."""
    missing = [word for word in words if not os.access(word, os.X_OK)]
    for word in missing:
        print(f"bench: {word} is no program: run make build", file=sys.stderr)
    return not missing


def build_c(source: pathlib.Path, program: pathlib.Path) -> None:
    program.parent.mkdir(parents=True, exist_ok=True)
    subprocess.run(["cc", *OPTIONS, "-o", str(program), str(source)], check=True)


def seconds_so_far(process: int) -> float:
    """The processor time that a process has taken."""
    fields = pathlib.Path(f"/proc/{process}/stat").read_text().rpartition(")")[2].split()
    return (int(fields[11]) + int(fields[12])) / TICKS


class Server:
    """A process that serves sessions, which is ended with the block. It is ready once a line of its output has the word."""

    def __init__(self, command: Sequence[str], port: int, word: bytes = b"listening", errors: int | None = None) -> None:
        self.program, self.port, self.word = command[0], port, word
        self.process = subprocess.Popen(command, stdin=subprocess.DEVNULL, stdout=subprocess.PIPE, stderr=errors)
        assert self.process.stdout is not None
        self.stdout = self.process.stdout

    def __enter__(self) -> "Server":
        if not any(self.word in line for line in self.stdout):
            raise ChildProcessError(f"{self.program} does not listen")
        return self

    def __exit__(self, *_: object) -> None:
        self.process.kill()
        self.process.wait()
        self.stdout.close()

    def processor_seconds(self) -> float:
        return seconds_so_far(self.process.pid)
