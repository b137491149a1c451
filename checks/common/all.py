"""Runs all checks of a built program.

  checks/run all PROGRAM SCRIPTS LIVE [--soak SECONDS] [--only NAME]...

SCRIPTS is the program of crates/test_rows, LIVE that of crates/test_serving. Parts that take one processor run beside one
another, and then the others one by one. Exit status 0 where each check holds, or is skipped for what the machine lacks.
"""
from common.parts import OPTIONS, PROGRAMS, program_at, tried
from common.tried import parser_of

BESIDE = ("exit-statuses", "live-copies", "memory-limit", "waiting-rounds", "json-lines", "examples", "random-scripts", "random-words", "rising-keys", "locks",
          "readme", "examples", "words", "links", "naming", "types")
ALONE = ("sessions", "out-of-memory", "failing-calls", "damaged-input", "damaged-streams", "clients", "http-front", "limits", "stay", "unkept",
         "streams", "control", "ends", "signals", "copies", "exporter", "full-disk", "abuse")


def main(words: list[str]) -> int:
    parser = parser_of(__doc__)
    for name, about in PROGRAMS.items():
        parser.add_argument(name, type=program_at, help=about)
    parser.add_argument("--soak", **OPTIONS["soak"])
    parser.add_argument("--only", action="append", default=[], help="the name of a part that is run; may be repeated")
    given = vars(parser.parse_args(words))
    only = given.pop("only")
    told = [f"--{name}={value}" for name, value in given.items()]
    chosen = [[it for it in parts if not only or it in only] for parts in (BESIDE, ALONE)]
    return max([tried(parts, told, at_once=parts[0] in BESIDE) for parts in chosen if parts], default=2)
