"""Runs what a contributor wants to know before the gate, over a program without proofs, which is built first.

  checks/run before-gate

Formats, types, words and links are looked at while it is built. Then it answers the worked rows, where they are at hand, and random
scripts, and serves. Some ten minutes on four processors; `checks/run all` tries more. Exit status 0 where each check holds, or is
skipped for what the machine lacks.
"""
import subprocess

from common.crates import TOP
from common.parts import tried
from common.tried import parser_of

PROGRAM = TOP / "out" / "quick" / "pnuts"
# What is looked at while the program is built.
TEXTS = ("format", "types", "words", "links", "naming")
# What serves, and those of its checks that tell most in a minute.
SERVING = ("sessions", "stay", "streams", "control")
CHECKS = """
listening_and_served live_read bad_words failed_streams many_lines_at_once clients_that_misbehave a_stream_that_grows four_streams_in_one_region
versions backlog misbehaving slow_pages silent long_lines_of_many connection_limit moments ended_file addresses unix_socket
sixteen_streams beginnings faults steps half_lines taken sources_that_stand two_publishers beginnings_of_a_fifo removed_sockets random_publishers
beside_scripts words stats waits counts_of_records kinds_of_lines states_of_streams sixteen_at_once stop stop_in_time
"""


def main(words: list[str]) -> int:
    parser_of(__doc__).parse_args(words)
    with subprocess.Popen([TOP / "bin" / "program", "quick"]) as build:
        status = tried(TEXTS, [], at_once=True)
    if status or build.returncode:
        return 1
    told = f"--program={PROGRAM}"
    return max(tried(("rows", "random-scripts"), [told, f"--scripts={PROGRAM}", "--replay", "--cases=402"], at_once=True),
               tried(SERVING, [told], CHECKS.split()), tried(("ends", "limits"), [told]))
