"""Talks with a program that is refused memory, and what a region may be after commands of which some ran out of it."""
import copy
import itertools
import json
import subprocess
import threading
from collections.abc import Iterator

from common.served import piped
from replies.slow import Region, text_of
from replies.stored import Stored

MEMORY = '{"error":"memory"}'
Command = tuple[bytes, ...]


def state_of(region: Region) -> str:
    """A text that tells one region from another."""
    tablets = [[tablet.ends, tablet.records(), tablet.cover, tablet.reach, tablet.need] for tablet in region.tablets]
    return text_of([tablets, region.marks, region.log])


def is_delivery(command: Command) -> bool:
    try:
        value = json.loads(command[0])
    except ValueError:
        return False
    return isinstance(value, dict) and value.get("do") == "deliver"


def parts_taken(before: Region, after: Region) -> Iterator[Region]:
    """The regions in which some tablets have taken their part of a round that was refused."""
    choices = [[one] if vars(one) == vars(other) else [one, other] for one, other in zip(before.tablets, after.tablets)]
    for tablets in itertools.product(*choices):
        region = copy.copy(before)
        region.tablets, region.log = list(tablets), [*before.log, None]
        yield region


class States:
    """The regions that commands lead to, by what tells one from another."""

    def __init__(self, bounds: list[str]) -> None:
        self.regions: dict[str, Region] = {}
        self.answered: dict[tuple[str, Command], tuple[list[str], str]] = {}
        self.refused: dict[tuple[str, Command], set[str]] = {}
        self.start = self.keep(Region(bounds))

    def keep(self, region: Region) -> str:
        state = state_of(region)
        self.regions.setdefault(state, region)
        return state

    def after(self, state: str, command: Command) -> tuple[list[str], str]:
        """The replies to a command with its lines, and the region after it."""
        if (state, command) not in self.answered:
            region = self.regions[state].copied()
            replies = "".join([*map(region.feed, command), region.end()]).splitlines()
            self.answered[state, command] = replies, self.keep(region)
        return self.answered[state, command]

    def after_refusal(self, state: str, command: Command) -> set[str]:
        """The regions that there may be after a command that ran out of memory."""
        if (state, command) not in self.refused:
            self.refused[state, command] = {state}
            if is_delivery(command):
                before, after = self.regions[state], self.regions[self.after(state, command)[1]]
                self.refused[state, command] |= set(map(self.keep, parts_taken(before, after)))
        return self.refused[state, command]


class Judge:
    """Follows the replies to one run of commands."""

    def __init__(self, states: States) -> None:
        self.states = states
        self.possible = {states.start}

    def refuse(self, command: Command) -> None:
        """The command ran out of memory."""
        self.possible = {after for state in self.possible for after in self.states.after_refusal(state, command)}

    def is_right(self, command: Command, replies: list[str]) -> bool:
        """Whether the replies are those of a region that there may be; from then on there is no other."""
        if replies == [MEMORY]:
            self.refuse(command)
            return True
        ends = [self.states.after(state, command) for state in self.possible]
        self.possible = {after for due, after in ends if due == replies}
        return self.possible != set()


NO_MEMORY = (1, "pnuts: memory\n")
CLOSING = [(b'{"do":"scan","query":{}}',), (b'{"do":"tablets"}',)]
# For how long a talk may go on: beside other programs each reply may take long.
SECONDS = 600
# A line that is too long is refused so also where there is no memory.
FENCE, AT_FENCE = b" " * 65_537, '{"error":"too-long"}'


class Talk:
    """A program that is talked to, command by command."""

    def __init__(self, command: list[str], given: dict[str, str]) -> None:
        pipe = subprocess.PIPE
        self.process = subprocess.Popen(command, env=given, stdin=pipe, stdout=pipe, stderr=pipe)
        self.stdin, self.stdout, self.stderr = piped(self.process.stdin), piped(self.process.stdout), piped(self.process.stderr)
        self.limit = threading.Timer(SECONDS, self.process.kill)
        self.limit.start()

    def say(self, *lines: bytes) -> None:
        self.stdin.write(b"".join(line + b"\n" for line in lines))
        self.stdin.flush()

    def hear(self) -> str:
        line = self.stdout.readline()
        if not line:
            raise BrokenPipeError
        return line.decode().rstrip("\n")

    def up_to_fence(self) -> list[str]:
        """What is still replied to what was said."""
        self.say(FENCE)
        return list(iter(self.hear, AT_FENCE))

    def replies(self, command: Command) -> list[str]:
        """The replies to a command with its lines; after `memory`, those to lines that became commands."""
        self.say(*command)
        replies = whole_reply(iter(self.hear, None))
        return replies + self.up_to_fence() if replies == [MEMORY] and len(command) > 1 else replies

    def end(self) -> tuple[int, str, str]:
        """The status, and what it still wrote on both outputs."""
        try:
            self.stdin.close()
        except BrokenPipeError:
            pass
        rest, said = self.stdout.read(), self.stderr.read()
        self.limit.cancel()
        self.stdout.close()
        self.stderr.close()
        return self.process.wait(), rest.decode(), said.decode()


def whole_reply(lines: Iterator[str]) -> list[str]:
    """The next reply, with the lines that it announces."""
    first = next(lines, "{}")
    return [first, *itertools.islice(lines, json.loads(first).get("lines", 0))]


class Script:
    """A stored script, and how it goes with one allocation refused, or with all from one on."""

    def __init__(self, program: str, script: Stored) -> None:
        self.command = [program, "replay", *script.words()]
        self.steps: list[Command] = [*(tuple(lines) for lines in script.commands()), *CLOSING]
        self.states = States(script.bounds)
        self.due: list[list[str]] = []
        state = self.states.start
        for step in self.steps:
            replies, state = self.states.after(state, step)
            self.due.append(replies)
        if sum(self.due[: -len(CLOSING)], []) != [reply.decode() for reply in script.replies]:
            raise AssertionError(f"{script.name}: the slow program answers otherwise")

    def are_refusals(self, lines: Command, replies: list[str]) -> bool:
        """Whether these are replies to lines that became commands, or none where the lines were passed over."""
        due = [self.states.after(self.states.start, (line,))[0] for line in lines]
        return not replies or len(replies) == len(due) and all(got in (*want, MEMORY) for got, want in zip(replies, due))

    def step_fault(self, talk: Talk, judge: Judge, step: Command, is_repeated: bool) -> str | None:
        """What is wrong with the replies to a command, which comes again where it is refused and repeated."""
        replies = talk.replies(step)
        if replies[0] == MEMORY:
            judge.refuse(step)
            if not self.are_refusals(step[1:], replies[1:]):
                return f"the lines of a refused command: {replies}"
            if not is_repeated:
                return None
            replies = talk.replies(step)
        is_right = judge.is_right(step, replies) and (replies != [MEMORY] or not is_repeated)
        return None if is_right else f"{step[0][:200]!r}: {replies}"

    def fault(self, given: dict[str, str], is_repeated: bool) -> str | None:
        """What is wrong with a talk. Where one allocation is refused, the refused command comes again."""
        talk, judge, wrong, told = Talk(self.command, given), Judge(self.states), None, 0
        try:
            for told, step in enumerate(self.steps):
                wrong = wrong or self.step_fault(talk, judge, step, is_repeated)
        except BrokenPipeError:
            wrong = wrong or f"no reply to command {told + 1}"
        status, rest, said = talk.end()
        if (status, said) == NO_MEMORY and not told and not rest:
            return None
        if is_repeated and not self.ends_well(judge):
            wrong = wrong or "at the end the rows or the tablets are others"
        return f"{status}, {said!r}, {rest!r}, {wrong}" if wrong or (status, rest, said) != (0, "", "") else None

    def ends_well(self, judge: Judge) -> bool:
        """Whether the scan and the tablets at the end are those without a refusal."""
        closing = list(zip(CLOSING, self.due[-len(CLOSING):]))
        return all(self.states.after(state, step)[0] == due for state in judge.possible for step, due in closing)

    def fault_of_twice(self, given: dict[str, str]) -> str | None:
        """What is wrong with the replies where each command comes twice, all in one input."""
        twice = [step for step in self.steps for _ in range(2)]
        script = b"".join(line + b"\n" for step in twice for line in step)
        ended = subprocess.run(self.command, input=script, capture_output=True, env=given, timeout=SECONDS)
        status, replies, said = ended.returncode, ended.stdout.decode().splitlines(), ended.stderr.decode()
        if (status, said) == NO_MEMORY and not replies:
            return None
        judge, left = Judge(self.states), iter(replies)
        wrong = [step[0] for step in twice if not judge.is_right(step, whole_reply(left))]
        is_well = (status, said) == (0, "") and not wrong and next(left, None) is None and replies.count(MEMORY) <= 1
        return None if is_well else f"{status}, {said!r}, {wrong}\n{ended.stdout.decode()}"
