"""Random words, whose first fault has to be the one that this file finds in them, in its own way.

  checks/run random-words PROGRAM [--cases N] [--seed S]

Bounds, an address, the paths and permissions of sockets and streams are drawn from small pools, half of the time with `--stay`. Words that are
refused have to end with status 2 and that fault, with `--stay`, and of `--control`, of which text, and why. No path is there, so all
others have to end with status 1 and the copies, or the first stream, with `--stay` and its path. Of 1,000 runs or more, each fault has to occur.
"""
import ipaddress
import json
import random
import re
import subprocess
from collections import Counter
from collections.abc import Callable, Iterator
from typing import NamedTuple

from common.served import SECONDS, same
from common.tried import none_of

RUNS, MANY = 3_000, 1_000
# Words that are tried each time: none that are refused, and sixteen streams and one more.
KEPT = [(False, [0] * 6, [0]), (True, [0] * 6, list(range(1, 18)))]
# Sixteen faults and none, each with and without --stay, but for three of paths that are too long, and a control socket without it.
ALL_KINDS = 30
MOST_STREAMS = 16
MOST_OF_SOCKET = 107
MOST_OF_MODE = 0o777
MODE = re.compile(r"\+?[0-7]+", re.ASCII)
NAME = re.compile(r"[a-z0-9-]{1,32}", re.ASCII)
KEYS = ["a", "b", "c", "k" * 256, "\u00e9"]
NO_KEYS: list[object] = ["", "k" * 257, "\u00e9" * 129, 7, None, ["a"], {"a": "b"}]
NO_JSON = ["", " ", "[", "]", "['a']", '["a",]', "[a]", '["a"] x', "nul", "NaN", "[NaN]", "\n", '"\t"']
NO_ARRAYS = ["7", "{}", "null", '"a"', " true "]
ADDRESSES = ["127.0.0.1", "192.0.2.1", "::1", "2001:db8::7", "::ffff:192.0.2.1"]
NO_ADDRESSES = ["", "x", "localhost", "127.0.0", "127.0.0.256", "127.0.0.01", "127.0.0.1:80", "[::1]", ":::", "1::2::3", " ::1", "::1\n", "127.1"]
PATHS = ["/none/p", "/none/=", "/none/" + "p" * 101, "/none/" + "p" * 102, "/none/" + "\u00e9" * 51, "/none/" + "\u00e9" * 50 + "p"]
MODES = ["0600", "660", "0", "0777", "000000644", "+700"]
NO_MODES = ["", " 600", "0o600", "-600", "608", "1000", "0x1f", "rw-", "6e2", "\u0666"]
NAMES = ["east", "west", "e", "0", "-", "a-b", "n" * 32]
NO_NAMES = ["", "East", "a_b", "n" * 33, "\u00e9", "a b", "a\n", "\x1b", 'a"\\', "listen:"]
NO_STREAMS = ["", "east", "-x", "listen:/none/p", "a\nb", "\u0085", 'a\tb"\\c', "--stay"]
# How a text that has characters of control is quoted.
QUOTED = {"\n": "\\n", "\t": "\\t", "\x1b": "\\u{1b}", "\u0085": "\\u{85}", '"': '\\"', "\\": "\\\\"}

# What stands in place of words of the seed 0.
PLAIN = ("[]", "127.0.0.1", None, None, None, None)
# A text that is refused, and why.
Refused = tuple[str, str]


class Words(NamedTuple):
    """What `serve` is given."""

    stays: bool
    bounds: str
    listen: str
    socket: str | None
    mode: str | None
    control: str | None
    copies: str | None
    streams: list[str]

    def line(self) -> list[str]:
        told = (("socket", self.socket), ("socket-mode", self.mode), ("control", self.control), ("copies", self.copies))
        options = [f"--{name}={text}" for name, text in told if text is not None]
        return ["serve", *["--stay"] * self.stays, f"--bounds={self.bounds}", f"--listen={self.listen}", *options, "--", *self.streams]


def drawn_bounds(rng: random.Random) -> str:
    kind = rng.choice(["none", "none", "none", "keys", "no keys", "no json", "no array", "many"])
    if kind == "many":
        return json.dumps([f"{number:03}" for number in range(rng.choice([63, 64]))])
    texts = {"none": ["[]"], "no json": NO_JSON, "no array": NO_ARRAYS}
    pool: list[object] = [*KEYS, *NO_KEYS] if kind == "no keys" else [*KEYS]
    keys = rng.choices(pool, k=rng.randrange(4))
    return rng.choice(texts[kind]) if kind in texts else json.dumps(sorted(map(str, keys)) if kind == "keys" and rng.random() < 0.6 else keys)


def drawn_stream(rng: random.Random) -> str:
    if rng.random() < 0.03:
        return rng.choice(NO_STREAMS)
    name = rng.choice(NO_NAMES) if rng.random() < 0.04 else rng.choice([*NAMES, f"s{rng.randrange(1_000)}", f"s{rng.randrange(1_000)}"])
    path = "" if rng.random() < 0.05 else rng.choice(PATHS)
    return f"{name}={rng.choice(['', '', '', 'listen:', 'listen:', 'Listen:', './listen:'])}{path}"


def drawn(stays: bool, given: list[int], streams: list[int]) -> Words:
    """The words of these seeds: those of the bounds, the address, the socket, its mode, the control socket and the copies, and one of each stream."""
    ways: list[Callable[[random.Random], str | None]] = [
        drawn_bounds,
        lambda rng: rng.choice(NO_ADDRESSES) if rng.random() < 0.2 else rng.choice(ADDRESSES),
        lambda rng: rng.choice([None, *PATHS]) if rng.random() < 0.5 else "/none/p",
        lambda rng: rng.choice([None, None, None, rng.choice(MODES), rng.choice(MODES), rng.choice(NO_MODES)]),
        lambda rng: rng.choice(PATHS) if rng.random() < 0.2 else None,
        lambda rng: rng.choice(PATHS) if rng.random() < 0.1 else None,
    ]
    bounds, listen, socket, mode, control, copies = (way(random.Random(seed)) if seed else plain for way, seed, plain in zip(ways, given, PLAIN))
    named = [drawn_stream(random.Random(seed)) if seed else "s=/none/p" for seed in streams]
    return Words(stays, str(bounds), str(listen), socket, mode, control, copies, named)


def no_constant(text: str) -> None:
    raise ValueError(text)


def fault_of_bounds(text: str) -> Refused | None:
    try:
        keys = json.loads(text, parse_constant=no_constant)
    except ValueError:
        return text, "no JSON"
    if not isinstance(keys, list):
        return text, "no array"
    if not all(isinstance(key, str) and 1 <= len(key.encode()) <= 256 for key in keys):
        return text, "an item that is no key of 1 to 256 bytes"
    if len(keys) > 63:
        return text, "a layout has at most 63 bounds"
    falls = [at for at in range(1, len(keys)) if keys[at].encode() <= keys[at - 1].encode()]
    return (text, f"bound {falls[0]} is not greater than the one before it") if falls else None


def fault_of_address(words: Words) -> Refused | None:
    try:
        ipaddress.ip_address(words.listen)
    except ValueError:
        return words.listen, "no address of IPv4 or IPv6, and host names are not looked up"
    if words.stays and words.socket is not None and len(words.socket.encode()) > MOST_OF_SOCKET:
        return words.socket, "a path of more than 107 bytes"
    if words.mode is None or MODE.fullmatch(words.mode) and int(words.mode, 8) <= MOST_OF_MODE:
        return None
    return words.mode, "no octal number up to 777"


def fault_of_control(words: Words) -> Refused | None:
    if words.control is None:
        return None
    if not words.stays:
        return words.control, "only with --stay"
    return (words.control, "a path of more than 107 bytes") if len(words.control.encode()) > MOST_OF_SOCKET else None


def fault_of_stream(stays: bool, word: str) -> str | None:
    name, equals, path = word.partition("=")
    is_listened = stays and path.startswith("listen:")
    path = path.removeprefix("listen:") if is_listened else path
    if not equals:
        return "no ="
    if not NAME.fullmatch(name):
        return "no name"
    if not path:
        return "no path"
    return "a path of more than 107 bytes" if is_listened and len(path.encode()) > MOST_OF_SOCKET else None


def fault_of_streams(words: Words) -> Refused | None:
    if len(words.streams) > MOST_STREAMS:
        return words.streams[MOST_STREAMS], "more than 16"
    faults = ((word, fault) for word in words.streams if (fault := fault_of_stream(words.stays, word)))
    names = [word.partition("=")[0] for word in words.streams]
    twice = ((word, "a name twice") for word, name in zip(words.streams, names) if names.count(name) > 1)
    return next(faults, None) or next(twice, None)


def faults_of(words: Words) -> Iterator[tuple[str, Refused]]:
    """Each kind that is at fault, with the first text of it and why, in the order in which they are told."""
    found = {"bounds": fault_of_bounds(words.bounds), "address": fault_of_address(words), "control": fault_of_control(words),
             "stream": fault_of_streams(words)}
    return ((kind, refused) for kind, refused in found.items() if refused)


def shown(text: str) -> str:
    """A text as it is told: quoted where it has a character of control."""
    is_quoted = any(it < " " or "\x7f" <= it < "\xa0" for it in text)
    return f'"{"".join(QUOTED.get(it, it) for it in text)}"' if is_quoted else text


def wanted_of(words: Words) -> tuple[int, str]:
    """The status, and what is said on standard error."""
    for kind, (text, why) in faults_of(words):
        return 2, f"pnuts: {kind}: {shown(text)}: {why}\n" if words.stays or kind == "control" else f"pnuts: {kind}\n"
    if words.copies is not None:
        return 1, f"pnuts: copies: {words.copies}: No such file or directory\n"
    name, _, path = words.streams[0].partition("=")
    why = f": {path.removeprefix('listen:')}: No such file or directory" if words.stays else ""
    return 1, f"pnuts: cannot open {name}{why}\n"


def fault_of(program: str, words: Words) -> str | None:
    """What is wrong with how a program ends with words."""
    ended = subprocess.run([program, *words.line()], stdin=subprocess.DEVNULL, capture_output=True, timeout=SECONDS)
    found, wanted = (ended.returncode, ended.stderr.decode()), wanted_of(words)
    return None if found == wanted and not ended.stdout else f"{words.line()}: {found}, not {wanted}, or replies"


def kind_of(words: Words) -> str:
    """The first fault of words without its text, or that they have none."""
    return next((f"{kind}: {re.sub('bound [0-9]+ ', 'a bound ', why)}" for kind, (_, why) in faults_of(words)), "no fault")


def check_random_words(program: str, cases: int | None, seed: int) -> None:
    """The first fault of words is the one that is told."""
    from common.drawn import SEEDS, seeds, st, try_drawn
    counts, runs = Counter[tuple[str, bool]](), cases or RUNS

    def agree(case: tuple[bool, list[int], list[int]]) -> None:
        words = drawn(*case)
        none_of(filter(None, [fault_of(program, words)]))
        counts[kind_of(words), words.stays] += 1

    try_drawn(agree, st.tuples(st.booleans(), seeds(len(PLAIN)), st.lists(SEEDS, min_size=1, max_size=17)), runs, seed, KEPT, is_apart=False)
    for (kind, stays), count in sorted(counts.items()):
        print(f"{count:5} {'with' if stays else 'without'} --stay: {kind}")
    same("whether each kind of end occurs", runs < MANY or len(counts) == ALL_KINDS, True)
