"""The functions of a crate's sources, as a check names them: MODULE::OWNER::NAME, and MODULE::fn::OWNER::NAME::CALLED for a closure."""
import functools
import os
import re
from collections.abc import Iterator
from typing import NamedTuple

from common.crates import TOP

FUNCTION = re.compile(r"^\s*(?:pub(?:\(\w+\))? )?(?:const |final )?fn (\w+)", re.M)
SIGNATURE_END = re.compile(r"^\s*(?:\{|.*\{)$", re.M)
BEGINS_ITEM = re.compile(r"^(?:pub(?:\(\w+\))? )?(?:const|static|struct|enum|impl|trait|mod|use|type|macro_rules!)\b", re.M)
# The head of an impl or of a trait whose items follow.
BLOCK = re.compile(r"^(?:(impl)\b((?:.|\n +(?!where\b))*?)|(?:pub(?:\(\w+\))? )?trait (\w+)[^{]*?)(?: ?\{|\n *where\b[^{]*\{)$", re.M)
TYPE = re.compile(r"^(?:pub(?:\(\w+\))? )?(?:struct|enum) (\w+)", re.M)
# What a check calls a type of std whose own name says too little.
RENAMED = {"io::Error": "IoError"}
CLOSES, OPENS = {">": "<", ")": "(", "]": "["}, "<(["


class Location(NamedTuple):
    """A function: the module of its file, its name, the type of its impl with the trait's name, or a trait, or nothing, and the
    module that a check names it by: for a method that is its type's."""

    module: str
    name: str
    owner: str
    home: str


def source(crate: str, path: str) -> str:
    with open(f"{TOP}/crates/{crate}/{path}", encoding="utf-8") as file:
        return file.read()


def sources_of(crate: str) -> list[str]:
    at = f"{TOP}/crates/{crate}"
    return [os.path.relpath(f"{folder}/{it}", at) for folder, _, files in os.walk(f"{at}/src") for it in files if it.endswith(".rt")]


def module_of(path: str) -> str:
    module = path[len("src/") : -len(".rt")].replace("/", "::")
    return "" if module in ("lib", "main") else module


@functools.cache
def types_of(crate: str) -> dict[str, set[str]]:
    """The modules that declare each type of a crate."""
    found: dict[str, set[str]] = {}
    for path in sources_of(crate):
        for name in TYPE.findall(source(crate, path)):
            found.setdefault(name, set()).add(module_of(path))
    return found


def location_at(crate: str, path: str, text: str, at: int) -> Location | None:
    """The function whose body has this part of a text, or None where it is in no body."""
    functions = [it for it in FUNCTION.finditer(text) if it.start() <= at]
    if not path.startswith("src/") or not functions:
        return None
    last = functions[-1]
    body = text.find("{\n", text.find("\n", last.start()) - 2)
    signature = SIGNATURE_END.search(text, last.start())
    if body < 0 or not signature or at < signature.start() or BEGINS_ITEM.search(text, last.end(), at + 1):
        return None
    blocks = [it for it in BLOCK.finditer(text, 0, last.start()) if text.find("\n}\n", it.end() - 1, last.start()) < 0]
    module = module_of(path)
    if not blocks or not last[0].strip("\n").startswith(" "):
        return Location(module, last[1], "", module)
    if blocks[-1][3]:
        return Location(module, last[1], blocks[-1][3], module)
    owner, is_inherent = owner_of(blocks[-1][2])
    homes = types_of(crate).get(owner, set()) if is_inherent else set()
    return Location(module, last[1], owner, module if module in homes or len(homes) != 1 else min(homes))


def owner_of(head: str) -> tuple[str, bool]:
    """The word by which a check names what an impl has, whose head this is after `impl`, and whether it is of no trait."""
    parameters: set[str] = set()
    head = " ".join(head.split())
    if head.startswith("<"):
        bound, head = cut(head[1:], ">")
        parameters = {part.partition(":")[0].strip() for part in parts_of(bound)}
    first, is_for, last = head.strip().partition(" for ")
    kind, arguments = shown(last if is_for else first, parameters)
    if not is_for:
        return "+".join([kind, *arguments]), not arguments
    trait, given = shown(first, parameters)
    return "".join([kind, *arguments, trait, *given]), False


def shown(text: str, parameters: set[str]) -> tuple[str, list[str]]:
    """The name of a type or a trait, without its path, and those of its arguments that are no parameters."""
    text = re.sub(r"^&(?:'\w+ )?(?:mut )?", "Ref&", text.strip())
    if text.startswith("("):
        text = f"Tuple{len([*parts_of(text[1:-1])])}<{text[1:-1]}>"
    head, _, rest = text.partition("<")
    name = RENAMED.get(head) or head.rpartition("::")[2]
    name = "Ref" + name.removeprefix("Ref&") if head.startswith("Ref&") else name
    arguments = [it.strip() for it in parts_of(cut(rest, ">")[0])] if rest else []
    named = ["".join([own, *inner]) for own, inner in (shown(it, parameters) for it in arguments if it not in parameters and not it.startswith("'"))]
    return "Any" if name in parameters else name, named


def cut(text: str, end: str) -> tuple[str, str]:
    """A text up to the first such end that nothing before it opened, and what comes after it."""
    depth = 0
    for at, letter in enumerate(text):
        if letter == end and depth == 0:
            return text[:at], text[at + 1 :]
        depth += (letter in OPENS) - (letter in CLOSES)
    return text, ""


def parts_of(text: str) -> Iterator[str]:
    """What stands between the commas that are in no brackets."""
    while text:
        part, text = cut(text, ",")
        if part.strip():
            yield part


def is_at(function: str, location: Location) -> bool:
    """Whether a function that a check names is the one of this location, or a closure in it."""
    home = location.home.split("::") if location.home else []
    own = [location.owner, location.name] if location.owner else [location.name]
    path = function.split("::")[1:]
    if path[len(home) : len(home) + 1] == ["fn"]:
        return path[: len(home)] == home and path[len(home) + 1 :][: len(own)] == own
    return path == home + own
