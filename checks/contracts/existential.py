"""Which contracts say of some value only that there is one. A wrong body under such a clause may be refused since no witness was found."""
import functools
import glob
import os
import re

from common.crates import TOP


BINDER = re.compile(r"(?<!¬ \()\((?:[^\W\d]\S* )+: (?:[^()]|\((?:[^()]|\([^()]*\))*\))*\)\s*×|∃")
USE = re.compile(r"^(?:ghost |pub )?use Rattle\.(\w+)\.specs\.([\w.]+?)(?:\.\{([^}]*)\}| as \w+);?$", re.M)
WORD = re.compile(r"[^\W\d][\w-]*")
DEFINED = re.compile(r"^(?:(?:abbrev|opaque|pub|law) )*(record )?(?:pub )?([^\W\d][\w-]*)\b(.*)$", re.M)
VALUE_PARAMETER = re.compile(r"\((?:[^\W\d]\S* )+: (?!Type 0\))")
FIELD = re.compile(r"^  (?:pub )?\S+ : (\S+)(.*)$", re.M)
DATA = {"ℕ", "Bool", "List", "Option", "Result", "Positions", "Entries", "Bounds", "Data", "Members", "Image", "Form"}
BODY_BEGINS = re.compile(r"^\s*(?:\{|.*\{|.*;)$", re.M)
INNER = re.compile(r"(?ms)^module \S+ .*?where\n((?:(?: {2}.*)?\n)*)")
TRAIT_OF = re.compile(r"^impl\b(?:<.*?>)? (?:\w+::)*(\w+)(?:<.*?>)? for ", re.M)
CLAUSE = re.compile(r"^\s*ensures\b(?: (\w+))? ?(\{(?:[^{}]|\{[^{}]*\})*\})", re.M)

Name = tuple[str, str]


def text_at(path: str) -> str:
    if not os.path.exists(path):
        return ""
    with open(path, encoding="utf-8") as file:
        return file.read()


def used_in(text: str) -> dict[str, Name]:
    """The names that a text uses of specs, each with its module and its name there."""
    found: dict[str, Name] = {}
    for crate, module, names in USE.findall(text):
        found |= {it.strip(): (f"{crate}.{module}", it.strip()) for it in names.split(",") if it.strip()}
    return found


@functools.cache
def module_text(module: str) -> str:
    """The text of a module, that of modules in it brought to the left."""
    crate, _, path = module.partition(".")
    text = text_at(f"{TOP}/crates/{crate}/specs/{path.replace('.', '/')}.antt")
    return INNER.sub(lambda it: re.sub(r"(?m)^ {2}", "", it[1]), text)


def defined_as(name: Name) -> Name:
    """The module that declares a name which another one may pass on."""
    while name[1] not in definitions(name[0]) and name[1] in (passed := used_in(module_text(name[0]))):
        name = passed[name[1]]
    return name


@functools.cache
def definitions(module: str) -> dict[str, str]:
    """The definitions of a module: all lines that begin with a name, with what stands below them."""
    blocks: dict[str, str] = {}
    text = module_text(module)
    heads = [it for it in DEFINED.finditer(text) if it[2] not in ("use", "module", "where")]
    for head, after in zip(heads, [*heads[1:], None]):
        blocks[head[2]] = blocks.get(head[2], "") + text[head.start() : after.start() if after else len(text)]
    return blocks


def has_witness_field(block: str) -> bool:
    """Whether it is a record of what is said of values, with a value of its own in it."""
    head, _, fields = block.partition(" where\n")
    if "record " not in head or not VALUE_PARAMETER.search(head):
        return False
    return any(word in DATA or word.endswith("Value") for word, rest in FIELD.findall(fields) if not re.search("[≡≤→×⊎]", rest))


@functools.cache
def is_existential(name: Name) -> bool:
    """Whether a definition, or one that it uses, says of some value only that there is one."""
    return defined_as(name) in existential_from(name)


def existential_from(first: Name) -> set[Name]:
    seen: dict[Name, set[Name]] = {}
    left, found = [first], set()
    while left:
        name = defined_as(left.pop())
        module, own = name
        block = definitions(module).get(own, "")
        if name in seen or not block:
            continue
        names = {it: (module, it) for it in definitions(module)} | used_in(module_text(module))
        code = re.sub(r"(?m)--.*$", "", block)
        seen[name] = {defined_as(names[it]) for it in set(WORD.findall(code)) & names.keys()} - {name}
        if BINDER.search(code) or has_witness_field(code):
            found.add(name)
        left += seen[name]
    while more := {it for it, uses in seen.items() if it not in found and uses & found}:
        found |= more
    return found


def clauses_at(text: str, begins: int) -> list[tuple[str, str]]:
    """The `ensures` of the function that begins here, each with its name."""
    ends = BODY_BEGINS.search(text, text.find("\n", begins) - 1)
    head = text[begins : ends.end() if ends else len(text)]
    return [(name or "ensures", clause) for name, clause in CLAUSE.findall(head)]


@functools.cache
def trait_function(trait: str, function: str) -> tuple[str, int] | None:
    """The text that declares a trait of some crate, and where a function of the trait begins in it."""
    for path in glob.glob(f"{TOP}/crates/*/src/**/*.rt", recursive=True):
        text = text_at(path)
        head = re.search(rf"^pub(?:\(\w+\))? trait {trait}\b", text, re.M)
        found = head and re.compile(rf"^\s*fn {function}\b", re.M).search(text, head.end(), text.find("\n}\n", head.end()))
        if found:
            return text, found.start()
    return None


def existential_clauses(text: str, begins: int, function: str) -> list[str]:
    """The names of those `ensures` of a function that say of some value only that there is one."""
    clauses = clauses_at(text, begins)
    if not clauses:
        traits = [it for it in TRAIT_OF.finditer(text, 0, begins) if text.find("\n}\n", it.end(), begins) < 0]
        text, begins = (traits and trait_function(traits[-1][1], function)) or (text, begins)
        clauses = clauses_at(text, begins)
    used = used_in(text)
    found = []
    for name, clause in clauses:
        cited = [used[it] for it in set(WORD.findall(clause)) & used.keys()]
        if BINDER.search(clause) or any(map(is_existential, cited)):
            found.append(name)
    return found
