"""Lines as commands, images and queries, or as refusals, in the order of the tables of docs/lines.md."""
import json
import math
import re
from collections.abc import Iterable
from operator import lt
from typing import Any

MAX_LINE_BYTES = 65_536
LAST = 10**15
LAST_NOTICE = 10**18
NUMBER_BYTES = 20
DEEPEST = 127
NAME = re.compile(r"[a-z0-9-]{1,32}\Z")
IMAGE_NAMES = {"deleted", "fields", "key", "master", "version"}
QUERY_NAMES = {"after", "from", "limit", "to", "where"}
MEMBERS: dict[str, list[str]] = {
    "adopt": ["lines"], "copy": ["need", "tablet"], "deliver": ["batches"], "get": ["keys"], "lose": ["tablet"],
    "marks": [], "notices": ["since"], "read": ["key", "version"], "relayout": ["bounds"], "scan": ["query"], "tablets": [],
}


# A value as `json` reads it.
Json = Any


class Refused(Exception):
    """The reply to a line that is refused."""

    def __init__(self, error: str, **members: Json) -> None:
        super().__init__(error)
        self.reply = {"error": error, **members}


def shaped(is_right: bool, member: str) -> None:
    if not is_right:
        raise Refused("bad-shape", member=member)


def ranged(is_right: bool, member: str) -> None:
    if not is_right:
        raise Refused("out-of-range", member=member)


def real(digits: str) -> float:
    if math.isinf(float(digits)):
        raise ValueError(digits)
    return float(digits)


def whole_or_other(digits: str) -> int | float:
    """A whole number of 64 bits, with a sign or without one, as its text says it: `-0` is none."""
    number = int(digits)
    return number if digits != "-0" and -2**63 <= number < 2**64 else real(digits)


def no_constant(word: str) -> None:
    raise ValueError(word)


def depth_of(value: Json) -> int:
    inner = value.values() if isinstance(value, dict) else value if isinstance(value, list) else None
    return 0 if inner is None else 1 + max(map(depth_of, inner), default=0)


def json_of(line: bytes) -> Json:
    """The JSON value of a line, in which a number that is no whole number of 64 bits is a float."""
    try:
        value = json.loads(line.decode(), parse_int=whole_or_other, parse_float=real, parse_constant=no_constant)
        json.dumps(value, ensure_ascii=False).encode()
        if depth_of(value) > DEEPEST:
            raise ValueError("too deep")
    except (ValueError, RecursionError) as error:
        raise Refused("not-json") from error
    return value


def size(text: str) -> int:
    return len(text.encode())


def is_whole(value: Json) -> bool:
    return type(value) is int and value >= 0


def is_number(value: Json) -> bool:
    """Whether it is a whole number of 64 bits, its sign included."""
    return type(value) is int and value < 2**63


def is_value(value: Json) -> bool:
    return isinstance(value, str) or is_number(value)


def is_key(text: str) -> bool:
    return 1 <= size(text) <= 256


def is_name(text: str) -> bool:
    return NAME.match(text) is not None


def is_position(number: int) -> bool:
    return 1 <= number <= LAST


def is_pair(value: Json) -> bool:
    return isinstance(value, list) and len(value) == 2 and all(map(is_whole, value))


def is_version(pair: list[int]) -> bool:
    return 1 <= pair[0] <= LAST and pair[1] <= LAST


def are_texts(values: Iterable[Json]) -> bool:
    return all(isinstance(value, str) for value in values)


def check_image_shape(value: Json) -> None:
    shaped(isinstance(value, dict), "whole")
    shaped(value.get("deleted", True) is True, "deleted")
    shaped(("deleted" in value) != ("fields" in value), "fields")
    if "fields" in value:
        shaped(isinstance(value["fields"], dict) and all(map(is_value, value["fields"].values())), "fields")
    shaped(isinstance(value.get("key"), str), "key")
    shaped(isinstance(value.get("master"), str), "master")
    shaped(is_pair(value.get("version")), "version")
    shaped(set(value) <= IMAGE_NAMES, "other")


def value_size(value: str | int) -> int:
    return size(value) if isinstance(value, str) else NUMBER_BYTES


def are_fields(fields: dict[str, str | int]) -> bool:
    total = sum(size(name) + value_size(value) for name, value in fields.items())
    names = all(1 <= size(name) <= 64 for name in fields)
    return len(fields) <= 64 and total <= 8_192 and names and all(value_size(value) <= 4_096 for value in fields.values())


def check_image_range(image: Json) -> None:
    ranged(are_fields(image.get("fields", {})), "fields")
    ranged(is_key(image["key"]), "key")
    ranged(is_name(image["master"]), "master")
    ranged(is_version(image["version"]), "version")


def check_batch_shape(batch: Json) -> None:
    shaped(isinstance(batch, dict), "batches")
    shaped(is_whole(batch.get("first")), "first")
    shaped(isinstance(batch.get("images"), list), "images")
    for image in batch["images"]:
        check_image_shape(image)
    shaped(isinstance(batch.get("stream"), str), "stream")
    shaped(set(batch) <= {"first", "images", "stream"}, "other")


def check_batch_range(batch: Json) -> None:
    last = batch["first"] + max(len(batch["images"]) - 1, 0)
    ranged(is_position(batch["first"]) and is_position(last), "first")
    for image in batch["images"]:
        check_image_range(image)
    ranged(is_name(batch["stream"]), "stream")


def is_condition(value: Json) -> bool:
    if not isinstance(value, list) or len(value) not in (2, 3) or not are_texts(value[:2]):
        return False
    if len(value) == 2:
        return bool(value[0] == "has")
    return value[0] in ("eq", "lt", "gt") and is_value(value[2]) or value[0] == "prefix" and isinstance(value[2], str)


def is_query_shape(value: Json) -> bool:
    if not isinstance(value, dict) or not set(value) <= QUERY_NAMES:
        return False
    ends = all(value.get(name) is None or isinstance(value[name], str) for name in ("after", "from", "to"))
    conditions = value.get("where", [])
    return (ends and is_whole(value.get("limit", 100)) and isinstance(conditions, list)
            and all(map(is_condition, conditions)))


def is_query(value: Json) -> bool:
    conditions = value.get("where", [])
    ends = all(value.get(name) is None or is_key(value[name]) for name in ("after", "from", "to"))
    fields = all(1 <= size(condition[1]) <= 64 for condition in conditions)
    texts = all(value_size(operand) <= 4_096 for condition in conditions for operand in condition[2:])
    return ends and 1 <= value.get("limit", 100) <= 1_000 and len(conditions) <= 16 and fields and texts


def is_need_shape(value: Json) -> bool:
    return value is None or isinstance(value, dict) and all(map(is_whole, value.values()))


def is_need(value: Json) -> bool:
    return all(is_name(name) and is_position(at) for name, at in (value or {}).items())


def check_shape(member: str, value: Json) -> None:
    if member == "batches":
        shaped(isinstance(value, list), member)
        for batch in value:
            check_batch_shape(batch)
    elif member in ("bounds", "keys"):
        shaped(isinstance(value, list) and are_texts(value), member)
    elif member == "key":
        shaped(isinstance(value, str), member)
    elif member == "version":
        shaped(value is None or is_pair(value), member)
    elif member == "query":
        shaped(is_query_shape(value), member)
    elif member == "need":
        shaped(is_need_shape(value), member)
    else:
        shaped(is_whole(value), member)


def check_range(member: str, value: Json, tablets: int) -> None:
    if member == "batches":
        ranged(1 <= len(value) <= 64, member)
        for batch in value:
            check_batch_range(batch)
    elif member == "bounds":
        ranged(len(value) <= 63 and all(map(is_key, value)) and all(map(lt, value, value[1:])), member)
    elif member == "keys":
        ranged(1 <= len(value) <= 100 and all(map(is_key, value)), member)
    elif member == "key":
        ranged(is_key(value), member)
    elif member == "version":
        ranged(value is None or is_version(value), member)
    elif member == "query":
        ranged(is_query(value), member)
    elif member == "need":
        ranged(is_need(value), member)
    elif member == "tablet":
        ranged(value < tablets, member)
    elif member == "since":
        ranged(value <= LAST_NOTICE, member)
    else:
        ranged(1 <= value <= 1_000_000, member)


def command_of(line: bytes, tablets: int) -> Json:
    """The members of the command of a line, for a region with a count of tablets."""
    if len(line) > MAX_LINE_BYTES:
        raise Refused("too-long")
    value = json_of(line)
    shaped(isinstance(value, dict), "whole")
    word = value.get("do")
    shaped(isinstance(word, str) and word in MEMBERS, "do")
    for member in MEMBERS[word]:
        check_shape(member, value.get(member))
    shaped(set(value) <= {"do", *MEMBERS[word]}, "other")
    for member in MEMBERS[word]:
        check_range(member, value.get(member), tablets)
    return value
