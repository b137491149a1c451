"""Copies of tablets, and streams, read line by line from their text."""
from replies.slow_lines import (MAX_LINE_BYTES, Json, Refused, check_image_range, check_image_shape, is_key, is_name, is_number,
                        is_position, is_whole, json_of, ranged, shaped)

# Whether a value is a text, and then the value: numbers compare with numbers, and come before all texts.
Value = tuple[int, int | str]
# Whether it has fields, then these and the master: contents compare in content order.
Content = tuple[int, list[tuple[str, Value]], str]
Ends = tuple[str | None, str | None]


def comparable(value: int | str) -> Value:
    return (1 if isinstance(value, str) else 0), value


def content_of(image: Json) -> Content:
    """What an image says beside key and version."""
    if "deleted" in image:
        return (0, [], image["master"])
    return (1, sorted((name, comparable(value)) for name, value in image["fields"].items()), image["master"])


def has_number(image: Json) -> bool:
    return any(map(is_number, image.get("fields", {}).values()))


def is_end(value: Json) -> bool:
    return value is None or isinstance(value, str) and is_key(value)


def range_of(value: Json) -> Ends | None:
    """The two ends that a head names. None: it is no head."""
    if not isinstance(value, dict) or set(value) != {"copy", "from", "to"}:
        return None
    start, end = value["from"], value["to"]
    if not is_whole(value["copy"]) or value["copy"] not in (1, 2) or not is_end(start) or not is_end(end):
        return None
    if start is not None and end is not None and not start < end:
        return None
    return start, end


def is_mark(value: Json) -> bool:
    if not isinstance(value, dict) or set(value) != {"at", "stream"} or not isinstance(value["stream"], str):
        return False
    return is_whole(value["at"]) and is_position(value["at"]) and is_name(value["stream"])


def is_last(value: Json) -> bool:
    return isinstance(value, dict) and set(value) == {"end"} and is_whole(value["end"])


def is_image(value: Json) -> bool:
    try:
        check_image_shape(value)
        check_image_range(value)
    except Refused:
        return False
    return True


def is_in(ends: Ends, key: str) -> bool:
    start, end = ends
    return (start is None or start <= key) and (end is None or key < end)


def meet(one: Ends, other: Ends) -> bool:
    """Whether two ranges have a key in common. Those without a lower end always have: no key is below the empty one."""
    pairs = [(one[0], other[1]), (other[0], one[1])]
    return all(start is None or end is None or start < end for start, end in pairs)


def is_after(image: Json, last: Json) -> bool:
    if image["key"] == last["key"]:
        return bool(image["version"] == last["version"]) and content_of(last) < content_of(image)
    return bool(last["key"] < image["key"])


def value_of(line: bytes, number: int) -> Json:
    if len(line) <= MAX_LINE_BYTES:
        try:
            return json_of(line)
        except Refused:
            pass
    raise Refused("bad-line", line=number)


def check_line(value: Json, number: int, copy: Json) -> None:
    """Refuses a line that is neither a mark nor an image, or comes too early."""
    if not (is_mark(value) and not copy["images"]) and not is_image(value):
        raise Refused("bad-line", line=number)
    if copy["form"] == 1 and has_number(value):
        raise Refused("bad-line", line=number)
    if "at" in value:
        if any(value["stream"] <= name for name in copy["marks"]):
            raise Refused("not-rising", line=number)
    elif not is_in(copy["ends"], value["key"]):
        raise Refused("outside-range", line=number)
    elif copy["images"] and not is_after(value, copy["images"][-1]):
        raise Refused("not-rising", line=number)


def read_copy(text: bytes) -> Json:
    """The range, the marks and the images of a copy."""
    *lines, rest = text.split(b"\n")
    if not lines:
        raise Refused("truncated")
    head = value_of(lines[0], 1)
    copy: Json = {"ends": range_of(head), "marks": {}, "images": []}
    if copy["ends"] is None:
        raise Refused("bad-line", line=1)
    copy["form"] = head["copy"]
    for number, line in enumerate(lines[1:], 2):
        value = value_of(line, number)
        if is_last(value):
            if value["end"] != number - 2 or number != len(lines) or rest:
                raise Refused("bad-end")
            return copy
        check_line(value, number, copy)
        if "at" in value:
            copy["marks"][value["stream"]] = value["at"]
        else:
            copy["images"].append(value)
    raise Refused("truncated")


def message_of(line: bytes) -> tuple[int, Json]:
    """The position and the image of a message."""
    value = json_of(line)
    shaped(isinstance(value, dict), "whole")
    shaped(is_whole(value.get("at")), "at")
    shaped("image" in value, "image")
    check_image_shape(value["image"])
    shaped(set(value) <= {"at", "image"}, "other")
    ranged(is_position(value["at"]), "at")
    check_image_range(value["image"])
    return value["at"], value["image"]


def read_stream(text: bytes) -> tuple[list[Json], bool]:
    """The images of a stream up to its first fault, and whether there is a fault."""
    *lines, rest = text.split(b"\n")
    images: list[Json] = []
    for line in lines:
        try:
            if len(line) > MAX_LINE_BYTES or message_of(line)[0] != len(images) + 1:
                return images, True
        except Refused:
            return images, True
        images.append(message_of(line)[1])
    return images, len(rest) > MAX_LINE_BYTES
