"""Reference model of the task file.

read(data) gives ("accepted", task) or ("refused", layer, number, place).
write(task) gives the bytes of a task.
"""

from typing import NamedTuple

HEADER, POINT, EVICTING, END = 1, 2, 3, 4

LENGTHS = {HEADER: (6, 6), POINT: (1, 9), EVICTING: (4, 4), END: (0, 0)}

# Which tags may come after which; None stands for the begin of the file.
MAY_FOLLOW = {
    None: {HEADER},
    HEADER: {POINT},
    POINT: {POINT, EVICTING, END},
    EVICTING: {EVICTING, END},
}

MAX_SETS = 64
MAX_WAYS = 8
MAX_RELOAD = 1_000_000
MAX_BLOCK = 16_777_215
MAX_SUCCESSORS = 4
MAX_POINTS = 128
MAX_EVICTING = 64
MAX_DISTINCT = 64


class Point(NamedTuple):
    block: int | None  # None: no access
    successors: tuple[int, ...]


class Task(NamedTuple):
    sets: int
    ways: int
    reload: int
    points: tuple[Point, ...]
    evicting: tuple[int, ...]


def number(data):
    return int.from_bytes(data, "big")


def rising(values):
    return all(a < b for a, b in zip(values, values[1:]))


def header_of(body):
    """The three values of a header, or None if one is out of range."""
    sets, ways, reload = body[0], body[1], number(body[2:6])
    if 1 <= sets <= MAX_SETS and 1 <= ways <= MAX_WAYS and reload <= MAX_RELOAD:
        return sets, ways, reload
    return None


def point_of(body):
    """The point, or None if its values are out of range, not rising or unfit."""
    if body[0] == 0:
        block, successors = None, tuple(body[1:])
    elif body[0] == 1 and len(body) >= 5:
        block, successors = number(body[1:5]), tuple(body[5:])
        if block > MAX_BLOCK:
            return None
    else:
        return None
    if len(successors) > MAX_SUCCESSORS or not rising(successors):
        return None
    return Point(block, successors)


def read(data):
    header, points, point_places, evicting, distinct = None, [], [], [], set()
    place, before = 0, None

    def refused(layer, cause):
        return ("refused", layer, cause, place)

    while before != END:
        if len(data) < place + 3:
            return refused("fields", 1)
        tag, length = data[place], number(data[place + 1:place + 3])
        if tag not in LENGTHS:
            return refused("fields", 2)
        shortest, longest = LENGTHS[tag]
        if not shortest <= length <= longest:
            return refused("fields", 4)
        if len(data) < place + 3 + length:
            return refused("fields", 1)
        body = data[place + 3:place + 3 + length]
        if tag not in MAY_FOLLOW[before]:
            return refused("task", 3)

        if tag == HEADER:
            header = header_of(body)
            if header is None:
                return refused("task", 5)
        elif tag == POINT:
            point = point_of(body)
            if point is None:
                return refused("task", 5)
            points.append(point)
            point_places.append(place)
            if point.block is not None:
                distinct.add(point.block)
            if len(points) > MAX_POINTS or len(distinct) > MAX_DISTINCT:
                return refused("task", 6)
        elif tag == EVICTING:
            block = number(body)
            if block > MAX_BLOCK or (evicting and block <= evicting[-1]):
                return refused("task", 5)
            evicting.append(block)
            if len(evicting) > MAX_EVICTING:
                return refused("task", 6)

        place += 3 + length
        before = tag

    if place < len(data):
        return refused("task", 8)
    for point, point_place in zip(points, point_places):
        if any(s >= len(points) for s in point.successors):
            return ("refused", "task", 7, point_place)
    return ("accepted", Task(*header, tuple(points), tuple(evicting)))


def field(tag, body):
    return bytes([tag]) + len(body).to_bytes(2, "big") + body


def write(task):
    out = field(HEADER, bytes([task.sets, task.ways]) + task.reload.to_bytes(4, "big"))
    for block, successors in task.points:
        access = b"\0" if block is None else b"\1" + block.to_bytes(4, "big")
        out += field(POINT, access + bytes(successors))
    for block in task.evicting:
        out += field(EVICTING, block.to_bytes(4, "big"))
    return out + field(END, b"")
