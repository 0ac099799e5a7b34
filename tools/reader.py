"""A job's items, and the reader that takes them from its bytes: `tools/job` and `tools/draw` share it."""
import re

ARRANGEMENTS = ["uniform", "rectangular", "low-discrepancy", "random"]
POLICIES = ["best-effort", "strict"]
UNIT = 1024
FARTHEST = 1048576
MOST_GAP = 16384
MOST_OBSTACLES = MOST_ZONES = 64
MOST_MARKS = 2000
MOST_PIECES = 16
MOST_RINGS = 9
MOST_VERTICES = 256
MOST_BYTES = 65536


class Bad(Exception):
    """What is wrong, the line or byte where, and the number by which the reader refuses it, if it does."""

    def __init__(self, where, what, number=None):
        super().__init__(what if number is None else f"{what} (refused {number})")
        self.where, self.what, self.number = where, what, number


class Job:
    """The items of a job, lengths in 1/1024. None is an automatic radius, and a boundary gap that follows the gap."""


class Zone:
    """Key, mark count, and pieces: lists of rings, which are lists of (x, y)."""

    def __init__(self, key, count):
        self.key, self.count, self.pieces = key, count, []

    def left_in(self):
        return self.count > 0 and len(self.pieces) > 0


def decimal(n):
    """A number of 1/1024 in whole units, exactly."""
    whole, part = divmod(abs(n), UNIT)
    digits = f"{part * 10**10 // UNIT:010d}".rstrip("0")
    return ("-" if n < 0 else "") + str(whole) + ("." + digits if digits else "")


class Items:
    """The items of a job in turn, each whole before its value is judged. `beyond` has numbers that fit no item."""

    def __init__(self, data, beyond):
        self.data, self.beyond, self.at, self.start = data, beyond, 4, 0

    def refuse(self, what, number):
        raise Bad(self.start, what, number)

    def take(self, size):
        self.start = self.at
        if len(self.data) < self.at + size:
            self.refuse("the job ends here", 6)
        self.at += size
        return self.data[self.start : self.at]

    def number(self, what, size, least, most, number, show=str):
        value = int.from_bytes(self.take(size), "big", signed=least < 0)
        value = self.beyond.get(self.start, value)
        if not least <= value <= most:
            self.refuse(f"{what} {show(value)} is not in {show(least)}..{show(most)}", number)
        return value

    def option(self, what, most):
        if self.number(f"the kind of {what}", 1, 0, 1, 4) == 0:
            return self.number(f"{what}, automatic or following,", 4, 0, 0, 5) or None
        return self.number(what, 4, 0, most, 4, decimal)

    def place(self, what, number):
        return self.number(what, 4, -FARTHEST, FARTHEST, number, decimal)


def read_job(data, beyond={}):
    items, job = Items(data, beyond), Job()
    if not 5 <= len(data) <= MOST_BYTES:
        items.refuse(f"a job has 5 to {MOST_BYTES} bytes, not {len(data)}", 1)
    if int.from_bytes(data[:4], "big") != len(data) - 4:
        items.refuse(f"the length field does not say {len(data) - 4}", 1)
    items.number("version", 1, 1, 1, 3)
    job.arrangement = items.number("arrangement", 1, 0, 3, 4)
    job.policy = items.number("policy", 1, 0, 1, 4)
    job.radius = items.option("radius", FARTHEST)
    job.gap = items.number("gap", 4, 0, MOST_GAP, 4, decimal)
    job.boundary = items.option("boundary", MOST_GAP)
    job.precision = items.number("precision", 4, 1, FARTHEST, 4, decimal)
    job.attempts = items.number("attempts", 4, 0, 2000, 4)
    job.seed = items.number("seed", 8, 0, 2**64 - 1, None)
    obstacles = items.number("the obstacle count", 2, 0, MOST_OBSTACLES, 8)
    job.obstacles = [[items.place("an obstacle's number", 8) for _ in range(4)] for _ in range(obstacles)]
    job.zones = []
    for _ in range(items.number("the zone count", 2, 0, MOST_ZONES, 9)):
        job.zones.append(read_zone(items, job.zones))
    if items.at < len(data):
        items.start = items.at
        items.refuse(f"{len(data) - items.at} bytes are left over", 7)
    return job


def read_zone(items, before):
    key = b""
    for _ in range(items.number("the key length", 1, 1, 32, 9)):
        key += items.take(1)
        if not re.fullmatch(rb"[A-Za-z0-9]+", key):
            items.refuse("a key byte is not A-Z, a-z, 0-9", 10)
    if before and key <= before[-1].key:
        items.refuse(f"key {key.decode()} is not above {before[-1].key.decode()} in byte order", 11)
    zone = Zone(key, items.number("the mark count", 2, 0, MOST_MARKS, 9))
    total = zone.count + sum(z.count for z in before)
    if total > MOST_MARKS:
        items.refuse(f"{total} marks so far are over {MOST_MARKS}", 12)
    for _ in range(items.number("the piece count", 1, 0, MOST_PIECES, 9)):
        rings = []
        for _ in range(items.number("the ring count", 1, 1, MOST_RINGS, 9)):
            vertices = items.number("the vertex count", 2, 0, MOST_VERTICES, 9)
            rings.append([(items.place("a coordinate", 13), items.place("a coordinate", 13)) for _ in range(vertices)])
        zone.pieces.append(rings)
    return zone
