"""The evaluation: reader 14, the colour of a pixel between the points of a colour table.

A job has 19 bytes behind its profile: the number of coordinates, of which eight at most count, eight coordinates of two bytes, and how many numbers
the lent buffer has. Our line is `value`, how many results and these, or `refused 19` or `refused 14`, and behind each of them ` |` and the buffer as it
is left; or what the table reader answers, if that is no value. moxcms has no such rule: our line is held against the rule in whole numbers, and the
oracle, given the table as a job of reader 1, against what the model says of that table.
"""

from collections.abc import Iterator
from dataclasses import replace
from random import Random

from compare import entry, lut, mft, model
from compare.entry import Table
from compare.jobs import EVALUATION, HOUSE_GRID_LIMIT, LONGEST_BUFFER, Job
from compare.lut import MBA, colour_table, curv, para, ramp, tag_of

READERS = (EVALUATION,)
KINDS = ("value", "absent", *(f"refused {number}" for number in range(1, 17)), "refused 19")
MOST_COORDINATES = 8
NUMBERED = 0xA500  # what number 0 of the buffer is before the call; number i is this and i


# What we must answer


def colour(table: Table, tag: bytes, coordinates: tuple[int, ...], channel: int, index: tuple[int, ...] = ()) -> int:
    """The blend of two tables of a dimension less, the first coordinate outermost. `index` has the corners of the outer dimensions."""
    done = len(index)
    if done == len(table.grid):
        point = 0
        for at, points in zip(index, table.grid):
            point = point * points + at
        place = table.start + (point * table.outputs + channel) * table.size
        number = int.from_bytes(tag[place : place + table.size])
        return number * 257 if table.size == 1 else number
    cell, rest = divmod(coordinates[done] * (table.grid[done] - 1), 65535)
    low = colour(table, tag, coordinates, channel, (*index, cell))
    if rest == 0:
        return low
    high = colour(table, tag, coordinates, channel, (*index, cell + 1))
    return (low * (65535 - rest) + high * rest + 32767) // 65535


def coordinates_of(job: Job) -> tuple[int, ...]:
    """The coordinates that count."""
    return tuple(int.from_bytes(job.behind[1 + 2 * i : 3 + 2 * i]) for i in range(min(job.behind[0], MOST_COORDINATES)))


def modelled(job: Job) -> str:
    table = entry.table_of(job)
    if isinstance(table, str):
        return table
    coordinates, room = coordinates_of(job), int.from_bytes(job.behind[17:19])
    buffer = [NUMBERED + i for i in range(room)]
    if table.size == 0 or not 1 <= len(table.grid) <= 4 or len(coordinates) != len(table.grid):
        said = ["refused 19"]
    elif room < table.outputs:
        said = ["refused 14"]
    else:
        tag = job.profile[job.offset :]
        results = [colour(table, tag, coordinates, channel) for channel in range(table.outputs)]
        buffer[: len(results)] = results
        said = ["value", len(results), *results]
    return " ".join(map(str, (*said, "|", *buffer)))


def kind(line: str) -> str:
    said = line.partition(" |")[0]
    if said in KINDS and said != "value":
        return said
    return "value" if line.startswith("value ") else "other"


def oracle_job(job: Job) -> Job:
    return entry.table_job(job)


def expected(job: Job, line: str) -> str:
    said = modelled(job)
    if line != said:
        return f"the model says {said}"
    table = entry.table_job(job)
    return lut.expected(table, model.line(table))


# Jobs


def at(job: Job, coordinates: tuple[int, ...], room: int, count: int | None = None) -> Job:
    """The job that evaluates another job's table, with a buffer of so many numbers."""
    numbers = b"".join(number.to_bytes(2) for number in coordinates[:MOST_COORDINATES])
    behind = bytes((len(coordinates) if count is None else count,)) + numbers.ljust(2 * MOST_COORDINATES, b"\0") + room.to_bytes(2)
    return replace(job, reader=EVALUATION, behind=behind)


def coordinate(rng: Random, points: int) -> int:
    """Any, an end, or one next to a point."""
    steps = max(points - 1, 1)
    if rng.random() < 0.2:
        return rng.choice((0, 65535))
    if rng.random() < 0.3:
        return min(max(rng.randrange(steps + 1) * 65535 // steps + rng.choice((-1, 0, 0, 1)), 0), 65535)
    return rng.randrange(65536)


def generate(rng: Random) -> Job:
    job = lut.generate(rng)
    tag = job.profile[job.offset : job.offset + max(job.size, 12)]
    coordinates = tuple(coordinate(rng, points) for points in entry.grid_of(tag))
    outputs = tag[9] if len(tag) > 9 else 0
    count = len(coordinates)
    if rng.random() < 0.06:
        count = rng.choice((0, 7, 8, 9, 255, abs(count - 1), count + 1))
    room = outputs + rng.randrange(4)
    if rng.random() < 0.1:
        room = rng.choice((0, max(outputs - 1, 0), outputs // 2, LONGEST_BUFFER))
    return at(job, coordinates, room, count)


def _coordinates(grid: list[int]) -> Iterator[tuple[int, ...]]:
    """Points and places between them, of every dimension."""
    found: list[tuple[int, ...]] = [()]
    for points in grid:
        steps = max(points - 1, 1)
        along = sorted({0, 1, 32767, 32768, 65534, 65535, *(i * 65535 // steps for i in range(points)), *(i * 65535 // steps + 1 for i in range(steps))})
        found = [(*some, number) for some in found for number in along]
    return iter(found)


def exhaustive() -> Iterator[Job]:
    for _, job in entry.tables():
        outputs = job.profile[9]
        for coordinates in _coordinates(entry.grid_of(job.profile)):
            yield at(job, coordinates, outputs + 1)
        zeros = (0,) * MOST_COORDINATES
        for count in range(256):
            yield at(job, zeros, outputs, count)
        for room in range(outputs + 3):
            yield at(job, zeros[: len(entry.grid_of(job.profile))], room)


def from_tag(profile: bytes, offset: int, size: int) -> list[Job]:
    if profile[offset : offset + 4] not in (*mft.TYPES, lut.MAB, MBA):
        return []
    tag = profile[offset : offset + size]
    job = Job(EVALUATION, offset, size, profile, grid_limit=HOUSE_GRID_LIMIT, words=lut.WORDS * lut.MOST_RECORDS)
    rng = Random(offset)
    grid = entry.grid_of(tag)
    places = [tuple(coordinate(rng, points) for points in grid) for _ in range(20)]
    places += [(0,) * len(grid), (65535,) * len(grid), (32768,) * (len(grid) + 1)]
    return [at(job, place, room) for place in places for room in (tag[9], tag[9] + 2, max(tag[9] - 1, 0))]


def stored() -> list[tuple[str, Job]]:
    cases = []
    for what, job in entry.tables():
        outputs, places = job.profile[9], list(_coordinates(entry.grid_of(job.profile)))
        for place in (*places[:: max(len(places) // 6, 1)], places[-1]):
            cases.append((f"{what}: at {place}", at(job, place, outputs + 2)))
        cases.append((f"{what}: a number too few", at(job, places[0], max(outputs - 1, 0))))
    cube = entry.job_of(tag_of(3, 3, clut=colour_table((2, 3, 4), 2, ramp(72))))
    for place in ((0, 0, 0), (65535, 65535, 65535), (1, 2, 3), (20000, 40000, 60000), (65535, 0, 32768), (32768, 32768, 32768)):
        cases.append((f"grid 2, 3, 4 to 3: at {place}", at(cube, place, 4)))
    four = entry.job_of(tag_of(4, 2, clut=colour_table((2, 2, 3, 2), 1, ramp(24))))
    for place in ((0, 0, 0, 0), (65535,) * 4, (1, 65534, 30000, 50000), (50000, 30000, 65534, 1)):
        cases.append((f"grid 2, 2, 3, 2 to 2: at {place}", at(four, place, 2)))
    wide = entry.job_of(tag_of(2, 255, clut=colour_table((2, 2), 1, ramp(510))))
    cases.append(("255 outputs", at(wide, (32768, 16384), 256)))
    for room in (0, 2, 3, 4, LONGEST_BUFFER):
        cases.append((f"grid 2, 3, 4 to 3: a buffer of {room}", at(cube, (20000, 40000, 60000), room)))
    for count in (0, 2, 4, 8, 9, 255):
        cases.append((f"grid 2, 3, 4 to 3: {count} coordinates", at(cube, (0,) * 8, 3, count)))
        cases.append((f"grid 2, 3, 4 to 3: {count} coordinates, a buffer of 0", at(cube, (0,) * 8, 0, count)))
    five = entry.job_of(tag_of(5, 1, clut=colour_table((2,) * 5, 1, ramp(16))))
    cases.append(("five inputs", at(five, (0,) * 5, 1)))
    eight = entry.job_of(tag_of(8, 1, clut=colour_table((2,) * 8, 1, ramp(128))))
    cases.append(("eight inputs", at(eight, (0,) * 8, 1)))
    cases.append(("eight inputs, nine coordinates", at(eight, (0,) * 8, 1, 9)))
    cases.append(("no colour table", at(entry.job_of(tag_of(3, 3, b=curv(0))), (0, 0, 0), 3)))
    cases.append(("no colour table, a buffer of 0", at(entry.job_of(tag_of(3, 3, b=curv(0))), (0, 0, 0), 0)))
    cases.append(("5 to 5 channels", at(entry.job_of(lut.element(5, 5)), (0,) * 5, 5)))
    runs = tag_of(1, 1, clut=colour_table((2,), 1, b"\x07\x08"), b=para(0, 1))
    cases.append(("a run, words enough", at(entry.job_of(runs), (40000,), 1)))
    cases.append(("a run, no words", at(entry.job_of(runs, words=9), (40000,), 1)))
    cases.append(("a run, no words, a buffer of 0", at(entry.job_of(runs, words=9), (40000,), 0)))
    cases.append(("past the profile", at(entry.job_of(runs, size=len(runs) + 1), (40000,), 1)))
    cases.append(("a colour table a byte short", at(entry.job_of(tag_of(1, 8, clut=colour_table((2,), 1, bytes(15)))), (40000,), 8)))
    return [(f"evaluate: {comment}", job) for comment, job in cases]
