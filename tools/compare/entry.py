"""The table view: reader 13, one entry of a colour table at a grid index.

A job has 18 bytes behind its profile: the number of coordinates, sixteen coordinates, the output channel. Our line is
`value` and the entry as stored, `absent`, or what the table reader refuses with; no lent words stand behind it. The
view is ours, not moxcms's: our line is held against a model, and the oracle, given the table as a job of reader 1,
against what the model says of that table.
"""

import struct
from collections.abc import Iterator
from dataclasses import dataclass, replace
from random import Random

from compare import lut, mft, model
from compare.jobs import HOUSE_GRID_LIMIT, TABLE_VIEW, Job
from compare.lut import MBA, colour_table, curv, para, ramp, tag_of

READERS = (TABLE_VIEW,)
KINDS = ("value", "absent", *(f"refused {number}" for number in range(1, 17)))
MOST_COORDINATES = 16


# What we must answer


def table_job(job: Job) -> Job:
    return replace(job, reader=lut.CRATE_WALK, behind=b"")


@dataclass(frozen=True, slots=True)
class Table:
    """The colour table of a lookup table: the points of each dimension, the outputs, and where the entries start; without one their size is 0."""

    grid: list[int]
    outputs: int
    start: int
    size: int


def table_of(job: Job) -> Table | str:
    """The table that a job reads, or the line if it has none."""
    answer = model.lookup_table(table_job(job))
    if len(answer.records) > job.words // model.RECORD_WORDS:
        return "refused 14"
    if not answer.text.startswith("value"):
        return answer.text
    _, name, *words = answer.text.split(" ")
    numbers = [int(word) for word in words]
    inputs, outputs = numbers[:2]
    if name in ("mft1", "mft2"):
        return Table([numbers[2]] * inputs, outputs, numbers[16], mft.entry_size(name.encode()))
    start, _, size = numbers[30:33]
    return Table(numbers[2:18][:inputs], outputs, start, size)


def modelled(job: Job) -> str:
    table = table_of(job)
    if isinstance(table, str):
        return table
    grid, outputs, start, size = table.grid, table.outputs, table.start, table.size
    count, coordinates, channel = job.behind[0], job.behind[1:17], job.behind[17]
    index = coordinates[:count]
    inside = len(index) == count == len(grid) and all(at < points for at, points in zip(index, grid))
    if size == 0 or not inside or channel >= outputs:
        return "absent"
    point = 0
    for at, points in zip(index, grid):
        point = point * points + at  # the first coordinate varies slowest
    place = job.offset + start + (point * outputs + channel) * size
    return f"value {int.from_bytes(job.profile[place : place + size])}"


def kind(line: str) -> str:
    if line in KINDS and line != "value":
        return line
    return "value" if line.startswith("value ") else "other"


def oracle_job(job: Job) -> Job:
    return table_job(job)


def expected(job: Job, line: str) -> str:
    said = modelled(job)
    if line != said:
        return f"the model says {said}"
    table = table_job(job)
    return lut.expected(table, model.line(table))


# Jobs


def at(job: Job, coordinates: tuple[int, ...], channel: int, count: int | None = None) -> Job:
    """The job that reads this entry of another job's table."""
    tail = bytes((len(coordinates) if count is None else count, *coordinates)).ljust(17, b"\0") + bytes((channel,))
    return replace(job, reader=TABLE_VIEW, behind=tail)


def grid_of(tag: bytes) -> list[int]:
    """The grid that a tag declares, as far as it can be read."""
    if len(tag) < 28:
        return []
    if tag[:4] in mft.TYPES:
        return [tag[10]] * min(tag[8], MOST_COORDINATES)
    (clut,) = struct.unpack_from(">I", tag, 24)
    return list(tag[clut : clut + min(tag[8], MOST_COORDINATES)])


def generate(rng: Random) -> Job:
    job = lut.generate(rng)
    tag = job.profile[job.offset : job.offset + max(job.size, 12)]
    coordinates = [rng.randrange(max(points, 1)) for points in grid_of(tag)]
    if coordinates and rng.random() < 0.1:
        coordinates[rng.randrange(len(coordinates))] = rng.choice((0, 1, 254, 255, rng.choice(grid_of(tag))))
    outputs = tag[9] if len(tag) > 9 else 0
    channel = rng.choice((rng.randrange(max(outputs, 1)), max(outputs - 1, 0), max(outputs - 1, 0)))
    if rng.random() < 0.05:
        channel = rng.choice((outputs, 255, 0))
    count = len(coordinates)
    if rng.random() < 0.06:
        count = rng.choice((0, 15, 16, 17, 255, abs(count - 1), count + 1))
    return at(job, tuple(coordinates), channel, count)


def job_of(tag: bytes, size: int | None = None, words: int | None = None) -> Job:
    """By default the whole tag, and just the words that its records take."""
    lent = lut.WORDS * lut.records(tag) if words is None else words
    return Job(TABLE_VIEW, 0, len(tag) if size is None else size, tag, words=lent)


def tables() -> Iterator[tuple[str, Job]]:
    """Small tables, and what they are."""
    grids = {"grid 2, 2, 2 to 3": ((2, 2, 2), 3), "grid 2, 3 to 1": ((2, 3), 1), "grid 5 to 4": ((5,), 4), "no inputs to 2": ((), 2)}
    for what, (grid, outputs) in grids.items():
        points = 1
        for factor in grid:
            points *= factor
        for size in (1, 2):
            data = ramp(points * outputs)[: points * outputs * size]
            for signature, name in ((lut.MAB, "mAB"), (MBA, "mBA")):
                tag = tag_of(len(grid), outputs, signature, clut=colour_table(grid, size, data))
                yield f"{name}, {what}, entries of {size}", job_of(tag)
    for signature in mft.TYPES:
        for inputs, outputs, grid in ((1, 3, 3), (3, 1, 2), (2, 3, 2), (4, 3, 2)):
            tag = mft.element(inputs, outputs, grid, signature=signature)
            yield f"{signature.decode()}, {inputs} to {outputs}, grid {grid}", job_of(tag, words=0)


def _indexes(job: Job) -> Iterator[tuple[tuple[int, ...], int]]:
    """Every index of a small table and those next to it."""
    tag = job.profile
    indexes: list[tuple[int, ...]] = [()]
    for points in grid_of(tag):
        indexes = [(*index, coordinate) for index in indexes for coordinate in (*range(points + 1), 255)]
    for index in indexes:
        for channel in (*range(tag[9] + 1), 255):
            yield index, channel


def exhaustive() -> Iterator[Job]:
    for _, job in tables():
        for index, channel in _indexes(job):
            yield at(job, index, channel)
        zeros = (0,) * MOST_COORDINATES
        for count in range(256):
            yield at(job, zeros, 0, count)


def from_tag(profile: bytes, offset: int, size: int) -> list[Job]:
    if profile[offset : offset + 4] not in (*mft.TYPES, lut.MAB, MBA):
        return []
    tag = profile[offset : offset + size]
    job = Job(TABLE_VIEW, offset, size, profile, grid_limit=HOUSE_GRID_LIMIT, words=lut.WORDS * lut.MOST_RECORDS)
    rng = Random(offset)
    grid = grid_of(tag)
    indexes = [tuple(rng.randrange(max(points, 1)) for points in grid) for _ in range(20)]
    indexes += [tuple(max(points - 1, 0) for points in grid), tuple(points % 256 for points in grid), (0,) * len(grid)]
    return [at(job, index, channel) for index in indexes for channel in (0, max(tag[9] - 1, 0), tag[9])]


def stored() -> list[tuple[str, Job]]:
    cases = []
    for what, job in tables():
        indexes = list(_indexes(job))
        for index, channel in (*indexes[:: max(len(indexes) // 5, 1)], indexes[-1]):
            cases.append((f"{what}: index {index}, channel {channel}", at(job, index, channel)))
    cube = job_of(tag_of(3, 3, clut=colour_table((2, 2, 2), 1, ramp(12))))
    for index, channel in (((0, 0, 0), 0), ((0, 0, 1), 0), ((1, 0, 0), 0), ((1, 1, 1), 2), ((1, 1, 1), 3), ((2, 0, 0), 0)):
        cases.append((f"grid 2, 2, 2 to 3: index {index}, channel {channel}", at(cube, index, channel)))
    for count in (0, 2, 4, 16, 17, 255):
        cases.append((f"grid 2, 2, 2 to 3: {count} coordinates", at(cube, (0,) * 16, 0, count)))
    wide = job_of(tag_of(17, 1, clut=colour_table((2,) * 16, 1, ramp(2**15))))
    cases.append(("17 inputs: 16 coordinates", at(wide, (1,) * 16, 0)))
    cases.append(("no colour table", at(job_of(tag_of(3, 3, b=curv(0))), (0, 0, 0), 0)))
    cases.append(("5 to 5 channels", at(job_of(lut.element(5, 5)), (0,) * 5, 0)))
    runs = tag_of(1, 1, clut=colour_table((2,), 1, b"\x07\x08"), b=para(0, 1))
    cases.append(("a run, words enough", at(job_of(runs), (1,), 0)))
    cases.append(("a run, no words", at(job_of(runs, words=9), (1,), 0)))
    cases.append(("a run, no words, 17 coordinates", at(job_of(runs, words=9), (1,), 0, 17)))
    cases.append(("past the profile", at(job_of(runs, size=len(runs) + 1), (1,), 0)))
    cases.append(("a colour table a byte short", at(job_of(tag_of(1, 8, clut=colour_table((2,), 1, bytes(15)))), (1,), 0)))
    return [(f"entry: {comment}", job) for comment, job in cases]
