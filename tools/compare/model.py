"""What `answers` must print, by docs/SCOPE.md: the tone curve, the curve run and lookup tables, on both walks.

Each function has the checks of that page in the page's order. It settles what moxcms does not show: the book walk,
refusal 14, the numbers of refusals that share an error, where a record starts, and every word lent.
"""

import struct
from dataclasses import dataclass, field

from compare.jobs import Job

EMPTY_CURVE_STEP = {1: 0, 2: 0, 11: 12, 12: 12}  # by reader
PARAMETERS = (1, 3, 4, 5, 7)  # by function type
RECORD_WORDS = 10
LENT = 0xA5A50000  # what word 0 is before the call; word i is LENT + i
LAST_U32 = 2**32 - 1
MOST_ENTRIES = 10_000_000
DEFAULT_MATRIX = (65536, 0, 0, 0, 65536, 0, 0, 0, 65536)
DEFAULT_BIAS = (0, 0, 0)


class NoValue(Exception):
    """An absence or a refusal, in the words of our line. Where a run's curve is refused, `refused_at` is its offset."""

    def __init__(self, text: str):
        super().__init__(text)
        self.text = text
        self.refused_at: int | None = None


def refuse(number: int, when: bool) -> None:
    if when:
        raise NoValue(f"refused {number}")


# The tone curve and the run


@dataclass(frozen=True, slots=True)
class Curve:
    kind: int
    count: int
    parameters: tuple[int, ...]
    consumed: int

    def record(self, offset: int) -> list[int]:
        """The ten numbers of the curve at this offset of its tag."""
        unused = [0] * (7 - len(self.parameters))
        return [self.kind, offset + 12, self.count, *self.parameters, *unused]


def tone_curve(profile: bytes, offset: int, size: int, limit: int, empty_step: int) -> Curve:
    if offset + 4 > len(profile) or 1 <= size <= 11:
        raise NoValue("absent")
    end = offset + size if size else len(profile)
    refuse(11, when=end > len(profile))
    tag = profile[offset:end]
    refuse(11, when=len(tag) < 12)
    refuse(9, when=tag[:4] not in (b"curv", b"para"))

    if tag[:4] == b"curv":
        (count,) = struct.unpack_from(">I", tag, 8)
        if count == 0:
            return Curve(0, 0, (), empty_step)
        refuse(10, when=count > limit)
        refuse(11, when=12 + 2 * count > len(tag))
        return Curve(1, count, (), 12 + 2 * count)

    (function,) = struct.unpack_from(">H", tag, 8)
    refuse(12, when=function > 4)
    count = PARAMETERS[function]
    refuse(11, when=12 + 4 * count > len(tag))
    parameters = struct.unpack_from(f">{count}i", tag, 12)
    refuse(13, when=function in (1, 2) and parameters[1] == 0)
    return Curve(2 + function, count, parameters, 12 + 4 * count)


def curve_run(tag: bytes, offset: int, curves: int, limit: int, empty_step: int) -> list[list[int]]:
    """The records of a run."""
    records = []
    for _ in range(curves):
        refuse(2, when=offset + 12 > len(tag))
        try:
            curve = tone_curve(tag, offset, 0, limit, empty_step)
        except NoValue as refusal:
            refusal.refused_at = offset
            raise
        records.append(curve.record(offset))
        offset += curve.consumed
        offset += -offset % 4
    return records


# Lookup tables


@dataclass(frozen=True, slots=True)
class Answer:
    """An answer as it is with slots enough: our line up to the words lent, and the records.

    If a curve was refused, `refused_at` is its offset in the tag.
    """

    text: str
    records: list[list[int]] = field(default_factory=list)
    refused_at: int | None = None

    def words(self) -> list[int]:
        """The records as they stand in the slots, parameters in two's complement."""
        return [number & LAST_U32 for record in self.records for number in record]


def lookup_table(job: Job) -> Answer:
    try:
        end = job.offset + (job.size or 12)
        refuse(1, when=end > len(job.profile))
        tag = job.profile[job.offset : end]
        refuse(2, when=len(tag) < 48)
        if tag[:4] in (b"mft1", b"mft2"):
            return _mft(tag, job.grid_limit)
        refuse(3, when=tag[:4] not in (b"mAB ", b"mBA "))
        return _mab(tag, job.curve_limit, EMPTY_CURVE_STEP[job.reader])
    except NoValue as no_value:
        return Answer(no_value.text, refused_at=no_value.refused_at)


def _mft(tag: bytes, limit: int) -> Answer:
    """`mft1` and `mft2`."""
    two = tag[:4] == b"mft2"
    refuse(2, when=two and len(tag) < 52)
    entries = struct.unpack_from(">2H", tag, 48) if two else (256, 256)
    refuse(15, when=not all(2 <= count <= 4096 for count in entries))
    inputs, outputs, grid = tag[8:11]
    refuse(15, when=not (1 <= inputs <= 4 and 1 <= outputs <= 4) or 3 not in (inputs, outputs))
    refuse(15, when=grid < 2)
    refuse(16, when=grid**inputs > limit)
    entry_size = 2 if two else 1
    start, ranges = 52 if two else 48, []
    for count in (entries[0] * inputs, grid**inputs * outputs, entries[1] * outputs):
        refuse(2, when=start + count * entry_size > len(tag))
        ranges += (start, count * entry_size)
        start += count * entry_size
    numbers = (inputs, outputs, grid, *entries, *struct.unpack_from(">9i", tag, 12), *ranges)
    return Answer(f"value {tag[:4].decode()} {' '.join(map(str, numbers))}")


def _mab(tag: bytes, limit: int, empty_step: int) -> Answer:
    """`mAB ` and `mBA `."""
    inputs, outputs = tag[8], tag[9]
    if inputs > 4 and outputs > 4:
        raise NoValue("absent")
    b_at, matrix_at, m_at, clut_at, a_at = struct.unpack_from(">5I", tag, 12)
    matrix = _matrix(tag, matrix_at) if matrix_at else (*DEFAULT_MATRIX, *DEFAULT_BIAS)
    grid, table = _colour_table(tag, clut_at, inputs, outputs) if clut_at else (bytes(16), (0, 0, 0))
    a, m = (inputs, outputs) if tag[:4] == b"mAB " else (outputs, inputs)
    runs = [
        curve_run(tag, at, curves, limit, empty_step) if at else []
        for at, curves in ((a_at, a), (m_at, m), (b_at, m))
    ]
    name = tag[:3].decode()
    numbers = (inputs, outputs, *grid, *matrix, *table, *map(len, runs))
    return Answer(f"value {name} {' '.join(map(str, numbers))}", [record for run in runs for record in run])


def _matrix(tag: bytes, at: int) -> tuple[int, ...]:
    """The nine numbers and the three bias numbers."""
    refuse(2, when=at + 48 > len(tag))
    return struct.unpack_from(">12i", tag, at)


def _colour_table(tag: bytes, at: int, inputs: int, outputs: int) -> tuple[bytes, tuple[int, int, int]]:
    """The sixteen grid bytes; start, length and entry size of the data."""
    refuse(2, when=at + 20 > len(tag))
    grid, entry_size, start = tag[at : at + 16], tag[at + 16], at + 20
    used = grid[: min(inputs, 16)]
    product = 1
    for factor in (*used, outputs):
        product *= factor
        refuse(4, when=product > LAST_U32)
    refuse(5, when=product == 0)
    refuse(6, when=product > MOST_ENTRIES)
    refuse(7, when=any(dimension < 2 for dimension in used))
    refuse(8, when=entry_size not in (1, 2))
    length = product * entry_size
    refuse(2, when=start + length > len(tag))
    return grid, (start, length, entry_size)


# Lines


def line(job: Job) -> str:
    """Our line for a job of reader 1, 2, 11 or 12."""
    if job.reader in (2, 12):
        return _curve_line(job)
    return with_lent(lookup_table(job), job.words, RECORD_WORDS)


def with_lent(answer: Answer, lent: int, record_words: int) -> str:
    """The line of an answer, refused with 14 if too few words are lent, and the words as they are left."""
    if len(answer.records) > lent // record_words:
        answer = Answer("refused 14")
    written = answer.words()
    kept = range(LENT + len(written), LENT + lent)
    return " ".join([answer.text, "|", *map(str, written), *map(str, kept)])


def _curve_line(job: Job) -> str:
    try:
        curve = tone_curve(job.profile, job.offset, job.size, job.curve_limit, EMPTY_CURVE_STEP[job.reader])
    except NoValue as no_value:
        return no_value.text
    return f"value {' '.join(map(str, curve.record(0)))} {curve.consumed}"
