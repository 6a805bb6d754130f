"""Lookup tables: reader 1, and reader 11 on the book walk. `mft1` and `mft2` stand in compare/mft.py.

Of `mAB ` and `mBA ` our line is `value mAB` or `value mBA`, 36 numbers, ` |`, and the words lent, which hold the curves' records. The oracle
prints the colour table and the curves entry by entry, matrix and parameters as floats. So a line is checked twice: the
whole of it against compare/model.py, and what it says, with the job's bytes, against the oracle. The book walk and
refusal 14 are ours alone. There the oracle is held against the model's answer on the crate walk with slots enough;
where the two walks read the same, that is our own answer.
"""

import math
import struct
from collections.abc import Iterator
from dataclasses import replace
from random import Random

from compare import curve, mft, model
from compare.curve import LAST_U32, curv, para, ramp
from compare.jobs import HOUSE_CURVE_LIMIT, HOUSE_GRID_LIMIT, MOST_WORDS, NO_LIMIT, Job

CRATE_WALK, BOOK_WALK = 1, 11
READERS = (CRATE_WALK, BOOK_WALK)
KINDS = ("value mft1", "value mft2", "value mAB", "value mBA", "absent", *(f"refused {number}" for number in range(1, 17)))

MAB, MBA = b"mAB ", b"mBA "
PARTS = ("b", "matrix", "m", "clut", "a")  # in the order of their offsets in the head
OFFSETS_AT = 12
HEAD = 32  # bytes in front of the parts
SHORTEST = 48
MATRIX = 48  # bytes of the matrix and its bias
GRID_BYTES = 16
CLUT_HEAD = 20  # bytes in front of a colour table's data
MOST_RECORDS = 4 + 255 + 255
WORDS = curve.RECORD_WORDS

ERRORS = curve.ERRORS | {
    "refused 1": "error InvalidProfile",
    "refused 2": "error InvalidProfile",
    "refused 3": "error InvalidProfile",
    "refused 4": "error OverflowingError",
    "refused 5": "error IncorrectlyFormedLut | Clut size was zero when it shouldn't",
    "refused 6": "error IncorrectlyFormedLut | Clut size exceeded 10_000_000 points what is too big",
    "refused 7": "error IncorrectlyFormedLut | One of grid dimensions is less than 2",
    "refused 8": "error InvalidProfile",
    "refused 15": "error InvalidProfile",
    "refused 16": "error InvalidProfile",
}


# What our line says in the oracle's words


def kind(line: str) -> str:
    text, bar, _ = line.partition(" |")
    start = " ".join(text.split(" ")[:2])
    return start if bar and start in KINDS and (text == start or start.startswith("value")) else "other"


def oracle_job(job: Job) -> Job:
    return replace(job, reader=CRATE_WALK)


def expected(job: Job, line: str) -> str:
    modelled = model.line(job)
    if line != modelled:
        return f"the model says {modelled}"
    text, _, lent = line.partition(" |")
    words = [int(word) for word in lent.split()]
    if job.reader == BOOK_WALK or text == "refused 14":
        answer = model.lookup_table(oracle_job(job))
        text, words = answer.text, answer.words()

    if text == "refused 11":
        return _exhausted(job)
    if text.startswith("value"):
        tag = job.profile[job.offset : job.offset + job.size]
        _, name, *numbers = text.split(" ")
        numbers = [int(number) for number in numbers]
        if name in ("mft1", "mft2"):
            return mft.value(tag, name, numbers, _doubles)
        return _value(tag, numbers, words)
    return ERRORS.get(text, text)


def _exhausted(job: Job) -> str:
    """moxcms has two texts for refusal 11 in a run. The refused curve says which."""
    at = job.offset + model.lookup_table(oracle_job(job)).refused_at
    return curve.ERRORS_DATA_EXHAUSTED[job.profile[at : at + 4]]


def _value(tag: bytes, numbers: list[int], words: list[int]) -> str:
    inputs, outputs, *numbers = numbers
    grid, numbers = numbers[:GRID_BYTES], numbers[GRID_BYTES:]
    matrix, bias, (start, length, entry_size, *counts) = numbers[:9], numbers[9:12], numbers[12:]
    clut = "none"
    if entry_size:
        clut = f"{8 * entry_size}:{length // entry_size}:x{tag[start : start + length].hex()}"
    curves = [_curve(tag, *words[at : at + WORDS]) for at in range(0, WORDS * sum(counts), WORDS)]
    runs = []
    for count in counts:
        runs.append(f"{count}[{';'.join(curves[:count])}]")
        del curves[:count]
    return (
        f"value Multi in={inputs} out={outputs} grid={bytes(grid).hex()} matrix={_doubles(matrix)}"
        f" bias={_doubles(bias)} clut={clut} A={runs[0]} M={runs[1]} B={runs[2]}"
    )


def _curve(tag: bytes, record_kind: int, start: int, count: int, *parameters: int) -> str:
    if record_kind < 2:
        return f"lut:16:{count}:x{tag[start : start + 2 * count].hex()}"
    data = struct.pack(f">{count}I", *parameters[:count])
    if data != tag[start : start + 4 * count]:
        return "parameters that are not the numbers at the record's start"
    return f"para:{count}:{','.join(map(curve.float_text, struct.unpack(f'>{count}i', data)))}"


def _doubles(numbers: list[int]) -> str:
    """The numbers as the oracle prints them, 64-bit floats by their bits."""
    return ",".join(f"{struct.pack('>d', number / 65536).hex()}/{number}" for number in numbers)


# Elements


def element(
    inputs: int, outputs: int, body=b"", signature=MAB, reserved=bytes(4), *, b=0, matrix=0, m=0, clut=0, a=0
) -> bytes:
    """A tag of at least 48 bytes: its head, with the offsets of the parts, and a body."""
    head = struct.pack(">4s4sBBxx5I", signature, reserved, inputs, outputs, b, matrix, m, clut, a)
    return (head + body).ljust(SHORTEST, b"\0")


def tag_of(inputs: int, outputs: int, signature=MAB, **parts: bytes) -> bytes:
    """A tag of these parts, in the order given, each at a multiple of 4."""
    offsets, body = {}, b""
    for part, data in parts.items():
        body += bytes(-len(body) % 4)
        offsets[part] = HEAD + len(body)
        body += data
    return element(inputs, outputs, body, signature, **offsets)


def colour_table(grid: tuple[int, ...], entry_size: int, data: bytes = b"", spare: bytes = bytes(3)) -> bytes:
    return bytes(grid).ljust(GRID_BYTES, b"\0") + bytes((entry_size,)) + spare + data


def run(*curves: bytes, at: int = HEAD) -> bytes:
    """The curves as they follow each other in a tag from `at` on."""
    data = b""
    for number, one in enumerate(curves):
        gap = -(at + len(data)) % 4 if number else 0
        data += bytes(gap) + one
    return data


def curve_counts(signature: bytes, inputs: int, outputs: int) -> dict[str, int]:
    a, others = (outputs, inputs) if signature == MBA else (inputs, outputs)
    return {"a": a, "m": others, "b": others}


def records(tag: bytes) -> int:
    """How many records a value has: the curves of the runs that are there."""
    counts = curve_counts(tag[:4], tag[8], tag[9])
    offsets = dict(zip(PARTS, struct.unpack_from(">5I", tag, OFFSETS_AT)))
    return sum(count for part, count in counts.items() if offsets[part])


# Random jobs: each choice is mostly the plain one, so that what is rare still meets accepted tags

OTHER_TYPES = (
    b"mab ", b"mba ", b"MAB ", b"mAB\0", b"mBA\0", b"mABA", b"mBAB", b"mAA ", b"mBB ", b" BAm", b"1tfm", b"mtf2",
    b"curv", b"XYZ ", bytes(4), b"\xff" * 4,
)
# Grids and output channels whose product is at an edge of a check
EDGES = (
    ((254, 254, 155), 1),  # 10,000,000 - 20
    ((200, 200, 50), 5),  # 10,000,000
    ((250, 250, 160), 1),  # 10,000,000
    ((212, 178, 53), 5),  # 10,000,000 + 40
    ((255, 255, 255, 1), 1),  # above that, and with a 1
    ((255, 255, 255, 255), 1),
    ((254, 226, 215, 174), 2),  # 2^32 - 16
    ((254, 232, 215, 113, 3), 1),  # 2^32 - 16
    ((128, 128, 128, 128), 16),  # 2^32
    ((128, 128, 128, 128, 16), 1),  # 2^32
    ((249, 243, 239, 99), 3),  # 2^32 + 1,085
    ((255, 255, 255, 255), 2),
    ((255, 255, 255, 255, 255, 0), 1),  # 0, but over 2^32 on the way
    ((0, 255, 255, 255, 255, 255), 1),
    ((1, 0), 2),
)
SMALL_COUNTS = (1, 1, 2, 2, 3, 4, 5, 7)
SHORT_DATA, LONG_DATA = 1_000, 70_000


def generate(rng: Random) -> Job:
    if rng.random() < 0.4:
        tag, exact, grid_limit = mft.random_tag(rng)
        words = rng.choices((0, WORDS, 3, rng.randrange(40)), (70, 10, 10, 10))[0]
    else:
        tag = _tag(rng)
        exact, grid_limit = len(tag), rng.choice((0, 1, HOUSE_GRID_LIMIT, NO_LIMIT))
        words = _words(rng, WORDS * records(tag))
    if rng.random() < 0.06:
        at = rng.choice((rng.randrange(HEAD), rng.randrange(len(tag))))
        tag = tag[:at] + rng.randbytes(1) + tag[at + 1 :]
    front = rng.randbytes(rng.choice(curve.FRONT_LENGTHS))
    profile = front + tag + rng.randbytes(rng.choice(curve.BEHIND_LENGTHS))
    if rng.random() < 0.02:
        profile = profile[: rng.randrange(len(profile))]
    offset = len(front) if rng.random() < 0.6 else curve.random_offset(rng, len(front), len(profile))
    return Job(
        reader=rng.choice(READERS),
        offset=offset,
        size=_size(rng, exact, offset, len(profile)),
        profile=profile,
        curve_limit=HOUSE_CURVE_LIMIT if rng.random() < 0.5 else curve.random_limit(rng, rng.choice(SMALL_COUNTS)),
        grid_limit=grid_limit,
        words=words,
    )


def _tag(rng: Random) -> bytes:
    """A lookup table, or what looks like one: its parts in any order, some of them not there."""
    signature = rng.choice((MAB, MBA)) if rng.random() < 0.96 else rng.choice(OTHER_TYPES)
    inputs, outputs, grid = _shape(rng)
    counts = curve_counts(signature, inputs, outputs)
    present = rng.choices(range(6), (4, 12, 21, 21, 21, 21))[0]
    offsets, body = {}, b""
    for part in rng.sample(PARTS, present):
        end = HEAD + len(body)
        at = end + (-end % 4 if rng.random() < 0.75 else rng.randrange(4))
        if part == "matrix":
            data = rng.choice((rng.randbytes(MATRIX), struct.pack(">12i", *rng.sample(range(-9, 10), 12))))
        elif part == "clut":
            data = _colour_table(rng, grid, outputs)
        else:
            data = _run(rng, counts[part], at)
        body += rng.randbytes(at - end) + data
        offsets[part] = at
    if "m" in offsets and "b" in offsets and rng.random() < 0.15:
        offsets["b"] = offsets["m"]
    length = max(HEAD + len(body), SHORTEST)
    strays = {part: _stray_offset(rng, part, length, offsets) for part in PARTS if rng.random() < 0.025}
    reserved = rng.choices((bytes(4), rng.randbytes(4), b"curv", b"para"), (85, 5, 5, 5))[0]
    return element(inputs, outputs, body, signature, reserved, **offsets | strays)


def _shape(rng: Random) -> tuple[int, int, tuple[int, ...]]:
    """Input channels, output channels, the grid bytes in use."""
    if rng.random() < 0.1:
        grid, outputs = rng.choice(EDGES)
        return len(grid), outputs, grid
    few, more, many = rng.randrange(1, 5), rng.randrange(5, 17), rng.randrange(17, 256)
    other = rng.choices((rng.randrange(1, 5), 0, more, many), (76, 8, 10, 6))[0]
    inputs, outputs = rng.choice(((few, other), (other, few)))
    if rng.random() < 0.04:
        inputs, outputs = rng.choice(((0, 0), (5, 5), (4, 5), (5, 4), (more, many), (many, more), (255, 255)))
    dimensions = min(inputs, GRID_BYTES)
    most = 9 if dimensions < 3 else 4 if dimensions == 3 else 2
    grid = [rng.randint(2, most) for _ in range(dimensions)]
    if grid and rng.random() < 0.15:
        grid[rng.randrange(dimensions)] = rng.choice((0, 1, 1, 3, 255))
    return inputs, outputs, tuple(grid)


def _colour_table(rng: Random, grid: tuple[int, ...], outputs: int) -> bytes:
    entry_size = rng.choices((1, 2, 0, 3, 255), (46, 46, 3, 3, 2))[0]
    length = math.prod(grid) * outputs * entry_size
    if length > (LONG_DATA if rng.random() < 0.15 else SHORT_DATA):
        length = rng.randrange(40)
    unused = rng.choice((bytes(GRID_BYTES), rng.randbytes(GRID_BYTES)))
    return colour_table((*grid, *unused)[:GRID_BYTES], entry_size, rng.randbytes(length), rng.randbytes(3))


def _run(rng: Random, count: int, at: int) -> bytes:
    empties = 0
    if count > GRID_BYTES:
        # on the crate walk one empty curve makes a run of any length
        empties, count = rng.choice((1, 1, 1, rng.randrange(count), count - 1)), 1
    return run(*[curv(0)] * empties, *(_curve_of_run(rng) for _ in range(count)), at=at)


def _curve_of_run(rng: Random) -> bytes:
    shape = rng.random()
    if shape < 0.2:
        return curv(0)
    if shape < 0.5:
        count = rng.choice(SMALL_COUNTS)
        return curv(count, rng.randbytes(2 * count))
    if shape < 0.88:
        function = rng.randrange(len(curve.PARAMETERS))
        count = curve.PARAMETERS[function]
        return para(function, *(rng.choice((-1, 1)) * rng.randrange(1, 2**18) for _ in range(count)))
    return curve.random_element(rng)[0]


def _stray_offset(rng: Random, part: str, length: int, offsets: dict[str, int]) -> int:
    """Not there, in the head, on another part, at the last place with room for the part or behind it."""
    needs = {"matrix": MATRIX, "clut": CLUT_HEAD}.get(part, curve.HEAD)
    return rng.choice((
        0,
        4,
        rng.randrange(1, HEAD),
        rng.choice((HEAD, *offsets.values())) + rng.choice((0, 0, 1, 4, 12, 16, 20)),
        length - needs,
        length - needs + 1,
        length + rng.randrange(-3, 4),
        2**31 + rng.randrange(-4, 4),
        LAST_U32 - rng.randrange(64),
        LAST_U32,
    ))


def _size(rng: Random, exact: int, offset: int, length: int) -> int:
    if rng.random() < 0.85:
        return exact
    room = length - offset
    size = rng.choice((
        0,
        rng.randrange(1, SHORTEST),
        SHORTEST - 1,
        SHORTEST,
        exact - 1,
        exact - 1,
        exact - rng.randrange(2, 20),
        exact + 1,
        exact + rng.randrange(2, 50),
        room,
        room + 1,
        2**32 - offset + rng.randrange(-2, length + 4),  # a sum of 32 bits would come round to the profile
        LAST_U32 - rng.randrange(16),
    ))
    return min(max(0, size), LAST_U32)


def _words(rng: Random, exact: int) -> int:
    choices = (exact, exact + 1, exact + 9, exact + rng.randrange(10, 40), exact - 1, exact - WORDS, 0, MOST_WORDS)
    return max(0, rng.choices(choices, (30, 12, 12, 20, 7, 4, 4, 1))[0])


# Every job of some small sets

WORKED = tag_of(3, 3, b=run(curv(0), curv(0), para(0, 144179)))  # the worked case of docs/SCOPE.md, 72 bytes
ALL_PARTS = tag_of(
    2, 1,
    a=run(curv(1, ramp(1)), para(0, -1)),
    matrix=struct.pack(">12i", *range(-6, 6)),
    m=curv(0),
    clut=colour_table((2, 2), 1, ramp(2)),
    b=curv(2, ramp(2)),
)
ALL_PARTS_MBA = MBA + ALL_PARTS[4:8] + b"\x01\x02" + ALL_PARTS[10:]


def exhaustive() -> Iterator[Job]:
    """Sizes, offsets, limits and words around a few small tags; a part at every place; tags a byte away; and the most
    records, grid bytes and entries.
    """
    for reader in READERS:
        for base in (WORKED, ALL_PARTS, ALL_PARTS_MBA):
            words = WORDS * records(base) + 3
            for front in (0, 3):
                profile = bytes(front) + base + b"\x01\x02\x03"
                for offset in range(4):
                    for size in range(len(base) + 9):
                        yield Job(reader, offset, size, profile, words=words)
            for limit in (0, 1, 2, NO_LIMIT):
                for lent in range(words + 10):
                    yield Job(reader, 0, len(base), base, limit, words=lent)
            for at in range(OFFSETS_AT, HEAD, 4):
                for place in range(len(base) + 2):
                    tag = base[:at] + struct.pack(">I", place) + base[at + 4 :]
                    yield Job(reader, 0, len(tag), tag, words=WORDS * 6)
        for base, places in ((ALL_PARTS, range(8, HEAD)), (WORKED, range(len(WORKED)))):
            for at in places:
                for byte in range(256):
                    tag = base[:at] + bytes((byte,)) + base[at + 1 :]
                    yield Job(reader, 0, len(tag), tag, words=WORDS * 6)
        for tag, size, limit in mft.exhaustive():
            yield Job(reader, 0, size, tag, grid_limit=limit, words=2)
        for tag in _largest():
            for size in (len(tag), len(tag) - 1):
                for words in (WORDS * MOST_RECORDS - 1, WORDS * MOST_RECORDS, MOST_WORDS):
                    yield Job(reader, 0, size, tag, words=words)


def _largest() -> Iterator[bytes]:
    one_place = {"a": HEAD, "m": HEAD, "b": HEAD}
    yield element(4, 255, run(*[curv(0)] * 255), **one_place)
    yield element(255, 4, run(*[curv(0)] * 254, para(4, *range(7))), MBA, **one_place)
    for inputs in (16, 17, 255):
        yield tag_of(inputs, 1, clut=colour_table((2,) * 16, 1, ramp(2**15)))
    # nearly all that a job can hold
    grid = (127, 128, 64)
    yield tag_of(3, 1, clut=colour_table(grid, 1, ramp(2**15).ljust(math.prod(grid), b"\x5a")))


# Real profiles


def from_tag(profile: bytes, offset: int, size: int) -> list[Job]:
    if profile[offset : offset + 4] in mft.TYPES:
        limits = (0, HOUSE_GRID_LIMIT, NO_LIMIT)
        return [Job(reader, offset, size, profile, grid_limit=limit, words=3) for reader in READERS for limit in limits]
    if profile[offset : offset + 4] not in (MAB, MBA):
        return []
    return [
        Job(reader, offset, size, profile, limit, words=words)
        for reader in READERS
        for limit in (HOUSE_CURVE_LIMIT, NO_LIMIT)
        for words in (0, WORDS * MOST_RECORDS, MOST_WORDS)
    ]


# The hand-picked cases


def stored() -> list[tuple[str, Job]]:
    walks = {CRATE_WALK: "crate walk", BOOK_WALK: "book walk"}
    groups = {
        "tag": _tag_cases,
        "matrix": _matrix_cases,
        "colour table": _colour_table_cases,
        "run": _run_cases,
        "mft": _mft_cases,
    }
    return [
        (f"{group}: {comment}, {walk}", replace(job, reader=reader))
        for group, cases in groups.items()
        for comment, job in cases()
        for reader, walk in walks.items()
    ]


def _job(profile: bytes, offset=0, size=None, limit=HOUSE_CURVE_LIMIT, words=None) -> Job:
    """By default the tag is all from the offset on, and the words lent are just those that its records take."""
    tag = profile[offset:]
    if words is None:
        words = WORDS * records(tag) if len(tag) >= HEAD else 0
    return Job(CRATE_WALK, offset, len(tag) if size is None else size, profile, limit, words=words)


def _tag_cases() -> Iterator[tuple[str, Job]]:
    yield "B of empty, empty, para", _job(WORKED)
    yield "the same as mBA", _job(MBA + WORKED[4:])
    yield "the same, two slots", _job(WORKED, words=20)
    for words in (0, 29, 31, 39, 43):
        yield f"the same, {words} words", _job(WORKED, words=words)
    yield "the same, a byte short", _job(WORKED[:-1])
    yield "the same at an odd offset, bytes behind", _job(bytes(1) + WORKED + bytes(3), offset=1, size=len(WORKED))
    yield "all five parts", _job(ALL_PARTS)
    yield "all five parts, a word too few", _job(ALL_PARTS, words=39)
    yield "all five parts, bytes behind, words left", _job(ALL_PARTS + bytes(5), words=47)
    yield "all five parts at an odd offset", _job(bytes(5) + ALL_PARTS, offset=5)
    yield "all five parts of mBA", _job(ALL_PARTS_MBA)
    yield "all five parts of mAB as mBA", _job(MBA + ALL_PARTS[4:])

    bare = element(3, 3)
    yield "no part", _job(bare)
    yield "no part, mBA, 12 words", _job(MBA + bare[4:], words=12)
    yield "reserved bytes set", _job(bare[:4] + b"\xff" * 4 + bare[8:10] + b"\xff" * 2 + bare[12:])
    yield "empty profile, size 0", _job(b"", size=0)
    yield "empty profile, size 48", _job(b"", size=48)
    yield "11 bytes, size 0", _job(bare[:11], size=0)
    yield "12 bytes, size 0", _job(bare[:12], size=0)
    for size in (0, 1, 12, 47, 49, LAST_U32):
        yield f"48 bytes, size {size}", _job(bare, size=size)
    yield "47 bytes", _job(bare[:47])
    yield "47 bytes, size 48", _job(bare[:47], size=48)
    yield "offset past the profile", _job(bare, offset=49, size=48)
    yield "offset 2^32 - 1", _job(bare, offset=LAST_U32, size=48)
    yield "offset + size is 2^32 + 48", _job(bytes(49) + bare, offset=49, size=LAST_U32)
    for signature in (b"mab ", b"mAB\0", b"mBA\0", b"mBB ", b"mft3", b"curv", bytes(4)):
        yield f"type {signature!r}", _job(signature + bare[4:])
    yield "other type, 47 bytes", _job(b"mft3" + bare[4:47])
    yield "other type, past the profile", _job(b"mft3" + bare[4:], size=49)

    nowhere = dict.fromkeys(PARTS, LAST_U32)
    no_runs = {"a": LAST_U32, "m": LAST_U32, "b": LAST_U32}
    yield "no channels", _job(element(0, 0))
    yield "no channels, runs at 2^32 - 1", _job(element(0, 0, **no_runs))
    yield "no input channels, A at 2^32 - 1", _job(element(0, 1, para(0, 1), a=LAST_U32, b=32))
    yield "no input channels, mBA, M and B at 2^32 - 1", _job(element(0, 1, para(0, 1), MBA, **no_runs | {"a": 32}))
    for inputs, outputs in ((4, 4), (4, 5), (5, 4), (4, 255), (255, 4), (5, 5), (255, 255)):
        yield f"{inputs} to {outputs} channels", _job(element(inputs, outputs))
    yield "5 to 5 channels, every part at 2^32 - 1", _job(element(5, 5, **nowhere), words=3)
    yield "4 to 5 channels, every part at 2^32 - 1", _job(element(4, 5, **nowhere), words=3)


def _matrix_cases() -> Iterator[tuple[str, Job]]:
    numbers = struct.pack(">12i", -(2**31), 2**31 - 1, 1, -1, 65536, -65536, 2**24 + 1, 0, 7, -8, 9, -10)
    yield "extreme numbers", _job(tag_of(3, 3, matrix=numbers))
    yield "a byte short", _job(tag_of(3, 3, matrix=numbers[:-1]))
    yield "all zero, at 33", _job(element(3, 3, bytes(49), matrix=33))
    yield "at 33, a byte past the tag", _job(element(3, 3, bytes(48), matrix=33))
    yield "at 4, over the head", _job(element(3, 3, bytes(20), matrix=4))
    for at in (48, 2**32 - 48, LAST_U32):
        yield f"at {at}", _job(element(3, 3, matrix=at))
    overflow = colour_table((255, 255, 255, 255), 1)
    yield "refused before the colour table", _job(element(4, 2, overflow, matrix=LAST_U32, clut=32))


def _colour_table_cases() -> Iterator[tuple[str, Job]]:
    def table(grid: tuple[int, ...], outputs: int, entry_size=1, data=b"", signature=MAB, inputs=None) -> Job:
        inputs = len(grid) if inputs is None else inputs
        return _job(tag_of(inputs, outputs, signature, clut=colour_table(grid, entry_size, data)))

    cube = (2, 2, 2)
    yield "grid 2, 2, 2 to 3", table(cube, 3, 1, ramp(12))
    yield "grid 2, 2, 2 to 3, a byte short", table(cube, 3, 1, ramp(12)[:-1])
    yield "grid 2, 2, 2 to 3, entries of 2 bytes", table(cube, 3, 2, ramp(24))
    yield "grid 2, 2, 2 to 3, entries of 2 bytes, a byte short", table(cube, 3, 2, ramp(24)[:-1])
    for entry_size in (0, 3, 255):
        yield f"entries of {entry_size} bytes", table(cube, 3, entry_size, ramp(36))
    yield "entries of 3 bytes, no data", table(cube, 3, 3)
    yield "grid 2, 2, 1, entries of 3 bytes", table((2, 2, 1), 3, 3)

    for grid in ((1, 2, 2), (2, 2, 1), (1,), (0, 2, 2), (2, 2, 0)):
        yield f"grid {grid} to 3", table(grid, 3, data=ramp(12))
    yield "grid (201, 200, 50) to 5", table((201, 200, 50), 5)
    for grid, outputs in EDGES:
        yield f"grid {grid} to {outputs}", table(grid, outputs)
    yield "eight times 16", table((16,) * 8, 1)
    yield "seven times 16, then 15", table((*(16,) * 7, 15), 1)

    yield "unused grid bytes", table((2, *range(241, 256)), 2, data=ramp(2), inputs=1)
    yield "the second grid byte unused in mBA", table((3, 0), 2, data=ramp(3), signature=MBA, inputs=1)
    yield "no input channels", table((), 3, 2, ramp(3))
    yield "no output channels", table(cube, 0)
    yield "no output channels, five times 255", table((255,) * 5, 0)
    yield "no channels", table((), 0)
    for inputs in (16, 17):
        yield f"{inputs} input channels, no data", table((2,) * 16, 1, inputs=inputs)
        yield f"{inputs} input channels, entries of 0 bytes", table((2,) * 16, 1, 0, inputs=inputs)
        yield f"{inputs} input channels, the last grid byte 1", table((*(2,) * 15, 1), 1, inputs=inputs)

    yield "20 bytes, all zero", _job(element(1, 1, bytes(20), clut=32))
    yield "19 bytes, all zero", _job(element(1, 1, bytes(20), clut=33))
    for at in (48, 2**32 - 20, LAST_U32):
        yield f"at {at}", _job(element(1, 1, clut=at))
    yield "at 33", _job(element(1, 1, bytes(1) + colour_table((2,), 1, b"\x07\x08"), clut=33))
    yield "over the matrix", _job(element(1, 1, colour_table((2,), 2, ramp(14)), matrix=32, clut=32))
    yield "refused before a run", _job(tag_of(1, 1, clut=colour_table((0,), 1), a=b"sf32" + bytes(8)))


def _run_cases() -> Iterator[tuple[str, Job]]:
    empty, gamma, pair = curv(0), para(0, 144179), curv(2, b"\x00\x00\xff\xff")
    one = curv(1, ramp(1))

    a, m, b = run(one, para(4, *range(-3, 4))), run(pair, one, gamma), run(gamma, gamma, pair)
    yield "mAB, 2 to 3", _job(tag_of(2, 3, b=b, m=m, a=a))
    yield "mBA, 3 to 2", _job(tag_of(3, 2, MBA, b=b, m=m, a=a))
    yield "mBA, 2 to 3", _job(tag_of(2, 3, MBA, b=b, m=m, a=a))
    yield "para, empty, empty", _job(tag_of(1, 3, b=run(gamma, empty, empty)))
    yield "table, para, empty", _job(tag_of(1, 3, b=run(pair, gamma, empty)))
    yield "empty, table, empty", _job(tag_of(1, 3, b=run(empty, pair, empty)))
    yield "tables of 1, 2, 3 entries", _job(tag_of(1, 3, b=run(one, pair, curv(3, ramp(3)))))
    for function, count in enumerate(curve.PARAMETERS):
        yield f"para type {function}, all -1", _job(tag_of(1, 1, b=para(function, *[-1] * count)))
    yield "para, extreme parameters", _job(tag_of(1, 1, b=para(3, -(2**31), 0, 2**31 - 1, 2**24 + 1, -(2**24) - 1)))
    yield "M and B one run", _job(element(1, 2, run(pair, gamma), m=32, b=32))
    yield "B inside M", _job(element(1, 1, curv(8, gamma), m=32, b=44))
    yield "table in the head", _job(element(1, 1, reserved=b"curv", b=4))
    yield "para in the head", _job(element(1, 1, reserved=b"para", b=4))

    for at in (33, 34, 35):
        front = bytes(at - HEAD)
        mixed = element(1, 3, front + run(pair, gamma, empty, at=at), b=at)
        yield f"at {at}", _job(mixed)
        yield f"at {at}, the tag at an odd offset", _job(bytes(3) + mixed, offset=3)
        yield f"at {at}, the first curve empty", _job(element(1, 2, front + run(empty, gamma, at=at), b=at))
        yield f"at {at}, one empty curve", _job(element(1, 1, front + empty, b=at))
    yield "12 bytes left", _job(element(1, 1, bytes(4) + empty, b=36))
    yield "11 bytes left", _job(element(1, 1, bytes(5) + empty[:11], b=37))
    for at in (48, 2**32 - 12, LAST_U32):
        yield f"at {at}", _job(element(1, 1, b=at))
    yield "no second curve", _job(tag_of(1, 2, b=gamma))
    yield "11 bytes for the second curve", _job(tag_of(1, 2, b=run(gamma, empty[:11])))
    yield "12 bytes for the second curve", _job(tag_of(1, 2, b=run(gamma, empty)))
    yield "17 empty curves in 12 bytes", _job(tag_of(17, 1, a=empty), words=171)
    yield "514 empty curves in 12 bytes, 3 words", _job(element(4, 255, empty, a=32, m=32, b=32), words=3)

    other, zero_division = b"sf32" + bytes(8), para(1, 65536, 0, 65536)
    refused = {
        "another type": other,
        "4,097 entries": curv(4097),
        "table a byte short": pair[:-1],
        "para a byte short": zero_division[:-1],
        "function type 5": para(5),
        "function type 256": para(256, 1),
        "a = 0": zero_division,
        "a = 0 in type 2": para(2, 65536, 0, 65536, 65536),
    }
    for what, bad in refused.items():
        yield what, _job(tag_of(1, 1, m=gamma, b=bad))
        yield f"{what}, the last curve of all", _job(tag_of(1, 2, a=gamma, m=run(pair, pair), b=run(gamma, bad)))
    for limit in (0, 1, 2, 2**32, NO_LIMIT):
        yield f"table of 2 entries, limit {limit}", _job(tag_of(1, 2, b=run(gamma, pair)), limit=limit)
    yield "empty curves, limit 0", _job(tag_of(1, 2, b=run(empty, empty)), limit=0)
    yield "table of 2^31 + 2 entries, no limit", _job(tag_of(1, 1, b=curv(2**31 + 2, ramp(2))), limit=NO_LIMIT)

    yield "A refused before M and B", _job(tag_of(1, 1, b=zero_division, m=para(5), a=other))
    yield "M refused before B", _job(tag_of(1, 1, b=zero_division, m=para(5), a=gamma))
    yield "B refused, no words", _job(tag_of(1, 1, m=gamma, b=other), words=0)
    yield "B past the tag, one slot", _job(element(1, 1, gamma, m=32, b=40), words=10)


def _mft_cases() -> Iterator[tuple[str, Job]]:
    for comment, tag, size, limit in mft.cases():
        yield comment, Job(CRATE_WALK, 0, size, tag, grid_limit=limit)
    tag = mft.element(3, 3, 2)
    yield "mft2 at an odd offset, 12 words", Job(CRATE_WALK, 5, len(tag), bytes(5) + tag + bytes(2), words=12)
    yield "mft2 refused, 12 words", Job(CRATE_WALK, 0, len(tag) - 1, tag, words=12)
    yield "mft2 past the profile", Job(CRATE_WALK, 0, len(tag) + 1, tag)
