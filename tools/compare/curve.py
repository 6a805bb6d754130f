"""Tone curves: reader 2, and reader 12 on the book walk.

Our line is `value`, the record's ten words, the consumed size. The record is the kind (0 empty, 1 table, 2 + function
type), the start of the data, the number of entries or parameters, and seven parameters, unused ones 0. The oracle
prints the entries, or the parameters as floats. The two walks part in one place: an empty curve consumes 0 bytes on
the crate walk, which is moxcms's, and 12 on the book walk, which is ours.
"""

import struct
from collections.abc import Iterator
from dataclasses import replace
from random import Random

from compare.jobs import HOUSE_CURVE_LIMIT, LONGEST_PROFILE, MOST_WORDS, NO_LIMIT, Job

CRATE_WALK, BOOK_WALK = 2, 12
READERS = (CRATE_WALK, BOOK_WALK)
KINDS = (*(f"value {kind}" for kind in range(7)), "absent", *(f"refused {number}" for number in range(9, 14)))

HEAD = 12  # bytes in front of a curve's data
RECORD_WORDS = 10
PARAMETERS = (1, 3, 4, 5, 7)  # by function type
LAST_U32 = 2**32 - 1

ERRORS = {
    "refused 9": "error MalformedTrcCurve | Unknown parametric curve tag",
    "refused 10": "error CurveLutIsTooLarge",
    "refused 12": "error MalformedTrcCurve | Parametric curve has unknown entries count",
    "refused 13": "error ParametricCurveZeroDivision",
}
ERROR_TAG_EXHAUSTED = "error MalformedTrcCurve | Data exhausted"
ERRORS_DATA_EXHAUSTED = {
    b"curv": "error MalformedTrcCurve | Curve end ends to early",
    b"para": "error MalformedTrcCurve | Parametric curve has unknown entries count exhaust data too early",
}


# What our line says in the oracle's words


def kind(line: str) -> str:
    start = " ".join(line.split(" ")[:2])
    return start if start in KINDS and (line == start or start.startswith("value")) else "other"


def oracle_job(job: Job) -> Job:
    return replace(job, reader=CRATE_WALK)


def expected(job: Job, line: str) -> str:
    if line == "absent":
        return line
    if line == "refused 11":
        return _exhausted(job)
    if line in ERRORS:
        return ERRORS[line]
    if kind(line) == "other":
        return "no answer of a curve reader"
    try:
        record_kind, start, count, *parameters, consumed = numbers = [int(word) for word in line.split(" ")[1:]]
    except ValueError:
        return "no record"
    if len(numbers) != RECORD_WORDS + 1 or line != " ".join(["value", *map(str, numbers)]):
        return "no record"

    used = PARAMETERS[record_kind - 2] if record_kind >= 2 else 0
    fault = _unseen_fault(job, record_kind, start, count, parameters, used)
    if fault:
        return fault
    if record_kind >= 2:
        curve = f"para:{count}:{','.join(map(float_text, parameters[:used]))}"
    else:
        data = job.offset + start
        curve = f"lut:16:{count}:x{job.profile[data : data + 2 * count].hex()}"
    if record_kind == 0 and job.reader == BOOK_WALK:
        consumed -= HEAD
    return f"value {curve} consumed={consumed}"


def _exhausted(job: Job) -> str:
    """moxcms has three texts for refusal 11. The job's bytes say which."""
    end = job.offset + job.size if job.size else len(job.profile)
    if end > len(job.profile) or end - job.offset < HEAD:
        return ERROR_TAG_EXHAUSTED
    signature = job.profile[job.offset : job.offset + 4]
    return ERRORS_DATA_EXHAUSTED.get(signature, "no curve data that could run out")


def _unseen_fault(job: Job, record_kind: int, start: int, count: int, parameters: list[int], used: int) -> str:
    """What is wrong with the words that the oracle's line does not show, or nothing.

    These are the start, the unused parameters, the count where the kind decides it, and the low bits that a
    parameter loses as a 32-bit float.
    """
    if start != HEAD:
        return f"the start is {start}"
    if record_kind == 1 and count == 0 or record_kind != 1 and count != used:
        return f"the count is {count}"
    if any(parameters[used:]):
        return "an unused parameter is not 0"
    data = job.profile[job.offset + HEAD : job.offset + HEAD + 4 * used]
    if len(data) < 4 * used or parameters[:used] != list(struct.unpack(f">{used}i", data)):
        return "the parameters are not the numbers in the profile"
    return ""


def float_text(parameter: int) -> str:
    """A parameter as the oracle prints it: the bits of the float, and what is left of the parameter."""
    bits = struct.pack(">f", parameter / 65536)
    (value,) = struct.unpack(">f", bits)
    return f"{bits.hex()}/{int(value * 65536)}"


# Elements


def curv(count: int, entries: bytes = b"", reserved: bytes = bytes(4)) -> bytes:
    return b"curv" + reserved + struct.pack(">I", count) + entries


def para(function: int, *parameters: int, reserved: bytes = bytes(4), behind: bytes = bytes(2)) -> bytes:
    data = struct.pack(f">{len(parameters)}i", *parameters)
    return b"para" + reserved + struct.pack(">H", function) + behind + data


def ramp(count: int) -> bytes:
    """A table of `count` entries, no two of them equal."""
    return struct.pack(f">{count}H", *(65535 - k for k in range(count)))


# Random jobs: each choice is mostly the plain one, so that what is rare still meets accepted curves

SMALL_COUNTS = range(3, 10)
LARGE_COUNTS = range(100, 600)
# More than any short tag holds, and of some of them 12 + 2 * count is small in its low 32 bits
HUGE_COUNTS = (2**16, 2**31 - 7, 2**31 - 6, 2**31 - 5, 2**31 - 1, 2**31, 2**31 + 1, 2**31 + 2, LAST_U32 - 1, LAST_U32)
NEAR_SIGNATURES = (
    b"curV", b"Curv", b"cur\0", b"vruc", b"cusv", b"parA", b"Para", b"par ", b"arap", b"parb", b"pacv", b"cura",
    b"sf32", b"XYZ ", b"mft2", b"mAB ", bytes(4), b"\xff" * 4,
)
UNKNOWN_FUNCTIONS = (5, 6, 255, 256, 257, 1024, 65535)
FRONT_LENGTHS = (0, 0, 0, 0, 1, 2, 3, 4, 5, 7, 13, 128, 201)
BEHIND_LENGTHS = (0, 0, 0, 0, 1, 2, 3, 4, 40)


def generate(rng: Random) -> Job:
    element, count = random_element(rng)
    exact = len(element)
    if rng.random() < 0.1:
        element = _damaged(rng, element)
    front = rng.randbytes(rng.choice(FRONT_LENGTHS))
    profile = front + element + rng.randbytes(rng.choice(BEHIND_LENGTHS))
    if rng.random() < 0.02:
        profile = profile[: rng.randrange(HEAD + 1)]
    offset = random_offset(rng, len(front), len(profile))
    return Job(
        reader=rng.choice(READERS),
        offset=offset,
        size=_size(rng, exact, offset, len(profile)),
        profile=profile,
        curve_limit=random_limit(rng, count),
        grid_limit=rng.choice((0, 1, NO_LIMIT)),
        words=rng.choice((0, 0, 0, 9, 10, MOST_WORDS)),
    )


def random_element(rng: Random) -> tuple[bytes, int]:
    """A curve, or what looks like one, and the count of entries that it declares."""
    shape = rng.random()
    if shape < 0.45:
        count = _count(rng)
        present = rng.randrange(4) if count in HUGE_COUNTS else count
        element = curv(count, rng.randbytes(2 * present), _reserved(rng, 4))
    elif shape < 0.9:
        count = 0
        element = _para(rng)
    else:
        count = _count(rng)
        signature = rng.choice(NEAR_SIGNATURES)
        element = signature + rng.choice((curv(count, ramp(2)), _para(rng)))[4:]
    return element, count


def _count(rng: Random) -> int:
    choices = (0, 1, 2, rng.choice(SMALL_COUNTS), rng.choice(LARGE_COUNTS), 4096, 4097, rng.choice(HUGE_COUNTS))
    return rng.choices(choices, (15, 12, 12, 30, 8, 1, 1, 12))[0]


def _para(rng: Random) -> bytes:
    if rng.random() < 0.85:
        function = rng.randrange(len(PARAMETERS))
        parameters = [_parameter(rng) for _ in range(PARAMETERS[function])]
        if function in (1, 2) and rng.random() < 0.25:
            parameters[1] = 0
    else:
        function = rng.choice(UNKNOWN_FUNCTIONS)
        parameters = [_parameter(rng) for _ in range(rng.randrange(8))]
    return para(function, *parameters, reserved=_reserved(rng, 4), behind=_reserved(rng, 2))


def _parameter(rng: Random) -> int:
    return rng.choice((
        0,
        rng.choice((-1, 1)),
        rng.randrange(-(2**31), 2**31),
        rng.randrange(-300, 300),
        rng.randrange(-8, 8) * 65536 + rng.randrange(-1, 2),
        rng.choice((1, -1)) * (2**24 + rng.randrange(-4, 5)),  # where a 32-bit float begins to round
        rng.choice((-(2**31), 2**31 - 1)),
        0x00023333,
    ))


def _reserved(rng: Random, length: int) -> bytes:
    return rng.randbytes(length) if rng.random() < 0.2 else bytes(length)


def _damaged(rng: Random, element: bytes) -> bytes:
    """Cut short, or with one byte of its head changed."""
    cut = rng.choice((1, 2, 3, rng.randrange(1, len(element) + 1)))
    at = rng.randrange(HEAD)
    return rng.choice((element[:-cut], element[:at] + rng.randbytes(1) + element[at + 1 :]))


def random_offset(rng: Random, right: int, length: int) -> int:
    if rng.random() < 0.85:
        return right
    return max(0, rng.choice((
        0,
        rng.randrange(8),
        right - 1,
        right + 1,
        length - rng.randrange(20),
        length + rng.randrange(4),
        2**31 + rng.randrange(-4, 4),
        LAST_U32 - rng.randrange(16),
        LAST_U32,
    )))


def _size(rng: Random, exact: int, offset: int, length: int) -> int:
    choice = rng.random()
    if choice < 0.45:
        size = exact
    elif choice < 0.7:
        size = 0
    else:
        room = length - offset
        size = rng.choice((
            rng.randrange(1, HEAD),
            HEAD,
            exact - 1,
            exact + 1,
            exact + rng.randrange(2, 50),
            room - 1,
            room,
            room + 1,
            2**31 + rng.randrange(-4, 4),
            2**32 - offset + rng.randrange(-2, length + 4),  # a sum of 32 bits would come round to the profile
            LAST_U32 - rng.randrange(16),
            LAST_U32,
        ))
    return min(max(0, size), LAST_U32)


def random_limit(rng: Random, count: int) -> int:
    choice = rng.random()
    if choice < 0.4:
        return HOUSE_CURVE_LIMIT
    if choice < 0.6:
        return NO_LIMIT
    # the last two are large, but small in their low 32 bits
    limits = (0, 1, count - 1, count, count + 1, 4096, 4097, LAST_U32, 2**63, 2**32, 2**32 + count - 1)
    return max(0, rng.choice(limits))


# Every job of some small sets

BASES = (
    curv(0),
    curv(1, ramp(1)),
    curv(2, ramp(2)),
    curv(7, ramp(7)),
    *(para(function, *range(1, n + 1)) for function, n in enumerate(PARAMETERS)),
    para(1, 5, 0, 6),
    para(2, 5, 0, 6, 7),
    para(5, 1, 2, 3),
    b"sf32" + bytes(8) + ramp(2),
)


def exhaustive() -> Iterator[Job]:
    """Offsets, sizes and ends of the profile around a few small curves; heads a byte away; function types; and the
    largest table that a job can hold.
    """
    largest = (LONGEST_PROFILE - HEAD) // 2
    for reader in READERS:
        for base in BASES:
            for front in (0, 3):
                profile = bytes(front) + base + b"\x01\x02\x03"
                for offset in range(7):
                    for size in range(41):
                        for limit in (0, 1, 2, NO_LIMIT):
                            yield Job(reader, offset, size, profile, limit)
            for length in range(len(base)):
                for size in range(len(base) + 1):
                    yield Job(reader, 0, size, base[:length])
        for base in (curv(2, ramp(2)), para(0, 65536)):
            for at in range(HEAD):
                for byte in range(256):
                    profile = base[:at] + bytes([byte]) + base[at + 1 :]
                    yield Job(reader, 0, len(base), profile, NO_LIMIT)
        for function in range(1024):
            yield Job(reader, 0, 40, para(function, *range(1, 8)))
        for count in (largest, largest + 1):
            yield Job(reader, 0, LONGEST_PROFILE, curv(count, ramp(2) * (largest // 2)), NO_LIMIT)


# Real profiles


def from_tag(profile: bytes, offset: int, size: int) -> list[Job]:
    if profile[offset : offset + 4] not in (b"curv", b"para"):
        return []
    return [
        Job(reader, offset, tried, profile, limit)
        for reader in READERS
        for tried in (size, 0)
        for limit in (HOUSE_CURVE_LIMIT, NO_LIMIT)
    ]


# The hand-picked cases


def stored() -> list[tuple[str, Job]]:
    walks = {CRATE_WALK: "crate walk", BOOK_WALK: "book walk"}
    return [
        (f"{comment}, {walk}", replace(job, reader=reader))
        for comment, job in _cases()
        for reader, walk in walks.items()
    ]


def _job(profile: bytes, offset=0, size=None, limit=HOUSE_CURVE_LIMIT, words=0) -> Job:
    """By default the whole profile is the tag."""
    return Job(CRATE_WALK, offset, len(profile) if size is None else size, profile, limit, words=words)


def _cases() -> Iterator[tuple[str, Job]]:
    empty, pair, gamma = curv(0), curv(2, b"\x00\x00\xff\xff"), para(0, 0x00023333)

    yield "empty curv", _job(empty)
    yield "curv of 2 entries", _job(pair)
    yield "curv of 2 entries, a byte short", _job(pair, size=15)
    yield "curv of 4,097 entries, limit 4,096", _job(curv(4097, ramp(2)))
    yield "curv of 4,097 entries in 16 bytes, limit 4,097", _job(curv(4097, ramp(2)), limit=4097)
    yield "para type 0, 2.2", _job(gamma)
    yield "para type 0, -1", _job(para(0, -65536))
    yield "para type 1, a = 0", _job(para(1, 65536, 0, 65536))
    yield "para type 5", _job(para(5, 1, 2, 3, 4, 5, 6, 7))

    yield "empty profile", _job(b"")
    yield "empty profile, size 12", _job(b"", size=12)
    yield "profile of 3 bytes, size 0", _job(empty[:3], size=0)
    yield "profile of 4 bytes, size 0", _job(empty[:4], size=0)
    yield "profile of 11 bytes, size 0", _job(empty[:11], size=0)
    yield "profile of 12 bytes, size 0", _job(empty, size=0)
    yield "profile of 11 bytes, size 12", _job(empty[:11], size=12)
    for left in (0, 3, 4):
        for size in (0, 11, 12):
            profile = bytes(12) + empty[:left]
            yield f"{left} bytes left, size {size}", _job(profile, offset=12, size=size)
    yield "offset past the profile", _job(empty, offset=13, size=12)
    yield "offset 2^32 - 4", _job(empty, offset=2**32 - 4, size=12)
    yield "offset 2^32 - 1, size 0", _job(empty, offset=LAST_U32, size=0)
    yield "offset and size 2^32 - 1", _job(empty, offset=LAST_U32, size=LAST_U32)

    yield "size 1", _job(pair, size=1)
    yield "size 11", _job(pair, size=11)
    yield "size 11 past the profile", _job(pair[:8], size=11)
    yield "size 12 of a curv of 2 entries", _job(pair, size=12)
    yield "size 12 of a para", _job(gamma, size=12)
    yield "size 0, bytes behind", _job(pair + bytes(5), size=0)
    yield "size larger than needed", _job(pair + bytes(5), size=21)
    yield "size one past the profile", _job(pair, size=17)
    yield "size 2^32 - 1", _job(pair, size=LAST_U32)
    yield "offset + size is 2^32", _job(bytes(1) + pair, offset=1, size=LAST_U32)
    yield "offset + size is 2^32 + 20", _job(bytes(21) + pair, offset=21, size=LAST_U32)
    for front in (1, 2, 3, 4, 129):
        yield f"{front} bytes in front", _job(bytes(front) + pair, offset=front, size=16)
        yield f"{front} bytes in front, size 0", _job(bytes(front) + gamma, offset=front, size=0)

    yield "empty curv, limit 0", _job(empty, limit=0)
    yield "empty curv, bytes behind, no limit", _job(empty + ramp(2), limit=NO_LIMIT)
    for limit in (0, 1, 2, LAST_U32, 2**32, 2**63, NO_LIMIT):
        yield f"curv of 1 entry, limit {limit}", _job(curv(1, ramp(1)), limit=limit)
        yield f"curv of 2 entries, limit {limit}", _job(pair, limit=limit)
    yield "curv of 1 entry, a byte short", _job(curv(1, b"\x02"))
    yield "curv with reserved bytes set", _job(curv(2, ramp(2), reserved=b"\xde\xad\xbe\xef"))
    yield "curv of 4,096 entries", _job(curv(4096, ramp(4096)))
    yield "curv of 4,097 entries, limit 4,097", _job(curv(4097, ramp(4097)), limit=4097)
    for count in (2**31 - 7, 2**31 - 6, 2**31, 2**31 + 2, LAST_U32):
        yield f"curv of {count} entries, no limit", _job(curv(count, ramp(2)), limit=NO_LIMIT)
    yield "curv of 2^32 - 1 entries, limit 2^32 - 2", _job(curv(LAST_U32), limit=LAST_U32 - 1)
    yield "curv of 2^32 - 1 entries, limit 2^32 - 1", _job(curv(LAST_U32), limit=LAST_U32)

    for function, count in enumerate(PARAMETERS):
        element = para(function, *(65536 + k for k in range(count)))
        yield f"para type {function}", _job(element)
        yield f"para type {function}, a byte short", _job(element[:-1])
        yield f"para type {function}, size 0, bytes behind", _job(element + bytes(9), size=0)
        yield f"para type {function}, all zero", _job(para(function, *[0] * count))
        yield f"para type {function}, all -1", _job(para(function, *[-1] * count))
    for function in (1, 2):
        count = PARAMETERS[function]
        yield f"para type {function}, a the least above 0", _job(para(function, 0, 1, *[0] * (count - 2)))
        yield f"para type {function}, a = 0, a byte short", _job(para(function, *[0] * count)[:-1])
    for function in (5, 6, 255, 256, 257, 65535):
        yield f"para type {function} without parameters", _job(para(function))
    yield "para, extreme parameters", _job(para(4, -(2**31), 2**31 - 1, 2**24 + 1, -(2**24) - 1, 2**30 + 1, 1, -1))
    yield "para, limit 0", _job(gamma, limit=0)
    yield "para with reserved bytes set", _job(para(0, 144179, reserved=b"\xde\xad\xbe\xef", behind=b"\xff\xff"))

    for signature in (b"curV", b"Curv", b"parA", b"par ", b"vruc", b"sf32", bytes(4), b"\xff" * 4):
        yield f"type {signature!r}", _job(signature + pair[4:])
    yield "other type, size 11", _job(b"sf32" + pair[4:], size=11)
    yield "other type, past the profile", _job(b"sf32" + pair[4:], size=17)
    yield "other type, under 12 bytes, size 0", _job(b"sf32" + bytes(7), size=0)

    yield "10 words lent", _job(pair, words=10)
    yield "8,192 words lent", _job(gamma, words=MOST_WORDS)
