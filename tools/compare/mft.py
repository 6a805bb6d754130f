"""`mft1` and `mft2`, of the lookup tables: readers 1 and 11, which answer alike.

Our line is `value mft1` or `value mft2`, 20 numbers, ` |`, and the words lent, all as they were. compare/lut.py checks
it; what is particular to these two types stands here.
"""

import struct
from collections.abc import Iterator
from random import Random

from compare.curve import LAST_U32, ramp
from compare.jobs import HOUSE_GRID_LIMIT, NO_LIMIT

MFT1, MFT2 = b"mft1", b"mft2"
TYPES = (MFT1, MFT2)
HEAD = 48  # bytes up to the entries of `mft2`, or to the tables of `mft1`
MOST_DATA = 60_000
GOOD_CHANNELS = [(i, o) for i in range(1, 5) for o in range(1, 5) if 3 in (i, o)]


def entry_size(signature: bytes) -> int:
    return 2 if signature == MFT2 else 1


def lengths(signature: bytes, inputs: int, outputs: int, grid: int, first: int, last: int) -> tuple[int, int, int]:
    """The bytes of the three tables."""
    size = entry_size(signature)
    return first * inputs * size, grid**inputs * outputs * size, last * outputs * size


def element(
    inputs: int, outputs: int, grid: int, entries=(2, 2), signature=MFT2, data: bytes | None = None, matrix=bytes(36),
    reserved=bytes(4), spare=0,
) -> bytes:
    """A tag: its head, and data; by default just what its tables take, up to 70,000 bytes."""
    head = struct.pack(">4s4sBBBB36s", signature, reserved, inputs, outputs, grid, spare, matrix)
    if signature == MFT2:
        head += struct.pack(">2H", *entries)
    else:
        entries = (256, 256)
    if data is None:
        data = ramp(35_000)[: sum(lengths(signature, inputs, outputs, grid, *entries))]
    return head + data


def value(tag: bytes, name: str, numbers: list[int], doubles) -> str:
    """What the oracle prints if these numbers are right."""
    inputs, outputs, grid, first, last, *numbers = numbers
    size = entry_size(name.encode())
    tables = [
        f"{8 * size}:{length // size}:x{tag[start : start + length].hex()}"
        for start, length in zip(numbers[9::2], numbers[10::2], strict=True)
    ]
    return (
        f"value Lut{8 * size} in={inputs} out={outputs} grid={grid} nin={first} nout={last}"
        f" matrix={doubles(numbers[:9])} input={tables[0]} clut={tables[1]} output={tables[2]}"
    )


# Random tags


def random_tag(rng: Random) -> tuple[bytes, int, int]:
    """A tag, the size that it declares, and a limit of grid points. Each choice is mostly a plain one."""
    signature = rng.choice(TYPES)
    inputs, outputs = rng.choice(GOOD_CHANNELS) if rng.random() < 0.95 else (_channels(rng), _channels(rng))
    grid = rng.choices((rng.randrange(2, 8), 2, rng.randrange(256), 255, 1, 0), (70, 10, 8, 4, 4, 4))[0]
    entries = (_entries(rng), _entries(rng)) if signature == MFT2 else (256, 256)
    table_bytes = lengths(signature, min(inputs, 5), outputs, grid, *entries)
    start = HEAD + 4 * (signature == MFT2)
    ends = [start + sum(table_bytes[: number + 1]) for number in range(3)]
    whole = min(ends[2], start + MOST_DATA) - start
    data = rng.randbytes(whole) if whole < 400 else (rng.randbytes(97) * (whole // 97 + 1))[:whole]
    matrix = rng.choice((rng.randbytes(36), struct.pack(">9i", *rng.sample(range(-9, 10), 9))))
    reserved = bytes(4) if rng.random() < 0.9 else rng.randbytes(4)
    tag = element(inputs, outputs, grid, entries, signature, data, matrix, reserved, rng.choice((0, 0, 255)))
    size = len(tag)
    if rng.random() < 0.3:
        edge = rng.choice((*ends, *ends, HEAD, start))
        size = min(max(0, edge + rng.choice((-1, -1, 0, 0, 1, rng.randrange(-40, 40)))), LAST_U32)
    return tag, size, random_limit(rng, grid ** min(inputs, 5))


def random_limit(rng: Random, points: int) -> int:
    if rng.random() < 0.5:
        return HOUSE_GRID_LIMIT
    return max(0, rng.choice((0, 1, 2, points - 1, points, points + 1, NO_LIMIT, NO_LIMIT, 2**32 - 1, 2**32, rng.getrandbits(64))))


def _channels(rng: Random) -> int:
    return rng.choice((0, 1, 2, 3, 4, 5, 6, 255, rng.randrange(256)))


def _entries(rng: Random) -> int:
    return rng.choices((rng.randrange(2, 20), 2, rng.randrange(2, 400), 4096, 4095, 4097, 1, 0, 65535), (50, 20, 20, 2, 1, 2, 2, 2, 1))[0]


# Every tag of some small sets


def exhaustive() -> Iterator[tuple[bytes, int, int]]:
    """Tags with the size they declare and a limit: every channel count, grid byte and size; entries, limits at their edges."""
    small = element(1, 3, 2)
    for size in range(len(small) + 3):
        yield small + bytes(3), size, HOUSE_GRID_LIMIT
    narrow = element(1, 3, 2, signature=MFT1)
    for size in (*range(47, 54), *range(300, 315), *range(len(narrow) - 9, len(narrow) + 3)):
        yield narrow + bytes(3), size, HOUSE_GRID_LIMIT
    for signature in TYPES:
        for inputs in range(256):
            for outputs in (*range(7), 255):
                for one, other in ((inputs, outputs), (outputs, inputs)):
                    tag = element(one, other, 2, signature=signature, data=ramp(1_600))
                    yield tag, len(tag), HOUSE_GRID_LIMIT
        for grid in range(256):
            for inputs in (1, 2, 3, 4):
                for limit in (0, 1, grid**inputs - 1, grid**inputs, grid**inputs + 1, NO_LIMIT):
                    tag = element(inputs, 3, grid, signature=signature, data=ramp(800 if grid < 6 else 4))
                    yield tag, len(tag), max(0, limit)
    for first in (0, 1, 2, 3, 255, 256, 257, 4095, 4096, 4097, 32768, 65535):
        for last in (0, 1, 2, 3, 4095, 4096, 4097, 65535):
            tag = element(3, 1, 2, (first, last))
            for size in (len(tag), len(tag) - 1):
                yield tag, size, HOUSE_GRID_LIMIT


# The hand-picked cases


def cases() -> Iterator[tuple[str, bytes, int, int]]:
    """A comment, a tag, the size that it declares, and a limit of grid points."""
    house = HOUSE_GRID_LIMIT
    cube = element(3, 3, 2, signature=MFT1)
    yield "mft1, 3 to 3, grid 2, 1,608 bytes", cube, 1608, house
    yield "mft1, 3 to 3, grid 2, 1,607 bytes", cube, 1607, house
    for size in (48, 49, 815, 816, 817, 839, 840, 841):
        yield f"mft1, 3 to 3, grid 2, {size} bytes", cube[:size], size, house
    pair = element(3, 3, 2)
    for size in (124, 123, 51, 52, 63, 64, 111, 112, 48, 47):
        yield f"mft2 of 2 entries, 3 to 3, grid 2, {size} bytes", pair, size, house
    yield "mft2, bytes behind", pair + bytes(5), len(pair) + 5, house
    extreme = struct.pack(">9i", -(2**31), 2**31 - 1, 1, -1, 65536, -65536, 2**24 + 1, 0, 7)
    for signature in TYPES:
        name = signature.decode()
        tag = element(3, 3, 2, signature=signature, matrix=extreme, reserved=b"\xff" * 4, spare=255)
        yield f"{name}, extreme matrix, reserved bytes set", tag, len(tag), house
        for inputs, outputs in GOOD_CHANNELS:
            tag = element(inputs, outputs, 2, signature=signature)
            yield f"{name}, {inputs} to {outputs}", tag, len(tag), house
        for inputs, outputs in ((0, 3), (3, 0), (5, 3), (3, 5), (1, 1), (4, 4), (2, 2), (3, 255)):
            tag = element(inputs, outputs, 2, signature=signature, data=ramp(8))
            yield f"{name}, {inputs} to {outputs}", tag, len(tag), house
        for grid in (0, 1, 3):
            tag = element(3, 1, grid, signature=signature)
            yield f"{name}, grid {grid}", tag, len(tag), house
        tag = element(3, 4, 2, signature=signature)
        for limit in (0, 1, 7, 8, 9, NO_LIMIT):
            yield f"{name}, 8 points, 32 entries, limit {limit}", tag, len(tag), limit
        for inputs, grid in ((3, 100), (3, 101), (4, 31), (4, 32), (4, 255)):
            for limit in (house, grid**inputs - 1, grid**inputs, NO_LIMIT):
                tag = element(inputs, 3, grid, signature=signature, data=ramp(8))
                yield f"{name}, grid {grid}, {inputs} inputs, limit {limit}", tag, len(tag), limit
        tag = element(4, 4, 1, (1, 1), signature, data=b"")
        yield f"{name}, no number is good, limit 0", tag, len(tag), 0
        tag = element(3, 3, 255, (2, 2), signature, data=b"")
        yield f"{name}, too many points and no table", tag, len(tag), house
    for entries in ((4096, 2), (2, 4096), (3, 5)):
        tag = element(1, 3, 2, entries)
        yield f"mft2 of {entries} entries", tag, len(tag), house
        yield f"mft2 of {entries} entries, a byte short", tag[:-1], len(tag) - 1, house
    for entries in ((1, 2), (2, 1), (0, 2), (2, 0), (4097, 2), (2, 4097), (65535, 65535)):
        tag = element(3, 1, 2, entries, data=ramp(20))
        yield f"mft2 of {entries} entries", tag, len(tag), house
    yield "mft2 of 1 entry, over the limit", element(3, 1, 9, (1, 2)), 60, 0
    yield "mft2 with 5 input channels, over the limit", element(5, 3, 9, data=b""), 52, 0
