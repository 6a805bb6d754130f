"""The job stream: what the programs `answers` and `oracle` read. Numbers are big-endian."""

import struct
from collections.abc import Iterator
from dataclasses import dataclass

# reader, offset, size, limit of curve entries, limit of grid points, words lent, length of the profile
HEADER = struct.Struct(">BIIQQII")
LAST_READER = 14
TABLE_VIEW = 13
EVALUATION = 14
BYTES_BEHIND = {TABLE_VIEW: 18, EVALUATION: 19}  # the profile
LONGEST_BUFFER = 512
MOST_WORDS = 8_192
LONGEST_PROFILE = 1_048_576

HOUSE_CURVE_LIMIT = 4_096
HOUSE_GRID_LIMIT = 1_000_000
NO_LIMIT = 2**64 - 1


class BadJob(ValueError):
    """A job that `answers` meets with the line `bad job`."""


@dataclass(frozen=True, slots=True)
class Job:
    """One call of one reader. Only a table view and an evaluation have bytes behind the profile."""

    reader: int
    offset: int
    size: int
    profile: bytes
    curve_limit: int = HOUSE_CURVE_LIMIT
    grid_limit: int = HOUSE_GRID_LIMIT
    words: int = 0
    behind: bytes = b""

    def encode(self) -> bytes:
        head = HEADER.pack(
            self.reader, self.offset, self.size, self.curve_limit, self.grid_limit, self.words, len(self.profile)
        )
        return head + self.profile + self.behind


def decode(stream: bytes) -> Iterator[Job]:
    """The jobs of a stream in order, up to its end or to its first bad job."""
    at = 0

    def take(length: int) -> bytes:
        nonlocal at
        if at + length > len(stream):
            raise BadJob("cut short")
        at += length
        return stream[at - length : at]

    while at < len(stream):
        reader, offset, size, curve_limit, grid_limit, words, length = HEADER.unpack(take(HEADER.size))
        if not 1 <= reader <= LAST_READER:
            raise BadJob(f"reader {reader}")
        if words > MOST_WORDS or length > LONGEST_PROFILE:
            raise BadJob(f"{words} words, {length} bytes")
        profile = take(length)
        behind = take(BYTES_BEHIND.get(reader, 0))
        if reader == EVALUATION and int.from_bytes(behind[17:]) > LONGEST_BUFFER:
            raise BadJob(f"a buffer of {int.from_bytes(behind[17:])}")
        yield Job(reader, offset, size, profile, curve_limit, grid_limit, words, behind)
