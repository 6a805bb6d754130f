"""Jobs of `curve-line`: version 1, the profile's length, the tag's offset and size (32 bits each, big-endian), the profile.

The program reads on the crate walk and under the house default, so its answer is that of reader 2 in other words.
"""

import struct
from collections.abc import Iterator

from compare.curve import CRATE_WALK, curv, para, ramp
from compare.jobs import Job

HEAD = struct.Struct(">BIII")
VERSION = 1
LONGEST_JOB = 65_536


def encode(profile: bytes, offset=0, size=0, version=VERSION, length=None) -> bytes:
    return HEAD.pack(version, len(profile) if length is None else length, offset, size) + profile


def question(job: bytes) -> Job | None:
    """The job of reader 2 that this one stands for, or nothing if it is a bad job."""
    if not HEAD.size <= len(job) <= LONGEST_JOB:
        return None
    version, length, offset, size = HEAD.unpack(job[: HEAD.size])
    profile = job[HEAD.size :]
    if version != VERSION or length != len(profile):
        return None
    return Job(CRATE_WALK, offset, size, profile)


def text(line: str) -> str:
    """What `curve-line` prints where `answers` writes this line: the record without the consumed size."""
    if line.startswith("value "):
        return f"curve value\n{line.removeprefix('value ').rpartition(' ')[0]}\n"
    return f"curve {line}\n"


BAD_JOB = "bad job\n"


def stored() -> Iterator[tuple[str, bytes]]:
    """The table: every kind of answer, and every kind of bad job."""
    pair = curv(2, b"\x00\x00\xff\xff")
    whole = encode(pair, size=len(pair))

    yield "the worked example", whole
    yield "an empty curve", encode(curv(0), size=12)
    yield "one entry", encode(curv(1, b"\x02\x33"), size=14)
    for function, count in enumerate((1, 3, 4, 5, 7)):
        yield f"para type {function}", encode(para(function, *range(65536, 65536 + count)))
    yield "0x80000000 as a parameter", encode(para(0, -(2**31)), size=16)
    yield "every parameter below 0", encode(para(4, -1, -2, -65536, -(2**31) + 1, -9, -10, -100))
    yield "an offset of 3", encode(bytes(3) + pair, offset=3, size=16)
    yield "an offset of 2^32 - 1", encode(pair, offset=2**32 - 1, size=16)
    yield "a size of 11", encode(pair, size=11)
    yield "an empty profile, 13 bytes in all", encode(b"")
    yield "refusal 9", encode(b"sf32" + pair[4:], size=16)
    yield "refusal 10, the house default passed by one", encode(curv(4097, ramp(4097)))
    yield "the house default itself", encode(curv(4096, ramp(4096)))
    yield "refusal 11", encode(pair, size=15)
    yield "refusal 12", encode(para(5), size=12)
    yield "refusal 13", encode(para(1, 65536, 0, 65536), size=24)
    longest = LONGEST_JOB - HEAD.size
    yield "65,536 bytes", encode(pair + bytes(longest - len(pair)))
    yield "65,537 bytes", encode(pair + bytes(longest + 1 - len(pair)))
    yield "12 bytes", whole[:12]
    yield "no byte", b""
    yield "version 0", encode(pair, version=0)
    yield "version 2", encode(pair, version=2)
    yield "the length one too small", encode(pair, length=len(pair) - 1)
    yield "the length one too large", encode(pair, length=len(pair) + 1)
    yield "a byte lost at the end", whole[:-1]
    yield "a byte more at the end", whole + b"\x00"
