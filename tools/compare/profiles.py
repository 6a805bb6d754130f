"""The tags of real profiles."""

import struct
import sys
from collections.abc import Iterator
from pathlib import Path

from compare.jobs import LONGEST_PROFILE, BadJob, decode

TAG_COUNT_AT = 128
TAG_TABLE_AT = 132
ENTRY = struct.Struct(">4sII")  # signature, offset, size


def profiles(folder: Path) -> Iterator[bytes]:
    """The .icc and .icm files of a folder and the folders in it, but for those too long for a job."""
    for path in sorted(folder.rglob("*")):
        if path.suffix.lower() not in (".icc", ".icm"):
            continue
        if path.stat().st_size > LONGEST_PROFILE:
            print(f"skipped {path}: longer than {LONGEST_PROFILE} bytes", file=sys.stderr)
            continue
        yield path.read_bytes()


def entries(profile: bytes) -> Iterator[tuple[bytes, int, int]]:
    """Signature, offset and size of each entry of the tag table, as far as the table lies in the profile."""
    if len(profile) < TAG_TABLE_AT:
        return
    (count,) = struct.unpack_from(">I", profile, TAG_COUNT_AT)
    room = (len(profile) - TAG_TABLE_AT) // ENTRY.size
    for number in range(min(count, room)):
        yield ENTRY.unpack_from(profile, TAG_TABLE_AT + ENTRY.size * number)


def tags(profile: bytes) -> Iterator[tuple[int, int]]:
    for _, offset, size in entries(profile):
        yield offset, size


def stored() -> list[bytes]:
    """The whole profiles among the jobs that the gate replays, each once. They are real ones."""
    found = {}
    try:
        for job in decode((Path(__file__).resolve().parents[2] / "crates/answers/stdin").read_bytes()):
            if job.profile[36:40] == b"acsp" and int.from_bytes(job.profile[:4]) == len(job.profile):
                found[job.profile] = None
    except BadJob:  # the last job is cut short
        pass
    return list(found)
