"""Puts the same jobs to `answers` and to the oracle, and holds their lines against each other."""

import shlex
import subprocess
from collections import Counter
from collections.abc import Iterable, Iterator
from concurrent.futures import ThreadPoolExecutor
from dataclasses import dataclass

from compare.jobs import Job
from compare.readers import FAMILIES, FAMILY_OF_READER

BATCH_JOBS = 10_000
BATCH_BYTES = 8_000_000
MISMATCHES_SHOWN = 5


class Failed(Exception):
    """A program broke off, or gave more or fewer lines than it had jobs."""


@dataclass(frozen=True, slots=True)
class Mismatch:
    job: Job
    ours: str
    expected: str
    oracle: str

    def __str__(self) -> str:
        return "\n".join((
            f"mismatch, job {self.job.encode().hex()}",
            f"  answers     {self.ours}",
            f"  so expected {self.expected}",
            f"  oracle      {self.oracle}",
        ))


def ask(command: list[str], jobs: list[bytes]) -> list[str]:
    """A program's lines, one for each of the encoded jobs."""
    done = subprocess.run(command, input=b"".join(jobs), stdout=subprocess.PIPE)
    *lines, rest = done.stdout.decode("ascii", "backslashreplace").split("\n")
    counts = f"{shlex.join(command)}: {len(lines)} lines for {len(jobs)} jobs, exit status {done.returncode}"
    if len(lines) < len(jobs):
        raise Failed(f"{counts}; the first job without a line: {jobs[len(lines)].hex()}")
    if len(lines) > len(jobs) or rest or done.returncode != 0:
        raise Failed(counts)
    return lines


def encoded(jobs: list[Job]) -> list[bytes]:
    return [job.encode() for job in jobs]


def encoded_for_oracle(jobs: list[Job]) -> list[bytes]:
    return [FAMILY_OF_READER[job.reader].oracle_job(job).encode() for job in jobs]


class Comparison:
    """Counts answers and mismatches over any number of jobs."""

    def __init__(self, answers: list[str], oracle: str):
        self.answers = answers
        self.oracle = [oracle, "-b", "--full"]
        self.seen: Counter[tuple[int, str]] = Counter()  # by reader and kind of answer
        self.wrong: Counter[int] = Counter()  # mismatches by reader
        self.shortest: list[Mismatch] = []

    def run(self, jobs: Iterable[Job]) -> Counter[tuple[int, str]]:
        """Compares the jobs, and says what kinds of answer these had."""
        before = self.seen.copy()
        with ThreadPoolExecutor(2) as pool:
            for batch in _batches(jobs):
                commands = (self.answers, self.oracle)
                ours, oracle = pool.map(ask, commands, (encoded(batch), encoded_for_oracle(batch)))
                self.compare(batch, ours, oracle)
        return self.seen - before

    def compare(self, jobs: list[Job], ours: list[str], oracle: list[str]) -> None:
        """Compares the two lines of each job."""
        for job, our_line, oracle_line in zip(jobs, ours, oracle, strict=True):
            family = FAMILY_OF_READER[job.reader]
            self.seen[job.reader, family.kind(our_line)] += 1
            expected = family.expected(job, our_line)
            if expected != oracle_line:
                self.wrong[job.reader] += 1
                self.shortest.append(Mismatch(job, our_line, expected, oracle_line))
        self.shortest.sort(key=lambda mismatch: len(mismatch.job.profile))
        del self.shortest[MISMATCHES_SHOWN:]

    def report(self) -> str:
        """The shortest mismatches, and a table of the answers."""
        parts = [str(mismatch) for mismatch in self.shortest]
        compared = {reader for reader, _ in self.seen}
        parts += [self._table(name, family) for name, family in FAMILIES.items() if compared & set(family.READERS)]
        return "\n".join(parts)

    def _table(self, name: str, family) -> str:
        rows = [(name, [f"reader {reader}" for reader in family.READERS])]
        for kind in (*family.KINDS, "other"):
            rows.append((kind, [self.seen[reader, kind] for reader in family.READERS]))
        rows.append(("jobs", [sum(column) for column in zip(*(cells for _, cells in rows[1:]))]))
        rows.append(("mismatches", [self.wrong[reader] for reader in family.READERS]))
        return "\n".join(f"{head:12}" + "".join(f"{cell:>12}" for cell in cells) for head, cells in rows)


def _batches(jobs: Iterable[Job]) -> Iterator[list[Job]]:
    batch, size = [], 0
    for job in jobs:
        batch.append(job)
        size += len(job.profile)
        if len(batch) == BATCH_JOBS or size >= BATCH_BYTES:
            yield batch
            batch, size = [], 0
    if batch:
        yield batch
