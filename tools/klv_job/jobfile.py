"""The job file: four pairs (offset, length; 4 bytes each), then tag table, pack table, target key and group."""

from __future__ import annotations

from typing import List, NamedTuple, Sequence

PART_NAMES = ("tag table", "pack table", "target key", "group")
PAIRS_BYTES = 32
MOST_JOB_BYTES = 65536


class Pair(NamedTuple):
    """Where a part stands in the job file."""

    offset: int
    length: int

    @property
    def end(self) -> int:
        return self.offset + self.length


class JobFault(NamedTuple):
    """A rule of the job file that fails, and the offset of the bytes that break it."""

    at: int
    why: str


def job_bytes(parts: Sequence[bytes]) -> bytes:
    """The job file of four parts, in the order of PART_NAMES."""
    pairs = b""
    offset = PAIRS_BYTES
    for part in parts:
        pairs += offset.to_bytes(4, "big") + len(part).to_bytes(4, "big")
        offset += len(part)
    return pairs + b"".join(parts)


def pairs_of(job: bytes) -> List[Pair]:
    """The four pairs of a job file of 32 bytes or more."""
    numbers = [int.from_bytes(job[at : at + 4], "big") for at in range(0, PAIRS_BYTES, 4)]
    return [Pair(numbers[at], numbers[at + 1]) for at in range(0, len(numbers), 2)]


def job_faults(job: bytes) -> List[JobFault]:
    """Every rule of the job file that fails; none if it is well formed. Any one of them is refusal 16."""
    if len(job) > MOST_JOB_BYTES:
        return [JobFault(MOST_JOB_BYTES, f"a job file has at most {MOST_JOB_BYTES} bytes, and this one goes on")]
    if len(job) < PAIRS_BYTES:
        return [JobFault(len(job), f"the four pairs take {PAIRS_BYTES} bytes, and the file ends after {len(job)}")]
    faults = []
    pairs = pairs_of(job)
    expected, source = PAIRS_BYTES, "the pairs end"
    for number, (name, pair) in enumerate(zip(PART_NAMES, pairs)):
        if pair.offset != expected:
            why = f"the offset of the {name} is {pair.offset}, and must be {expected}, where {source}"
            faults.append(JobFault(8 * number, why))
        expected, source = pair.end, f"the {name} ends"
    if expected != len(job):
        why = f"the {PART_NAMES[-1]} ends at {expected}, and must end where the file does, at {len(job)}"
        faults.append(JobFault(PAIRS_BYTES - 4, why))
    return faults
