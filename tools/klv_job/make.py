"""`make`: readable text in, a job file out."""

from __future__ import annotations

from typing import Iterator, List, NamedTuple, Optional

from .console import BadInput, check_binary_output, check_other_file, name_of, read_whole, say, write_output
from .items import Fault, read_group
from .jobfile import MOST_JOB_BYTES, job_bytes
from .keys import KEY_BYTES
from .kinds import family_fault, group_fault
from .tables import Record, RecordFault, pack_faults, table_bytes, tag_faults
from .text import Line, Text, TextRecord, lines_of, read_text
from .words import dotted


class Notice(NamedTuple):
    """What the regrouper would refuse: the line that gave it, the refusal's number, and why."""

    where: str
    number: int
    why: str


def make(paths: List[str], output: Optional[str], sort: bool) -> int:
    """The command. Several files are read as one text."""
    check_binary_output(output)
    check_other_file(output, paths)
    lines: List[Line] = []
    for path in paths:
        lines += lines_of(read_whole(path), name_of(path))
    text = read_text(lines, ", ".join(map(name_of, paths)))
    if sort and _sort_tags(text):
        say("the tag table is written sorted by tag, not in the order of the lines (--sort)")
    job = job_of(text)
    for notice in notices(text):
        say(f"{notice.where}: warning: {notice.why} (refusal {notice.number})")
    write_output(job, output)
    return 0


def job_of(text: Text) -> bytes:
    """The job file. Raises BadInput where it would be too long to be one."""
    group = text.group()
    job = job_bytes([table_bytes(_records(text.tags)), table_bytes(_records(text.packs)), text.target, group])
    if len(job) > MOST_JOB_BYTES:
        why = f"the job file would have {len(job)} bytes, and has at most {MOST_JOB_BYTES} (refusal 16)"
        raise BadInput(f"{text.group_where}: {why}")
    return job


def notices(text: Text) -> Iterator[Notice]:
    """What the regrouper would refuse in the tables, the target and the group, as far as reading shows it."""
    yield from _table_notices(text.tags, tag_faults(_records(text.tags)), 1)
    yield from _table_notices(text.packs, pack_faults(_records(text.packs)), 2)
    group = text.group()
    why = group_fault(text.target)
    if why is not None:
        yield Notice(text.target_where, 3, f"the target {dotted(text.target)}: {why}")
    why = family_fault(group[:KEY_BYTES], text.target)
    if why is not None:
        yield Notice(text.target_where, 6, why)
    reading = read_group(group, _records(text.tags), _records(text.packs))
    for fault in reading.faults:
        yield _group_notice(text, fault)


def _sort_tags(text: Text) -> bool:
    """Sorts the tag table by tag; answers whether the order changed."""
    ordered = sorted(text.tags, key=lambda given: given.record.number)
    changed = ordered != text.tags
    text.tags = ordered
    return changed


def _records(given: List[TextRecord]) -> List[Record]:
    return [each.record for each in given]


def _table_notices(given: List[TextRecord], faults: List[RecordFault], number: int) -> Iterator[Notice]:
    for fault in faults:
        yield Notice(given[fault.place].where, number, fault.why)


def _group_notice(text: Text, fault: Fault) -> Notice:
    """A fault of the group, at the line of its item if items were given as lines."""
    if text.set_key is None:
        why = f"offset {fault.at} of the group, item {fault.place}: {fault.why}" if fault.number > 7 else fault.why
        return Notice(text.group_where, fault.number, why)
    lines = [item.where for item in text.items]
    where = lines[fault.place] if fault.place < len(lines) else text.group_where
    return Notice(where, fault.number, fault.why)
