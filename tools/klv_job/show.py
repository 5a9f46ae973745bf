"""`show`: a job file in words. Offsets count from the job file's first byte."""

from __future__ import annotations

from typing import Iterator, List

from .console import name_of, put, read_input, say
from .items import Item, Reading, read_group
from .jobfile import MOST_JOB_BYTES, PART_NAMES, PAIRS_BYTES, Pair, job_faults, pairs_of
from .keys import KEY_BYTES
from .kinds import family_fault, group_fault, kind_of
from .tables import RECORD_BYTES, Record, RecordFault, length_text, pack_faults, records_of, tag_faults, tag_text
from .words import counted, dotted

MOST_VALUE_BYTES = 32
MOST_DUMP_BYTES = 256


def show(path: str, whole: bool) -> int:
    """The command. A file that is no job file gets its pairs shown, and the rules that fail on standard error."""
    job = read_input(path, MOST_JOB_BYTES)
    name = name_of(path)
    faults = job_faults(job)
    lines = job_lines(job, whole) if not faults else pair_lines(job)
    put("".join(f"{line}\n" for line in lines).encode("ascii", "backslashreplace"))
    for fault in faults:
        say(f"{name}: offset {fault.at}: no job file (refusal 16): {fault.why}")
    return 1 if faults else 0


def pair_lines(job: bytes) -> Iterator[str]:
    """The four pairs of what may be no job file."""
    if len(job) >= PAIRS_BYTES:
        for name, pair in zip(PART_NAMES, pairs_of(job)):
            yield f"{name}: {_extent(pair)}"


def job_lines(job: bytes, whole: bool) -> Iterator[str]:
    """A well-formed job file in words; `whole` has long values and rests shown to their end."""
    tag_pair, pack_pair, target_pair, group_pair = pairs_of(job)
    tags = records_of(_part(job, tag_pair))
    packs = records_of(_part(job, pack_pair))
    yield f"job file of {len(job)} bytes; offsets count from its first byte"
    numbers = [tag_text(record.number) for record in tags]
    yield from _table_lines("tag table", tag_pair, numbers, tags, tag_faults(tags), 1)
    numbers = [length_text(record.number) for record in packs]
    yield from _table_lines("pack table", pack_pair, numbers, packs, pack_faults(packs), 2)
    yield f"target key: {_extent(target_pair)}"
    target = _part(job, target_pair)
    yield from _key_lines(target, "target", 3)
    yield f"group: {_extent(group_pair)}"
    group = _part(job, group_pair)
    reading = read_group(group, tags, packs)
    yield from _group_lines(group, target, reading, group_pair.offset, whole)


def _part(job: bytes, pair: Pair) -> bytes:
    return job[pair.offset : pair.end]


def _extent(pair: Pair) -> str:
    return f"offset {pair.offset}, length {pair.length}"


def _table_lines(
    name: str, pair: Pair, numbers: List[str], records: List[Record], faults: List[RecordFault], refusal: int
) -> Iterator[str]:
    yield f"{name}: {_extent(pair)}, {counted(len(records), 'record')}"
    for place, (number, record) in enumerate(zip(numbers, records)):
        yield f"  record {place}: {number} = {dotted(record.key)}"
    for fault in faults:
        at = pair.offset + RECORD_BYTES * fault.place
        yield f"  ! refusal {refusal}: record {fault.place} at offset {at}: {fault.why}"
    rest = pair.length % RECORD_BYTES
    if rest:
        why = f"{counted(rest, 'byte')} at the end, which is no whole record of {RECORD_BYTES}"
        yield f"  ! refusal {refusal}: offset {pair.end - rest}: {why}"


def _key_lines(key: bytes, name: str, refusal: int) -> Iterator[str]:
    yield f"  key {dotted(key)}" if key else "  no bytes"
    why = group_fault(key)
    yield f"  {kind_of(key).in_words()}" if why is None else f"  ! refusal {refusal}: the {name}: {why}"


def _group_lines(group: bytes, target: bytes, reading: Reading, offset: int, whole: bool) -> Iterator[str]:
    """The group: its key, family, outer length and items, what is wrong with it, and a dump of what did not read."""
    yield from _key_lines(group[:KEY_BYTES], "group", 5)
    why = family_fault(group[:KEY_BYTES], target)
    if why is not None:
        yield f"  ! refusal 6: {why}"
    if reading.outer is not None:
        wire = group[KEY_BYTES : KEY_BYTES + reading.outer.width]
        yield f"  outer length {reading.outer.value} ({dotted(wire)}), {counted(len(reading.items), 'item')} read"
    for place, item in enumerate(reading.items):
        yield from _item_lines(place, item, offset, whole)
    for fault in reading.faults:
        if fault.number > 7:
            yield f"  ! refusal {fault.number}, place {fault.place}: offset {offset + fault.at}: {fault.why}"
        elif fault.number == 7:
            yield f"  ! refusal 7: offset {offset + fault.at}: {fault.why}"
    yield from _dump_lines(group[reading.unread_at :], offset + reading.unread_at, whole)


def _item_lines(place: int, item: Item, offset: int, whole: bool) -> Iterator[str]:
    key = f"key {dotted(item.key)}" if item.key is not None else "no key"
    tag = f"tag {dotted(item.label)}, " if item.label and item.label != item.key else ""
    yield f"  item {place} at offset {offset + item.at}: {tag}{key}"
    value = value_text(item.value, whole)
    yield f"    value at offset {offset + item.value_at}, {counted(len(item.value), 'byte')}{value}"


def value_text(value: bytes, whole: bool) -> str:
    """A value as digits, and as text too where all its bytes are printing characters."""
    shown = value if whole else value[:MOST_VALUE_BYTES]
    if not shown:
        return ""
    digits = " ".join(f"{byte:02X}" for byte in shown)
    more = f" .. and {len(value) - len(shown)} more" if len(shown) < len(value) else ""
    text = f' "{_characters(shown)}"' if all(0x20 <= byte <= 0x7E for byte in value) else ""
    return f": {digits}{more}{text}"


def _characters(data: bytes) -> str:
    return "".join(chr(byte) if 0x20 <= byte <= 0x7E else "." for byte in data)


def _dump_lines(rest: bytes, offset: int, whole: bool) -> Iterator[str]:
    """Bytes that did not read, sixteen to a line, with their offset and their printing characters."""
    shown = rest if whole else rest[:MOST_DUMP_BYTES]
    if rest:
        yield f"  not read, from offset {offset} on, {counted(len(rest), 'byte')}:"
    for at in range(0, len(shown), 16):
        row = shown[at : at + 16]
        digits = " ".join(f"{byte:02X}" for byte in row)
        yield f"  {offset + at:6}  {digits:47}  {_characters(row)}"
    if len(shown) < len(rest):
        yield f"  .. and {counted(len(rest) - len(shown), 'byte')} more (--all shows them)"
