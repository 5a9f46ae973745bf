"""Tag and pack tables: runs of 20-byte records, each a number of 4 bytes (a tag, or a length) and a key."""

from __future__ import annotations

from typing import Dict, Iterable, List, NamedTuple

from .keys import key_fault
from .words import dotted

RECORD_BYTES = 20
MOST_RECORDS = 256
LARGEST_NUMBER = 0xFFFFFFFF

# the length in a pack record of an element that measures itself, and its word
MEASURED = 0xFFFFFFFF
MEASURED_WORD = "measured"


class Record(NamedTuple):
    """A record of a tag table (the number is a tag) or of a pack table (the number is a length)."""

    number: int
    key: bytes


class RecordFault(NamedTuple):
    """What is wrong with a record, by its place in the table."""

    place: int
    why: str


def table_bytes(records: Iterable[Record]) -> bytes:
    """The records as they stand in a table."""
    return b"".join(record.number.to_bytes(4, "big") + record.key for record in records)


def records_of(table: bytes) -> List[Record]:
    """The whole records of a table; a rest of fewer than 20 bytes is left out."""
    ends = range(RECORD_BYTES, len(table) + 1, RECORD_BYTES)
    return [Record(int.from_bytes(table[end - 20 : end - 16], "big"), table[end - 16 : end]) for end in ends]


def tag_text(tag: int) -> str:
    """A tag as `0x0102`, and with eight digits where four do not do."""
    return f"0x{tag:04X}" if tag <= 0xFFFF else f"0x{tag:08X}"


def length_text(length: int) -> str:
    """The length in a pack record as `length 4`, or the word for an element that measures itself."""
    return MEASURED_WORD if length == MEASURED else f"length {length}"


def tag_faults(records: List[Record]) -> List[RecordFault]:
    """What refuses a tag table: an order that does not strictly rise, a non-key, a key twice, too many records."""
    faults = []
    seen: Dict[bytes, int] = {}
    for place, record in enumerate(records):
        if place > 0 and record.number <= records[place - 1].number:
            before = tag_text(records[place - 1].number)
            faults.append(RecordFault(place, f"tag {tag_text(record.number)} does not rise above {before} before it"))
        if record.key in seen:
            faults.append(RecordFault(place, f"key {dotted(record.key)} stands in record {seen[record.key]} already"))
        seen.setdefault(record.key, place)
    return sorted(faults + pack_faults(records))


def pack_faults(records: List[Record]) -> List[RecordFault]:
    """What refuses a table of either sort: a non-key, too many records."""
    faults = []
    for place, record in enumerate(records):
        why = key_fault(record.key)
        if why is not None:
            faults.append(RecordFault(place, f"{dotted(record.key)} is no key: {why}"))
    if len(records) > MOST_RECORDS:
        faults.append(RecordFault(MOST_RECORDS, f"{len(records)} records, and a table has at most {MOST_RECORDS}"))
    return sorted(faults)
