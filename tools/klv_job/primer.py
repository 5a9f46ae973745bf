"""`primer`: the records of an MXF primer pack as a tag table.

A primer pack's value is the count of its records (4 bytes), the size of a record (4 bytes, always 18), and then the
records, each a local tag of 2 bytes and a key of 16. Writers put them in any order; a tag table has its tags rising.
"""

from __future__ import annotations

from typing import Dict, List, NamedTuple, Optional, Tuple

from .console import BadInput, check_binary_output, check_other_file, name_of, read_whole, say, write_output
from .digits import hex_bytes, text_lines
from .keys import FIRST_FOUR, KEY_BYTES, key_fault
from .numbers import BER, Unread
from .tables import MOST_RECORDS, Record, table_bytes, tag_text
from .words import counted, dotted

PRIMER_KEY = bytes.fromhex("060E2B34020501010D01020101050100")
HEAD_BYTES = 8
PRIMER_RECORD_BYTES = 18


class PrimerRecord(NamedTuple):
    """A record as it stands in the primer: its place, its offset in the input, and what it says."""

    place: int
    at: int
    record: Record

    def in_words(self) -> str:
        return f"record {self.place} (tag {tag_text(self.record.number)})"


class Dropped(NamedTuple):
    """A record that is left out, and why."""

    record: PrimerRecord
    why: str


def primer(path: str, output: Optional[str], is_hex: bool, as_text: bool) -> int:
    """The command. What is dropped is said on standard error, and does not change the exit status."""
    if not as_text:
        check_binary_output(output)
    check_other_file(output, [path])
    name = name_of(path)
    data = read_whole(path)
    if is_hex:
        data = _from_hex(data, name)
    records = primer_records(data, name)
    kept, dropped = tag_table(records)
    for each in dropped:
        say(f"{name}: offset {each.record.at}: {each.record.in_words()} is dropped: {each.why}")
    if dropped:
        say(f"{name}: {len(kept)} of {len(records)} records kept")
    write_output(_tag_lines(kept) if as_text else table_bytes(kept), output)
    return 0


def primer_records(data: bytes, name: str) -> List[PrimerRecord]:
    """The records of a primer pack, given whole or as its value alone, in the order in which they stand."""
    start, end = _value_extent(data, name)
    if end - start < HEAD_BYTES:
        here = counted(end - start, "byte")
        raise BadInput(f"{name}: offset {start}: {here} for count and record size, which take {HEAD_BYTES}")
    count = int.from_bytes(data[start : start + 4], "big")
    size = int.from_bytes(data[start + 4 : start + 8], "big")
    if size != PRIMER_RECORD_BYTES:
        raise BadInput(f"{name}: offset {start + 4}: the record size is {size}, and must be {PRIMER_RECORD_BYTES}")
    needed = HEAD_BYTES + PRIMER_RECORD_BYTES * count
    if needed != end - start:
        here = counted(end - start, "byte")
        why = f"{counted(count, 'record')} of {size} bytes make a value of {needed} bytes, and this one has {here}"
        raise BadInput(f"{name}: offset {start}: {why}")
    first = start + HEAD_BYTES
    return [_record_at(data, place, first + PRIMER_RECORD_BYTES * place) for place in range(count)]


def tag_table(records: List[PrimerRecord]) -> Tuple[List[Record], List[Dropped]]:
    """The tag table, sorted by tag, and what it leaves out. Of two records with one tag or key the first is kept."""
    kept: List[Record] = []
    dropped: List[Dropped] = []
    tags: Dict[int, PrimerRecord] = {}
    keys: Dict[bytes, PrimerRecord] = {}
    for each in records:
        why = _why_dropped(each.record, tags, keys)
        if why is not None:
            dropped.append(Dropped(each, why))
            continue
        kept.append(each.record)
        tags[each.record.number] = keys[each.record.key] = each
    return sorted(kept), dropped


def _why_dropped(record: Record, tags: Dict[int, PrimerRecord], keys: Dict[bytes, PrimerRecord]) -> Optional[str]:
    """Why a record is left out, given those that were kept before it; None where it is kept."""
    fault = key_fault(record.key)
    if fault is not None:
        return f"{dotted(record.key)} is no key: {fault}"
    if record.number in tags:
        return f"its tag stands in {tags[record.number].in_words()} already, which is kept"
    if record.key in keys:
        return f"its key {dotted(record.key)} stands in {keys[record.key].in_words()} already, which is kept"
    if len(tags) == MOST_RECORDS:
        return f"a tag table has at most {MOST_RECORDS} records, and the first {MOST_RECORDS} are kept"
    return None


def _record_at(data: bytes, place: int, at: int) -> PrimerRecord:
    tag = int.from_bytes(data[at : at + 2], "big")
    return PrimerRecord(place, at, Record(tag, data[at + 2 : at + PRIMER_RECORD_BYTES]))


def _value_extent(data: bytes, name: str) -> Tuple[int, int]:
    """Where the primer pack's value begins and ends. Bytes after a whole pack are passed over, and this is said."""
    if data[:4] != FIRST_FOUR:
        return 0, len(data)
    if data[:KEY_BYTES] != PRIMER_KEY:
        why = f"the key {dotted(data[:KEY_BYTES])} is not that of a primer pack, {dotted(PRIMER_KEY)}"
        raise BadInput(f"{name}: offset 0: {why}")
    try:
        length = BER.read(data[KEY_BYTES:])
    except Unread as unread:
        raise BadInput(f"{name}: offset {KEY_BYTES}: the length of the primer pack: {unread}") from None
    start = KEY_BYTES + length.width
    left = len(data) - start
    if length.value > left:
        why = f"the length of the primer pack is {length.value}, with {counted(left, 'byte')} after it"
        raise BadInput(f"{name}: offset {KEY_BYTES}: {why}")
    end = start + length.value
    if length.value < left:
        say(f"{name}: offset {end}: passed over: {counted(left - length.value, 'byte')} after the primer pack")
    return start, end


def _from_hex(data: bytes, name: str) -> bytes:
    """The bytes that a hexadecimal text gives; a # begins a comment."""
    lines = enumerate(text_lines(data, name), 1)
    return b"".join(hex_bytes(line.partition("#")[0], f"{name}: line {number}") for number, line in lines)


def _tag_lines(records: List[Record]) -> bytes:
    lines = [f"tag {tag_text(record.number)} = {dotted(record.key)}\n" for record in records]
    return "".join(lines).encode("ascii")
