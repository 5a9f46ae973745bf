"""The items of a group, as far as they can be read, and where and why they do not read.

This is for people, and goes on where the regrouper stops at its first refusal: a wrong outer length does not keep the
items from being looked at, and an item whose tag is not listed is stepped over. The first fault is the refusal.
"""

from __future__ import annotations

from typing import Dict, List, NamedTuple, Optional

from .keys import KEY_BYTES, key_fault
from .kinds import DEFINED, GLOBAL, LOCAL, UNIVERSAL, Kind, kind_of
from .numbers import BER, CutOff, Read, Unread
from .tables import MEASURED, Record, tag_text
from .words import counted, dotted

MOST_ITEMS = 256
MOST_GLOBAL_TAG = 12

# the refusals of a label, and of a length or value
LABEL_CUT_OFF = 8
SPAN = 9
LABEL_MALFORMED = 19
LABEL_UNLISTED = 20


class Fault(NamedTuple):
    """A refusal that the bytes would get: its number and place, the offset in the group, and why."""

    number: int
    place: int
    at: int
    why: str


class Label(NamedTuple):
    """An item's key or tag on the wire: its width, and the key; no key where a tag is not listed."""

    width: int
    key: Optional[bytes]
    why: str = ""


class Item(NamedTuple):
    """An item: where its label and its value begin, counted from the group's first byte."""

    at: int
    label: bytes
    key: Optional[bytes]
    value_at: int
    value: bytes


class Reading(NamedTuple):
    """What was read of a group. Bytes from `unread_at` on were not read; there are none if it is the group's length."""

    kind: Optional[Kind]
    outer: Optional[Read]
    items: List[Item]
    faults: List[Fault]
    unread_at: int


def read_group(group: bytes, tags: List[Record], packs: List[Record]) -> Reading:
    """Reads a group under the records of two tables."""
    try:
        kind = kind_of(group[:KEY_BYTES])
    except Unread as unread:
        return Reading(None, None, [], [Fault(5, 0, 0, f"the group's key: {unread}")], 0)
    try:
        outer = BER.read(group[KEY_BYTES:])
    except Unread as unread:
        return Reading(kind, None, [], [Fault(7, 0, KEY_BYTES, f"the outer length: {unread}")], KEY_BYTES)
    body_at = KEY_BYTES + outer.width
    left = len(group) - body_at
    faults = []
    if outer.value != left:
        why = f"the outer length is {outer.value}, with {counted(left, 'byte')} after it"
        faults.append(Fault(7, 0, KEY_BYTES, why))
    end = body_at + min(outer.value, left)
    reader = _Reader(kind, group[:end], tags, packs)
    at = reader.read_from(body_at)
    return Reading(kind, outer, reader.items, faults + reader.faults, at)


class _Reader:
    """Reads items one after another, and keeps what it found."""

    def __init__(self, kind: Kind, group: bytes, tags: List[Record], packs: List[Record]) -> None:
        self.kind = kind
        self.group = group
        self.packs = packs
        self.keys: Dict[int, bytes] = {}
        for record in tags:
            self.keys.setdefault(record.number, record.key)
        self.items: List[Item] = []
        self.faults: List[Fault] = []

    def read_from(self, at: int) -> int:
        """Reads items from offset `at` to the end, or to the first bytes that do not read; answers where it stopped."""
        while not self._is_done(at):
            if len(self.items) == MOST_ITEMS:
                self._fault(10, at, f"bytes are left after item {MOST_ITEMS - 1}, the last that a set may have")
                return at
            item = self._read_item(at)
            if item is None:
                return at
            self.items.append(item)
            at = item.value_at + len(item.value)
        if at < len(self.group):
            self._fault(11, at, f"bytes are left after the pack's {counted(len(self.packs), 'element')}")
        return at

    def _is_done(self, at: int) -> bool:
        if self.kind.is_pack:
            return len(self.items) == len(self.packs) or len(self.items) == MOST_ITEMS
        return at == len(self.group)

    def _fault(self, number: int, at: int, why: str) -> None:
        self.faults.append(Fault(number, len(self.items), at, why))

    def _read_item(self, at: int) -> Optional[Item]:
        """The item at offset `at`; None, and a fault, where it does not read."""
        try:
            label = self._read_label(self.group[at:])
        except Unread as unread:
            self._fault(LABEL_CUT_OFF if isinstance(unread, CutOff) else LABEL_MALFORMED, at, str(unread))
            return None
        if label.key is None:
            self._fault(LABEL_UNLISTED, at, label.why)
        length_at = at + label.width
        length = self._read_triplet(at) if self._is_measured() else self._read_span(length_at)
        if length is None:
            return None
        value_at = length_at + length.width
        value = self.group[value_at : value_at + length.value]
        return Item(at, self.group[at:length_at], label.key, value_at, value)

    def _read_span(self, at: int) -> Optional[Read]:
        """The item's length at offset `at`, its value being whole; None, and a fault, where it is not."""
        try:
            length = self._read_length(self.group[at:])
        except Unread as unread:
            self._fault(SPAN, at, f"the length of item {len(self.items)}: {unread}")
            return None
        left = len(self.group) - at - length.width
        if length.value > left:
            why = f"the value has {counted(length.value, 'byte')}, with {counted(left, 'byte')} left"
            self._fault(SPAN, at + length.width, why)
            return None
        return length

    def _is_measured(self) -> bool:
        return self.kind.name == DEFINED and self.packs[len(self.items)].number == MEASURED

    def _read_triplet(self, at: int) -> Optional[Read]:
        """The length of the triplet at offset `at`, all its bytes counted; None, and a fault, where none is whole."""
        triplet = f"the triplet of item {len(self.items)}"
        length_at = at + KEY_BYTES
        try:
            _universal_label(self.group[at:])
        except Unread as unread:
            self._fault(SPAN, at, f"{triplet}: no key: {unread}")
            return None
        try:
            length = BER.read(self.group[length_at:])
        except Unread as unread:
            missing = "missing" if isinstance(unread, CutOff) else "malformed"
            self._fault(SPAN, length_at, f"{triplet}: length {missing}: {unread}")
            return None
        left = len(self.group) - length_at - length.width
        if length.value > left:
            why = f"too few bytes: its length is {length.value}, with {counted(left, 'byte')} left"
            self._fault(SPAN, length_at + length.width, f"{triplet}: {why}")
            return None
        return Read(KEY_BYTES + length.width + length.value, 0)

    def _read_label(self, rest: bytes) -> Label:
        if self.kind.name == UNIVERSAL:
            return _universal_label(rest)
        if self.kind.name == GLOBAL:
            return _global_label(self.kind.root, rest)
        if self.kind.name == LOCAL:
            return self._local_label(rest)
        return Label(0, self.packs[len(self.items)].key)

    def _local_label(self, rest: bytes) -> Label:
        assert self.kind.tag is not None
        tag = self.kind.tag.read(rest)
        key = self.keys.get(tag.value)
        return Label(tag.width, key, "" if key else f"tag {tag_text(tag.value)} is not in the tag table")

    def _read_length(self, rest: bytes) -> Read:
        if self.kind.name == DEFINED:
            return Read(self.packs[len(self.items)].number, 0)
        assert self.kind.length is not None
        return self.kind.length.read(rest)


def _universal_label(rest: bytes) -> Label:
    key = rest[:KEY_BYTES]
    if len(key) < KEY_BYTES:
        raise CutOff(f"a key is cut off after {counted(len(key), 'byte')}")
    fault = key_fault(key)
    if fault is not None:
        raise Unread(f"{dotted(key)} is no key: {fault}")
    return Label(KEY_BYTES, key)


def _global_label(root: bytes, rest: bytes) -> Label:
    """A global tag joined with the root. The tag's ending 00, if it has one, counts for its width alone."""
    width = _global_width(rest)
    tag = rest[:width]
    if _ends_with_00(tag):
        tag = tag[:-1]
    if not tag:
        raise Unread("a global tag is empty")
    if len(root) + len(tag) > KEY_BYTES:
        raise Unread(f"root and tag have {len(root) + len(tag)} bytes together, and a key has {KEY_BYTES}")
    key = (root + tag).ljust(KEY_BYTES, b"\0")
    fault = key_fault(key)
    if fault is not None:
        raise Unread(f"root and tag make {dotted(key)}, which is no key: {fault}")
    return Label(width, key)


def _ends_with_00(tag: bytes) -> bool:
    """Whether the last byte is a 00 that does not belong to a word such as 81 00."""
    return tag[-1:] == b"\0" and not (len(tag) > 1 and tag[-2] >= 0x80)


def _global_width(rest: bytes) -> int:
    """How many bytes a global tag takes: to its ending 00, or 12."""
    for width in range(1, MOST_GLOBAL_TAG + 1):
        if width > len(rest):
            raise CutOff(f"a global tag is cut off after {counted(len(rest), 'byte')}")
        if _ends_with_00(rest[:width]):
            return width
    return MOST_GLOBAL_TAG
