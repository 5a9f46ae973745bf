"""The kind of a group, told from its key: byte 6 gives the kind, the layout of tags and the layout of lengths."""

from __future__ import annotations

from typing import NamedTuple, Optional

from .keys import key_fault, label_end
from .numbers import BER, FOUR, ONE, TWO, WORD, Layout, Unread
from .words import dotted

UNIVERSAL = "universal set"
GLOBAL = "global set"
LOCAL = "local set"
VARIABLE = "variable-length pack"
DEFINED = "defined-length pack"

_LENGTHS = {0x00: BER, 0x20: ONE, 0x40: TWO, 0x60: FOUR}
_TAGS = {0x03: ONE, 0x0B: WORD, 0x13: TWO, 0x1B: FOUR}


class Kind(NamedTuple):
    """A kind of group. `root` is empty unless the kind is a global set."""

    name: str
    tag: Optional[Layout]
    length: Optional[Layout]
    root: bytes = b""

    @property
    def is_pack(self) -> bool:
        return self.name in (VARIABLE, DEFINED)

    def in_words(self) -> str:
        """The kind for people, with the layout of its items."""
        details = {
            UNIVERSAL: "items of key, BER length, value",
            GLOBAL: f"root {dotted(self.root)}, lengths {_of(self.length)}",
            LOCAL: f"tags {_of(self.tag)}, lengths {_of(self.length)}",
            VARIABLE: f"elements of length ({_words(self.length)}) and value, keys from the pack table",
            DEFINED: "elements of a value alone, keys and lengths from the pack table",
        }
        return f"{self.name}: {details[self.name]}"


def kind_of(key: bytes) -> Kind:
    """The kind that a group's key names. Raises Unread where it is no key, or names no group kind."""
    fault = key_fault(key)
    if fault is not None:
        raise Unread(f"it is no key: {fault}")
    if key[4] != 0x02:
        raise Unread(f"it is no group: byte 5 is {key[4]:02X}, not 02")
    byte6 = key[5]
    length = _LENGTHS[byte6 & 0x60]
    if byte6 == 0x01:
        return Kind(UNIVERSAL, None, BER)
    if byte6 & 0x1F == 0x02:
        return Kind(GLOBAL, None, length, _root(key))
    if byte6 & 0x1F in _TAGS:
        return Kind(LOCAL, _TAGS[byte6 & 0x1F], length)
    if byte6 & 0x1F == 0x04:
        return Kind(VARIABLE, None, length)
    if byte6 == 0x05:
        return Kind(DEFINED, None, None)
    raise Unread(f"it is no group: byte 6 is {byte6:02X}, which names no kind of set or pack")


def group_fault(key: bytes) -> Optional[str]:
    """Why these bytes are not the key of a group; None where they are."""
    try:
        kind_of(key)
    except Unread as unread:
        return str(unread)
    return None


def family_fault(group: bytes, target: bytes) -> Optional[str]:
    """Why two keys of groups are not of one family; None where they are, or where one is no group's key."""
    if group_fault(group) is not None or group_fault(target) is not None:
        return None
    alike = group[:5] == target[:5] and group[6:] == target[6:]
    if alike or GLOBAL in (kind_of(group).name, kind_of(target).name):
        return None
    return "the keys of group and target differ in more than byte 6, and neither is of a global set"


def _root(key: bytes) -> bytes:
    """The root of a global set: the first c bytes of its key (byte 7 is 1 plus c), then the designator."""
    copied = key[6] - 1
    designator = key[8 : label_end(key)]
    if copied > 8:
        raise Unread(f"it is no group: byte 7 of a global set is {key[6]:02X}, and lies in 01..09")
    if len(designator) < 2:
        raise Unread(f"it is no group: the designator of a global set has 2 to 8 bytes, not {len(designator)}")
    if not 4 <= copied + len(designator) <= 15:
        raise Unread(f"it is no group: the root of a global set has 4 to 15 bytes, not {copied + len(designator)}")
    return key[:copied] + designator


def _words(layout: Optional[Layout]) -> str:
    return layout.words if layout is not None else "none"


def _of(layout: Optional[Layout]) -> str:
    words = _words(layout)
    return f"of {words}" if words[0].isdigit() else f"in {words}"
