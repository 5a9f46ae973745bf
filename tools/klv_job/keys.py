"""Keys: the test of 01, and the bytes of a label. Key bytes count from 1, as in the Recommendation."""

from __future__ import annotations

from typing import Optional

from .words import dotted

KEY_BYTES = 16
FIRST_FOUR = bytes.fromhex("060E2B34")
# Registry 06 of category 02 (Table 3).
RESERVED = bytes.fromhex("0206")


def key_fault(key: bytes) -> Optional[str]:
    """Why these bytes are no key, in the order of Table 2; None where they are one."""
    if len(key) != KEY_BYTES:
        return f"a key has {KEY_BYTES} bytes, not {len(key)}"
    if key[:4] != FIRST_FOUR:
        return f"it begins with {dotted(key[:4])}, and a key begins with {dotted(FIRST_FOUR)}"
    for number in (5, 6, 7, 8):
        if not 0x01 <= key[number - 1] <= 0x7F:
            return f"byte {number} is {key[number - 1]:02X}, and bytes 5 to 8 lie in 01..7F"
        if number == 6 and key[4:6] == RESERVED:
            return "byte 5 is 02 and byte 6 is 06, which is no key"
    return _words_fault(key)


def label_end(key: bytes) -> int:
    """Where the label of a key ends: the offset of its first word 00, or 16 if there is none."""
    at = 8
    while at < KEY_BYTES and key[at] != 0x00:
        at = _word_end(key, at)
    return min(at, KEY_BYTES)


def _word_end(key: bytes, at: int) -> int:
    """The offset after the word that begins at `at`; more than 16 if the word does not end by byte 16."""
    while at < KEY_BYTES and key[at] >= 0x80:
        at += 1
    return at + 1


def _words_fault(key: bytes) -> Optional[str]:
    """What is wrong with the words in bytes 9 to 16, if anything is."""
    at = 8
    while at < KEY_BYTES and key[at] != 0x00:
        if key[at] == 0x80:
            return f"byte {at + 1} is 80, and no word begins with 80"
        at = _word_end(key, at)
    if at > KEY_BYTES:
        return "its last word does not end by byte 16"
    if any(key[at:]):
        return f"byte {at + 1} is the word 00, and the bytes after it are not all 00"
    return None
