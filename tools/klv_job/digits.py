"""Bytes given as hexadecimal digits; spaces, tabs and dots between the digits are ignored."""

from __future__ import annotations

import re
from typing import List

from .console import BadInput
from .keys import KEY_BYTES
from .words import quoted

URN = "urn:smpte:ul:"
BYTE_ORDER_MARK = "\ufeff"
_IGNORED = re.compile(r"[ \t.]")
_OTHER = re.compile(r"[^0-9A-Fa-f]")


def hex_bytes(digits: str, where: str) -> bytes:
    """The bytes that the digits of one line give. `where` names the file and line in complaints."""
    packed = _IGNORED.sub("", digits)
    other = _OTHER.search(packed)
    if other is not None:
        raise BadInput(f"{where}: {quoted(other.group())} is no hexadecimal digit")
    if len(packed) % 2 != 0:
        raise BadInput(f"{where}: an odd number of hexadecimal digits, {len(packed)}; a byte has two")
    return bytes.fromhex(packed)


def hex_key(digits: str, where: str) -> bytes:
    """A key of 16 bytes, given as digits or in the form urn:smpte:ul:060e2b34..."""
    packed = digits.strip()
    if packed.lower().startswith(URN):
        packed = packed[len(URN) :]
    key = hex_bytes(packed, where)
    if len(key) != KEY_BYTES:
        raise BadInput(f"{where}: a key has {KEY_BYTES} bytes, and here are {len(key)}")
    return key


def text_lines(data: bytes, name: str) -> List[str]:
    """The lines of a text in UTF-8, a byte order mark left out. Lines end with 0A; a 0D before it is left out too."""
    try:
        text = data.decode("utf-8")
    except UnicodeDecodeError as error:
        at = error.start
        line = data.count(b"\n", 0, at) + 1
        raise BadInput(f"{name}: line {line}: byte {data[at]:02X} at offset {at} is no UTF-8 text") from None
    if text.startswith(BYTE_ORDER_MARK):
        text = text[1:]
    return [line[:-1] if line.endswith("\r") else line for line in text.split("\n")]
