"""Lengths and tags on the wire: BER, BER words, and 1, 2 or 4 bytes, most significant first."""

from __future__ import annotations

from functools import partial
from typing import Callable, NamedTuple

from .words import counted


class Unread(Exception):
    """Bytes that do not read; the message says why."""


class CutOff(Unread):
    """Bytes that end too early to be read."""


class Read(NamedTuple):
    """A number that was read, and how many bytes it took."""

    value: int
    width: int


class Layout(NamedTuple):
    """How a length or a tag is written: in words, and a function that reads one from the front of some bytes."""

    words: str
    read: Callable[[bytes], Read]


def ber_length(value: int) -> bytes:
    """A length in BER, in the fewest bytes."""
    if value < 0x80:
        return bytes([value])
    digits = value.to_bytes((value.bit_length() + 7) // 8, "big")
    return bytes([0x80 + len(digits)]) + digits


def _read_ber(rest: bytes) -> Read:
    if not rest:
        raise CutOff("the bytes end where a BER length should stand")
    first = rest[0]
    if first < 0x80:
        return Read(first, 1)
    if not 0x81 <= first <= 0x88:
        raise Unread(f"{first:02X} begins no BER length that is read here")
    width = 1 + first - 0x80
    if len(rest) < width:
        more = counted(first - 0x80, "more byte")
        raise CutOff(f"the BER length {first:02X} takes {more}, with {counted(len(rest) - 1, 'byte')} left")
    return Read(int.from_bytes(rest[1:width], "big"), width)


def _read_fixed(width: int, rest: bytes) -> Read:
    if len(rest) < width:
        raise CutOff(f"a number of {counted(width, 'byte')} is cut off after {counted(len(rest), 'byte')}")
    return Read(int.from_bytes(rest[:width], "big"), width)


def _read_word(rest: bytes) -> Read:
    value = 0
    for place, byte in enumerate(rest[:4]):
        if place == 0 and byte == 0x80:
            raise Unread("a BER word does not begin with 80")
        value = value * 0x80 + byte % 0x80
        if byte < 0x80:
            return Read(value, place + 1)
    if len(rest) < 4:
        raise CutOff(f"a BER word is cut off after {counted(len(rest), 'byte')}")
    raise Unread("a BER word has more than 4 bytes")


BER = Layout("BER", _read_ber)
WORD = Layout("a BER word", _read_word)
ONE = Layout("1 byte", partial(_read_fixed, 1))
TWO = Layout("2 bytes", partial(_read_fixed, 2))
FOUR = Layout("4 bytes", partial(_read_fixed, 4))
