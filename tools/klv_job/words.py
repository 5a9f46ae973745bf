"""Bytes, counts and quotations as they stand in what people read."""

from __future__ import annotations


def dotted(data: bytes) -> str:
    """Bytes as `06.0E.2B`."""
    return ".".join(f"{byte:02X}" for byte in data)


def counted(number: int, noun: str) -> str:
    """A number of things: `1 byte`, `2 bytes`."""
    return f"{number} {noun}" if number == 1 else f"{number} {noun}s"


def quoted(text: str) -> str:
    """Text for a message, in quotes, on one line and not too long."""
    return ascii(text if len(text) <= 40 else text[:37] + "...")
