"""Files, standard input and output, and complaints on standard error."""

from __future__ import annotations

import os
import sys
from contextlib import contextmanager
from typing import Iterator, List, Optional, TextIO

STANDARD_INPUT = STANDARD_OUTPUT = "-"
MOST_INPUT = 1 << 22


class BadInput(Exception):
    """Input that cannot be used. The message names the file, and the line or the offset. Exit status 1."""


class BadUsage(Exception):
    """A command line that cannot be followed. Exit status 2."""


def name_of(path: str) -> str:
    """What a path is called in messages."""
    return "standard input" if path == STANDARD_INPUT else path


def say(message: str) -> None:
    """A line on standard error, if there is one that takes it."""
    if sys.stderr is not None:
        try:
            print(f"klvjob: {message}", file=sys.stderr, flush=True)
        except OSError:
            _lead_nowhere(sys.stderr)


def read_input(path: str, most: int = MOST_INPUT) -> bytes:
    """The bytes of a file, or of standard input for `-`; of a longer one the first `most` and one more."""
    try:
        if path != STANDARD_INPUT:
            with open(path, "rb") as file:
                return file.read(most + 1)
        if sys.stdin is None:
            raise BadInput("standard input is closed")
        return sys.stdin.buffer.read(most + 1)
    except OSError as error:
        raise BadInput(f"{name_of(path)}: cannot be read: {error.strerror}") from None


def read_whole(path: str) -> bytes:
    """The bytes of an input that is not unreasonably long."""
    data = read_input(path)
    if len(data) > MOST_INPUT:
        raise BadInput(f"{name_of(path)}: offset {MOST_INPUT}: the input goes on after {MOST_INPUT} bytes")
    return data


def check_binary_output(path: Optional[str]) -> None:
    """Refuses to write bytes that are no text to a terminal."""
    if path is None and sys.stdout is not None and sys.stdout.isatty():
        raise BadUsage("the output is binary and standard output is a terminal; give -o FILE, or redirect it")


def check_other_file(path: Optional[str], inputs: List[str]) -> None:
    """Refuses to write over an input."""
    for given in inputs:
        if path is not None and given != STANDARD_INPUT and os.path.exists(path) and os.path.exists(given):
            if os.path.samefile(path, given):
                raise BadUsage(f"{path}: is an input; give -o another file")


def write_output(data: bytes, path: Optional[str]) -> None:
    """Writes bytes to a file, or to standard output where no file is given."""
    if path is None:
        put(data)
        return
    try:
        with open(path, "wb") as file:
            file.write(data)
    except OSError as error:
        raise BadInput(f"{path}: cannot be written: {error.strerror}") from None


def put(data: bytes) -> None:
    """Writes bytes to standard output, and sees that they get there."""
    if sys.stdout is None:
        raise BadInput("standard output is closed")
    with output_faults():
        sys.stdout.buffer.write(data)
        sys.stdout.buffer.flush()


def flush_output() -> None:
    """Sees that what was printed gets to standard output, if there is one."""
    if sys.stdout is not None:
        with output_faults():
            sys.stdout.flush()


@contextmanager
def output_faults() -> Iterator[None]:
    """Turns a fault of standard output into a complaint; a reader that went away is the caller's to deal with."""
    try:
        yield
    except OSError as error:
        _lead_nowhere(sys.stdout)
        if isinstance(error, BrokenPipeError):
            raise
        raise BadInput(f"standard output: cannot be written: {error.strerror}") from None


def _lead_nowhere(stream: Optional[TextIO]) -> None:
    """Lets a stream that failed lead nowhere, so that the interpreter's own flush at the end meets no second fault."""
    if stream is not None:
        os.dup2(os.open(os.devnull, os.O_WRONLY), stream.fileno())
