"""Runs tools/klvjob as a user does, and builds the bytes that the tests expect, apart from the tool's own code.

`klvjob` starts the program. `call` hands the same command line to it within this process, where there are too many runs
to start a program for each; an exception that it lets through ends the test.
"""

import contextlib
import io
import os
import random
import struct
import subprocess
import sys
import tempfile
import unittest
from typing import Iterable, List, NamedTuple, Optional, Sequence, Tuple
from unittest import mock

from klv_job.cli import main

ROOT = os.path.normpath(os.path.join(os.path.dirname(os.path.abspath(__file__)), "..", ".."))
KLVJOB = os.path.join(ROOT, "tools", "klvjob")
SEED = int(os.environ.get("KLVJOB_SEED", "1"))

KEY = "060E2B34010101010F02000000000000"
TARGET = "060E2B34025301010F01000000000000"
SET = "060E2B34020101010F01000000000000"
PACK = "060E2B34020501010F01000000000000"
PRIMER_KEY = bytes.fromhex("060E2B34020501010D01020101050100")

# The job of 01's worked example, written out from the paper.
FIRST_JOB = bytes.fromhex(
    "00000020 00000014 00000034 00000000 00000034 00000010 00000044 00000024"
    "00000102 060E2B34010101010F02000000000000"
    "060E2B34025301010F01000000000000"
    "060E2B34020101010F01000000000000 13 060E2B34010101010F02000000000000 02 ABCD"
)


class Ran(NamedTuple):
    status: int
    out: bytes
    err: str


class UserCase(unittest.TestCase):
    """A test with a folder of its own, in which the tool is run."""

    def setUp(self) -> None:
        folder = tempfile.TemporaryDirectory()
        self.addCleanup(folder.cleanup)
        self.folder = folder.name

    def write(self, name: str, data: bytes) -> str:
        with open(os.path.join(self.folder, name), "wb") as file:
            file.write(data)
        return name

    def read(self, name: str) -> bytes:
        with open(os.path.join(self.folder, name), "rb") as file:
            return file.read()

    def klvjob(self, *arguments: str, given: bytes = b"", env: Optional[dict] = None) -> Ran:
        """One run of the tool; it never prints a traceback, and its status is 0, 1 or 2."""
        done = subprocess.run(
            [sys.executable, KLVJOB, *arguments], input=given, capture_output=True, cwd=self.folder, env=env, timeout=20
        )
        ran = Ran(done.returncode, done.stdout, done.stderr.decode("utf-8", "replace"))
        self.assertNotIn("Traceback", ran.err)
        self.assertIn(ran.status, (0, 1, 2), ran.err)
        return ran

    def call(self, *arguments: str, given: bytes = b"") -> Ran:
        """The same within this process."""
        out, err = io.TextIOWrapper(io.BytesIO()), io.StringIO()
        with mock.patch("sys.stdin", io.TextIOWrapper(io.BytesIO(given))):
            with contextlib.redirect_stdout(out), contextlib.redirect_stderr(err):
                status = main(list(arguments))
        self.assertIn(status, (0, 1, 2))
        out.flush()
        return Ran(status, out.buffer.getvalue(), err.getvalue())

    def make(self, text: str, *arguments: str) -> Ran:
        return self.call("make", *arguments, given=text.encode("utf-8"))

    def refuses(self, ran: Ran, *parts: str) -> None:
        """Bad input: status 1, nothing written, and a message with all these parts."""
        self.assertEqual((ran.status, ran.out), (1, b""), ran.err)
        for part in parts:
            self.assertIn(part, ran.err)


def job(tags: bytes, packs: bytes, target: bytes, group: bytes) -> bytes:
    """A job file, built with struct and by summing up."""
    second = 32 + len(tags)
    third = second + len(packs)
    last = third + len(target)
    pairs = (32, len(tags), second, len(packs), third, len(target), last, len(group))
    return struct.pack(">8I", *pairs) + tags + packs + target + group


def ber(length: int) -> bytes:
    """The shortest BER length, by cases."""
    for most, first, form in ((0x7F, b"", ">B"), (0xFF, b"\x81", ">B"), (0xFFFF, b"\x82", ">H")):
        if length <= most:
            return first + struct.pack(form, length)
    return b"\x83" + struct.pack(">I", length)[1:]


def universal(key: bytes, items: Iterable[Tuple[bytes, bytes]]) -> bytes:
    """A universal set."""
    body = bytearray()
    for item_key, value in items:
        body += item_key
        body += ber(len(value))
        body += value
    return key + ber(len(body)) + bytes(body)


def triplet(value: bytes, digits: int = 0, key: bytes = bytes.fromhex(KEY)) -> bytes:
    """A key, a BER length (the shortest, or one of so many digits) and the value."""
    length = bytes([0x80 + digits]) + len(value).to_bytes(digits, "big") if digits else ber(len(value))
    return key + length + value


def pack_table(lengths: Iterable[int]) -> bytes:
    """A pack table of records with these lengths and one key."""
    return b"".join(struct.pack(">I", length) + bytes.fromhex(KEY) for length in lengths)


def primer_value(records: Sequence[Tuple[int, bytes]], size: int = 18, count: Optional[int] = None) -> bytes:
    """The value of a primer pack."""
    head = struct.pack(">II", len(records) if count is None else count, size)
    return head + b"".join(struct.pack(">H", tag) + key for tag, key in records)


def numbered_key(number: int) -> bytes:
    """A key of its own for each number below 16,129."""
    return bytes.fromhex("060E2B34010101010F03") + bytes([1 + number // 127, 1 + number % 127]) + bytes(4)


def damage(random_: random.Random, data: bytes) -> bytes:
    """Bytes with one to four changes: a byte set, bytes cut out, bytes put in, the end cut off."""
    damaged = bytearray(data)
    for _ in range(random_.randint(1, 4)):
        at = random_.randrange(len(damaged) + 1)
        byte = random_.choice((0x00, 0x01, 0x7F, 0x80, 0x81, 0x83, 0x88, 0x89, 0xFF, random_.randrange(256)))
        change = random_.randrange(5)
        if change < 2:
            damaged[at : at + 1] = bytes([byte])
        elif change == 2:
            del damaged[at : at + random_.randint(1, 20)]
        elif change == 3:
            damaged[at:at] = bytes([byte]) * random_.randint(1, 20)
        else:
            del damaged[at:]
    return bytes(damaged)


def sample_groups() -> List[List[str]]:
    """The groups of other makers' programs: name, tag table, pack table, group (hexadecimal; - is empty), ..."""
    with open(os.path.join(ROOT, "tests", "data", "groups.tsv"), encoding="utf-8") as file:
        lines = [line.rstrip("\n").split("\t") for line in file if not line.startswith("#")]
    return [["" if field == "-" else field for field in line] for line in lines]
