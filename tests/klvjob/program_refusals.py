"""The refusal that `show` names first is the one that the program prints: its number and its place."""

import os
import random
import re
import subprocess
from typing import Iterator, Optional, Tuple

from user import KEY, SEED, UserCase, ber, damage, job, pack_table, sample_groups, triplet

PROGRAM = os.environ.get("PERLENHUF_PROGRAM", "")
DAMAGED = 1200
MEASURED = 0xFFFFFFFF

# What `show` does not look for, since only writing shows it.
OF_WRITING = (12, 13, 14)

LOCAL = (low + high for high in (0x00, 0x20, 0x40, 0x60) for low in (0x03, 0x0B, 0x13, 0x1B))
SETS = (0x01, 0x02, 0x22, 0x42, 0x62, *LOCAL)
TAGS = bytes.fromhex(f"00000007{KEY}")
LABELS = (
    "00",
    "05",
    "0500",
    "07",
    "08",
    "80",
    "8000",
    "800500",
    "81",
    "8100",
    "81828384",
    "FFFFFF",
    "000000",
    "00000008",
    "0506070809",
    "05060708090A0B0C00",
    "FFFFFFFFFFFFFFFFFFFFFF",
    "FFFFFFFFFFFFFFFFFFFFFFFF",
    KEY[:30],
    KEY,
    "07" + KEY[2:30],
    "07" + KEY[2:],
    KEY[:8] + "0206" + KEY[12:],
)


def group_key(byte6: int) -> bytes:
    """The key of a set; the root of a global one is 06.0E.2B.34.01.01.01.02.03."""
    if byte6 & 0x1F == 0x02:
        return bytes.fromhex(f"060E2B3402{byte6:02X}05010101010203000000")
    return bytes.fromhex(f"060E2B3402{byte6:02X}01010F01000000000000")


def labelled_jobs() -> Iterator[bytes]:
    """Each label in each kind of set, with nothing after it and with a length."""
    for byte6 in SETS:
        for label in LABELS:
            for rest in ("", "00", "00000000", "80"):
                body = bytes.fromhex(label + rest)
                yield job(TAGS, b"", group_key(byte6), group_key(byte6) + ber(len(body)) + body)


def measured_jobs() -> Iterator[bytes]:
    """Packs with elements that measure themselves, to their own kind: triplets cut off anywhere, and damaged."""
    random_ = random.Random(SEED)
    whole = [triplet(value, digits) for value in (b"", b"ab", bytes(130)) for digits in (0, 1, 3, 8)]
    for lengths in ((MEASURED,), (1, MEASURED), (MEASURED, 1), (MEASURED, MEASURED), (MEASURED - 1,)):
        for value in whole:
            body = b"".join(value if length > 1 else b"c" for length in lengths)
            bodies = [body[:end] for end in range(0, len(body) + 1, 1 + len(body) // 40)] + [body, body + b"d"]
            bodies += [damage(random_, body) for _ in range(6)]
            for each in bodies:
                key = group_key(random_.choice((0x05, 0x05, 0x05, 0x04)))
                yield job(b"", pack_table(lengths), key, triplet(each, key=key))


def damaged_jobs() -> Iterator[bytes]:
    """Other makers' groups, each to its own kind, with some bytes of the group changed."""
    random_ = random.Random(SEED)
    samples = [[bytes.fromhex(field) for field in line[1:4]] for line in sample_groups()]
    for _ in range(DAMAGED):
        tags, packs, group = random_.choice(samples)
        yield job(tags, packs, group[:16], group[:17] + damage(random_, group[17:]))


class Program(UserCase):
    def printed(self, given: bytes) -> Optional[Tuple[int, int]]:
        """The refusal that the program prints, unless it is one of writing."""
        done = subprocess.run([PROGRAM], input=given, stdout=subprocess.PIPE, check=True)
        words = done.stdout.split()
        if words[0] == b"OK" or int(words[1]) in OF_WRITING:
            return None
        return int(words[1]), int(words[2])

    def shown(self, given: bytes) -> Optional[Tuple[int, int]]:
        """The refusal that `show` names first."""
        first = re.search(r"^  ! refusal (\d+)(?:, place (\d+))?:", self.call("show", given=given).out.decode(), re.M)
        return (int(first[1]), int(first[2] or 0)) if first else None

    def test_labels(self) -> None:
        """All of 8, 9, 19 and 20 come, and no refusal beside them."""
        seen = set()
        for number, given in enumerate(labelled_jobs()):
            with self.subTest(number):
                printed = self.printed(given)
                seen.add(printed[0] if printed else 0)
                self.assertEqual(self.shown(given), printed)
        self.assertEqual(seen, {0, 8, 9, 19, 20})

    def test_measured(self) -> None:
        """Both 9 and 11 come, and no refusal beside them."""
        seen = set()
        for number, given in enumerate(measured_jobs()):
            with self.subTest(seed=SEED, round=number):
                printed = self.printed(given)
                seen.add(printed[0] if printed else 0)
                self.assertEqual(self.shown(given), printed)
        self.assertEqual(seen, {0, 9, 11})

    def test_damage(self) -> None:
        for number, given in enumerate(damaged_jobs()):
            with self.subTest(seed=SEED, round=number):
                self.assertEqual(self.shown(given), self.printed(given))
