"""Random jobs: what `make` writes against an independent construction; and damage, which never ends in an exception."""

import random
import re
from typing import List, Tuple

from user import (
    FIRST_JOB,
    PACK,
    SEED,
    TARGET,
    UserCase,
    damage,
    job,
    numbered_key,
    pack_table,
    primer_value,
    sample_groups,
    triplet,
    universal,
)

ROUNDS = 100
DAMAGED = 1200
STARTED = 4
LENGTHS = (0, 1, 2, 126, 127, 128, 255, 256, 257, 1000)
SET_KEY = bytes.fromhex("060E2B34020101010F01000000000000")


def random_items(random_: random.Random) -> List[Tuple[bytes, bytes]]:
    """Up to eight items; keys repeat now and then."""
    items = []
    for _ in range(random_.randrange(9)):
        value = random_.getrandbits(8 * 1000).to_bytes(1000, "big")[: random_.choice(LENGTHS)]
        items.append((numbered_key(random_.randrange(9)), value))
    return items


def written(random_: random.Random, data: bytes) -> str:
    """Bytes as digits, now and then with dots, spaces, small letters, line ends and comments among them."""
    text = ""
    for byte in data:
        digits = f"{byte:02X}" if random_.random() < 0.8 else f"{byte:02x}"
        text += digits + random_.choice(("", "", "", " ", ".", "\t", "\n", "  # x\n"))
    return text


class Random(UserCase):
    def setUp(self) -> None:
        super().setUp()
        self.random = random.Random(SEED)

    def test_items_against_an_independent_construction(self) -> None:
        for number in range(ROUNDS):
            with self.subTest(seed=SEED, round=number):
                tags = sorted(self.random.sample(range(2**32), self.random.randrange(6)))
                items = random_items(self.random)
                tag_lines = "".join(f"tag 0x{tag:x} = {numbered_key(tags.index(tag)).hex('.')}\n" for tag in tags)
                item_lines = "".join(f"item {key.hex()} = {written(self.random, value)}\n" for key, value in items)
                ran = self.make(f"{tag_lines}target {TARGET}\nset {SET_KEY.hex()}\n{item_lines}")
                table = b"".join(tag.to_bytes(4, "big") + numbered_key(place) for place, tag in enumerate(tags))
                expected = job(table, b"", bytes.fromhex(TARGET), universal(SET_KEY, items))
                self.assertEqual((ran.status, ran.out, ran.err), (0, expected, ""))
                self.shown_items(expected, items)

    def shown_items(self, data: bytes, items: List[Tuple[bytes, bytes]]) -> None:
        """The items that `show --all` prints are those that were put in, and their offsets lead to their values."""
        shown = self.call("show", "--all", given=data).out.decode()
        keys = re.findall(r"item \d+ at offset \d+: key ([0-9A-F.]+)\n", shown)
        self.assertEqual([bytes.fromhex(key.replace(".", "")) for key in keys], [key for key, _ in items])
        spans = re.findall(r"value at offset (\d+), (\d+) byte", shown)
        self.assertEqual([data[int(at) : int(at) + int(length)] for at, length in spans], [value for _, value in items])
        digits = re.findall(r"value at offset \d+, \d+ bytes?(?:: ((?:[0-9A-F]{2} ?)+))?", shown)
        self.assertEqual([bytes.fromhex(value) for value in digits], [value for _, value in items])

    def jobs(self) -> List[bytes]:
        samples = [line[1:4] + [line[3][:32]] for line in sample_groups()]
        whole = [job(*map(bytes.fromhex, (tags, packs, target, group))) for tags, packs, group, target in samples]
        key = bytes.fromhex(PACK)
        elements = triplet(b"ab") + b"c" + triplet(b"", 4)
        measured = job(b"", pack_table((2**32 - 1, 1, 2**32 - 1)), key, triplet(elements, key=key))
        return [FIRST_JOB] * 20 + [measured] * 20 + whole

    def test_damaged_jobs(self) -> None:
        """The pairs are mended for half of them, so that the damage lies in the parts."""
        jobs = self.jobs()
        statuses = set()
        for number in range(DAMAGED):
            with self.subTest(seed=SEED, round=number):
                given = self.random.choice(jobs)
                if self.random.random() < 0.5:
                    bad = damage(self.random, given)
                else:
                    ends = [int.from_bytes(given[at : at + 4], "big") for at in (0, 8, 16, 24)] + [len(given)]
                    parts = [given[start:end] for start, end in zip(ends, ends[1:])]
                    hurt = self.random.randrange(4)
                    parts[hurt] = damage(self.random, parts[hurt])
                    bad = job(*parts)
                ran = self.call("show", given=bad)
                statuses.add(ran.status)
                self.assertEqual(ran.status == 1, "refusal 16" in ran.err)
                self.assertEqual(ran.status == 0, ran.err == "")
        self.assertEqual(statuses, {0, 1})

    def test_damaged_jobs_as_a_user(self) -> None:
        jobs = self.jobs()
        for number in range(STARTED):
            with self.subTest(seed=SEED, round=number):
                self.klvjob("show", given=damage(self.random, self.random.choice(jobs)))

    def test_damaged_primers_and_texts(self) -> None:
        key = numbered_key(1).hex()
        text = f'tag 1 = {key}\ntarget {TARGET}\nset {SET_KEY.hex()}\nitem {key} = "ab"\nitem {key} = 00\n'
        primers = [primer_value([(place, numbered_key(place)) for place in range(5)])]
        primers += [bytes.fromhex(line[3]) for line in sample_groups() if "PrimerPack" in line[0]]
        for number in range(DAMAGED // 3):
            with self.subTest(seed=SEED, round=number):
                ran = self.call("primer", given=damage(self.random, self.random.choice(primers)))
                self.assertEqual(ran.status == 0, len(ran.out) > 0 or "0 of" in ran.err or not ran.err)
                ran = self.call("make", given=damage(self.random, text.encode()))
                self.assertEqual(ran.status == 1, ran.out == b"")
