"""Elements that measure themselves: their word in `make`, and how `show` reads them, whole and damaged."""

import random
import re
from typing import List, Tuple

from user import KEY, PACK, SEED, SET, UserCase, ber, job, numbered_key, pack_table, triplet

ROUNDS = 200
WHOLE = triplet(b"\xab\xcd")
MEASURED = 0xFFFFFFFF
TABLE_AT = 32
FIRST_AT = TABLE_AT + 2 * 20 + 16 + 17

SHOWN = """\
pack table: offset 32, length 40, 2 records
  record 0: measured = 06.0E.2B.34.01.01.01.01.0F.02.00.00.00.00.00.00
  record 1: length 1 = 06.0E.2B.34.01.01.01.01.0F.02.00.00.00.00.00.00
"""
SHOWN_ITEMS = """\
  outer length 20 (14), 2 items read
  item 0 at offset 105: key 06.0E.2B.34.01.01.01.01.0F.02.00.00.00.00.00.00
    value at offset 105, 19 bytes: 06 0E 2B 34 01 01 01 01 0F 02 00 00 00 00 00 00 02 AB CD
  item 1 at offset 124: key 06.0E.2B.34.01.01.01.01.0F.02.00.00.00.00.00.00
    value at offset 124, 1 byte: 07
"""


def pack_job(body: bytes, *lengths: int, byte6: str = "05") -> bytes:
    """A job with a pack of this byte 6, its own kind wanted; a record for each length."""
    key = bytes.fromhex(PACK[:10] + byte6 + PACK[12:])
    return job(b"", pack_table(lengths), key, key + ber(len(body)) + body)


class Measured(UserCase):
    def shown(self, data: bytes) -> str:
        ran = self.call("show", "--all", given=data)
        self.assertEqual((ran.status, ran.err), (0, ""))
        return ran.out.decode("ascii")

    def values(self, data: bytes) -> List[bytes]:
        """The values that are shown, none being refused."""
        shown = self.shown(data)
        self.assertNotIn("!", shown)
        spans = re.findall(r"value at offset (\d+), (\d+) byte", shown)
        return [data[int(at) : int(at) + int(length)] for at, length in spans]

    def test_the_word_in_make(self) -> None:
        expected = pack_job(WHOLE, MEASURED)
        group = expected[68:].hex()
        for length in ("measured", "4294967295", "0xffffffff"):
            with self.subTest(length):
                ran = self.make(f"record {length} = {KEY}\ntarget {PACK}\ngroup {group}\n")
                self.assertEqual((ran.status, ran.out, ran.err), (0, expected, ""))

    def test_where_the_word_is_none(self) -> None:
        for line, why in {
            f"tag measured = {KEY}": "'measured' is no number; give it in base ten without leading zeros, or as 0x and"
            " digits\n",
            f"record Measured = {KEY}": "'Measured' is no number; ",
            f"record measured 1 = {KEY}": "or as 0x and digits, or the word measured\n",
            f"record measured {KEY}": "no equals sign; the line has the form record LENGTH = KEY",
            "record measured = 06": "a key has 16 bytes, and here are 1",
        }.items():
            with self.subTest(line):
                self.refuses(self.make(f"target {PACK}\nset {SET}\n{line}"), "line 3: ", why)

    def test_notices_of_make(self) -> None:
        head = f"record measured = {KEY}\ntarget {PACK}\n"
        no_key = "07" + KEY[2:]
        for body, parts in {
            no_key + "00": ("offset 17 of the group, item 0: the triplet of item 0: no key: 07.0E", "(refusal 9)"),
            KEY + "80": ("offset 33 of the group, item 0: the triplet of item 0: length malformed: 80", "(refusal 9)"),
            KEY + "0000": ("offset 34 of the group, item 1: bytes are left after the pack's 1 element", "(refusal 11)"),
        }.items():
            with self.subTest(parts):
                ran = self.make(f"{head}group {PACK} {len(body) // 2:02X} {body}")
                self.assertEqual((ran.status, ran.err.count("warning")), (0, 1), ran.err)
                for part in parts:
                    self.assertIn(part, ran.err)
        ran = self.make(f"{head}set {SET}\nitem {KEY} = {KEY} 02 ABCD")
        self.assertEqual((ran.status, ran.err), (0, ""))

    def test_words_of_show(self) -> None:
        shown = self.shown(pack_job(WHOLE + b"\x07", MEASURED, 1))
        self.assertIn(SHOWN, shown)
        self.assertTrue(shown.endswith(SHOWN_ITEMS), shown)

    def test_whole_triplets(self) -> None:
        """One triplet is taken from the front of what is left, with its length in any form."""
        empty, long = triplet(b""), triplet(bytes(200))
        forms = [bytes.fromhex(f"{KEY} {form} ABCD") for form in ("02", "8102", "83000002", "880000000000000002")]
        for value in (empty, long, *forms):
            with self.subTest(value.hex()):
                self.assertEqual(self.values(pack_job(value, MEASURED)), [value])
                self.assertEqual(self.values(pack_job(value + WHOLE, MEASURED, MEASURED)), [value, WHOLE])
                self.assertEqual(self.values(pack_job(b"\x07" + value, 1, MEASURED)), [b"\x07", value])
                self.assertEqual(self.values(pack_job(value + b"\x07", MEASURED, 1)), [value, b"\x07"])

    def test_damaged_triplets(self) -> None:
        """A damaged one has no value, and is 9 at its item: after a constant element and after a measured one."""
        for body, at, why in (
            ("", 0, "no key: a key is cut off after 0 bytes\n"),
            (KEY[:30], 0, "no key: a key is cut off after 15 bytes\n"),
            ("FF" * 15, 0, "no key: a key is cut off after 15 bytes\n"),
            ("07" + KEY[2:] + "02ABCD", 0, "no key: 07.0E.2B.34"),
            (KEY[:8] + "0206" + KEY[12:] + "02ABCD", 0, "no key: 06.0E.2B.34.02.06"),
            (KEY[:16] + "80" + KEY[18:] + "00", 0, "no key: 06.0E.2B.34.01.01.01.01.80"),
            (KEY, 16, "length missing: the bytes end where a BER length should stand\n"),
            (KEY + "8200", 16, "length missing: the BER length 82 takes 2 more bytes, with 1 byte left\n"),
            (KEY + "88" + "00" * 7, 16, "length missing: the BER length 88 takes 8 more bytes, with 7 bytes left\n"),
            (KEY + "80", 16, "length malformed: 80 begins no BER length that is read here\n"),
            (KEY + "89" + "00" * 9, 16, "length malformed: 89 begins no BER length that is read here\n"),
            (KEY + "FF", 16, "length malformed: FF begins no BER length that is read here\n"),
            (KEY + "03ABCD", 17, "too few bytes: its length is 3, with 2 bytes left\n"),
            (KEY + "810201", 18, "too few bytes: its length is 2, with 1 byte left\n"),
            (KEY + "88" + "FF" * 8, 25, "too few bytes: its length is 18446744073709551615, with 0 bytes left\n"),
        ):
            with self.subTest(why):
                for before, length in ((b"\x07", 1), (WHOLE, MEASURED)):
                    where = f"offset {FIRST_AT + len(before) + at}: the triplet of item 1: "
                    shown = self.shown(pack_job(before + bytes.fromhex(body), length, MEASURED))
                    self.assertIn(f"  ! refusal 9, place 1: {where}{why}", shown)
                    self.assertEqual(shown.count("!"), 1)
                    self.assertIn("1 item read", shown)

    def test_bytes_after_the_last(self) -> None:
        shown = self.shown(pack_job(WHOLE + b"\0", MEASURED))
        self.assertIn("! refusal 11, place 1: offset 104: bytes are left", shown)

    def test_the_next_length_is_constant(self) -> None:
        shown = self.shown(pack_job(WHOLE, MEASURED - 1))
        self.assertIn("record 0: length 4294967294 = 06.0E", shown)
        self.assertIn("! refusal 9, place 0: offset 85: the value has 4294967294 bytes, with 19 bytes left", shown)

    def test_other_kinds_ignore_it(self) -> None:
        for byte6, body in (("04", "02ABCD"), ("24", "02ABCD"), ("44", "0002ABCD"), ("64", "00000002ABCD")):
            with self.subTest(byte6):
                data = pack_job(bytes.fromhex(body), MEASURED, byte6=byte6)
                self.assertEqual(self.values(data), [b"\xab\xcd"])
                self.assertIn("record 0: measured = 06.0E", self.shown(data))

    def test_random_packs(self) -> None:
        """The values that are shown are those that were put in."""
        random_ = random.Random(SEED)
        for number in range(ROUNDS):
            with self.subTest(seed=SEED, round=number):
                elements = [random_element(random_) for _ in range(random_.randrange(8))]
                body = b"".join(value for value, _ in elements)
                data = pack_job(body, *(length for _, length in elements))
                self.assertEqual(self.values(data), [value for value, _ in elements])


def random_element(random_: random.Random) -> Tuple[bytes, int]:
    """A value and its record's length."""
    value = bytes(random_.randrange(256) for _ in range(random_.choice((0, 1, 5, 127, 128, 300))))
    if random_.random() < 0.3:
        return value, len(value)
    return triplet(value, random_.randrange(2, 9), numbered_key(random_.randrange(99))), MEASURED
