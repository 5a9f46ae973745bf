"""`primer`: tag tables from primer packs, sorted, and what is dropped."""

import struct

from user import FIRST_JOB, PRIMER_KEY, TARGET, UserCase, ber, numbered_key, primer_value, sample_groups

A, B, C = (numbered_key(number) for number in range(3))
NO_KEYS = {
    "begins with 06.0E.2B.35": "060E2B35010101010F02000000000000",
    "byte 5 is 00": "060E2B34000101010F02000000000000",
    "byte 5 is 02 and byte 6 is 06": "060E2B34020600000F02000000000000",
    "byte 6 is 80": "060E2B34028000000F02000000000000",
    "byte 8 is 80": "060E2B34010101800F02000000000000",
    "byte 6 is 06": "060E2B34020601010F02000000000000",
    "byte 9 is 80": "060E2B3401010101800F020000000000",
    "byte 11 is the word 00": "060E2B34010101010F02000000000001",
    "its last word does not end by byte 16": "060E2B34010101010F02030405060781",
}
KEYS = ("060E2B34010101010000000000000000", "060E2B34017F7F7F8100040000000000", "060E2B34010101010F02030405068100")


def table(*records: tuple) -> bytes:
    return b"".join(struct.pack(">I", tag) + key for tag, key in records)


class Primer(UserCase):
    def gives(self, data: bytes, expected: bytes, *said: str) -> None:
        ran = self.call("primer", given=data)
        self.assertEqual((ran.status, ran.out), (0, expected), ran.err)
        for part in said:
            self.assertIn(part, ran.err)
        if not said:
            self.assertEqual(ran.err, "")

    def test_unsorted(self) -> None:
        value = primer_value([(0x3C0A, A), (0x0102, B), (0xFFFF, C)])
        rising = table((0x0102, B), (0x3C0A, A), (0xFFFF, C))
        self.gives(value, rising)
        self.gives(PRIMER_KEY + ber(len(value)) + value, rising)
        self.gives(PRIMER_KEY + b"\x84" + struct.pack(">I", len(value)) + value, rising)
        self.gives(primer_value([]), b"")

    def test_as_a_user(self) -> None:
        self.write("primer.bin", primer_value([(0x3C0A, A), (0x0102, B)]))
        ran = self.klvjob("primer", "primer.bin", "-o", "tags.bin")
        self.assertEqual((ran.status, ran.out, ran.err), (0, b"", ""))
        self.assertEqual(self.read("tags.bin"), table((0x0102, B), (0x3C0A, A)))
        ran = self.klvjob("primer", "--text", "primer.bin")
        lines = f"tag 0x0102 = {B.hex('.').upper()}\ntag 0x3C0A = {A.hex('.').upper()}\n"
        self.assertEqual((ran.status, ran.out.decode(), ran.err), (0, lines, ""))

    def test_text_goes_into_make(self) -> None:
        item = FIRST_JOB[36:52]
        tags = self.call("primer", "--text", given=primer_value([(0x0102, item)])).out
        rest = f"target {TARGET}\ngroup {FIRST_JOB[68:].hex()}\n".encode()
        self.assertEqual(self.call("make", given=tags + rest).out, FIRST_JOB)

    def test_repeated_tag_and_key(self) -> None:
        value = primer_value([(2, A), (1, B), (2, C)])
        dropped = "offset 44: record 2 (tag 0x0002) is dropped: "
        why = "its tag stands in record 0 (tag 0x0002) already, which is kept\n"
        self.gives(value, table((1, B), (2, A)), dropped + why, "2 of 3 records kept")
        value = PRIMER_KEY + ber(62) + primer_value([(2, A), (1, A), (3, C)])
        why = "offset 43: record 1 (tag 0x0001) is dropped: its key"
        self.gives(value, table((2, A), (3, C)), why, "stands in record 0 (tag 0x0002) already, which is kept")

    def test_a_dropped_record_drops_no_other(self) -> None:
        """Record 1 goes for its tag, so record 2 with record 1's key stays."""
        self.gives(primer_value([(1, A), (1, B), (2, B)]), table((1, A), (2, B)), "2 of 3 records kept")

    def test_keys_that_are_none(self) -> None:
        for why, key in NO_KEYS.items():
            with self.subTest(why):
                value = primer_value([(1, bytes.fromhex(key)), (1, A)])
                self.gives(value, table((1, A)), "offset 8: record 0 (tag 0x0001) is dropped:", "is no key: ", why)
        keys = [bytes.fromhex(key) for key in KEYS]
        self.gives(primer_value(list(enumerate(keys))), table(*enumerate(keys)))

    def test_more_than_256_records(self) -> None:
        records = [(1000 - place, numbered_key(place)) for place in range(258)]
        whole = sorted(records[:256])
        self.gives(primer_value(records[:256]), table(*whole))
        said = ("record 256", "record 257", "the first 256 are kept", "256 of 258")
        self.gives(primer_value(records), table(*whole), *said)

    def test_wrong_sizes(self) -> None:
        two = [(1, A), (2, B)]
        value = primer_value(two)
        cases = [
            (primer_value(two, size=20), "offset 4: the record size is 20, and must be 18"),
            (primer_value(two, count=3), "offset 0: 3 records of 18 bytes make a value of 62 bytes, and this one"),
            (primer_value(two, count=2**32 - 1), "offset 0: 4294967295 records of 18 bytes"),
            (value + b"\0", "offset 0: 2 records of 18 bytes make a value of 44 bytes, and this one has 45"),
            (b"", "offset 0: 0 bytes for count and record size, which take 8"),
            (value[:7], "offset 0: 7 bytes for count and record size, which take 8"),
            (PRIMER_KEY, "offset 16: the length of the primer pack: the bytes end where"),
            (PRIMER_KEY + b"\x80" + value, "offset 16: the length of the primer pack: 80 begins no BER length"),
            (PRIMER_KEY + b"\x2d" + value, "offset 16: the length of the primer pack is 45, with 44 bytes after it"),
            (PRIMER_KEY + b"\x2b" + value, "offset 17: 2 records of 18 bytes make a value of 44 bytes"),
            (PRIMER_KEY[:7] + b"\x02" + PRIMER_KEY[8:] + b"\x2c" + value, "offset 0: the key 06.0E.2B.34.02.05.01.02"),
            (PRIMER_KEY[:9], "offset 0: the key 06.0E.2B.34.02.05.01.01.0D is not that of a primer pack"),
        ]
        for data, why in cases:
            with self.subTest(why):
                self.refuses(self.call("primer", given=data), f"klvjob: standard input: {why}")

    def test_bytes_after_a_whole_primer(self) -> None:
        value = primer_value([(1, A)])
        said = "offset 43: passed over: 9 bytes after the primer pack"
        self.gives(PRIMER_KEY + ber(len(value)) + value + bytes(9), table((1, A)), said)

    def test_hexadecimal(self) -> None:
        value = primer_value([(2, A), (1, B)]).hex()
        text = f"# a primer\n{value[:21]} {value[21:22]}\r\n\n{value[22:]}  # done\n"
        ran = self.call("primer", "--hex", given=text.encode())
        self.assertEqual((ran.status, ran.out, ran.err), (0, table((1, B), (2, A)), ""))
        for given, why in (
            (b"00\n0g", "line 2: 'g' is no hexadecimal digit"),
            (b"00\n\n0", "line 3: an odd number of hexadecimal digits, 1;"),
            (b"\n\xff", "line 2: byte FF at offset 1 is no UTF-8"),
        ):
            self.refuses(self.call("primer", "--hex", given=given), f"klvjob: standard input: {why}")

    def test_primers_of_other_makers(self) -> None:
        """The primers among the samples give the tag tables that stand beside the groups of the same files."""
        samples = sample_groups()
        tables = {line[1] for line in samples}
        primers = [line for line in samples if "PrimerPack" in line[0]]
        self.assertEqual(len(primers), 2)
        for name, _, _, group, *_ in primers:
            with self.subTest(name):
                ran = self.call("primer", "--hex", given=group.encode())
                self.assertEqual((ran.status, ran.err), (0, ""))
                self.assertIn(ran.out.hex().upper(), tables)
