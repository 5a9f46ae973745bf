"""`show`: what is said of job files that are well formed, and which rule a malformed one breaks."""

import struct

from user import FIRST_JOB, KEY, SET, TARGET, UserCase, job, sample_groups, universal

FIRST_SHOWN = """\
job file of 104 bytes; offsets count from its first byte
tag table: offset 32, length 20, 1 record
  record 0: 0x0102 = 06.0E.2B.34.01.01.01.01.0F.02.00.00.00.00.00.00
pack table: offset 52, length 0, 0 records
target key: offset 52, length 16
  key 06.0E.2B.34.02.53.01.01.0F.01.00.00.00.00.00.00
  local set: tags of 2 bytes, lengths of 2 bytes
group: offset 68, length 36
  key 06.0E.2B.34.02.01.01.01.0F.01.00.00.00.00.00.00
  universal set: items of key, BER length, value
  outer length 19 (13), 1 item read
  item 0 at offset 85: key 06.0E.2B.34.01.01.01.01.0F.02.00.00.00.00.00.00
    value at offset 102, 2 bytes: AB CD
"""

# Other makers' groups that are refused, by a part of their name.
REFUSED = {
    "primer in file order": "! refusal 1: record",
    "primer with a dark record": "! refusal 1: record",
    "Fill": "! refusal 5: the group: it is no group: byte 5 is 01",
    "KLV 060E2B34010201010D01030115010500": "! refusal 5: the group: it is no group: byte 5 is 01",
    "gst_raw_pcm.mxf@47292": "! refusal 20, place 1: offset 1326: tag 0x3F0B is not in the tag table",
}


def of_kind(byte6: str, rest: str = "") -> bytes:
    """A group key with this byte 6, and what follows it."""
    return bytes.fromhex(f"060E2B3402{byte6}01010F01000000000000{rest}")


def groups_job(group: bytes, tags: str = "", packs: str = "", target: str = TARGET) -> bytes:
    return job(bytes.fromhex(tags), bytes.fromhex(packs), bytes.fromhex(target), group)


class Show(UserCase):
    def shows(self, data: bytes, *parts: str) -> str:
        ran = self.call("show", given=data)
        self.assertEqual((ran.status, ran.err), (0, ""))
        shown = ran.out.decode("ascii")
        for part in parts:
            self.assertIn(part, shown)
        return shown

    def test_worked_example(self) -> None:
        self.write("first.job", FIRST_JOB)
        ran = self.klvjob("show", "first.job")
        self.assertEqual((ran.status, ran.out.decode(), ran.err), (0, FIRST_SHOWN, ""))

    def test_kinds(self) -> None:
        lengths = {0x00: "in BER", 0x20: "of 1 byte", 0x40: "of 2 bytes", 0x60: "of 4 bytes"}
        tags = {0x03: "of 1 byte", 0x0B: "in a BER word", 0x13: "of 2 bytes", 0x1B: "of 4 bytes"}
        words = {0x01: "universal set: items of key, BER length, value", 0x05: "defined-length pack: elements of a"}
        for high, length in lengths.items():
            words[high + 0x02] = f"lengths {length}"
            words[high + 0x04] = f"variable-length pack: elements of length ({length.split(' ', 1)[1]}) and value"
            words.update({high + low: f"local set: tags {tag}, lengths {length}" for low, tag in tags.items()})
        self.assertEqual(len(words), 26)
        for byte6 in range(1, 0x80):
            with self.subTest(byte6):
                target = f"060E2B3402{byte6:02X}05010F01000000000000"
                shown = self.shows(groups_job(of_kind(f"{byte6:02X}", "00"), target=target))
                if byte6 in words:
                    self.assertEqual(shown.count(words[byte6]), 1 if byte6 & 0x1F == 0x02 else 2)
                else:
                    self.assertIn("! refusal 3: the target: it is no", shown)
                    self.assertIn("! refusal 5: the group: it is no", shown)

    def test_global_sets(self) -> None:
        key = "060E2B34020205010101010203000000"
        item = "060E2B3401010102030500 0000000000".replace(" ", "")
        shown = self.shows(groups_job(bytes.fromhex(key + "05 0500 02 4142")))
        self.assertIn("global set: root 06.0E.2B.34.01.01.01.02.03, lengths in BER\n", shown)
        self.assertIn(f"tag 05.00, key {'.'.join(item[at : at + 2] for at in range(0, 32, 2))}", shown)
        self.assertIn('2 bytes: 41 42 "AB"', shown)
        self.shows(groups_job(bytes.fromhex(key + "05 81000400 00")), "item 0 at offset 65: tag 81.00.04.00, key")
        for rest, said in {
            "02 0000": "! refusal 19, place 0: offset 65: a global tag is empty",
            "02 0505": "! refusal 8, place 0: offset 65: a global tag is cut off after 2 bytes",
            "02 8005": "! refusal 8, place 0: offset 65: a global tag is cut off after 2 bytes",
            "03 800500": "! refusal 19, place 0: offset 65: root and tag make 06.0E.2B.34.01.01.01.02.03.80.05",
            "0D" + "05" * 12 + "00": "! refusal 19, place 0: offset 65: root and tag have 21 bytes together",
        }.items():
            with self.subTest(said):
                self.shows(groups_job(bytes.fromhex(key + rest)), said)

    def test_roots(self) -> None:
        """Byte 7 is 1 plus the bytes that the root takes from the set's own key; the designator follows."""
        for byte7, designator, said in (
            ("01", "01020304", "root 01.02.03.04, lengths"),
            ("01", "010203", "! refusal 5: the group: it is no group: the root of a global set has 4 to 15 bytes,"),
            ("03", "0102", "root 06.0E.01.02, lengths"),
            ("07", "0102", "root 06.0E.2B.34.02.62.01.02, lengths of 4 bytes"),
            ("09", "8100", "root 06.0E.2B.34.02.62.09.01.81.00, lengths"),
            ("09", "01", "! refusal 5: the group: it is no group: the designator of a global set has 2 to 8"),
            ("08", "0102030405060708", "root 06.0E.2B.34.02.62.08.01.02.03.04.05.06.07.08, lengths"),
            ("09", "0102030405060708", "! refusal 5: the group: it is no group: the root of a global set has 4 to 15"),
            ("0A", "0102", "! refusal 5: the group: it is no group: byte 7 of a global set is 0A, and lies in 01..09"),
        ):
            with self.subTest(said):
                self.shows(groups_job(bytes.fromhex(f"060E2B340262{byte7}01{designator.ljust(16, '0')}00")), said)

    def test_where_a_group_does_not_read(self) -> None:
        local = of_kind("0B").hex()
        cases = {
            local + "00": "outer length 0 (00), 0 items read",
            local + "830000050200020000": "outer length 5 (83.00.00.05)",
            local[:20]: "! refusal 5: the group: it is no key: a key has 16 bytes, not 10",
            local: "! refusal 7: offset 64: the outer length: the bytes end where a BER length should stand",
            local + "8201": "! refusal 7: offset 64: the outer length: the BER length 82 takes 2 more bytes, with",
            local + "0502": "! refusal 7: offset 64: the outer length is 5, with 1 byte after it",
            local + "00AA": "! refusal 7: offset 64: the outer length is 0, with 1 byte after it",
            local + "0180": "! refusal 19, place 0: offset 65: a BER word does not begin with 80",
            local + "0181": "! refusal 8, place 0: offset 65: a BER word is cut off after 1 byte\n",
            local + "0481818181": "! refusal 19, place 0: offset 65: a BER word has more than 4 bytes",
            local + "028101": "! refusal 9, place 0: offset 67: the length of item 0: the bytes end where a BER length",
            local + "02 0189": "! refusal 9, place 0: offset 66: the length of item 0: 89 begins no BER length",
            local + "03 010500": "! refusal 9, place 0: offset 67: the value has 5 bytes, with 1 byte left",
            of_kind("53").hex() + "03 010200": "! refusal 9, place 0: offset 67: the length of item 0: a number",
            SET + "0A 060E2B34010101010F02": "! refusal 8, place 0: offset 65: a key is cut off after 10 bytes",
            SET + "0A FFFFFFFFFFFFFFFFFFFF": "! refusal 8, place 0: offset 65: a key is cut off after 10 bytes",
            SET + "11" + "FF" * 16 + "00": "! refusal 19, place 0: offset 65: FF.FF.FF",
            local + "02 0500": "! refusal 20, place 0: offset 65: tag 0x0005 is not in the tag table",
            of_kind("1B").hex() + "03 000000": "! refusal 8, place 0: offset 65: a number of 4 bytes is cut off",
        }
        for group, said in cases.items():
            with self.subTest(said):
                self.shows(groups_job(bytes.fromhex(group)), said)

    def test_packs(self) -> None:
        packs = f"00000002{KEY}00000001{KEY}"
        shown = self.shows(groups_job(of_kind("05", "03 AABBCC"), packs=packs), "record 0: length 2 = 06.0E")
        self.assertIn("2 bytes: AA BB\n", shown)
        self.assertNotIn("!", shown)
        short, long = of_kind("05", "02 AABB"), of_kind("05", "04 AABBCCDD")
        self.shows(groups_job(short, packs=packs), "! refusal 9, place 1: offset 107: the value has 1 byte, with 0")
        self.shows(groups_job(long, packs=packs), "! refusal 11, place 2: offset 108: bytes are left", "     108  DD")
        self.shows(groups_job(of_kind("24", "03 00 01AA"), packs=packs), "2 items read", "0 bytes\n", "1 byte: AA")

    def test_tables(self) -> None:
        other = KEY[:-2] + "01"
        faulty = f"00000002{KEY}00000002{other}"
        empty = of_kind("01", "00")
        self.shows(groups_job(empty, tags=faulty), "! refusal 1: record 1 at offset 52: tag 0x0002 does not rise")
        self.shows(groups_job(empty, tags=faulty[:-2]), "1 record\n", "! refusal 1: offset 52: 19 bytes at the end")
        self.shows(groups_job(empty, packs=f"00000001{other}"), "! refusal 2: record 0 at offset 32: 06.0E.2B")
        self.shows(groups_job(empty, tags=f"FFFFFFFF{KEY}"), "record 0: 0xFFFFFFFF = 06.0E")

    def test_other_family_and_no_target(self) -> None:
        empty = of_kind("01", "00")
        self.shows(groups_job(empty, target="060E2B34025301020F01" + "00" * 6), "! refusal 6: the keys of group")
        self.shows(groups_job(empty, target=""), "  no bytes\n  ! refusal 3: the target: it is no key: a key has 16")

    def test_long_values(self) -> None:
        data = groups_job(universal(bytes.fromhex(SET), [(bytes.fromhex(KEY), bytes(range(100)))]) + bytes(300))
        self.shows(data, "1E 1F .. and 68 more\n", "not read, from offset", "300 bytes:\n", ".. and 44 bytes more")
        whole = self.call("show", "--all", given=data).out.decode()
        self.assertIn("61 62 63\n", whole)
        self.assertNotIn("more", whole)

    def test_longest_job(self) -> None:
        self.shows(groups_job(of_kind("01", "00").ljust(65536 - 48, b"\0")), "job file of 65536 bytes;")

    def test_malformed_jobs(self) -> None:
        pairs = [32, 20, 52, 0, 52, 16, 68, 36]
        body = FIRST_JOB[32:]
        cases = [
            (FIRST_JOB[:31], 31, "the four pairs take 32 bytes, and the file ends after 31"),
            (b"", 0, "the four pairs take 32 bytes, and the file ends after 0"),
            (FIRST_JOB + b"\0", 28, "the group ends at 104, and must end where the file does, at 105"),
            (FIRST_JOB[:-1], 28, "the group ends at 104, and must end where the file does, at 103"),
            (bytes(65537), 65536, "a job file has at most 65536 bytes, and this one goes on"),
        ]
        names = ("tag table", "pack table", "target key", "group")
        for place, name in enumerate(names):
            far = pairs[2 * place] + 2**31
            moved = struct.pack(">8I", *pairs[: 2 * place], far, *pairs[2 * place + 1 :])
            cases.append((moved + body, 8 * place, f"the offset of the {name} is {far}, and must be"))
        for data, at, why in cases:
            with self.subTest(why):
                ran = self.call("show", given=data)
                self.assertEqual(ran.status, 1)
                self.assertIn(f"standard input: offset {at}: no job file (refusal 16): {why}", ran.err)
        self.write("cut.job", FIRST_JOB[:-1])
        ran = self.klvjob("show", "cut.job")
        self.assertEqual(ran.status, 1)
        self.assertIn("klvjob: cut.job: offset 28: no job file (refusal 16)", ran.err)
        self.assertIn(b"group: offset 68, length 36\n", ran.out)

    def test_groups_of_other_makers(self) -> None:
        for name, tags, packs, group, *_ in sample_groups():
            with self.subTest(name):
                data = groups_job(bytes.fromhex(group), tags, packs, group[:32])
                lines = self.call("show", given=data).out.decode().split("\n")
                wrong = [line.strip() for line in lines if line.startswith("  ! ") and "refusal 3" not in line]
                expected = [said for part, said in REFUSED.items() if part in name]
                if expected:
                    self.assertTrue(wrong and wrong[0].startswith(expected[0]), wrong)
                else:
                    self.assertEqual(wrong, [])
