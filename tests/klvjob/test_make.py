"""`make`: the job files that come out of good text, and what is warned of."""

import os
from typing import List

from user import FIRST_JOB, KEY, ROOT, SET, TARGET, UserCase, job, numbered_key, sample_groups, universal


class Make(UserCase):
    def made(self, text: str, *arguments: str, warned: str = "") -> bytes:
        ran = self.make(text, *arguments)
        self.assertEqual(ran.status, 0, ran.err)
        if warned:
            self.assertIn(warned, ran.err)
        else:
            self.assertEqual(ran.err, "")
        return ran.out

    def test_worked_example(self) -> None:
        self.assertEqual(len(FIRST_JOB), 104)
        ran = self.klvjob("make", os.path.join(ROOT, "examples", "first.txt"), "-o", "first.job")
        self.assertEqual((ran.status, ran.out, ran.err), (0, b"", ""))
        self.assertEqual(self.read("first.job"), FIRST_JOB)

    def test_the_same_job_in_other_clothes(self) -> None:
        texts = {
            "bytes": f"target {TARGET}\ngroup {SET}13{KEY}02ABCD\ntag 258 = {KEY}\n",
            "lower case, dots and spaces": f"tag 0X102={KEY.lower()}\n target 06.0e.2b.34 {TARGET[8:]}\nset {SET}\n"
            f"\titem\t{KEY}=a b.C d",
            "several lines": f"tag 0x102 = {KEY}\ntarget {TARGET}\ngroup\n{SET[:10]} # one\n\n  # two\n"
            f" {SET[10:]} 13\n{KEY}\n02AB CD",
            "an item over lines": f"tag 0x102 = {KEY}\ntarget {TARGET}\nset {SET}\nitem {KEY} =\nAB\nCD\n",
            "other line ends": f"tag 0x102 = {KEY}\r\ntarget {TARGET}\r\nset {SET}\r\nitem {KEY} = AB\r\nCD\r\n",
            "byte order mark": f"\ufefftag 0x102 = {KEY}\ntarget {TARGET}\nset {SET}\nitem {KEY} = ABCD",
            "urn": f"tag 0x102 = urn:smpte:ul:060e2b34.01010101.0f020000.00000000\ntarget URN:SMPTE:UL:{TARGET}\n"
            f"set {SET}\nitem {KEY} = ABCD",
        }
        for name, text in texts.items():
            with self.subTest(name):
                self.assertEqual(self.made(text), FIRST_JOB)

    def test_several_files_are_one_text(self) -> None:
        self.write("tags", f"tag 0x102 = {KEY}\n".encode())
        self.write("rest", f"target {TARGET}\nset {SET}\nitem {KEY} = ABCD\n".encode())
        self.assertEqual(self.klvjob("make", "tags", "rest").out, FIRST_JOB)
        self.assertEqual(self.klvjob("make", "tags", "-", "-o", "-", given=self.read("rest")).out, FIRST_JOB)

    def test_text_values(self) -> None:
        values = {
            '"Tor 1"': b"Tor 1",
            '"a # b"  # c': b"a # b",
            r'"\"\\\""': b'"\\"',
            '""': b"",
            '"=\u00fc\u20ac"': bytes.fromhex("3D C3BC E282AC"),
        }
        text = f"target {TARGET}\nset {SET}\n" + "".join(f"item {KEY} = {value}\n" for value in values)
        group = universal(bytes.fromhex(SET), [(bytes.fromhex(KEY), value) for value in values.values()])
        self.assertEqual(self.made(text), job(b"", b"", bytes.fromhex(TARGET), group))

    def test_pack_table(self) -> None:
        text = f"record 4 = {KEY}\nrecord 0xFFFFFFFF = {KEY}\nrecord 0 = {SET}\ntarget {TARGET}\nset {SET}"
        packs = bytes.fromhex(f"00000004{KEY}FFFFFFFF{KEY}00000000{SET}")
        self.assertEqual(self.made(text), job(b"", packs, bytes.fromhex(TARGET), bytes.fromhex(SET + "00")))

    def test_tags_out_of_order(self) -> None:
        other = numbered_key(1).hex()
        text = f"tag 2 = {KEY}\ntag 1 = {other}\ntarget {TARGET}\nset {SET}"
        rest = (b"", bytes.fromhex(TARGET), bytes.fromhex(SET + "00"))
        as_given = bytes.fromhex(f"00000002{KEY}00000001{other}")
        self.assertEqual(self.made(text, warned="line 2: warning: tag 0x0001 does not rise"), job(as_given, *rest))
        rising = bytes.fromhex(f"00000001{other}00000002{KEY}")
        self.assertEqual(self.made(text, "--sort", warned="sorted by tag"), job(rising, *rest))
        in_order = f"tag 1 = {other}\ntag 2 = {KEY}\ntarget {TARGET}\nset {SET}"
        self.assertEqual(self.made(in_order, "--sort"), job(rising, *rest))

    def test_sorting_mends_no_repeated_tag(self) -> None:
        text = f"tag 2 = {KEY}\ntag 2 = {numbered_key(1).hex()}\ntarget {TARGET}\nset {SET}"
        self.made(text, "--sort", warned="line 2: warning: tag 0x0002 does not rise above 0x0002")

    def test_warnings_name_the_refusal(self) -> None:
        no_key = "060E2B34020601010F01000000000000"
        head = f"target {TARGET}\n"
        texts = {
            f"tag 1 = {KEY}\ntag 2 = {KEY}\n{head}set {SET}": ("line 2:", "stands in record 0 already", "(refusal 1)"),
            f"{head}tag 1 = {no_key}\nset {SET}": ("line 2:", "byte 6 is 06", "(refusal 1)"),
            f"{head}set {SET}\nrecord 1 = {no_key}": ("line 3:", "no key", "(refusal 2)"),
            f"set {SET}\ntarget {KEY}": ("line 2:", "byte 5 is 01, not 02", "(refusal 3)"),
            f"target {TARGET[:-4]}0101\nset {SET}": ("line 1:", "the bytes after it are not all 00", "(refusal 3)"),
            f"{head}group": ("line 2:", "a key has 16 bytes, not 0", "(refusal 5)"),
            f"target {TARGET[:14]}02{TARGET[16:]}\nset {SET}": ("line 1:", "differ in more than byte 6", "(refusal 6)"),
            f"{head}group {SET}05": ("line 2:", "outer length is 5, with 0 bytes after it", "(refusal 7)"),
            f"{head}group {SET}0A {KEY[:20]}": ("line 2:", "a key is cut off after 10 bytes", "(refusal 8)"),
            f"{head}group {TARGET}04 0102 0000": ("line 2:", "offset 17", "tag 0x0102 is not in", "(refusal 20)"),
            f"{head}set {SET}\nitem {KEY} = 00\nitem {no_key} = 00": ("line 4:", "no key", "(refusal 19)"),
            f"{head}group {SET}11 {KEY}80": ("line 2:", "80 begins no BER length", "(refusal 9)"),
            f"{head}set {SET}\n" + f"item {KEY} =\n" * 257: ("line 259:", "the last that a set may", "(refusal 10)"),
            f"{head}group {SET[:10]}05{SET[12:]}01 AA": ("line 2:", "after the pack's 0 elements", "(refusal 11)"),
        }
        for text, parts in texts.items():
            with self.subTest(parts=parts):
                ran = self.make(text)
                self.assertEqual(ran.status, 0)
                self.assertEqual(ran.err.count("warning"), 1, ran.err)
                for part in parts:
                    self.assertIn(part, ran.err)

    def test_more_than_256_records(self) -> None:
        tags = "".join(f"tag {n} = {numbered_key(n).hex()}\n" for n in range(257))
        self.made(f"{tags}target {TARGET}\nset {SET}", warned="line 257: warning: 257 records")
        self.made(f"{tags.partition('tag 256')[0]}target {TARGET}\nset {SET}")

    def test_longest_job(self) -> None:
        head = f"target {TARGET}\ngroup {SET}\n"
        longest = self.made(head + "AA" * (65536 - 64), warned="refusal 7")
        self.assertEqual(len(longest), 65536)
        self.refuses(self.make(head + "AA" * (65536 - 63)), "line 2:", "65537 bytes", "refusal 16")

    def test_groups_of_other_makers(self) -> None:
        """The tables and groups as lines give the job that their bytes give."""
        for name, tags, packs, group, *_ in sample_groups():
            with self.subTest(name):
                lines = _record_lines("tag", tags) + _record_lines("record", packs)
                made = self.make("\n".join(lines + [f"target {TARGET}", f"group {group}"])).out
                self.assertEqual(made, job(*map(bytes.fromhex, (tags, packs, TARGET, group))))


def _record_lines(word: str, table: str) -> List[str]:
    records = [table[at : at + 40] for at in range(0, len(table), 40)]
    return [f"{word} 0x{record[:8]} = {record[8:]}" for record in records]
