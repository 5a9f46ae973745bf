"""`make`: every kind of bad line is refused with its file and line."""

from user import KEY, SET, TARGET, UserCase

HEAD = f"# a comment\ntarget {TARGET}\n"
IN_SET = f"{HEAD}set {SET}\n"
NEVER_A_WORD = "is none of the words that begin a line"


class BadLines(UserCase):
    def bad(self, text: str, line: int, why: str) -> None:
        with self.subTest(why=why, text=text[-60:]):
            self.refuses(self.make(text), f"klvjob: standard input: line {line}: ", why)

    def test_words(self) -> None:
        self.bad(f"{HEAD}tags 1 = {KEY}", 3, f"'tags' {NEVER_A_WORD}")
        self.bad(f"{HEAD}Target {TARGET}", 3, f"'Target' {NEVER_A_WORD}")
        self.bad(f"{HEAD}group {SET}\n0G", 4, f"'0G' {NEVER_A_WORD}")
        self.bad(f"{HEAD}\u00fc", 3, rf"'\xfc' {NEVER_A_WORD}")
        self.bad(f"{HEAD}{'x' * 500} y", 3, f"'{'x' * 37}...' {NEVER_A_WORD}")

    def test_digits(self) -> None:
        self.bad(f"{HEAD}group 0G", 3, "'G' is no hexadecimal digit")
        self.bad(f"{HEAD}group 0x06", 3, "'x' is no hexadecimal digit")
        self.bad(f"{HEAD}group \uff10\uff16", 3, r"'\uff10' is no hexadecimal digit")
        self.bad(f"{HEAD}group 060", 3, "an odd number of hexadecimal digits, 3; a byte has two")
        self.bad(f"{HEAD}group 06\n0E0\n", 4, "an odd number of hexadecimal digits, 3; a byte has two")
        self.bad(f"{IN_SET}item {KEY} = A", 4, "an odd number of hexadecimal digits, 1; a byte has two")
        self.bad(f"{IN_SET}item {KEY} = AB\n\nC", 6, "an odd number of hexadecimal digits, 1; a byte has two")
        self.bad(f'{IN_SET}item {KEY} = AB "c"', 4, "'\"' is no hexadecimal digit")

    def test_keys(self) -> None:
        self.bad(f"target {TARGET[2:]}", 1, "a key has 16 bytes, and here are 15")
        self.bad("target", 1, "a key has 16 bytes, and here are 0")
        self.bad(f"{HEAD}tag 1 = {KEY}00", 3, "a key has 16 bytes, and here are 17")
        self.bad(f"{HEAD}record 1 = ", 3, "a key has 16 bytes, and here are 0")
        self.bad(f"{HEAD}set {SET[:-1]}", 3, "an odd number of hexadecimal digits, 31;")
        self.bad(f"{IN_SET}item {KEY[2:]} = 00", 4, "a key has 16 bytes, and here are 15")
        self.bad(f"{HEAD}tag 1 = urn:smpte:ul:", 3, "a key has 16 bytes, and here are 0")
        self.bad(f"{HEAD}tag 1 = urn:oid:{KEY}", 3, "'u' is no hexadecimal digit")

    def test_sets(self) -> None:
        self.bad(f"{HEAD}set {TARGET}", 3, "this is the key of a local set; give its bytes with group")
        self.bad(f"{HEAD}set {KEY}", 3, "it is no group: byte 5 is 01, not 02")
        self.bad(f"{HEAD}set 00{SET[2:]}", 3, "it is no key: it begins with 00.0E.2B.34")
        self.bad(f"{HEAD}item {KEY} = 00", 3, "an item with no set line before it")
        self.bad(f"{HEAD}group {SET}00\nitem {KEY} = 00", 4, "an item with no set line before it")

    def test_numbers(self) -> None:
        for number in ("0102", "3C0A", "", "-1", "+1", "1_0", "0x", "1.5", "1 2", "\u0661", "0b1"):
            self.bad(f"{HEAD}tag {number} = {KEY}", 3, "is no number; give it in base ten without leading zeros")
        for number in ("4294967296", "0x100000000", "9" * 5000):
            self.bad(f"{HEAD}record {number} = {KEY}", 3, "does not fit in 4 bytes")

    def test_forms(self) -> None:
        self.bad(f"{HEAD}tag 1 {KEY}", 3, "no equals sign; the line has the form tag NUMBER = KEY")
        self.bad(f"{HEAD}record", 3, "no equals sign; the line has the form record LENGTH = KEY")
        self.bad(f"{IN_SET}item {KEY}", 4, "no equals sign; the line has the form item KEY = BYTES")

    def test_texts(self) -> None:
        for value in ('"', '"a', '"a" b', '"a"b"', '"a\\"', '"\\n"', '"a" "b"', '"# \\'):
            self.bad(f"{IN_SET}item {KEY} = {value}", 4, "the text must end with a quote and nothing after it")

    def test_bytes_that_go_on_with_nothing(self) -> None:
        self.bad("00", 1, "these bytes go on with nothing")
        self.bad(f"{HEAD}00", 3, "these bytes go on with nothing")
        self.bad(f"{IN_SET}00", 4, "these bytes go on with nothing")
        self.bad(f'{IN_SET}item {KEY} = "a"\n00', 5, "these bytes go on with nothing")
        self.bad(f"{HEAD}group {SET}\ntag 1 = {KEY}\n00", 5, "these bytes go on with nothing")

    def test_twice(self) -> None:
        self.bad(f"{HEAD}target {TARGET}", 3, "a second target; the first is in standard input: line 2")
        for second in (f"group {SET}00", f"set {SET}"):
            self.bad(f"{IN_SET}{second}", 4, "a second group; the first is in standard input: line 3")
            self.bad(f"{HEAD}group\n{second}", 4, "a second group; the first is in standard input: line 3")

    def test_missing_lines(self) -> None:
        self.refuses(self.make(f"set {SET}"), "klvjob: standard input: there is no target line")
        self.refuses(self.make(""), "klvjob: standard input: there is no target line")
        self.refuses(self.make(HEAD), "klvjob: standard input: there is no group line and no set line")

    def test_no_utf_8(self) -> None:
        for data, line, byte, at in (
            (b"\xff", 1, "FF", 0),
            (b"# a\n\n# \xe4\n", 3, "E4", 7),
            (b"\xef\xbb\xbf#\n\xc3(", 2, "C3", 5),
            (b"# \xed\xa0\x80", 1, "ED", 2),
        ):
            with self.subTest(data):
                ran = self.call("make", given=data)
                self.refuses(ran, f"standard input: line {line}: byte {byte} at offset {at} is no UTF-8 text")

    def test_file_name_stands_in_the_message(self) -> None:
        self.write("good.txt", HEAD.encode())
        self.write("bad.txt", b"\n\nnonsense\n")
        ran = self.klvjob("make", "good.txt", "bad.txt", "-o", "out.job")
        self.refuses(ran, f"klvjob: bad.txt: line 3: 'nonsense' {NEVER_A_WORD}")
        ran = self.klvjob("make", "good.txt", "good.txt")
        self.refuses(ran, "klvjob: good.txt: line 2: a second target; the first is in good.txt: line 2\n")
        with self.assertRaises(FileNotFoundError):
            self.read("out.job")
