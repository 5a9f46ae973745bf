"""Files, standard input and output, and the command line itself: plain words and a status, whatever goes wrong."""

import os
import pty
import subprocess
import sys

from user import FIRST_JOB, KLVJOB, PRIMER_KEY, UserCase, ber, numbered_key, primer_value

# Settings of the caller that change how Python writes would hide what is tested here.
PLAIN = {name: value for name, value in os.environ.items() if not name.startswith("PYTHON")}


class Streams(UserCase):
    def setUp(self) -> None:
        super().setUp()
        self.write("first.job", FIRST_JOB)
        self.write("first.txt", f"target {FIRST_JOB[52:68].hex()}\ngroup {FIRST_JOB[68:].hex()}\n".encode())
        self.write("primer.bin", primer_value([(1, numbered_key(1))]))

    def shell(self, line: str) -> "subprocess.CompletedProcess[bytes]":
        """A line of bash in which klvjob is a command."""
        script = f'klvjob() {{ "{sys.executable}" "{KLVJOB}" "$@"; }}; {line}'
        done = subprocess.run(["bash", "-c", script], capture_output=True, cwd=self.folder, env=PLAIN, timeout=20)
        self.assertNotIn(b"Traceback", done.stderr)
        self.assertNotIn(b"Exception", done.stderr)
        return done

    def test_help(self) -> None:
        ran = self.klvjob("--help")
        self.assertEqual((ran.status, ran.err), (0, ""))
        for command in ("make", "show", "primer"):
            self.assertIn(command.encode(), ran.out)
            ran_help = self.call(command, "--help")
            self.assertEqual((ran_help.status, ran_help.err), (0, ""))
            self.assertIn(f"example:\n  klvjob {command} ".encode(), ran_help.out)

    def test_wrong_usage(self) -> None:
        for arguments in ((), ("mak",), ("show", "a", "b"), ("make", "--bogus"), ("make", "-o"), ("primer", "a", "b")):
            with self.subTest(arguments):
                ran = self.call(*arguments)
                self.assertEqual((ran.status, ran.out), (2, b""))
                self.assertIn("usage: klvjob", ran.err)

    def test_inputs_that_cannot_be_read(self) -> None:
        folder = os.path.join(self.folder, "folder")
        os.mkdir(folder)
        for command in ("make", "show", "primer"):
            missing = os.path.join(folder, "missing")
            self.refuses(self.call(command, missing), f"klvjob: {missing}: cannot be read: No such file or directory\n")
            self.refuses(self.call(command, folder), f"klvjob: {folder}: cannot be read: Is a directory\n")
            self.refuses(self.call(command, ""), "klvjob: : cannot be read: No such file or directory\n")
        self.refuses(self.klvjob("show", "missing"), "klvjob: missing: cannot be read: No such file or directory\n")

    def test_outputs_that_cannot_be_written(self) -> None:
        for command, name in (("make", "first.txt"), ("primer", "primer.bin")):
            given = os.path.join(self.folder, name)
            no = os.path.join(self.folder, "no", "such")
            self.refuses(self.call(command, given, "-o", no), f"klvjob: {no}: cannot be written: No such file")
            self.refuses(self.call(command, given, "-o", "."), "klvjob: .: cannot be written: Is a directory")
            before = self.read(name)
            ran = self.klvjob(command, name, "-o", f"./{name}")
            self.assertEqual((ran.status, ran.err), (2, f"klvjob: ./{name}: is an input; give -o another file\n"))
            self.assertEqual(self.read(name), before)

    def test_inputs_too_long(self) -> None:
        for command in ("make", "primer"):
            self.refuses(self.call(command, "/dev/zero"), "klvjob: /dev/zero: offset 4194304: the input goes on")
        ran = self.call("show", "/dev/zero")
        self.assertEqual(ran.status, 1)
        self.assertIn("klvjob: /dev/zero: offset 65536: no job file (refusal 16)", ran.err)

    def test_no_binary_on_a_terminal(self) -> None:
        for command, given in (("make", "first.txt"), ("primer", "primer.bin")):
            leader, follower = pty.openpty()
            with os.fdopen(leader, "rb"), os.fdopen(follower, "wb") as terminal:
                done = subprocess.run(
                    [sys.executable, KLVJOB, command, given], stdout=terminal, stderr=subprocess.PIPE, cwd=self.folder
                )
            self.assertEqual(done.returncode, 2)
            self.assertIn(b"standard output is a terminal; give -o FILE", done.stderr)

    def test_reader_that_goes_away(self) -> None:
        for command in ("show first.job", "make first.txt", "--help"):
            done = self.shell(f"{{ sleep 0.2; klvjob {command}; echo $? > status; }} | true; cat status")
            self.assertEqual((done.stdout, done.stderr), (b"1\n", b""), command)

    def test_full_and_closed_streams(self) -> None:
        for command in ("show first.job", "make first.txt"):
            done = self.shell(f"klvjob {command} > /dev/full")
            self.assertEqual(done.returncode, 1)
            self.assertEqual(done.stderr, b"klvjob: standard output: cannot be written: No space left on device\n")
            done = self.shell(f"klvjob {command} >&-")
            self.assertEqual((done.returncode, done.stderr), (1, b"klvjob: standard output is closed\n"))
        self.assertEqual(self.shell("klvjob --help > /dev/full").returncode, 1)
        self.assertEqual(self.shell("klvjob make <&-").stderr, b"klvjob: standard input is closed\n")
        for closed in ("2>&-", "2>/dev/full"):
            done = self.shell(f"klvjob show missing {closed}")
            self.assertEqual((done.returncode, done.stdout), (1, b""), closed)

    def test_warnings_stay_out_of_the_output(self) -> None:
        """Also where standard error is closed."""
        self.write("warned.txt", f"target {FIRST_JOB[52:68].hex()}\ngroup\n".encode())
        expected = self.klvjob("make", "warned.txt").out
        self.assertEqual(len(expected), 48)
        self.assertEqual(self.shell("klvjob make warned.txt 2>&-").stdout, expected)

    def test_odd_names_and_plain_locale(self) -> None:
        name = "j\u00f6b \udcff"
        with open(os.path.join(self.folder, name), "wb") as file:
            file.write(FIRST_JOB[:-1])
        env = dict(PLAIN, LC_ALL="C", PYTHONIOENCODING="ascii")
        ran = self.klvjob("show", name, env=env)
        self.assertEqual(ran.status, 1)
        self.assertIn("offset 28: no job file", ran.err)

    def test_from_a_link_elsewhere(self) -> None:
        os.symlink(KLVJOB, os.path.join(self.folder, "linked"))
        done = subprocess.run(["./linked", "show", "first.job"], capture_output=True, cwd=self.folder)
        self.assertEqual((done.returncode, done.stderr), (0, b""))

    def test_primer_from_a_pipe(self) -> None:
        value = primer_value([(1, numbered_key(1))])
        self.write("whole.bin", PRIMER_KEY + ber(len(value)) + value)
        done = self.shell("cat whole.bin | klvjob primer --text | cat - first.txt | klvjob make - | klvjob show -")
        self.assertEqual((done.returncode, done.stderr), (0, b""))
        self.assertIn(b"tag table: offset 32, length 20, 1 record\n", done.stdout)
