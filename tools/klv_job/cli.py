"""The command line: what is asked for, and the exit status."""

from __future__ import annotations

import argparse
from functools import lru_cache
from typing import Any, List, Optional

from .console import STANDARD_INPUT, STANDARD_OUTPUT, BadInput, BadUsage, flush_output, output_faults, say
from .make import make
from .primer import primer
from .show import show
from .text import FORMAT

OK, BAD_INPUT, BAD_USAGE, INTERRUPTED = 0, 1, 2, 130

ABOUT = "Job files of the KLV group regrouper, for people."

STATUS = "exit status: 0 done, 1 bad input (standard error says where), 2 wrong usage"

MAKE_ABOUT = """\
Makes a job file from readable text. Several files are read as one text; with
no file the text comes from standard input.

Nothing is corrected: tables, keys and bytes are written as given. Where the
regrouper would refuse them, a warning with the refusal's number goes to
standard error, and the job file is written all the same. Refusals 12 to 15,
about writing the output, are not looked for."""

MAKE_EXAMPLE = """\
example:
  klvjob make examples/first.txt -o first.job
  target/bin/regroup < first.job
"""

SHOW_ABOUT = """\
Shows a job file in words: its four parts with their offsets, the tables, the
kind of the target, and the items of the group as far as they can be read. A
line that begins with ! says what would be refused, by the refusal's number.
In the pack table, measured is the length 0xFFFFFFFF: an element that measures
itself, one whole triplet (a key, a BER length and that many bytes).
The exit status is 1 only where the file is no job file (refusal 16)."""

SHOW_EXAMPLE = """\
example:
  klvjob show first.job
"""

PRIMER_ABOUT = """\
Turns the records of an MXF primer pack into a tag table, sorted by tag: 20-byte
records, or with --text lines for `klvjob make`. The input is the whole primer
pack (key 06.0E.2B.34.02.05.01.01.0D.01.02.01.01.05.01.00, BER length, value) or
its value alone.

What a tag table cannot have is dropped, and standard error says which record
and why: a key that is no key, a tag or a key that stands in an earlier record
(the first is kept), and all records after the first 256 that are kept."""

PRIMER_EXAMPLE = """\
example:
  klvjob primer --text primer.bin > tags.txt
  klvjob make tags.txt group.txt -o group.job
"""


def main(arguments: List[str]) -> int:
    """Runs one command and answers the exit status. No fault of the input or of the output ends in a traceback."""
    try:
        return _run(arguments)
    except BadInput as bad:
        say(str(bad))
        return BAD_INPUT
    except BadUsage as bad:
        say(str(bad))
        return BAD_USAGE
    except BrokenPipeError:
        return BAD_INPUT
    except KeyboardInterrupt:
        return INTERRUPTED


def _run(arguments: List[str]) -> int:
    try:
        with output_faults():
            given = _parser().parse_args(arguments)
    except SystemExit as end:
        flush_output()
        return end.code if isinstance(end.code, int) else BAD_USAGE
    if given.command == "make":
        return make(given.files or [STANDARD_INPUT], _output(given.output), given.sort)
    if given.command == "show":
        return show(given.file, given.all)
    return primer(given.file, _output(given.output), given.hex, given.text)


def _output(path: Optional[str]) -> Optional[str]:
    """The file to write; None is standard output, which may also be asked for with `-`."""
    return None if path == STANDARD_OUTPUT else path


@lru_cache(maxsize=None)
def _parser() -> argparse.ArgumentParser:
    plain: Any = {"formatter_class": argparse.RawDescriptionHelpFormatter}
    more = "klvjob COMMAND --help says more, with an example."
    parser = argparse.ArgumentParser(prog="klvjob", description=ABOUT, epilog=_lines(more, STATUS), **plain)
    commands = parser.add_subparsers(dest="command", metavar="COMMAND", required=True)
    for name, short, about, example, add in (
        ("make", "readable text to a job file", MAKE_ABOUT, _lines(FORMAT, MAKE_EXAMPLE), _add_make),
        ("show", "a job file in words", SHOW_ABOUT, SHOW_EXAMPLE, _add_show),
        ("primer", "an MXF primer pack to a tag table", PRIMER_ABOUT, PRIMER_EXAMPLE, _add_primer),
    ):
        add(commands.add_parser(name, help=short, description=about, epilog=_lines(example, STATUS), **plain))
    return parser


def _lines(*parts: str) -> str:
    return "\n".join(parts)


def _add_make(command: argparse.ArgumentParser) -> None:
    command.add_argument("files", metavar="FILE", nargs="*", help="text; standard input if none is given, or for -")
    _add_output(command)
    about = "write the tag table sorted by tag, and say so if that changed it"
    command.add_argument("--sort", action="store_true", help=about)


def _add_show(command: argparse.ArgumentParser) -> None:
    _add_input(command, "job file")
    command.add_argument("--all", action="store_true", help="show long values and bytes that do not read to their end")


def _add_primer(command: argparse.ArgumentParser) -> None:
    _add_input(command, "primer pack")
    _add_output(command)
    command.add_argument("--hex", action="store_true", help="the input is hexadecimal text; # begins a comment")
    command.add_argument("--text", action="store_true", help="write tag lines instead of 20-byte records")


def _add_input(command: argparse.ArgumentParser, what: str) -> None:
    about = f"{what}; standard input if none is given, or for -"
    command.add_argument("file", metavar="FILE", nargs="?", default=STANDARD_INPUT, help=about)


def _add_output(command: argparse.ArgumentParser) -> None:
    about = "where to write; standard output if not given, or for -"
    command.add_argument("-o", "--output", metavar="FILE", help=about)
