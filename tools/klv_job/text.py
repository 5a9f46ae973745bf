"""The text that `make` reads; FORMAT says what it looks like."""

from __future__ import annotations

import re
from typing import Callable, Dict, List, NamedTuple, Optional

from .console import BadInput
from .digits import hex_bytes, hex_key, text_lines
from .kinds import UNIVERSAL, kind_of
from .numbers import Unread, ber_length
from .tables import LARGEST_NUMBER, MEASURED, MEASURED_WORD, Record
from .words import quoted

FORMAT = """\
the text, line by line:
  tag NUMBER = KEY        a record of the tag table, for local sets
  record LENGTH = KEY     a record of the pack table, for packs
  record measured = KEY   the same, for an element that measures itself
  target KEY              the key of the wanted group
  group BYTES             the group as it was sent; or, instead of it,
  set KEY                 a universal set, whose items follow; their lengths,
  item KEY = BYTES        and the set's own length, are counted for you
  item KEY = "text"       a value that is text, written in UTF-8; in it \\" and
                          \\\\ stand for a quote and a backslash

  NUMBER and LENGTH are base ten, or hexadecimal with 0x in front. BYTES are
  hexadecimal digits, two to a byte; spaces and dots are ignored. They may go on
  over lines that hold nothing else, and no BYTES at all make an empty value. A
  KEY is 16 such bytes, or urn:smpte:ul: and 16 bytes. A # begins a comment,
  except in a "text". Empty lines and spaces at the front mean nothing. There is
  one target, and one group or set; tags, records and items keep the order of
  their lines. The text is in UTF-8.

  The word measured stands for the LENGTH 0xFFFFFFFF. In a defined-length pack
  (byte 6 is 05) such an element is one whole triplet: a key, a BER length and
  that many bytes. All of these are its value, and go into an item's BYTES.
  Variable-length packs ignore LENGTH.
"""

_BYTES_ALONE = re.compile(r"[0-9A-Fa-f. \t]+")
_NUMBER = re.compile(r"0[xX][0-9A-Fa-f]+|0|[1-9][0-9]*")
_QUOTED = re.compile(r'"((?:[^"\\]|\\["\\])*)"')
_BEFORE_COMMENT = re.compile(r'(?:"(?:[^"\\]+|\\.)*"?|[^"#]+)*')


class Line(NamedTuple):
    """A line without its comment, and the file and line that messages name."""

    where: str
    text: str


class TextRecord(NamedTuple):
    """A record of a table, and the line that gave it."""

    where: str
    record: Record


class TextItem:
    """An item of a `set`; the value may grow while further lines are read."""

    def __init__(self, where: str, key: bytes) -> None:
        self.where = where
        self.key = key
        self.value = bytearray()


class Text:
    """What the lines gave: the parts of a job, each with its line; a part that was not given has an empty line."""

    def __init__(self) -> None:
        self.tags: List[TextRecord] = []
        self.packs: List[TextRecord] = []
        self.target = b""
        self.target_where = ""
        self.group_where = ""
        self.set_key: Optional[bytes] = None
        self.items: List[TextItem] = []
        self.sent = bytearray()

    def group(self) -> bytes:
        """The group: as it was sent, or the universal set of the items."""
        if self.set_key is None:
            return bytes(self.sent)
        body = b"".join(item.key + ber_length(len(item.value)) + bytes(item.value) for item in self.items)
        return self.set_key + ber_length(len(body)) + body


def lines_of(data: bytes, name: str) -> List[Line]:
    """The lines of one file that hold more than a comment."""
    lines = []
    for number, text in enumerate(text_lines(data, name), 1):
        match = _BEFORE_COMMENT.match(text)
        before = match.group().strip() if match else ""
        if before:
            lines.append(Line(f"{name}: line {number}", before))
    return lines


def read_text(lines: List[Line], name: str) -> Text:
    """What the lines say. `name` is what the whole text is called where a line is missing."""
    reader = _TextReader()
    for line in lines:
        reader.take(line)
    if not reader.text.target_where:
        raise BadInput(f"{name}: there is no target line")
    if not reader.text.group_where:
        raise BadInput(f"{name}: there is no group line and no set line")
    return reader.text


class _TextReader:
    """Takes one line after another. `open` are the bytes that lines of bytes alone go on with, if any."""

    def __init__(self) -> None:
        self.text = Text()
        self.open: Optional[bytearray] = None
        self.takers: Dict[str, Callable[[str, str], None]] = {
            "tag": self._tag,
            "record": self._record,
            "target": self._target,
            "group": self._group,
            "set": self._set,
            "item": self._item,
        }

    def take(self, line: Line) -> None:
        if _BYTES_ALONE.fullmatch(line.text):
            self._more_bytes(line)
            return
        word, *rest = line.text.split(None, 1)
        if word not in self.takers:
            words = ", ".join(self.takers)
            why = f"{quoted(word)} is none of the words that begin a line ({words}), nor are these bytes alone"
            raise BadInput(f"{line.where}: {why}")
        self.open = None
        self.takers[word](rest[0] if rest else "", line.where)

    def _more_bytes(self, line: Line) -> None:
        if self.open is None:
            raise BadInput(f"{line.where}: these bytes go on with nothing; only group and item lines have bytes")
        self.open += hex_bytes(line.text, line.where)

    def _tag(self, rest: str, where: str) -> None:
        number, digits = _halves("tag NUMBER = KEY", rest, where)
        self.text.tags.append(TextRecord(where, Record(_number(number, where), hex_key(digits, where))))

    def _record(self, rest: str, where: str) -> None:
        number, digits = _halves("record LENGTH = KEY", rest, where)
        length = MEASURED if number == MEASURED_WORD else _number(number, where, f", or the word {MEASURED_WORD}")
        self.text.packs.append(TextRecord(where, Record(length, hex_key(digits, where))))

    def _target(self, rest: str, where: str) -> None:
        if self.text.target_where:
            raise BadInput(f"{where}: a second target; the first is in {self.text.target_where}")
        self.text.target = hex_key(rest, where)
        self.text.target_where = where

    def _begin_group(self, where: str) -> None:
        if self.text.group_where:
            raise BadInput(f"{where}: a second group; the first is in {self.text.group_where}")
        self.text.group_where = where

    def _group(self, rest: str, where: str) -> None:
        self._begin_group(where)
        self.text.sent += hex_bytes(rest, where)
        self.open = self.text.sent

    def _set(self, rest: str, where: str) -> None:
        self._begin_group(where)
        key = hex_key(rest, where)
        try:
            kind = kind_of(key)
        except Unread as unread:
            raise BadInput(f"{where}: the key of a set: {unread}") from None
        if kind.name != UNIVERSAL:
            why = f"set makes a universal set, and this is the key of a {kind.name}; give its bytes with group"
            raise BadInput(f"{where}: {why}")
        self.text.set_key = key

    def _item(self, rest: str, where: str) -> None:
        if self.text.set_key is None:
            raise BadInput(f"{where}: an item with no set line before it")
        digits, value = _halves("item KEY = BYTES", rest, where)
        item = TextItem(where, hex_key(digits, where))
        if value.startswith('"'):
            item.value += _text_value(value, where)
        else:
            item.value += hex_bytes(value, where)
            self.open = item.value
        self.text.items.append(item)


def _halves(form: str, rest: str, where: str) -> List[str]:
    """What stands on either side of the first equals sign."""
    left, equals, right = rest.partition("=")
    if not equals:
        raise BadInput(f"{where}: no equals sign; the line has the form {form}")
    return [left.strip(), right.strip()]


def _number(number: str, where: str, other: str = "") -> int:
    """A number of 4 bytes. `other` is what may stand in its place, for complaints."""
    if not _NUMBER.fullmatch(number):
        why = f"{quoted(number)} is no number; give it in base ten without leading zeros, or as 0x and digits{other}"
        raise BadInput(f"{where}: {why}")
    base = 16 if number[:2] in ("0x", "0X") else 10
    if (base == 10 and len(number) > 10) or int(number, base) > LARGEST_NUMBER:
        raise BadInput(f"{where}: {quoted(number)} does not fit in 4 bytes")
    return int(number, base)


def _text_value(value: str, where: str) -> bytes:
    """The bytes of a quoted text."""
    whole = _QUOTED.fullmatch(value)
    if whole is None:
        why = 'the text must end with a quote and nothing after it; in it \\" and \\\\ are a quote and a backslash'
        raise BadInput(f"{where}: {why}")
    return re.sub(r'\\(["\\])', r"\1", whole.group(1)).encode("utf-8")
