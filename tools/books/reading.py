"""Lines read leniently: what Windows, a spreadsheet or a box's log adds to a call, and no more. What was read differently is counted."""
import re
from collections import namedtuple

from calls import MOST, parse
from words import counted

LONGEST = 4096  # bytes of a line; a longer one is no call, and what it has beyond a block of lines is passed over
BLOCK = 1 << 16
SHORT = "(?:0|[1-9][0-9]{0,18})"  # surely below 2^64
PLAIN_LINE = re.compile(f"(?:[fa] {SHORT} {SHORT}|r {SHORT} {SHORT} {SHORT}|l)")
PLAIN = re.compile(f"(?:{PLAIN_LINE.pattern}\n)*".encode())
HEXADECIMAL = re.compile("0[xX][0-9a-fA-F]+")
MARK = b"\xef\xbb\xbf"
UTF_16 = (b"\xff\xfe", b"\xfe\xff")
MOST_SHOWN = 60

SAYINGS = {
    "mark": "a byte-order mark at the beginning is left out",
    "return": "a carriage return at the end is left out",
    "blanks": "tabs, or more spaces than one, are taken as one space, and those at the ends are left out",
    "comment": "what follows a # is left out",
    "empty": "a line with nothing in it is passed over",
    "hexadecimal": "hexadecimal numbers are taken as such",
}

Seen = namedtuple("Seen", "count first")


class Unreadable(Exception):
    """The input cannot be read as what it should be; the text says why."""


class Tally:
    """How often something was read differently, and where first."""

    def __init__(self):
        self.seen = {}

    def note(self, what, number):
        count, first = self.seen.get(what, (0, number))
        self.seen[what] = Seen(count + 1, first)

    def sayings(self):
        for what, saying in SAYINGS.items():
            if what in self.seen:
                count, first = self.seen[what]
                where = f"line {first}" if count == 1 else f"{counted(count, 'line')}, the first is line {first}"
                yield f"{saying} ({where})"


def blocks(source, tally):
    """The lines as text, many at a time, each with its end: cleaned, and empty where there is nothing to answer."""
    number = 1
    while True:
        block = source.read(BLOCK)
        if not block:
            return
        block += _rest_of_line(source) if block[-1:] != b"\n" else b""
        if number == 1:
            block = _unmarked(block, tally)
        if not block:
            return
        if PLAIN.fullmatch(block):
            text = block.decode("ascii")
        else:
            lines = block.removesuffix(b"\n").decode("latin-1").split("\n")
            text = "".join(_line(line, at, tally) + "\n" for at, line in enumerate(lines, number))
        number += text.count("\n")
        yield text


def _line(text, number, tally):
    return text if PLAIN_LINE.fullmatch(text) else cleaned(text, number, tally)


def _rest_of_line(source):
    """The end of a line that was begun; of one without an end only so much that it is too long."""
    rest = source.readline(LONGEST + 2)
    while len(rest) > LONGEST and rest[-1:] != b"\n":
        more = source.readline(BLOCK)
        if more[-1:] == b"\n" or not more:
            return rest + more[-1:]
    return rest


def _unmarked(raw, tally):
    if raw.startswith(UTF_16):
        raise Unreadable("is written in UTF-16: save it as plain text, UTF-8")
    if not raw.startswith(MARK):
        return raw
    tally.note("mark", 1)
    return raw[len(MARK) :]


def cleaned(text, number, tally):
    """A line without what is read leniently."""
    if parse(text):
        return text
    if len(text) > LONGEST and "#" not in text:
        return shown(text)
    if text.endswith("\r"):
        tally.note("return", number)
        text = text[:-1]
    if "#" in text:
        tally.note("comment", number)
        text = text[: text.index("#")].rstrip(" \t")
    elif not text.strip(" \t"):
        tally.note("empty", number)
        return ""
    fields = re.split("[ \t]+", text.strip(" \t"))
    if " ".join(fields) != text:
        tally.note("blanks", number)
    taken = [_number(field) for field in fields]
    if taken != fields:
        tally.note("hexadecimal", number)
    text = " ".join(taken)
    return text if parse(text) else shown(text)


def _number(field):
    if HEXADECIMAL.fullmatch(field) and int(field, 16) < MOST:
        return str(int(field, 16))
    return field


def shown(text):
    """A line that is no call so that it can be printed, and still is none."""
    safe = "".join(mark if " " <= mark <= "~" else f"\\x{ord(mark):02x}" for mark in text[: MOST_SHOWN + 1])
    return safe if len(safe) <= MOST_SHOWN else safe[:MOST_SHOWN] + ".."
