"""What was read, held in a file that has no name, line by line: it is read again beside its answers, and memory holds none of it."""
import re
import sys
import tempfile
from contextlib import contextmanager
from itertools import islice

import answers
import journal
from calls import TOP, covered, parse, text_of
from output import Unwritten
from reading import Tally, Unreadable, blocks

TOGETHER = 4096  # blocks of a journal
OFFERS = re.compile("^f ([0-9]+) ([0-9]+)$", re.MULTILINE)


@contextmanager
def _written():
    """A failure here is none of what is read."""
    try:
        yield
    except OSError as error:
        raise Unwritten(f"a file in {tempfile.gettempdir()} cannot be written: {error.strerror}") from None


class Held:
    """`count` is of lines, `calls` of those that have something in them; `tally` what was read differently; `fault` ends a journal, or answers."""

    def __init__(self, progress):
        with _written():
            self.file = tempfile.TemporaryFile("w+", encoding="latin-1", newline="\n")
        self.progress, self.tally = progress, Tally()
        self.count = self.calls = 0
        self.longest = self.widest = len("call")  # of a line as it is shown, and with its address in hexadecimal
        self.reach = 1  # no accepted call covers this byte, or one after it
        self.fault = None

    def put(self, block, shown=None):
        """Lines, each with its end; of each is shown what `shown` has, or all."""
        with _written():
            self.file.write(block)
        shown = block if shown is None else shown
        lines = shown.split("\n")[:-1]
        self.count += len(lines)
        self.calls += len(lines) - lines.count("")
        self._measure(lines)
        self.cover(int(start) + int(size) for start, size in OFFERS.findall(shown))
        self.progress.at(self.count)

    def _measure(self, lines):
        self.longest = max(self.longest, max(map(len, lines)))
        for line in lines:
            if len(line) + 2 > self.widest:  # no number is longer by more in hexadecimal
                call = parse(line)
                self.widest = max(self.widest, len(text_of(call, hex) if call else line))

    def cover(self, ends):
        """Bytes up to these may be covered; no call is accepted that passes the last address."""
        self.reach = max(self.reach, max((end for end in ends if end <= TOP), default=1))

    def lines(self, *more):
        """The lines again, from the first, each with its end; behind them more, which are not counted."""
        with _written():
            self.file.writelines(more)
            self.file.seek(0)
        return self.file


def calls_or_journal_of(source, progress):
    """What was read, and whether it is a journal."""
    is_recorded = journal.is_journal(source.peek(1))
    if not is_recorded and journal.is_none(source.peek(1)):
        raise Unreadable(f"begins with the byte {source.peek(1)[0]}: it is no text, and no journal of this version, which begins with {journal.VERSION[0]}")
    return (journal_of if is_recorded else calls_of)(source, progress), is_recorded


def calls_alone_of(source, progress):
    """The calls of a file that is no journal."""
    held, is_recorded = calls_or_journal_of(source, progress)
    if is_recorded:
        raise Unreadable("is a journal, which has its own answers: ./run books judges them")
    return held


def calls_of(source, progress):
    """The calls of a file."""
    held = Held(progress)
    for block in blocks(source, held.tally):
        held.put(block)
    return held


def answers_of(source, progress):
    """The lines of a box's answers that have something in them, and how many answers they are, up to a fault."""
    held = Held(progress)
    for block in blocks(source, held.tally):
        written = "".join(line + "\n" for line in block.split("\n") if line)
        if written:
            held.put(written)
    held.calls = 0
    try:
        for _ in answers.taken(held.lines()):
            held.calls += 1
    except Unreadable as fault:
        held.fault = fault
    return held


def journal_of(source, progress):
    """Each block as a line: its call, and the number that it records."""
    held = Held(progress)
    source.read(len(journal.VERSION))
    recorded = journal.blocks(source)
    while not held.fault:
        calls, lines, ends = [], [], []
        try:
            for _, call, number in islice(recorded, TOGETHER):
                calls.append(text_of(call))
                lines.append(f"{calls[-1]} {number}\n")
                ends.append(covered(call, number)[1])
        except journal.Faulty as fault:
            held.fault = fault
        if not lines:
            break
        held.put("".join(lines), "".join(call + "\n" for call in calls))
        held.cover(ends)
    return held


def called(name):
    return "standard input" if name == "-" else name


def read(name, what, reader):
    """What `reader` makes of a file of bytes, of which `what` are read; `-` is standard input."""
    if not name:
        raise Unreadable("the name of the file is empty")
    try:
        with sys.stdin.buffer if name == "-" else open(name, "rb") as source:
            return reader(source)
    except OSError as error:
        raise Unreadable(_why(name, what, error)) from None
    except Unreadable as error:
        raise Unreadable(f"{called(name)} {error}") from None


def _why(name, what, error):
    """In the words of the other commands."""
    if isinstance(error, (FileNotFoundError, NotADirectoryError)):
        return f"there is no file {name}"
    if isinstance(error, IsADirectoryError):
        return f"{name} is a folder, and {what} are read from a file"
    return f"{'standard input' if name == '-' else f'the file {name}'} cannot be read: {error.strerror}"
