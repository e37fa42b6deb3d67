"""The table of cases, cases.txt beside this file, whose head says what its lines are; and a case as a script and what it prints."""
import re
from dataclasses import dataclass, field
from pathlib import Path

TABLE = Path(__file__).resolve().parent / "cases.txt"
CALLS = {"f": 2, "a": 2, "r": 3, "p": 2, "q": 2}
OPERAND = r"(\d+|RECORDS|K)"
NUMBER = re.compile(rf"-?{OPERAND}([-+*]{OPERAND})*")
STEP = re.compile(rf"([-+*]?){OPERAND}")


class Unreadable(Exception):
    """A line that is none of the table's."""


@dataclass(frozen=True)
class Call:
    word: str
    numbers: tuple
    answer: int

    def text(self):
        return " ".join([self.word, *map(str, self.numbers)])

    def printed(self):
        if self.answer < 0:
            return [f"no {-self.answer}"]
        return [f"ok {self.answer}" if self.word == "a" else "ok"]


@dataclass(frozen=True)
class Listing:
    total: int
    ranges: tuple  # of first and last byte

    def text(self):
        return "l"

    def printed(self):
        return [f"list {len(self.ranges)} {self.total}", *(f"{first} {last}" for first, last in self.ranges)]


@dataclass
class Case:
    section: str
    name: str
    lines: list = field(default_factory=list)
    records: int = None  # where they are not the program's
    chain: list = None  # of the record's number, first and last byte
    shelf: list = None  # of the same, by size

    def has_pages(self):
        return any(line.word in "pq" for line in self.lines if isinstance(line, Call))

    def is_script(self):
        """Whether the script program can play it."""
        return self.records is None and not self.has_pages()

    def script(self):
        return [line.text() for line in self.lines]

    def printed(self):
        return [text for line in self.lines for text in line.printed()]

    def listed(self):
        """The listing of the book at its end, where that is said."""
        if self.chain is None:
            return []
        ranges = tuple((first, last) for _, first, last in self.chain)
        return [Listing(sum(last - first + 1 for first, last in ranges), ranges)]


@dataclass
class Table:
    records: int  # the program's
    cases: list

    def of(self, section):
        return [case for case in self.cases if case.section == section]


class _Reader:
    def __init__(self):
        self.pool, self.section, self.cases, self.names = None, None, [], set()

    def number(self, text, k):
        """Numbers, RECORDS and K with `*`, `+` and `-` between them, from left to right."""
        if not NUMBER.fullmatch(text):
            raise ValueError(f"{text} is no number")
        value = 0
        for sign, word in STEP.findall(text):
            operand = int({"RECORDS": self.pool, "K": k}.get(word, word))
            value = value * operand if sign == "*" else value - operand if sign == "-" else value + operand
        return value

    def read(self, line, k=None):
        if line.startswith("case "):
            return self.begin(line[5:])
        word, *fields = line.replace("|", " ").split()
        if word == "section":
            (self.section,) = fields
        elif word == "each":
            first, last = (self.number(text, k) for text in fields[:2])
            for each in range(first, last + 1):
                self.read(" ".join(fields[2:]), each)
        elif word in CALLS:
            *fields, equals, answer = fields
            if equals != "=" or len(fields) != CALLS[word]:
                raise ValueError("no call and its answer")
            self.add(Call(word, tuple(self.number(text, k) for text in fields), self.answer(word, self.number(answer, k))))
        else:
            self.state(word, [self.number(text, k) for text in fields])

    def answer(self, word, number):
        if number < -4 or number > 0 and word not in "ap":
            raise ValueError("no call answers so")
        return number

    def begin(self, name):
        if name in self.names:
            raise ValueError("two cases have this name")
        self.names.add(name)
        self.cases.append(Case(self.section, name))

    def add(self, line):
        if self.cases[-1].chain is not None:
            raise ValueError("chain and shelf end a case")
        self.cases[-1].lines.append(line)

    def state(self, word, numbers):
        """A line that is no call."""
        if word == "pool":
            (self.pool,) = numbers
        elif word == "records":
            (self.cases[-1].records,) = numbers
        elif word == "list":
            count, total, *ends = numbers
            ranges = tuple(zip(ends[::2], ends[1::2]))
            if len(ends) != 2 * count:
                raise ValueError("not as many ranges as it says")
            self.add(Listing(total, ranges))
        elif word == "chain":
            self.cases[-1].chain = list(zip(numbers[::3], numbers[1::3], numbers[2::3], strict=True))
        elif word == "shelf":
            by_number = {entry[0]: entry for entry in self.cases[-1].chain}
            self.cases[-1].shelf = [by_number.pop(number) for number in numbers]
            if by_number:
                raise ValueError("a range of the chain is not on the shelf")
        else:
            raise ValueError("no such word")


def read(text):
    reader = _Reader()
    for number, line in enumerate(text.splitlines(), 1):
        if line and not line.startswith("#"):
            try:
                reader.read(line)
            except (ValueError, KeyError, IndexError, TypeError) as problem:
                raise Unreadable(f"cases.txt:{number}: {line}: {problem}") from None
    for case in reader.cases:
        if (case.chain is None) != (case.shelf is None):
            raise Unreadable(f"cases.txt: {case.name}: chain and shelf stand together")
    return Table(reader.pool, reader.cases)


def table():
    return read(TABLE.read_text("utf-8"))
