"""The script after a first line `holders`: the readings of request T-07, its table of cases, first lines of every kind, and random scripts, whose answers a
plain model of the request gives."""
import os
import random
import sys

sys.path.insert(0, os.path.join(os.path.dirname(os.path.realpath(__file__)), ".."))
import holders
from model import Book, down, number, play, up
from program import Case, calls
from table import RECORDS

ENTRIES = 64
HOLDERS = range(1, 17)
SCRIPTS = 12
LINES = 1500
FORMS = {("o", 2), ("a", 3), ("r", 4), ("f", 3), ("h", 0), ("h", 1), ("l", 0)}


class Register:
    """Request T-07, over the model of document 01."""

    def __init__(self, records, entries=ENTRIES):
        self.book = Book(records)
        self.entries = [None] * entries  # (holder, first, last)

    def held(self, holder=None):
        return sorted((e for e in self.entries if e and holder in (None, e[0])), key=lambda e: e[1])

    def free(self, start, size, not_yours, entries):
        """5 after every 4 and before 1; accepted, the register has these entries."""
        asked = self.book.copy()
        refusal = asked.free(start, size)
        if refusal == 4 or not_yours:
            return 4 if refusal == 4 else 5
        if refusal == 0:
            self.book, self.entries = asked, entries
        return refusal

    def offer(self, start, size):
        return self.free(start, size, any(first < start + size and start <= last for _, first, last in self.held()), self.entries)

    def give_back(self, holder, start, size):
        if holder not in HOLDERS:
            return 4
        piece = (holder, start, start + size - 1)
        return self.free(start, size, piece not in self.entries, [None if e == piece else e for e in self.entries])

    def take(self, holder, ask, piece):
        """The refusal and the address; 6 only where the allocator would accept."""
        if holder not in HOLDERS:
            return 4, 0
        asked = self.book.copy()
        refusal, address = ask(asked)
        if refusal:
            return refusal, 0
        if None not in self.entries:
            return 6, 0
        self.book = asked
        self.entries[self.entries.index(None)] = (holder, *piece(address))
        return 0, address

    def answer(self, line):
        fields = line.split(" ") if len(line.encode("latin-1")) <= 80 else [""]
        numbers = [number(f) for f in fields[1:]]
        word = fields[0]
        if None in numbers or (word, len(numbers)) not in FORMS:
            return "bad"
        if word == "l":
            return "\n".join([f"list {len(self.book.shelf)} {self.book.total()}", *(f"{first} {last}" for first, last, _ in self.book.chain())])
        if word == "h":
            if numbers and numbers[0] not in HOLDERS:
                return "no 4"
            found = self.held(*numbers)
            return "\n".join([f"held {len(found)} {sum(last - first + 1 for _, first, last in found)}", *("%d %d %d" % e for e in found)])
        if word == "a":
            holder, size, order = numbers
            refusal, address = self.take(holder, lambda book: book.allocate(size, order), lambda at: (at, at + size - 1))
            return f"no {refusal}" if refusal else f"ok {address}"
        if word == "r":
            holder, start, size, order = numbers
            refusal, _ = self.take(holder, lambda book: (book.reserve(start, size, order), 0), lambda _: (down(start, order), up(start + size, order) - 1))
        else:
            refusal = self.offer(*numbers) if word == "o" else self.give_back(*numbers)
        return f"no {refusal}" if refusal else "ok"


def played(text, records=RECORDS):
    """What the program must print for this input, whatever its first line is."""
    lines = text.split("\n")
    if lines[-1] == "":
        lines.pop()
    if not lines or lines[0] != "holders":
        return play(text, records)
    register = Register(records)
    return "".join(register.answer(line) + "\n" for line in lines[1:])


EXAMPLE = calls(
    "the interface's example",
    "holders|o 65536 65536|a 1 4096 0|a 2 8192 14|f 2 65536 4096|f 1 65536 4096|f 1 65536 4096|r 3 100000 100 12|f 3 100000 100|o 98304 1|a 17 4096 0|h|h 2|l",
    "ok|ok 65536|ok 81920|no 5|ok|no 4|ok|no 5|no 5|no 4|held 2 12288|2 81920 90111|3 98304 102399|held 1 8192|2 81920 90111|"
    "list 3 53248|65536 81919|90112 98303|102400 131071",
)


def said(name, script, answers):
    return calls(f"register: {name}", "holders|" + script, answers)


def many(line, count):
    return "|".join([line] * count)


def each(texts):
    return "|".join(texts)


FULL = "o 0 65|" + many("a 1 1 0", ENTRIES)
FILLED = "ok|" + each(f"ok {k}" for k in range(ENTRIES))
SPLIT = each(f"o {2 * k} 1" for k in range(1, 257))
OKS = many("ok", 256)
TOP = "18446744073709551615"


def readings():
    yield EXAMPLE
    yield said("5 after every 4 and before 1", f"o 0 1|a 1 1 0|{SPLIT}|o 0 1|f 2 0 1|f 1 2 1|o 600 1", f"ok|ok 0|{OKS}|no 5|no 5|no 4|no 1")
    yield said("6 is the last of all", f"{FULL}|a 1 0 0|a 17 1 0|a 1 2 0|r 1 0 1 0|a 1 1 0|a 2 1 0", f"{FILLED}|no 4|no 4|no 3|no 4|no 6|no 6")
    yield said(
        "1 before 6",
        f"o 0 64|{many('a 1 1 0', 64)}|" + each(f"o {1001 + 8 * k} 3" for k in range(256)) + "|a 1 1 1|a 1 1 0|r 1 1002 1 0|r 1 1001 1 0",
        f"{FILLED}|{OKS}|no 1|no 6|no 1|no 6",
    )
    yield said("an entry is used again", f"{FULL}|a 2 1 0|f 1 0 1|a 2 1 0", f"{FILLED}|no 6|ok|ok 0")
    yield said(
        "6 changes nothing, not even the order among equals",
        f"{FULL}|o 1000 16|o 2000 16|r 1 1000 16 0|f 1 0 1|a 1 16 0",
        f"{FILLED}|ok|ok|no 6|ok|ok 2000",
    )
    yield said(
        "one's own range refused for want of a record, and asked again",
        f"o 0 1|a 1 1 0|{SPLIT}|f 1 0 1|h 1|o 1 1|f 1 0 1|h",
        f"ok|ok 0|{OKS}|no 1|held 1 1|1 0 0|ok|ok|held 0 0",
    )
    yield said("a list by address, not by entry", "o 0 2|r 1 1 1 0|r 2 0 1 0|h", "ok|ok|ok|held 2 2|2 0 0|1 1 1")
    yield said("the same ranges, other registers", "o 0 2|a 1 1 0|l|h", "ok|ok 0|list 1 1|1 1|held 1 1|1 0 0")
    yield said("the same ranges, no register", "o 1 1|l|h", "ok|list 1 1|1 1|held 0 0")
    yield said("79 digits and spaces", f"r {TOP} {TOP} {TOP} 184467440737095|r {TOP} {TOP} {TOP} 1844674407370955", "no 4|bad")
    yield said("no holder", "h 0|h 17|h 257|h 16", "no 4|no 4|no 4|held 0 0")
    yield said("the forms of document 01", "f 0 1|a 1 0|r 0 1 0|l 1|h 1 2|o 0|o 0 1 2|l", "bad|bad|bad|bad|bad|bad|bad|list 0 0")


def first_lines():
    yield Case("only `holders`", b"holders\n", b"")
    yield Case("only `holders`, without a newline", b"holders", b"")
    yield calls("`holders` again", "holders|holders|l", "bad|list 0 0")
    yield calls("`holders` not first", "l|holders|o 0 1|f 0 1|h", "list 0 0|bad|bad|ok|bad")
    yield Case("`holders` after an empty line", b"\nholders\nl\n", b"bad\nbad\nlist 0 0\n")
    for given in (b"holders ", b" holders", b"holders\r", b"holder", b"holderss", b"Holders", b"holders\0", b"h", b"holders 1", b"plain"):
        yield Case(f"first line {given!r}", given + b"\no 0 1\nf 0 1\n", b"bad\nbad\nok\n")
        yield Case(f"only {given!r}", given, b"bad\n")
    yield Case("carriage returns after `holders`", b"holders\no 0 1\r\nl\r\n", b"bad\nbad\n")
    yield Case("no newline at the end", b"holders\no 0 1\nh", b"ok\nheld 0 0\n")
    yield Case("a long line", b"holders\n" + b"h" * 81 + b"\n" + b"o 0 1" + b" " * 76 + b"\nl\n", b"bad\nbad\nlist 0 0\n")


def table():
    """The cases of tests/holders.txt that want no smaller numbers of records and entries than the program has."""
    for case in holders.table():
        if (case.records, case.entries) == (8, 4):
            given, expected = ["holders"], []
            for line in case.lines:
                given.append(" ".join(map(str, (line.word, *line.numbers))))
                if line.word in holders.CALLS:
                    expected.append(f"no {-line.answer}" if line.answer < 0 else f"ok {line.answer}" if line.word == "a" else "ok")
                else:
                    size = sum(last - first + 1 for first, last in line.answer)
                    who = f"{line.numbers[0]} " if line.word == "h" else ""
                    expected += [f"{'held' if who else 'list'} {len(line.answer)} {size}", *(f"{who}{first} {last}" for first, last in line.answer)]
            entries = [e for e in case.left if e[0]]
            given.append("h")
            expected += [f"held {len(entries)} {sum(last - first + 1 for _, first, last in entries)}"]
            expected += ["%d %d %d" % e for e in sorted(entries, key=lambda e: e[1])]
            yield calls(f"register: {case.name}", "|".join(given), "|".join(expected))


def _line(rng, taken, crowded):
    """Crowded: so many small ranges that records and entries run out."""
    holder = rng.choice((1, 1, 2, 3, 16, 0, 17))
    start, size, order = rng.randrange(64) * 1024, rng.choice((1, 512, 1024, 4096, 5000)), rng.choice((0, 0, 10, 12, 13, 64))
    if crowded:
        start, size, order = rng.randrange(3000), rng.choice((1, 1, 2, 3)), rng.choice((0, 1))
        if rng.random() < 0.5:
            return f"o {start} {size}"
    if taken and rng.random() < (0.02 if crowded else 0.3):
        who, first, last = rng.choice(taken)
        return f"f {rng.choice((who, who, who, holder))} {first} {last - first + rng.choice((1, 1, 1, 2))}"
    return rng.choice((f"o {start} {size}", f"o {start} {size}", f"a {holder} {size} {order}", f"r {holder} {start} {size} {order}", f"f {holder} {start} {size}", f"h {holder}", "h", "l", "", f"f {start} {size}", "holders"))


def scripts():
    for seed in range(SCRIPTS):
        rng = random.Random(seed)
        register, given, expected = Register(RECORDS), ["holders"], []
        for _ in range(LINES):
            given.append(_line(rng, register.held(), seed % 2 == 1))
            expected.append(register.answer(given[-1]))
        yield Case(f"register: random script, seed {seed}", "\n".join(given).encode(), ("\n".join(expected) + "\n").encode())


def cases():
    yield from readings()
    yield from first_lines()
    yield from table()
    yield from scripts()
