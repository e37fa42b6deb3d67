"""What `./run books` prints, cell by cell, against the bytes counted one by one; in hexadecimal too."""
import random
import re
from itertools import groupby

from brute import BYTES, Brute, by_turns, covered
from chance import call
from ground import Folder, answered, run
from journals import journal, signed

FILES = 24
LINES = 40


def rows_due(calls, printed, address):
    """The cells of both tables, and the total."""
    brute, vouchers = Brute(), []
    for number, (line, answer, listed) in enumerate(by_turns(calls, printed), 1):
        brute.enter(number, line, answer)
        vouchers.append([str(number), *shown(line, answer, address)])
        if answer.startswith("ok"):
            letter, bytes_ = covered(line, answer)
            vouchers[-1] += [f"{address(bytes_[0])} to {address(bytes_[-1])}", f"{len(bytes_) * (1 if letter == 'f' else -1):+}", str(brute.total)]
        elif listed is None:
            vouchers[-1] += ["nothing", "0", str(brute.total)]
    pieces = []
    for last, bytes_ in groupby(range(BYTES), lambda byte: brute.last[byte]):
        if last is not None:
            bytes_ = list(bytes_)
            size = len(bytes_) if last[1] == "f" else 0
            pieces.append([f"{address(bytes_[0])} to {address(bytes_[-1])}", f"line {last[0]}, {last[1]}", "yes" if size else "no", str(size)])
    return vouchers, [*pieces, ["total", str(brute.total)]]


def shown(line, answer, address):
    """A call and its answer, with their addresses as they are to be written."""
    words = line.split()
    if words[0] in "fr":
        words[1] = address(int(words[1]))
    return " ".join(words), f"ok {address(int(answer[3:]))}" if answer.startswith("ok ") else answer


def rows_printed(out):
    """The cells of both tables; the sentences below a row are no row."""
    tables = []
    for table in out.split("\n\n")[:2]:
        lines = [line for line in table.split("\n")[1:] if not re.match(r" +(no \d|bad): ", line)]
        tables.append([re.split(r" {2,}", line.strip()) for line in lines])
    return tuple(tables)


# last bytes and totals with more digits than any number that is written down
WIDE = [
    "f 999990 20|a 5 0|f 1 9",
    "f 0 99999|f 100000 99999|f 200000 99999|a 7 0|r 99990 4 3",
    "f 9 9|f 50 60|f 200 900|f 2000 9000|f 20000 90000|a 99 3|f 99999 99999",
    "f 9223372036854775000 808|f 0 9000000000000000000|a 3 62",
    "f 100000 1|r 65536 100000 0|f 9 1",  # in hexadecimal the longest address grows by 1, and the longest call by 2
    "f 9223372036854775000 8|a 1 0",
]


def crooked(out):
    """The first row that ends elsewhere than the head of its table; of a listing there is no sum."""
    for table in out.split("\n\n")[:2]:
        head, *rows = [line for line in table.split("\n") if line and not re.match(r" +(no \d|bad): ", line)]
        wrong = next((row for row in rows if len(row) != len(head)), None)
        if wrong is not None:
            return f"{head!r}, and below it {wrong!r}"
    return None


def loose(out, calls, address):
    """A column of calls that is not as wide as the longest of them."""
    head = out.split("\n")[0]
    wide, due = head.index("answer") - head.index("call"), 2 + max(len(shown(call, "", address)[0]) for call in calls)
    return None if wide == due else f"the column of the calls is {wide} wide, and should be {due}: {head!r}"


def straight(words, folder):
    for text in WIDE:
        calls = text.split("|")
        recorded = journal(*zip(calls, map(signed, answered(words, calls))))
        for file in (folder.write("calls", text), folder.write("journal", recorded)):
            for options, address in (([], str), (["--hex"], hex)):
                out = run("books", file, *options).out
                yield f"straight columns of {file.name} {options}: {text}", crooked(out) or loose(out, calls, address)


def cases(words, is_few=False):
    with Folder() as folder:
        yield from straight(words, folder)
        for seed in range(4 if is_few else FILES):
            rng, is_hex = random.Random(seed), seed % 2 == 1
            calls = [call(rng) for _ in range(LINES)]
            ended = run("books", folder.write("calls", "|".join(calls)), *(["--hex"] if is_hex else []))
            due, got = rows_due(calls, answered(words, calls), hex if is_hex else str), rows_printed(ended.out)
            wrong = next(((row, wanted) for table, other in zip(got, due) for row, wanted in zip(table, other) if row != wanted), None)
            is_right = got == due and ended.status in (0, 1) and not ended.said
            yield f"the tables of file {seed}", None if is_right else f"the first row that differs, and what it should be: {wrong}; {ended.said}"
