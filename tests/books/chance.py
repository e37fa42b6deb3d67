"""Random files of a small memory: the command's books against the bytes counted one by one, over the proved program's answers."""
import random

from brute import BYTES, Brute, by_turns
from ground import answered, books, bounded, pieces

FILES, FEW = 3000, 200
LINES = 24
GROUPS = (1, 2, 512)  # of pieces, small ones too: a small memory has few


def call(rng):
    start, size, order = rng.randrange(120), rng.choice((0, 1, 1, 2, 3, 5, 8, 13, 32)), rng.choice((0, 0, 0, 1, 2, 3, 4, 64))
    free = f"f {start} {size}"
    return rng.choice((free, free, free, f"a {size} {order}", f"a {size} {order}", f"r {start} {size} {order}", "l"))


def written(rng, line):
    """The line as somebody may have written it, or another one that is no call."""
    if rng.random() < 0.6:
        return line, line
    letter, *numbers = line.split(" ")
    forms = [
        line + "\r", "\t".join([letter, *numbers]), "  " + line + " ", line + " # offered again",
        " ".join([letter, *(hex(int(number)) for number in numbers)]),
    ]
    no_calls = ["", "# nothing", " \t", line + ", 1", f"{letter} 01 2", "x 1 2", "f 1", "f 1 2 3", f"f {2**64} 1", "l l"]
    return rng.choice([(form, line) for form in forms] + [(other, None) for other in no_calls])


def problem(words, seed):
    """What is wrong with the books of one file; None where they are those of the bytes."""
    rng = random.Random(seed)
    pieces.GROUP = rng.choice(GROUPS)
    file = [written(rng, call(rng)) for _ in range(rng.randrange(LINES))]
    given = "".join(text + "\n" for text, _ in file).encode()
    calls = {number: meant for number, (_, meant) in enumerate(file, 1) if meant is not None}
    desk, entries, held = books(words, given)
    brute, due = Brute(), {}
    for number, (line, answer, listed) in zip(calls, by_turns(calls.values(), answered(words, calls.values()))):
        brute.enter(number, line, answer)
        due[number] = answer, brute.total
        if listed is not None and listed != brute.free():
            return f"the listing of line {number} is not what the bytes are"
    wrong = compared(desk, entries, brute, due)
    return f"seed {seed}: {wrong}\n  {given!r}" if wrong else None


def compared(desk, entries, brute, due):
    for entry in entries:
        if entry.faults:
            return f"line {entry.number} has a fault, {entry.faults}"
        if entry.number in due and (entry.answer.kind, entry.total) != (due[entry.number][0].split()[0], due[entry.number][1]):
            return f"line {entry.number} is {entry}, and should be {due[entry.number]}"
        if entry.number not in due and entry.first is not None:
            return f"line {entry.number} is no call, and covers bytes"
        if (entry.answer.kind in ("no", "bad")) != bool(entry.reason) or entry.reason == "the vouchers do not show why":
            return f"line {entry.number} has the reason {entry.reason}"
    last = [None] * BYTES
    for first, past, voucher in desk.book.pieces.all():
        if first >= past:
            return f"there is a piece of no bytes, from {first} on"
        last[first:past] = [tuple(voucher)] * (past - first)
    if last != brute.last:
        return f"the last vouchers are {last}, and should be {brute.last}"
    if (desk.book.total, desk.book.summed()) != (brute.total, len(brute.free())):
        return f"the sums are {desk.book.total} and {desk.book.summed()}, and should be {brute.total}"
    return None


def cases(words, is_few=False):
    """Groups of a hundred files."""
    for begin in range(0, bounded(words, FILES, FEW, is_few), 100):
        wrong = next(filter(None, (problem(words, seed) for seed in range(begin, begin + 100))), None)
        yield f"random files {begin} to {begin + 99}", wrong
