"""`./run check`: a box's answers, true or made false at one place, judged against the bytes counted one by one; the tender's fault."""
import random

from brute import Brute, by_turns
from chance import call
from ground import Folder, answered, bounded, held_to, judged, run, without

FILES, FEW = 1500, 200
LINES = 20

TENDER = r"line 3, f 8 3: accepted, though byte 8 was free already, since line 1\n"
COMPARED = "Another answer that the vouchers allow is not seen here: ./run CALLS has the allocator's own answers, to compare.\n"

# calls, answers, the end, what is printed
LOGS = [
    ("the fault of the tender", "f 7 2|f 0 2|f 8 3|l", "ok|ok|ok|list 2 8|0 1|7 12", 2,
     TENDER +
     r"line 4, l: bytes 11 and 12 were never offered, and the listing has them\n"
     r"Nothing was refused in 4 lines\.\nThe books do NOT close, first at line 3\. "
     r"Free bytes are, by the vouchers 7, byte by byte 6, in the listing 8\.\n"),
    ("a log without a fault", "f 0 8|a 4 0|l", "ok|ok 0|list 1 4|4 7", 0,
     r"Nothing was refused in 3 lines\.\nThe books close: by the vouchers, byte by byte and in the listing 4 bytes are free, in 1 range\.\n"),
    ("a refusal alone", "f 0 8|f 4 1", "ok|no 4", 1, r"Of 2 lines 1 was refused or bad\.\nThe books close: .*"),
    ("a byte handed out twice", "f 0 8|a 4 0|a 4 0", "ok|ok 0|ok 2", 2, r"line 3, a 4 0: accepted, though bytes 2 and 3 were taken, since line 2\n.*"),
    ("a byte that nobody offered", "f 0 8|r 6 4 0", "ok|ok", 2, r"line 2, r 6 4 0: accepted, though bytes 8 and 9 were never offered\n.*"),
    ("size 0 accepted", "f 0 0", "ok", 2, r"line 1, f 0 0: accepted, though SIZE is 0\n.*"),
    ("past the last address", "f 9223372036854775807 2", "ok", 2, r"line 1, .*: accepted, though its bytes pass the last address, 9223372036854775807\n.*"),
    ("no multiple", "f 0 64|a 8 4", "ok|ok 8", 2, r"line 2, a 8 4: accepted, though 8 is no multiple of 2\^4\n.*"),
    ("a range that is missing", "f 0 2|f 4 2|l", "ok|ok|list 1 2|0 1", 2, r"line 3, l: bytes 4 and 5 are free, since line 2, and the listing has not\n.*"),
    ("a wrong total", "f 0 2|l", "ok|list 1 3|0 1", 2, r"line 2, l: the listing says 3 bytes, and its ranges have 2\n.*"),
    ("out of order", "f 0 2|f 4 2|l", "ok|ok|list 2 4|4 5|0 1", 2, r"line 3, l: the listing has a range that begins at 0 after one that ends at 5\n.*"),
    ("too few answers", "f 0 2|l", "ok", 2, 
     r"Nothing was refused in 1 line\.\nThe books do NOT close: there are 2 calls, and 1 answer\. Free bytes are, so far, by the vouchers 2, byte by byte 2\.\n"),
    ("no answers", "f 7 2|f 0 2|f 8 3|l", b"", 2,
     r"The books do NOT close: there are 4 calls, and no answer\. Free bytes are, so far, by the vouchers 0, byte by byte 0\.\n"),
    ("a listing that is cut off", "f 7 2|f 0 2|f 8 3|l", "ok|ok|ok|list 2 8|0 1", 2,
     TENDER + r"Nothing was refused in 3 lines\.\nThe books do NOT close, first at line 3: .*/answers has a listing of 2 ranges, "
     r"and after 1 of them its end comes\. Free bytes are, so far, by the vouchers 7, byte by byte 6\.\n"),
    ("the same, comments answered too", "# begin|f 0 2|f 0 2|l", "bad|ok|no 4|list 1 2", 2,
     r"Read differently in .*\.\nOf 2 lines 1 was refused or bad\.\nThe books do NOT close: .*/answers has a listing of 1 range, and after 0 of them .*\n"),
    ("a listing that another answer ends", "f 7 2|f 0 2|f 8 3|l|f 20 1", "ok|ok|ok|list 2 8|0 1|ok", 2,
     TENDER + r"Nothing .*, first at line 3: .*/answers has a listing of 2 ranges, and after 1 of them there is ok\. Free bytes are, so far, .*\n"),
    ("a line that is no answer", "f 7 2|f 0 2|f 8 3|l", "ok|ok|ok|yes", 2,
     TENDER + r"Nothing .*, first at line 3: .*/answers has a line that is no answer, behind 3 answers: yes\. Free bytes are, so far, .*\n"),
    ("no answer at all", "f 0 2", "yes", 2, r"The books do NOT close: .*/answers has a line that is no answer, at its beginning: yes\. Free bytes are, so far, .*\n"),
    ("another answer that the vouchers allow", "f 0 8|a 4 0", "ok|ok 4", 0, r"Nothing was refused in 2 lines\.\nThe books close: .*\n"),
    ("too many answers", "f 0 2", "ok|ok", 2, 
     r"Nothing was refused in 1 line\.\nThe books do NOT close: there is 1 call, and 2 answers\. Free bytes are, so far, .*\n"),
    ("an answer of another call", "f 0 2|a 1 0", "ok 4|ok", 2, r"line 1, f 0 2: no such call is answered so\nline 2, a 1 0: no such call is answered so\n.*"),
    ("comments that were answered too", "# begin|f 0 2|f 0 2", "bad|ok|no 4", 1, r"Read differently in .*Of 2 lines 1 was refused.*close:.*"),
    ("comments that were not", "# begin|f 0 2|f 0 2", "ok|no 4", 1, r"Read differently in .*Of 2 lines 1 was refused.*close:.*"),
    ("a refusal that nothing explains", "f 0 8|a 8 0", "ok|no 3", 1, r"line 2, a 8 0: answered no 3, and the vouchers do not show why\nOf 2 .*close: .*"),
    ("a damaged book", "f 0 8|a 4 0", "ok|no 2", 1, r"line 2, a 4 0: answered no 2, and the book itself is damaged: stop, .*\nOf 2 lines 1 was refused.*close: .*"),
    ("a box that reads strictly", "f\t0 8|f 0 8", "bad|ok", 1, r"Read .*line 1, f 0 8: answered bad, and the line can be read as a call\nOf 2 .*close: .*"),
    ("hexadecimal answers", "f 0x10 0x10|a 0x8 0|l", "ok|ok 0x10|list 1 0x8|0x18 0x1f", 0, r"Read differently in .*The books close: .*"),
]


def falsified(rng, calls, printed):
    """The answers with one of them changed."""
    turns, lines, at = list(by_turns(calls, printed)), list(printed), 0
    chosen = rng.randrange(len(turns))
    for number, (line, answer, listed) in enumerate(turns):
        if number == chosen and answer.startswith("ok "):
            lines[at] = f"ok {max(0, int(answer[3:]) + rng.choice((-3, -1, 1, 2)))}"
        elif number == chosen and answer.startswith("no") and not line.endswith(" 64"):
            lines[at] = "ok" if line[0] != "a" else f"ok {rng.randrange(100)}"
        elif number == chosen and listed:
            last = at + int(answer.split()[1])
            lines[last] = f"{lines[last].split()[0]} {int(lines[last].split()[1]) + rng.choice((1, 2))}"
        at += 1 + (int(answer.split()[1]) if listed is not None else 0)
    return lines


def wrong_lines(calls, printed):
    """By the bytes, one by one."""
    brute, wrong = Brute(), set()
    for number, (line, answer, listed) in enumerate(by_turns(calls, printed), 1):
        size = int(line.split()[1 if line[0] == "a" else 2]) if line != "l" else 1
        is_off = line[0] == "a" and answer.startswith("ok") and int(answer.split()[1]) % 2 ** int(line.split()[2])
        if answer.startswith("ok") and (size == 0 or is_off):
            wrong.add(number)
        if listed is not None and (listed != brute.free() or int(answer.split()[2]) != len(listed)):
            wrong.add(number)
        brute.enter(number, line, answer)
    return wrong | brute.wrong


def problem(words, seed):
    rng = random.Random(seed)
    calls = [call(rng) for _ in range(1 + rng.randrange(LINES))] + ["l"]
    printed = falsified(rng, calls, answered(words, calls))
    texts = ["".join(line + "\n" for line in lines).encode() for lines in (calls, printed)]
    desk, entries = judged(*texts)
    named, due = {entry.number for entry in entries if entry.faults}, wrong_lines(calls, printed)
    if named == due and (desk.first_fault or 0) == min(due, default=0):
        return None
    return f"seed {seed}: named are the lines {sorted(named)}, and wrong are {sorted(due)}\n  {texts}"


def cases(words, is_few=False):
    with Folder() as folder:
        for name, calls, answers, status, out in LOGS:
            ended = run("check", folder.write("calls", calls), folder.write("answers", answers))
            yield held_to(name, without(COMPARED, ended), status, out, "")
    for begin in range(0, bounded(words, FILES, FEW, is_few), 100):
        wrong = next(filter(None, (problem(words, seed) for seed in range(begin, begin + 100))), None)
        yield f"random logs {begin} to {begin + 99}", wrong
