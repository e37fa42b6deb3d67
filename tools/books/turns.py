"""Calls and answers by turns: number, text, call and answer of each line or block, from whatever gives the answers."""
import subprocess
from itertools import islice
from pathlib import Path

import answers
from calls import parse
from held import called
from reading import Unreadable
from words import counted

ROOT = Path(__file__).resolve().parents[2]
PROGRAM = (ROOT / "tools" / "program", "--as", "run", "script")


class Unanswered(Exception):
    """The program did not come to its end; what it said stands on standard error."""


def by_program(held, program=PROGRAM):
    """The proved program's answers, at last to a listing in a line of its own behind the others. An empty line is `bad` to it."""
    number, file = 0, held.lines("l\n")
    with subprocess.Popen(program, stdin=file, stdout=subprocess.PIPE, encoding="latin-1") as running, _again(held) as lines:
        answered = _printed(running.stdout)
        for number, (line, answer) in enumerate(zip(lines, answered), 1):
            text = line[:-1]
            if text:
                yield number, text, parse(text), answer
        is_whole = number == held.count + 1 and next(answered, None) is None
        if running.wait() == 0 and is_whole:
            return
    raise Unanswered("the program's answers are not one for each line")


def refuse_register(held, name):
    """A first line `holders` begins other forms, of which an `f` or an `a` has one number more."""
    held.file.flush()
    with _again(held) as lines:
        if next(lines, "") == "holders\n":
            raise Unanswered(f"the first line of {called(name)} begins the forms of the register, which the books do not know: ./run FILE answers them, and its lines h and l show who holds what")


def _printed(lines):
    try:
        yield from answers.taken(lines)
    except Unreadable as error:
        raise Unanswered(f"what the program has printed {error}") from None


def _again(held):
    """What is held by another descriptor, since the program moves on the one that it shares."""
    return open(f"/proc/self/fd/{held.file.fileno()}", encoding="latin-1", newline="\n")


def by_log(held, log):
    """A box's answers, one a line of the calls, or one a line that has something in it."""
    every = log.calls + bool(log.fault) == held.count
    answered = islice(answers.taken(log.lines()), log.calls)
    for number, line in enumerate(held.lines(), 1):
        text = line[:-1]
        if not text and not every:
            continue
        answer = next(answered, None)
        if answer is None:
            return
        if text:
            yield number, text, parse(text), answer


def counts_differ(held, log):
    """In words; None where each call has its answer."""
    if log.calls in (held.count, held.calls):
        return None
    found = counted(log.calls, "answer") if log.calls else "no answer"
    return f"there {'is' if held.calls == 1 else 'are'} {counted(held.calls, 'call')}, and {found}"


def by_journal(held):
    for index, line in enumerate(held.lines()):
        text, number = line.rsplit(" ", 1)
        call = parse(text)
        yield index, text, call, answers.recorded(call.kind, int(number))
