"""Answers: as the program prints them and a box's log has them, or as a journal records them."""
import itertools
import re
from collections import namedtuple

from calls import TOP
from reading import Unreadable
from words import counted

NUMBER = "(0|[1-9][0-9]{0,19})"
OK, LIST, RANGE = (re.compile(form) for form in (f"ok {NUMBER}", f"list {NUMBER} {NUMBER}", f"{NUMBER} {NUMBER}"))

# kind: ok, no, bad, list, or odd for one that no call gets; value: an address, the number of a refusal, a total; ranges: of a list,
# as pairs of the first byte and the one after the last
Answer = namedtuple("Answer", "kind value ranges")
DONE, BAD = Answer("ok", None, None), Answer("bad", None, None)
REFUSED = {number: Answer("no", number, None) for number in range(1, 5)}
DAMAGED = REFUSED[2]
FIXED = {"ok\n": DONE, "bad\n": BAD, **{f"no {number}\n": answer for number, answer in REFUSED.items()}}


def taken(lines):
    """The answers of these lines, each with its end; those of a listing together."""
    lines = iter(lines)
    for count, line in zip(itertools.count(), lines):
        yield FIXED.get(line) or _with_numbers(line.rstrip("\n"), lines, count)


def _with_numbers(text, lines, before):
    form = OK.fullmatch(text)
    if form:
        return Answer("ok", int(form[1]), None)
    form = LIST.fullmatch(text)
    if not form:
        where = f"behind {counted(before, 'answer')}" if before else "at its beginning"
        raise Unreadable(f"has a line that is no answer, {where}: {text}")
    return Answer("list", int(form[2]), _ranges(int(form[1]), lines))


def _ranges(count, lines):
    ranges = []
    for _ in range(count):
        text = next(lines, None)
        form = RANGE.fullmatch(text.rstrip("\n")) if text is not None else None
        if not form:
            found = "its end comes" if text is None else f"there is {text.rstrip()}"
            raise Unreadable(f"has a listing of {counted(count, 'range')}, and after {len(ranges)} of them {found}")
        ranges.append((int(form[1]), int(form[2]) + 1))
    return ranges


def recorded(kind, number):
    """The answer of a signed number, as the C calls give it."""
    if -4 <= number < 0:
        return REFUSED[-number]
    if kind == "a" and 0 <= number < TOP:
        return Answer("ok", number, None)
    return DONE if number == 0 else Answer("odd", number, None)


def fits(call, answer):
    """Whether a call, or None for a line that is none, can be answered so."""
    if call is None:
        return answer.kind == "bad"
    if call.kind == "l":
        return answer.kind in ("list", "bad")
    if answer.kind == "ok":
        return (answer.value is not None) == (call.kind == "a")
    return answer.kind in ("no", "bad")


def text_of(answer, address=str):
    if answer.kind == "ok":
        return "ok" if answer.value is None else f"ok {address(answer.value)}"
    if answer.kind == "list":
        return f"list {len(answer.ranges)} {answer.value}"
    return answer.kind if answer.kind == "bad" else f"no {answer.value}" if answer.kind == "no" else str(answer.value)
