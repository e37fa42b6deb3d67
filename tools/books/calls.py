"""A call, and the bytes that it covers once it is accepted."""
import re
from collections import namedtuple
from functools import lru_cache

TOP = 2**63  # addresses lie below
MOST = 2**64  # and numbers below that
HIGHEST_ORDER = 63

NUMBER = "(?:0|[1-9][0-9]{0,19})"
FORM = re.compile(f"(?:[fa] {NUMBER} {NUMBER}|r {NUMBER} {NUMBER} {NUMBER}|l)")
NUMBERS = {"f": 2, "a": 2, "r": 3, "l": 0}

Call = namedtuple("Call", "kind start size order")  # 0 where a call has no such number
LISTING = Call("l", 0, 0, 0)


@lru_cache(8192)  # the same lines come again and again
def parse(text):
    """The call of a line, as the program reads one; None for any other line."""
    if not FORM.fullmatch(text):
        return None
    if text == "l":
        return LISTING
    kind, *fields = text.split(" ")
    numbers = list(map(int, fields))
    if len(text) > 20 and max(numbers) >= MOST:
        return None
    return made(kind, numbers)


def made(kind, numbers):
    if kind == "f":
        return Call(kind, numbers[0], numbers[1], 0)
    if kind == "a":
        return Call(kind, 0, numbers[0], numbers[1])
    return Call(kind, *numbers)


def text_of(call, address=str):
    """The line of a call, its address written by `address`."""
    if call.kind == "f":
        return f"f {address(call.start)} {call.size}"
    if call.kind == "a":
        return f"a {call.size} {call.order}"
    if call.kind == "r":
        return f"r {address(call.start)} {call.size} {call.order}"
    return call.kind


def covered(call, address):
    """The first byte that an accepted call covers, and the byte after its last."""
    if call.kind == "f":
        return call.start, call.start + call.size
    if call.kind == "a":
        return address, address + call.size
    return widened(call)


def widened(call):
    """The bytes of an `r`, at both ends to multiples of 2^ORDER; no bytes are not widened."""
    if call.size == 0:
        return call.start, call.start
    unit = 1 << min(call.order, HIGHEST_ORDER)
    return call.start // unit * unit, -(-(call.start + call.size) // unit) * unit


def senseless(call):
    """Why no book could accept this call, whatever is free; None where one could."""
    if call.size == 0:
        return "SIZE is 0"
    if call.order > HIGHEST_ORDER:
        return f"ORDER is {call.order}, and the highest is {HIGHEST_ORDER}"
    if call.start + call.size > TOP:
        return f"its bytes pass the last address, {TOP - 1}"
    return None
