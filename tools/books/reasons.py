"""Why a call was refused, from the vouchers before it; why a line is no call."""
import re

from calls import MOST, NUMBERS, senseless, widened
from words import counted

LARGE_NUMBER = re.compile("[1-9][0-9]*")


def _damaged(book, call):
    return "the book itself is damaged: stop, and call the hypervisor's author"


def _no_entry(book, call):
    """Only a call that may be accepted otherwise, and makes one range more, is refused for this."""
    first, past = widened(call)
    if call.kind == "f":
        is_one_more = not book.free.touches(first, past)
    elif call.kind == "r":
        is_one_more = book.free.has_all(first - 1, past + 1)
    else:
        is_one_more = call.size <= book.total
    if not is_one_more or senseless(call) or book.counted is None:
        return None
    since = book.words.voucher(book.counted)
    return f"the book has {len(book.free)} free ranges, since {since}, and no room for one more"


def _too_few(book, call):
    if call.kind == "f":
        return None
    if call.size > book.total:
        return f"{counted(call.size, 'byte')} {'is' if call.size == 1 else 'are'} wanted, and {_total(book)}"
    if call.kind == "a":
        return _no_fit(book, call)
    first, past = widened(call)
    if past - first > book.total:
        return f"{book.words.range(first, past)} are {past - first} bytes, and {_total(book)}"
    return None


def _total(book):
    since = f", since {book.words.voucher(book.last)}" if book.last is not None else ""
    return f"{book.total} {'is' if book.total == 1 else 'are'} free{since}"


def _no_fit(book, call):
    unit = 1 << call.order
    room, first, past = max(((past - -(-first // unit) * unit, first, past) for first, past in book.free), default=(0, 0, 0))
    if room >= call.size:
        return None
    place = f"from a multiple of {unit} on" if call.order else "in one piece"
    if room <= 0:
        return f"no free range has a byte {place}"
    return f"no free range has {call.size} bytes {place}; the longest, in {book.words.range(first, past)}, has {room}"


def _senseless_or_elsewhere(book, call):
    never = senseless(call)
    if never or call.kind == "a":
        return never
    first, past = widened(call)
    if book.may_cover(call, first, past):
        return None
    return book.named(first, past, is_free=call.kind == "f", are="are")


REASONS = {1: _no_entry, 2: _damaged, 3: _too_few, 4: _senseless_or_elsewhere}


def refused(book, call, number):
    """The reason for a refusal of this number; None where the vouchers show none."""
    return REASONS[number](book, call)


def no_call(text):
    """Why a line is no call."""
    kind, *fields = text.split(" ")
    if "," in text:
        return "a comma; numbers are parted by a space and have no points or commas in them"
    if kind.lower() in NUMBERS and kind not in NUMBERS:
        return f"letters are small: {kind.lower()}, not {kind}"
    if kind not in NUMBERS:
        return "a call begins with f, a, r or l"
    for field in fields:
        if LARGE_NUMBER.fullmatch(field) and int(field[:40]) >= MOST:
            return f"{field[:40]} is 2^64 or more"
        if re.fullmatch("0[0-9]+", field):
            return f"{field[:40]} begins with a 0"
        if not re.fullmatch("[0-9]+", field):
            return f"{field[:40]} is no number"
    wanted = NUMBERS[kind]
    return f"{kind} takes {wanted or 'no'} number{'' if wanted == 1 else 's'}, and here {'is' if len(fields) == 1 else 'are'} {len(fields) or 'none'}"
