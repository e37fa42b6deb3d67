"""A listing against the book: each byte that is listed and not free by the vouchers, and each that is free and not listed."""
from ranges import Ranges

MOST_NAMED = 3


def wrong(book, answer):
    """What is wrong with a listing, fault by fault; nothing where it is the book's."""
    listed = answer.ranges
    if listed == list(book.free) and answer.value == book.free.size():
        return
    yield from _form(listed)
    union = Ranges()
    for first, past in listed:
        if first < past:
            union.add(first, past)
    yield from _few(f"{book.named(first, past, is_free=False, are='were')}, and the listing has them" for first, past in union.without(book.free))
    yield from _few(_missing(book, first, past) for first, past in book.free.without(union))
    summed = sum(past - first for first, past in listed)
    if summed != answer.value:
        yield f"the listing says {answer.value} bytes, and its ranges have {summed}"


def _form(listed):
    """By address, and no two touch."""
    for (first, past), (other, after) in zip(listed, listed[1:]):
        if other <= past:
            yield f"the listing has a range that begins at {other} after one that ends at {past - 1}"
            return
    if any(first >= past for first, past in listed):
        yield "the listing has a range that ends before it begins"


def _missing(book, first, past):
    since = next(book.pieces.within(first, past))[2].number
    return f"{book.words.bytes(first, past)} {'is' if past - first == 1 else 'are'} free, since {book.words.voucher(since)}, and the listing has not"


def _few(faults):
    for count, fault in enumerate(faults):
        if count == MOST_NAMED:
            yield "and more in this listing"
            return
        yield fault
