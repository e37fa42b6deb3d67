"""The book that the vouchers keep: each accepted call as it comes, and what it may cover."""
from collections import namedtuple

from calls import HIGHEST_ORDER, TOP, senseless
from pieces import Pieces
from ranges import Ranges

Voucher = namedtuple("Voucher", "number kind")  # the last to cover a byte: free after an `f`, and held after any other

MOST_NAMED = 3  # pieces that are named one by one
MOST_LOOKED_AT = 64  # to find those, so that a sentence takes no longer where there are a million


class Book:
    """`total` counts by vouchers, `pieces` byte by byte; `free` has the free bytes in ranges."""

    def __init__(self, words):
        self.words = words
        self.pieces, self.free = Pieces(), Ranges()
        self.total = 0
        self.last = None  # the last accepted voucher
        self.counted = None  # the one since which there are as many free ranges

    def accept(self, number, call, first, past):
        """The voucher is entered as it is, right or wrong."""
        self.last = number
        if first >= past:
            return
        before = len(self.free.firsts)
        if call.kind == "f":
            self.total += past - first
            self.free.add(first, past)
        else:
            self.total -= past - first
            self.free.remove(first, past)
        self.pieces.cover(first, past, Voucher(number, call.kind))
        if len(self.free.firsts) != before:
            self.counted = number

    def may_cover(self, call, first, past):
        """An `f` no free byte, an `a` or `r` free ones alone."""
        return not self.free.has_any(first, past) if call.kind == "f" else self.free.has_all(first, past)

    def wrong(self, call, first, past):
        """Why an accepted call must not have been, with the bytes that it covers; None where it may."""
        if first < past <= TOP and call.order <= HIGHEST_ORDER and self.may_cover(call, first, past):
            is_off = call.kind == "a" and first & ((1 << call.order) - 1)
            return f"{self.words.address(first)} is no multiple of 2^{call.order}" if is_off else None
        never = senseless(call)
        if never:
            return never
        if past > TOP:
            return f"{self.words.bytes(first, past)} pass the last address"
        return self.named(first, past, is_free=call.kind == "f", are="were")

    def offered(self):
        """The bytes that some voucher has covered."""
        ranges = Ranges()
        for first, past, _ in self.pieces.all():
            ranges.add(first, past)
        return ranges

    def summed(self):
        """The free bytes, piece by piece."""
        return sum(past - first for first, past, voucher in self.pieces.all() if voucher.kind == "f")

    def said(self, first, past, voucher, are):
        """What these bytes are, or were, and since when."""
        words, one = self.words.bytes(first, past), past - first == 1
        if voucher is None:
            return f"{words} {'was' if one else 'were'} never offered"
        verb = {"are": ("are", "is"), "were": ("were", "was")}[are][one]
        state = "free already" if voucher.kind == "f" else "taken"
        return f"{words} {verb} {state}, since {self.words.voucher(voucher.number)}"

    def named(self, first, past, is_free, are):
        """Of these bytes the free ones, or those that are not, with what they are since when: the first pieces of them. There is one."""
        begin = self.free.first_of(first, past) if is_free else self.free.first_not_of(first)
        found, looked_at, end = [], 0, begin
        for begin, end, voucher in self.pieces.within(begin, past):
            if (voucher is not None and voucher.kind == "f") == is_free:
                found.append(self.said(begin, end, voucher, are))
            looked_at += 1
            if len(found) == MOST_NAMED or looked_at == MOST_LOOKED_AT:
                break
        is_more = end < past and (self.free.has_any(end, past) if is_free else not self.free.has_all(end, past))
        return "; ".join(found) + ("; and more" if is_more else "")
