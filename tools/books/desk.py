"""The desk where calls and answers come in by turns: each becomes an entry, and what is wrong with it is said."""
from collections import namedtuple

import listing
import reasons
from answers import fits
from book import Book
from calls import covered

# number: of the line or block; call: None for a line that is none; first, past: the bytes that it covers, or None; change: of the
# total, which follows; reason: of a refusal or of a bad line, in words; faults: what must not be, in words
Entry = namedtuple("Entry", "number text call answer first past change total reason faults")

UNEXPLAINED, UNREAD = "the vouchers do not show why", "the line can be read as a call"


class Desk:
    def __init__(self, words):
        self.book = Book(words)
        self.words = words
        self.entries = self.refused = 0
        self.first_fault = None  # the number of the first entry that is not right
        self.listed = None  # the last listing, if nothing was accepted since

    def enter(self, number, text, call, answer):
        """The next line or block."""
        self.entries += 1
        kind = answer.kind
        if not fits(call, answer):
            return self._faulty(Entry(number, text, call, answer, None, None, 0, self.book.total, None, ["no such call is answered so"]))
        if kind == "ok":
            return self._accepted(number, text, call, answer)
        if kind == "list":
            self.listed = answer
            return self._faulty(Entry(number, text, call, answer, None, None, 0, self.book.total, None, list(listing.wrong(self.book, answer))))
        self.refused += 1
        return Entry(number, text, call, answer, None, None, 0, self.book.total, self._reason(text, call, answer), ())

    def _reason(self, text, call, answer):
        if call is None:
            return reasons.no_call(text)
        if answer.kind == "bad":
            return UNREAD
        return reasons.refused(self.book, call, answer.value) or UNEXPLAINED

    def _accepted(self, number, text, call, answer):
        self.listed = None
        first, past = covered(call, answer.value)
        fault = self.book.wrong(call, first, past)
        self.book.accept(number, call, first, past)
        change = past - first if call.kind == "f" else first - past
        faults = [f"accepted, though {fault}"] if fault else ()
        return self._faulty(Entry(number, text, call, answer, first, past, change, self.book.total, None, faults))

    def _faulty(self, entry):
        """The entry, noted where it is the first with a fault."""
        if entry.faults and self.first_fault is None:
            self.first_fault = entry.number
        return entry
