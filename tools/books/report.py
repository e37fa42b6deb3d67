"""The books as text: a row a voucher, the bytes by their last voucher, both sums, and a closing sentence."""
from answers import text_of as answer_text
from calls import text_of as call_text
from words import counted


class Report:
    """Columns are as wide as the numbers that were read can make them."""

    def __init__(self, words, held):
        self.words = words
        self.number = max(len(words.noun), len(str(held.count)))
        address, call = len(words.address(held.reach - 1)), held.widest if words.is_hex else held.longest
        self.covers, self.total = max(7, 2 * address + 4), max(5, len(str(held.reach)))
        self.row = f"%{self.number}s  %-{call}s  %-{max(6, 3 + address)}s  %-{self.covers}s  %{1 + self.total}s  %{self.total}s\n"

    def head(self):
        return self.row % (self.words.noun, "call", "answer", "covers", "bytes", "total")

    def entry(self, entry):
        """The row of an entry, and below it what is to be said of it."""
        words = self.words
        answer = answer_text(entry.answer, words.address)
        call = call_text(entry.call, words.address) if words.is_hex and entry.call is not None else entry.text
        if entry.first is not None:
            row = self.row % (entry.number, call, answer, words.range(entry.first, entry.past), f"{entry.change:+}", entry.total)
        elif entry.answer.kind == "list":
            row = (self.row % (entry.number, call, answer, "", "", "")).rstrip() + "\n"
        else:
            row = self.row % (entry.number, call, answer, "nothing", "0", entry.total)
        if entry.reason:
            row += f"{'':{self.number}}  {answer}: {entry.reason}\n"
        return row + self._faults(entry) if entry.faults else row

    def _faults(self, entry):
        return "".join(f"{'':{self.number}}  NOT RIGHT: {fault}\n" for fault in entry.faults)

    def pieces(self, book):
        """The table by bytes, and its sum."""
        by, total = max(18, self.number + len(self.words.noun) + 4), 0
        yield "\n" + self._piece("bytes", "last accepted call", by, "free", "bytes")
        for first, past, voucher in book.pieces.all():
            size = past - first if voucher.kind == "f" else 0
            total += size
            last = f"{self.words.voucher(voucher.number)}, {voucher.kind}"
            yield self._piece(self.words.range(first, past), last, by, "yes" if size else "no", size)
        yield self._piece("", "", by, "total", total)

    def _piece(self, piece, last, by, is_free, size):
        return f"{piece:<{self.covers}}  {last:<{by}}  {is_free:<5}  {size:>{self.total}}\n"


def closing(desk, missing=None):
    """Whether the books close, and the sentence that says so, with every sum. Where something is missing, which is said, they do not."""
    book = desk.book
    by = [("by the vouchers", book.total), ("byte by byte", book.summed())]
    by += [] if desk.listed is None else [("in the listing", desk.listed.value)]
    if not missing and desk.first_fault is None and len({total for _, total in by}) == 1:
        names = ", ".join(name for name, _ in by[:-1]) + f" and {by[-1][0]}"
        ranges = f", in {counted(len(book.free), 'range')}" if book.total else ""
        return True, f"The books close: {names} {counted(book.total, 'byte')} {'is' if book.total == 1 else 'are'} free{ranges}."
    where = "" if desk.first_fault is None else f", first at {desk.words.voucher(desk.first_fault)}"
    sums = ", ".join(f"{name} {total}" for name, total in by)
    why = f": {missing}" if missing else ""
    return False, f"The books do NOT close{where}{why}. Free bytes are{', so far' if missing else ''}, {sums}."


def last_lines(do_close, sentence, caveat):
    """Behind books that close stands what that does not show; otherwise the last line says why they do not."""
    return [sentence, caveat] if do_close else [caveat, sentence]


def refusals(desk):
    lines = counted(desk.entries, desk.words.noun)
    if not desk.entries:
        return "There is no call in it."
    if not desk.refused:
        return f"Nothing was refused in {lines}."
    return f"Of {lines} {desk.refused} {'was' if desk.refused == 1 else 'were'} refused or bad."
