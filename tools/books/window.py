"""What a page shows of the vouchers: the last ones, and the memory before them."""

MOST = 300


class Window:
    """`entries` are those that are shown; `free` and `offered` the memory before the first of them; `left_out` how many came before."""

    def __init__(self, expected):
        self.left_out = max(0, expected - MOST)
        self.entries, self.free, self.offered = [], None, None

    def before(self, desk):
        if desk.entries == self.left_out:
            self.free, self.offered = desk.book.free.copy(), desk.book.offered()

    def after(self, entry):
        if self.free is not None:
            self.entries.append(entry)
