"""A set of bytes as ranges by address, of which no two touch."""
from bisect import bisect_left, bisect_right


class Ranges:
    def __init__(self, firsts=(), pasts=()):
        self.firsts, self.pasts = list(firsts), list(pasts)

    def __len__(self):
        return len(self.firsts)

    def __iter__(self):
        return zip(self.firsts, self.pasts)

    def copy(self):
        return Ranges(self.firsts, self.pasts)

    def has_all(self, first, past):
        at = bisect_right(self.firsts, first) - 1
        return at >= 0 and past <= self.pasts[at]

    def has_any(self, first, past):
        at = bisect_right(self.pasts, first)
        return at < len(self.firsts) and self.firsts[at] < past

    def touches(self, first, past):
        """Whether a range ends just before these bytes, or begins just after them, or has one of them."""
        at = bisect_left(self.pasts, first)
        return at < len(self.firsts) and self.firsts[at] <= past

    def first_of(self, first, past):
        """The first of these bytes that the set has; there is one."""
        return max(first, self.firsts[bisect_right(self.pasts, first)])

    def first_not_of(self, first):
        """The first byte from here on that the set has not."""
        at = bisect_right(self.firsts, first) - 1
        return max(first, self.pasts[at]) if at >= 0 else first

    def add(self, first, past):
        low, high = bisect_left(self.pasts, first), bisect_right(self.firsts, past)
        if low < high:
            first, past = min(first, self.firsts[low]), max(past, self.pasts[high - 1])
        self.firsts[low:high] = (first,)
        self.pasts[low:high] = (past,)

    def remove(self, first, past):
        low, high = bisect_right(self.pasts, first), bisect_left(self.firsts, past)
        if low >= high:
            return
        begin, end = self.firsts[low], self.pasts[high - 1]
        left = [(begin, first)] if begin < first else []
        left += [(past, end)] if past < end else []
        self.firsts[low:high] = [each[0] for each in left]
        self.pasts[low:high] = [each[1] for each in left]

    def without(self, other):
        """The ranges of these bytes that `other` has not."""
        left = self.copy()
        for first, past in other:
            left.remove(first, past)
        return left

    def size(self):
        return sum(self.pasts) - sum(self.firsts)
