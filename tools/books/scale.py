"""The axis of addresses: where each byte lies on a bar of a given width."""
from bisect import bisect_right
from itertools import accumulate

SMALLEST = 0.006  # of the bar: where a piece would be smaller, widths follow the logarithm of its size


class Scale:
    """`ends` are all first bytes and bytes after the last that are ever drawn."""

    def __init__(self, ends, width):
        self.ends = sorted(ends)
        sizes = [after - before for before, after in zip(self.ends, self.ends[1:])]
        whole = sum(sizes)
        self.is_true = all(size >= SMALLEST * whole for size in sizes)
        weights = sizes if self.is_true else [4 + size.bit_length() for size in sizes]
        whole = sum(weights) or 1
        self.places = [0.0, *(width * part / whole for part in accumulate(weights))]

    def __len__(self):
        return len(self.ends)

    def at(self, byte):
        return self.places[bisect_right(self.ends, byte) - 1]

    def labels(self, apart):
        """Ends that have room for a number beside each other; the first and the last are among them."""
        last = None
        for end, place in zip(self.ends[:-1], self.places):
            is_last_near = self.places[-1] - place < 2 * apart
            if last is None or (place - last >= apart and not is_last_near):
                last = place
                yield end, place
        yield self.ends[-1], self.places[-1]
