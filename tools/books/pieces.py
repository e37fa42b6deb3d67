"""Which voucher was the last to cover each byte: the bytes in pieces, by address.

A place is where a piece begins, and holds its voucher: None before all is covered. Places lie in order, in groups of some hundred,
so that a million of them are no slower than a few.
"""
from bisect import bisect_left, bisect_right

GROUP = 512


class Pieces:
    def __init__(self):
        self.heads = [0]  # the first place of each group
        self.groups = [([0], [None])]  # places, and what each holds

    def cover(self, first, past, voucher):
        """From now on these bytes are the voucher's."""
        low, high = bisect_right(self.heads, first) - 1, bisect_right(self.heads, past) - 1
        places, held = self.groups[low]
        beyond, kept = self.groups[high]
        cut = bisect_right(beyond, past)
        after = kept[cut - 1]  # what the byte after the last one holds
        begin = bisect_left(places, first)
        if low == high:
            places[begin:cut] = first, past
            held[begin:cut] = voucher, after
        else:
            places[begin:] = [first, past, *beyond[cut:]]
            held[begin:] = [voucher, after, *kept[cut:]]
            del self.groups[low + 1 : high + 1], self.heads[low + 1 : high + 1]
        self.heads[low] = places[0]
        if len(places) > 2 * GROUP:
            self._part(low)

    def _part(self, at):
        places, held = self.groups[at]
        self.groups[at : at + 1] = [(places[:GROUP], held[:GROUP]), (places[GROUP:], held[GROUP:])]
        self.heads.insert(at + 1, places[GROUP])

    def _places(self, byte):
        """Places and what they hold, from the one that this byte belongs to."""
        at = bisect_right(self.heads, byte) - 1
        begin = bisect_right(self.groups[at][0], byte) - 1
        while at < len(self.groups):
            places, held = self.groups[at]
            for each in range(begin, len(places)):
                yield places[each], held[each]
            at, begin = at + 1, 0

    def within(self, first, past):
        """First byte, byte after the last, and voucher or None, of each piece of these bytes."""
        begin, voucher = None, None
        for place, held in self._places(first):
            if begin is not None:
                yield begin, min(place, past), voucher
            if place >= past:
                return
            begin, voucher = max(place, first), held
        yield begin, past, voucher

    def all(self):
        """Each piece that some voucher has covered."""
        begin, voucher = 0, None
        for place, held in self._places(0):
            if voucher is not None:
                yield begin, place, voucher
            begin, voucher = place, held
