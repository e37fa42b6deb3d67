"""Numbers, ranges of bytes and counts, as they are said."""


def counted(number, noun):
    return f"{number} {noun}" if number == 1 else f"{number} {noun}s"


class Words:
    """`noun` is what a voucher is numbered by: a line of a file, or a block of a journal."""

    def __init__(self, is_hex=False, noun="line"):
        self.is_hex, self.noun = is_hex, noun
        self.address = hex if is_hex else str

    def range(self, first, past):
        """65536 to 69631."""
        return f"{self.address(first)} to {self.address(past - 1)}"

    def bytes(self, first, past):
        """byte 8; bytes 11 and 12; 11 to 20."""
        if past - first == 1:
            return f"byte {self.address(first)}"
        if past - first == 2:
            return f"bytes {self.address(first)} and {self.address(first + 1)}"
        return self.range(first, past)

    def voucher(self, number):
        return f"{self.noun} {number}"
