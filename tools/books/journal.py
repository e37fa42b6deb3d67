"""A journal, block by block: byte 1, then blocks of a length in two bytes, a call byte, its numbers and the answer, eight bytes each."""
from calls import made

VERSION = b"\x01"
CALLS = {1: ("f", 2), 2: ("a", 2), 3: ("r", 3)}
LENGTHS = {1 + 8 * (numbers + 1) for _, numbers in CALLS.values()}


class Faulty(Exception):
    """A block is none; `index` counts from 0."""

    def __init__(self, index, what):
        super().__init__(what)
        self.index = index


def is_journal(beginning):
    """No line of calls begins with this byte."""
    return beginning[:1] == VERSION


def is_none(beginning):
    """Nor does one with another control character: a journal of another version does."""
    return beginning[:1] < b" " and beginning[:1] not in (b"", b"\t", b"\n", b"\r")


def blocks(source):
    """Index, call and recorded number of each block behind the version byte; `source` is buffered."""
    index = 0
    while True:
        head = source.read(2)
        if not head:
            return
        yield (index, *_block(index, head, source))
        index += 1


def _block(index, head, source):
    """What is wrong is told in the order in which the bytes come."""
    if len(head) < 2:
        raise Faulty(index, "is cut off")
    length = int.from_bytes(head, "big")
    if length not in LENGTHS:
        raise Faulty(index, f"has a length that no call has, {length}")
    body = source.read(length)
    if len(body) < length:
        raise Faulty(index, "is cut off")
    if body[0] not in CALLS:
        raise Faulty(index, f"has an unknown call, {body[0]}")
    kind, count = CALLS[body[0]]
    if length != 1 + 8 * (count + 1):
        raise Faulty(index, f"has a length that is not its call's, {length}")
    numbers = [int.from_bytes(body[at : at + 8], "big") for at in range(1, length - 8, 8)]
    return made(kind, numbers), int.from_bytes(body[-8:], "big", signed=True)
