"""The same books by another way: a list with one place for every byte of a small memory."""

BYTES = 160


def covered(call, answer):
    """Every byte that an accepted call covers, one by one; its letter first."""
    letter, *numbers = call.split()
    numbers = [int(number) for number in numbers]
    if letter == "r":
        start, size, order = numbers
        unit = 2**order
        return letter, [byte for byte in range(BYTES) if any(byte // unit == wanted // unit for wanted in range(start, start + size))]
    start, size = numbers if letter == "f" else (int(answer.split()[1]), numbers[0])
    return letter, list(range(start, start + size))


class Brute:
    """`last` has the line and letter of the last accepted call that covers a byte, or None; `wrong` the lines that cover what they must not."""

    def __init__(self):
        self.last = [None] * BYTES
        self.total = 0
        self.totals, self.wrong = [], set()

    def enter(self, number, call, answer):
        if answer.startswith("ok"):
            letter, bytes_ = covered(call, answer)
            if any((self.is_free(byte)) == (letter == "f") for byte in bytes_):
                self.wrong.add(number)
            for byte in bytes_:
                self.last[byte] = number, letter
            self.total += len(bytes_) if letter == "f" else -len(bytes_)
        self.totals.append(self.total)

    def is_free(self, byte):
        return self.last[byte] is not None and self.last[byte][1] == "f"

    def free(self):
        return [byte for byte in range(BYTES) if self.is_free(byte)]


def by_turns(calls, printed):
    """Each call with the first line of its answer, and the bytes that a listing lists."""
    printed = iter(printed)
    for call in calls:
        answer, listed = next(printed), None
        if answer.startswith("list "):
            ranges = [next(printed).split() for _ in range(int(answer.split()[1]))]
            listed = [byte for first, last in ranges for byte in range(int(first), int(last) + 1)]
        yield call, answer, listed
