"""Document 01's rules, with document 02's T-03 and T-06, on plain lists: the chain, the shelf and the records, as the papers word them. Knows nothing of
the port."""

TOP = 2**63


def up(x, order):
    return -(-x // 2**order) * 2**order


def down(x, order):
    return x // 2**order * 2**order


class Book:
    def __init__(self, records):
        self.records = records
        self.shelf = []  # (start, last, record), by size; among equals the newest first

    def copy(self):
        other = Book(self.records)
        other.shelf = self.shelf[:]
        return other

    def chain(self):
        return sorted(self.shelf)

    def total(self):
        return sum(last - start + 1 for start, last, _ in self.shelf)

    def unused(self):
        used = {record for _, _, record in self.shelf}
        return next((i for i in range(self.records) if i not in used), None)

    def place(self, start, last, record):
        size = last - start + 1
        at = next((i for i, (s, l, _) in enumerate(self.shelf) if l - s + 1 >= size), len(self.shelf))
        self.shelf.insert(at, (start, last, record))

    def take(self, found, start, past):
        """0, or 1 where a split wants a record and there is none."""
        s, last, record = found
        new = self.unused()
        if s < start and past <= last and new is None:
            return 1
        self.shelf.remove(found)
        if s < start:
            self.place(s, start - 1, record)
        if past <= last:
            self.place(past, last, new if s < start else record)
        return 0

    def allocate(self, size, order):
        if size == 0 or order > 63:
            return 4, 0
        if size > self.total():
            return 3, 0
        fitting = [found for found in self.shelf if up(found[0], order) + size <= found[1] + 1]
        for found in fitting:
            start = up(found[0], order)
            if self.take(found, start, start + size) == 0:
                return 0, start
        return 1 if fitting else 3, 0

    def reserve(self, start, size, order):
        if size == 0 or order > 63:
            return 4
        if size > self.total():
            return 3
        if start + size > TOP:
            return 4
        start, past = down(start, order), up(start + size, order)
        if past - start > self.total():
            return 3
        found = next((r for r in self.shelf if r[0] <= start and past <= r[1] + 1), None)
        if found is None:
            return 4
        return self.take(found, start, past)

    def free(self, start, size):
        past = start + size
        if size == 0 or past > TOP or any(s < past and start <= last for s, last, _ in self.shelf):
            return 4
        lower = next((r for r in self.shelf if r[1] + 1 == start), None)
        upper = next((r for r in self.shelf if r[0] == past), None)
        kept = lower or upper
        record = kept[2] if kept else self.unused()
        if record is None:
            return 1
        for neighbour in filter(None, (lower, upper)):
            self.shelf.remove(neighbour)
        self.place(lower[0] if lower else start, upper[1] if upper else past - 1, record)
        return 0


def number(field):
    good = field.isdigit() and field.isascii() and (field == "0" or field[0] != "0") and len(field) <= 20
    return int(field) if good and int(field) < 2**64 else None


def answer(book, line):
    """The text of a line's answer, without the last newline."""
    fields = line.split(" ") if len(line.encode("latin-1")) <= 80 else [""]
    numbers = [number(f) for f in fields[1:]]
    kind = (fields[0], len(numbers))
    if None in numbers or kind not in (("f", 2), ("a", 2), ("r", 3), ("l", 0)):
        return "bad"
    if kind[0] == "l":
        ranges = [f"{start} {last}" for start, last, _ in book.chain()]
        return "\n".join([f"list {len(ranges)} {book.total()}", *ranges])
    if kind[0] == "a":
        refusal, address = book.allocate(*numbers)
        return f"no {refusal}" if refusal else f"ok {address}"
    refusal = book.free(*numbers) if kind[0] == "f" else book.reserve(*numbers)
    return f"no {refusal}" if refusal else "ok"


def play(text, records):
    """What a program with so many records must print for this input."""
    lines = text.split("\n")
    if lines[-1] == "":
        lines.pop()
    book = Book(records)
    return "".join(answer(book, line) + "\n" for line in lines)
