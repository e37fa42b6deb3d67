"""The bookkeeper's worked example: what the page shows of `./run books` follows from the calls and answers that it shows."""
import re

VOUCHERS = ["line", "call", "answer", "covers", "bytes", "total"]
PIECES = ["bytes", "last accepted call", "free", "bytes"]


def _covered(call, answer):
    """First byte and the byte after the last of an accepted call, by the words of the page; nothing for any other line."""
    words = call.split()
    if answer.split()[0] != "ok" or words[0] not in "far":
        return None
    numbers = [int(word) for word in words[1:]]
    if words[0] == "f":
        return numbers[0], sum(numbers)
    if words[0] == "a":
        address = int(answer.split()[1])
        return address, address + numbers[0]
    unit = 2 ** numbers[2]
    return numbers[0] // unit * unit, -(-(numbers[0] + numbers[1]) // unit) * unit


def _range(first, past):
    return f"{first} to {past - 1}"


def _voucher_rows(calls, answers):
    total = 0
    for number, (call, answer) in enumerate(zip(calls, answers), 1):
        piece = _covered(call, answer)
        moved = (piece[1] - piece[0]) * (1 if call[0] == "f" else -1) if piece else 0
        total += moved
        covers = [_range(*piece) if piece else "nothing", f"{moved:+}" if moved else "0", str(total)]
        yield [str(number), call, answer, *([] if call == "l" else covers)]


def _piece_rows(calls, answers):
    """Between two ends of pieces all bytes have the same last voucher; neighbours with the same one are one row."""
    pieces = [_covered(call, answer) for call, answer in zip(calls, answers)]
    ends = sorted({end for piece in pieces if piece for end in piece})
    rows = []
    for first, past in zip(ends, ends[1:]):
        last = [number for number, piece in enumerate(pieces, 1) if piece and piece[0] <= first < piece[1]]
        if last and rows and rows[-1][1:] == [first, last[-1]]:
            rows[-1][1] = past
        elif last:
            rows.append([first, past, last[-1]])
    return rows


def _byte_rows(calls, answers):
    total = 0
    for first, past, number in _piece_rows(calls, answers):
        letter = calls[number - 1][0]
        free = past - first if letter == "f" else 0
        total += free
        yield [_range(first, past), f"line {number}, {letter}", "yes" if free else "no", str(free)]
    yield ["total", str(total)]


def _by_turns(calls, printed):
    """The first printed line of each call; the ranges below a `list` belong to it."""
    answers, rest = [], list(printed)
    for _ in calls:
        answers.append(rest.pop(0))
        if answers[-1].startswith("list "):
            del rest[: int(answers[-1].split()[1])]
    return answers


def _tables(shown):
    """The rows below each head, cell by cell; the reasons of refusals stand between them and are no rows."""
    tables, rows = {}, []
    for line in shown:
        cells = re.split(r" {2,}", line.strip())
        if cells in (VOUCHERS, PIECES):
            rows = tables.setdefault(tuple(cells), [])
        elif not line:
            rows = []
        elif not re.match(r" +(no \d|bad): ", line):
            rows.append(cells)
    return tables


def closes(page, calls, printed, shown):
    """What is wrong with the tables that the page shows."""
    answers, tables = _by_turns(calls, printed), _tables(shown)
    for head, made in ((VOUCHERS, _voucher_rows), (PIECES, _byte_rows)):
        rows, due = tables.get(tuple(head), []), list(made(calls, answers))
        for row, wanted in zip(rows, due):
            if row != wanted:
                yield f"{page.name}: of what `./run books` prints this row should be {'  '.join(wanted)}, and is {'  '.join(row)}"
        if len(rows) != len(due):
            yield f"{page.name}: a table of `./run books` has {len(rows)} rows, and {len(due)} follow from the calls"
    listed = [answer.split()[2] for answer in answers if re.fullmatch(r"list \d+ \d+", answer)]
    total = list(_byte_rows(calls, answers))[-1][-1]
    if listed and listed[-1] != total:
        yield f"{page.name}: the vouchers come to {total}, and the listing has {listed[-1]}"
