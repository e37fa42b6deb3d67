"""The cases of the register of holders, holders.txt beside this file, whose head says what its lines are."""
from dataclasses import dataclass, field
from pathlib import Path

TABLE = Path(__file__).resolve().parent / "holders.txt"
CALLS = {"o": 2, "a": 3, "r": 4, "f": 3}


@dataclass(frozen=True)
class Line:
    word: str  # o, a, r, f; h and l ask for ranges
    numbers: tuple
    answer: object  # a number; for h and l the ranges


@dataclass
class Case:
    name: str
    records: int = 8
    entries: int = 4
    lines: list = field(default_factory=list)
    left: tuple = ()


def _groups(text, size):
    numbers = [int(word) for word in text.replace("|", " ").split()]
    return tuple(zip(*(numbers[at::size] for at in range(size)), strict=True))


def _line(text):
    asked, answer = (part.strip() for part in text.split("=", 1))
    word, *numbers = asked.split()
    numbers = tuple(map(int, numbers))
    if word in CALLS:
        if len(numbers) != CALLS[word]:
            raise ValueError("no such call")
        return Line(word, numbers, int(answer))
    if word not in "hl" or len(numbers) != (word == "h"):
        raise ValueError("no such line")
    return Line(word, numbers, _groups(answer, 2))


def table():
    found = []
    for number, text in enumerate(TABLE.read_text("utf-8").splitlines(), 1):
        if not text or text.startswith("#"):
            continue
        word, _, rest = text.partition(" ")
        try:
            if word == "case":
                found.append(Case(rest))
            elif word in ("records", "entries"):
                setattr(found[-1], word, int(rest))
            elif word == "left":
                found[-1].left = _groups(rest, 3)
            else:
                found[-1].lines.append(_line(text))
        except (ValueError, IndexError) as problem:
            raise SystemExit(f"holders.txt:{number}: {text}: {problem}") from None
    return found
