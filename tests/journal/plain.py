"""A journal in plain words: its bytes, its faults, and its audit. Replays with document 01's rules on plain lists (tests/script/model.py)."""
import sys
from pathlib import Path

TESTS = Path(__file__).resolve().parents[1]
sys.path[:0] = [str(TESTS / "script"), str(TESTS)]
import cases
from model import Book

VERSION = 1
RECORDS = cases.table().records
LENGTHS = {1: 25, 2: 25, 3: 33}  # a call byte, and the bytes behind the length of its block
LETTERS = {"f": 1, "a": 2, "r": 3}


def block(kind, numbers, answer):
    words = b"".join(n.to_bytes(8, "big") for n in numbers) + (answer % 2**64).to_bytes(8, "big")
    return LENGTHS[kind].to_bytes(2, "big") + bytes([kind]) + words


def journal(entries):
    return bytes([VERSION]) + b"".join(block(*entry) for entry in entries)


def block_at(data, at):
    """What stands at a place: ("call", kind, numbers, answer, next), or the name of a fault, or "end"."""
    left = len(data) - at
    if left <= 0:
        return "end"
    if left < 2:
        return "truncated"
    length = int.from_bytes(data[at : at + 2], "big")
    if length not in LENGTHS.values():
        return "wrong-length"
    if left < 2 + length:
        return "truncated"
    kind = data[at + 2]
    if kind not in LENGTHS:
        return "unknown-call"
    if length != LENGTHS[kind]:
        return "wrong-length"
    words = [int.from_bytes(data[i : i + 8], "big") for i in range(at + 3, at + 2 + length, 8)]
    answer = words[-1] - 2**64 if words[-1] >= 2**63 else words[-1]
    return ("call", kind, words[:-1], answer, at + 2 + length)


def made(book, kind, numbers):
    """The C call's signed answer."""
    if kind == 2:
        refusal, address = book.allocate(*numbers)
        return -refusal if refusal else address
    return -(book.free(*numbers) if kind == 1 else book.reserve(*numbers))


def audit(data):
    if data[:1] != bytes([VERSION]):
        return "no 2"
    book, at, index = Book(RECORDS), 1, 0
    while True:
        found = block_at(data, at)
        if found == "end":
            return f"agrees {book.total()}"
        if isinstance(found, str):
            return f"{found} {index}"
        _, kind, numbers, answer, at = found
        if made(book, kind, numbers) != answer:
            return f"differs {index}"
        index += 1


def recorded(calls):
    """The entries of a box that makes these calls, (letter, numbers), by the rules."""
    book = Book(RECORDS)
    return [(LETTERS[letter], numbers, made(book, LETTERS[letter], numbers)) for letter, numbers in calls]
