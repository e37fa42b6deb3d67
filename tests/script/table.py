"""The cases of tests/cases.txt, each as a script and what it prints; and the plain model of the documents, held to them as well."""
import os
import sys

sys.path.insert(0, os.path.join(os.path.dirname(os.path.realpath(__file__)), ".."))
import cases
from model import Book
from program import Case, lines

TABLE = cases.table()
RECORDS = TABLE.records
SCRIPT, ANSWERS = TABLE.cases[0].script(), TABLE.cases[0].printed()
PLAYED = [case for case in TABLE.cases if case.is_script()]
APART = [f"f {8192 * k} 4096" for k in range(1, RECORDS + 1)]


def played(sections):
    """The cases of these sections that the program can play; a book at a case's end is listed too."""
    for case in PLAYED:
        if case.section in sections:
            steps = case.lines + case.listed()
            yield Case(case.name, lines(step.text() for step in steps), lines(text for step in steps for text in step.printed()))


def ledger():
    return list(played({"ledger"}))


def others():
    return list(played({case.section for case in TABLE.cases} - {"ledger"}))


def _answer(book, call):
    if call.word == "a":
        refusal, address = book.allocate(*call.numbers)
        return -refusal or address
    return -(book.free if call.word == "f" else book.reserve)(*call.numbers)


def _unlike(case):
    """What the model does otherwise than the table says, or nothing."""
    book = Book(case.records or RECORDS)
    for line in case.lines:
        if isinstance(line, cases.Listing):
            held = cases.Listing(book.total(), tuple((first, last) for first, last, _ in book.chain()))
            if held != line:
                return f"it lists {held}"
        elif _answer(book, line) != line.answer:
            return f"it answers otherwise to {line.text()}"
    by_address, by_size = ([(number, first, last) for first, last, number in found] for found in (book.chain(), book.shelf))
    return None if case.chain is None or (by_address, by_size) == (case.chain, case.shelf) else f"it leaves {by_address}, by size {by_size}"


def model():
    """What is wrong with each case played by the model, of any number of records."""
    for case in TABLE.cases:
        if not case.has_pages():
            wrong = _unlike(case)
            yield f"the model: {case.name}: {wrong}" if wrong else None
