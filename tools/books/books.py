"""`./run books FILE`: every voucher, the bytes, both sums, and whether they close."""
import os

import turns
from desk import Desk
from held import calls_or_journal_of, read
from output import write_file
from page import Told, page, picture
from progress import EVERY, Progress
from reading import Unreadable
from report import Report, closing, last_lines, refusals
from window import Window
from words import Words

CLOSES, REFUSED, FAILED = 0, 1, 2

REPLAY = "Whether the recorded answers are the allocator's own, the books do not show: ./run audit FILE does."


def books(options, out):
    name = options.files[0]
    _keep_apart(name, options.pages.values())
    progress = Progress()
    held, is_recorded = read(name, "calls", lambda source: calls_or_journal_of(source, progress))
    if not is_recorded:
        turns.refuse_register(held, name)
    desk = Desk(Words(options.is_hex, "block" if is_recorded else "line"))
    window = Window(held.calls) if options.pages else None
    enter_all(desk, held, is_recorded, window, out, progress)
    is_right, sentence = closing(desk, f"the journal is faulty, block {held.fault.index} {held.fault}" if held.fault else None)
    said = [refusals(desk), *(last_lines(is_right, sentence, REPLAY) if is_recorded else [sentence])]
    out.write("\n" + "\n".join(said) + "\n")
    out.flush()
    write_pages(options.pages, desk, window, Told(os.path.basename(name), said, is_right, is_recorded, list(held.tally.sayings())))
    return FAILED if not is_right else REFUSED if desk.refused else CLOSES


def _keep_apart(name, pages):
    if len(set(map(os.path.realpath, pages))) < len(pages):
        raise Unreadable("the page and its picture cannot be one file")
    for page_name in pages:
        if name != "-" and os.path.exists(page_name) and os.path.exists(name) and os.path.samefile(name, page_name):
            raise Unreadable(f"{page_name} is the file of the calls, and would be written over")


def enter_all(desk, held, is_recorded, window, out, progress):
    """Prints the books. At the end of calls the program is asked for a listing, which is judged and, where it is right, not shown."""
    report = Report(desk.words, held)
    for saying in held.tally.sayings():
        out.write(f"Read differently: {saying}.\n")
    out.write(report.head())
    progress.what = "entered"
    for number, text, call, answer in turns.by_journal(held) if is_recorded else turns.by_program(held):
        if window:
            window.before(desk)
        entry = desk.enter(number, text, call, answer)
        if number <= held.count or entry.faults:
            if window:
                window.after(entry)
            out.write(report.entry(entry))
        if number % EVERY == 0:
            progress.at(number)
    progress.end()
    desk.entries = held.calls
    for row in report.pieces(desk.book):
        out.write(row)


def write_pages(pages, desk, window, told):
    if "--html" in pages:
        write_file(pages["--html"], page(desk, window, told))
    if "--svg" in pages:
        write_file(pages["--svg"], picture(desk.words, window))
