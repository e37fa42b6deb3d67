"""`./run check CALLS ANSWERS`: a box's answers, judged by its own vouchers alone."""
import turns
from answers import DAMAGED, text_of
from desk import UNEXPLAINED, UNREAD, Desk
from held import answers_of, called, calls_alone_of, read
from progress import EVERY, Progress
from reading import Unreadable
from report import closing, last_lines, refusals
from words import Words

CLOSES, REFUSED, FAILED = 0, 1, 2

COMPARE = "Another answer that the vouchers allow is not seen here: ./run CALLS has the allocator's own answers, to compare."


def check(options, out):
    calls, log = options.files
    if calls == log == "-":
        raise Unreadable("standard input cannot be both the calls and the answers")
    progress = Progress()
    held, answered = _read(calls, "calls", calls_alone_of, progress, out), _read(log, "answers", answers_of, progress, out)
    turns.refuse_register(held, calls)
    desk = Desk(Words(options.is_hex))
    progress.what = "judged"
    for number, text, call, answer in turns.by_log(held, answered):
        entry = desk.enter(number, text, call, answer)
        for said in entry.faults or remarks(entry):
            out.write(f"line {number}, {text}: {said}\n")
        if number % EVERY == 0:
            progress.at(number)
    progress.end()
    do_close, sentence = closing(desk, f"{called(log)} {answered.fault}" if answered.fault else turns.counts_differ(held, answered))
    judged = [refusals(desk)] if desk.entries or not held.calls else []
    out.write("".join(line + "\n" for line in [*judged, *last_lines(do_close, sentence, COMPARE)]))
    return FAILED if not do_close else REFUSED if desk.refused else CLOSES


def remarks(entry):
    """What is no fault, and still odd."""
    if entry.reason in (UNEXPLAINED, UNREAD) or entry.answer == DAMAGED:
        yield f"answered {text_of(entry.answer)}, and {entry.reason}"


def _read(name, what, reader, progress, out):
    held = read(name, what, lambda source: reader(source, progress))
    for saying in held.tally.sayings():
        out.write(f"Read differently in {name}: {saying}.\n")
    return held
