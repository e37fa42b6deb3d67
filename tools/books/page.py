"""The books as one page: no network and no script; to be read, pointed at, and printed on A4."""
from collections import namedtuple
from html import escape
from itertools import islice

from answers import text_of as answer_text
from calls import text_of as call_text
from picture import WRONG, drawings
from words import counted

MOST_PIECES = 1000

STYLE = f"""
@page {{ size: A4; margin: 14mm }}
body {{ font: 15px/1.45 sans-serif; color: #111; background: #fff; max-width: 1000px; margin: 1em auto; padding: 0 1em }}
h1 {{ font-size: 1.5em }} h2 {{ font-size: 1.15em; margin-top: 1.6em }}
.closing {{ border-left: 5px solid #2e7d4f; padding: .3em .8em; background: #f2f8f4 }}
.closing.wrong {{ border-color: {WRONG}; background: #fcf1f2 }}
.basis {{ color: #444; font-size: .92em }}
svg {{ width: 100%; height: auto; display: block; break-inside: avoid }}
table {{ border-collapse: collapse; width: 100%; font: 13px/1.4 monospace }}
th, td {{ text-align: left; padding: .15em .5em; border-bottom: 1px solid #ddd; vertical-align: top }}
td.sum, th.sum {{ text-align: right }} td.reason {{ color: {WRONG}; border-bottom: 1px solid #ddd; padding-left: 3em }}
thead {{ display: table-header-group }} tr {{ break-inside: avoid }}
a {{ color: inherit }} svg a:hover .row, svg a:focus .row {{ fill: #ffe9a8; fill-opacity: 1 }}
svg a:target .row, tr:target {{ fill: #ffe9a8; fill-opacity: 1; background: #ffe9a8 }}
@media print {{ body {{ max-width: none; margin: 0; padding: 0; font-size: 11px }} table {{ font-size: 9px }}
  * {{ print-color-adjust: exact; -webkit-print-color-adjust: exact }} }}
"""

PROVED = "The answers are those of the proved program."
RECORDED = "The answers are those that the journal records; they are judged here by its own vouchers alone."
NOT_PROVED = "This page, with its sums, reasons and pictures, is made by code that is tested and not proved."


# name: of the file; closing: the sentences at the end; sayings: what was read differently
Told = namedtuple("Told", "name closing is_right is_recorded sayings")


def page(desk, window, told):
    """The page, in parts."""
    title = f"The books of {escape('standard input' if told.name == '-' else told.name)}"
    yield f'<!DOCTYPE html>\n<html lang="en">\n<head>\n<meta charset="utf-8">\n<title>{title}</title>\n<style>{STYLE}</style>\n</head>\n<body>\n'
    yield f'<h1>{title}</h1>\n<p class="closing{"" if told.is_right else " wrong"}">{"<br>".join(map(escape, told.closing))}</p>\n'
    yield f'<p class="basis">{RECORDED if told.is_recorded else PROVED} {NOT_PROVED}</p>\n'
    if told.sayings:
        items = "".join(f"<li>{escape(saying)}</li>" for saying in told.sayings)
        yield f"<details open><summary>Read differently</summary><ul>{items}</ul></details>\n"
    yield from _memory(desk.words, window)
    yield from _vouchers(desk.words, window)
    yield from _bytes(desk)
    yield "</body>\n</html>\n"


def picture(words, window):
    """The first drawing alone."""
    return islice(drawings(words, window, links=False), 1)


def _memory(words, window):
    which = f", the last {len(window.entries)}" if window.left_out else ""
    yield f"<h2>The memory after each {words.noun}{which}</h2>\n"
    drawn = False
    for drawing in drawings(words, window, links=True):
        drawn = True
        yield drawing
    yield "<p>The bytes that a call covers have a black edge. Point at a row for its words; click it for its voucher.</p>\n" if drawn else (
        "<p>There is nothing to draw: no byte was covered, or the pieces are too many to be seen.</p>\n"
    )


def _vouchers(words, window):
    yield '<h2>The vouchers</h2>\n'
    if window.left_out:
        yield f"<p>The last {len(window.entries)}; {counted(window.left_out, 'voucher')} before them are left out here.</p>\n"
    yield f'<table>\n<thead><tr><th>{words.noun}</th><th>call</th><th>answer</th><th>covers</th><th class="sum">bytes</th><th class="sum">total</th></tr></thead>\n<tbody>\n'
    if window.left_out:
        yield _before(window)
    for entry in window.entries:
        yield _voucher(words, entry)
    yield "</tbody>\n</table>\n"


def _before(window):
    """The vouchers that are left out, as one row, so that the column adds up."""
    total = window.entries[0].total - window.entries[0].change
    return f'<tr class="left-out"><td colspan="4">{counted(window.left_out, "voucher")}, left out here</td><td class="sum">{total:+}</td><td class="sum">{total}</td></tr>\n'


def _voucher(words, entry):
    call = call_text(entry.call, words.address) if entry.call is not None else entry.text
    covers = "" if entry.answer.kind == "list" else "nothing" if entry.first is None else words.range(entry.first, entry.past)
    change = f"{entry.change:+}" if entry.change else "" if entry.answer.kind == "list" else "0"
    row = (
        f'<tr id="v{entry.number}"><td><a href="#b{entry.number}">{entry.number}</a></td><td>{escape(call)}</td>'
        f'<td>{answer_text(entry.answer, words.address)}</td><td>{covers}</td><td class="sum">{change}</td><td class="sum">{entry.total}</td></tr>\n'
    )
    for said in [*filter(None, [entry.reason]), *entry.faults]:
        row += f'<tr><td></td><td class="reason" colspan="5">{escape(said)}</td></tr>\n'
    return row


def _free(first, past, voucher):
    return past - first if voucher.kind == "f" else 0


def _bytes(desk):
    words, rows = desk.words, desk.book.pieces.all()
    yield '<h2>Byte by byte</h2>\n<table>\n<thead><tr><th>bytes</th><th>last accepted call</th><th>free</th><th class="sum">bytes</th></tr></thead>\n<tbody>\n'
    for first, past, voucher in islice(rows, MOST_PIECES):
        size = _free(first, past, voucher)
        yield (
            f"<tr><td>{words.range(first, past)}</td><td>{words.voucher(voucher.number)}, {voucher.kind}</td>"
            f'<td>{"yes" if size else "no"}</td><td class="sum">{size}</td></tr>\n'
        )
    left_out = [_free(*row) for row in rows]
    if left_out:
        yield f'<tr class="left-out"><td colspan="3">{counted(len(left_out), "row")} more, left out here</td><td class="sum">{sum(left_out)}</td></tr>\n'
    yield f'<tr><td></td><td></td><td>total</td><td class="sum">{desk.book.summed()}</td></tr>\n</tbody>\n</table>\n'
