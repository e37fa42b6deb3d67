"""The memory over time, drawn: a row a voucher, its text on the left and the memory after it as a bar on the right."""
from html import escape

from answers import text_of as answer_text
from calls import text_of as call_text
from scale import Scale

FREE, HELD, NEVER, EDGE, WRONG = "#5cb885", "#3f6fb0", "#ececec", "#111111", "#b00020"
LEFT, BAR, ROW, TALL, TOP = 330, 640, 22, 16, 44
WIDE = LEFT + BAR + 30
ROWS = 36  # of one drawing, so that none is cut by the end of a sheet
MOST_ENDS = 1500

STATES = (("free", FREE), ("held", HELD), ("never offered", NEVER))


def ends_of(window):
    """Every place where a piece begins or ends in the rows that are shown."""
    ends = {end for ranges in (window.free, window.offered) for pair in ranges for end in pair}
    for entry in window.entries:
        if entry.first is not None:
            ends |= {entry.first, entry.past}
    return ends


def drawings(words, window, links):
    """The rows as SVG, some to a drawing; nothing where nothing was covered, or too much to be seen."""
    scale = Scale(ends_of(window), BAR) if window.free is not None else []
    if not 2 <= len(scale) <= MOST_ENDS:
        return
    free, offered = window.free.copy(), window.offered.copy()
    for at in range(0, len(window.entries), ROWS):
        rows = window.entries[at : at + ROWS]
        yield "".join(_drawing(words, scale, rows, free, offered, links))


def _drawing(words, scale, rows, free, offered, links):
    tall = TOP + ROW * len(rows) + 8
    yield (
        f'<svg xmlns="http://www.w3.org/2000/svg" viewBox="0 0 {WIDE} {tall}" width="{WIDE}" height="{tall}" '
        'font-family="monospace" font-size="12" role="img" aria-label="the memory over time">\n'
        f'<rect width="{WIDE}" height="{tall}" fill="#ffffff"/>\n'
    )
    yield from _legend(scale)
    yield from _axis(words, scale, tall)
    for place, entry in enumerate(rows):
        entered(entry, free, offered)
        yield from _row(words, scale, entry, TOP + ROW * place, (free, offered), links)
    yield "</svg>\n"


def entered(entry, free, offered):
    """The memory after an entry."""
    if entry.first is None or entry.first >= entry.past:
        return
    if entry.call.kind == "f":
        free.add(entry.first, entry.past)
        offered.add(entry.first, entry.past)
    else:
        free.remove(entry.first, entry.past)


def _legend(scale):
    x = 8
    for word, colour in STATES:
        yield f'<rect x="{x}" y="6" width="12" height="12" fill="{colour}" stroke="#777777"/><text x="{x + 17}" y="16">{word}</text>\n'
        x += 36 + 8 * len(word)
    note = "widths are true" if scale.is_true else "widths are not true: a piece twice as wide has many times the bytes"
    yield f'<text x="{LEFT}" y="16" fill="#555555">{note}</text>\n'


def _axis(words, scale, tall):
    wide = 7 * len(words.address(scale.ends[-1]))
    for end, place in scale.labels(wide + 8):
        x, anchor = LEFT + place, "end" if place + wide > BAR else "start"
        yield f'<line x1="{x:.1f}" y1="36" x2="{x:.1f}" y2="{tall - 8}" stroke="#cccccc"/>'
        yield f'<text x="{x:.1f}" y="33" font-size="10" fill="#555555" text-anchor="{anchor}">{words.address(end)}</text>\n'


def _row(words, scale, entry, y, memory, links):
    call = call_text(entry.call, words.address) if entry.call is not None else entry.text
    answer = answer_text(entry.answer, words.address)
    colour = WRONG if entry.faults or entry.reason else EDGE
    text = f"{entry.number:>4}  {call}  {answer}"
    if links:
        yield f'<a href="#v{entry.number}" id="b{entry.number}">'
    yield f"<g><title>{escape(told(words, entry))}</title>"
    yield f'<rect class="row" x="2" y="{y - 2}" width="{WIDE - 4}" height="{TALL + 4}" fill="#ffffff" fill-opacity="0"/>'
    yield f'<text x="8" y="{y + 12}" fill="{colour}" xml:space="preserve">{escape(_cut(text))}</text>'
    yield f'<rect x="{LEFT}" y="{y}" width="{BAR}" height="{TALL}" fill="{NEVER}"/>'
    for ranges, fill in ((memory[1], HELD), (memory[0], FREE)):
        for first, past in ranges:
            yield _piece(scale, first, past, y, f'fill="{fill}"')
    if entry.first is not None and entry.first < entry.past:
        yield _piece(scale, entry.first, entry.past, y, f'fill="none" stroke="{colour}" stroke-width="2"')
    yield "</g>" + ("</a>\n" if links else "\n")


def _cut(text):
    most = (LEFT - 16) * 10 // 72
    return text if len(text) <= most else text[: most - 2] + ".."


def _piece(scale, first, past, y, look):
    x, after = scale.at(first), scale.at(past)
    return f'<rect x="{LEFT + x:.1f}" y="{y}" width="{after - x:.1f}" height="{TALL}" {look}/>'


def told(words, entry):
    """An entry in one sentence, for whoever points at it."""
    call = call_text(entry.call, words.address) if entry.call is not None else entry.text
    covers = "covers nothing" if entry.first is None else f"covers {words.range(entry.first, entry.past)}, {entry.change:+} bytes"
    said = [f"{words.voucher(entry.number)}: {call} - {answer_text(entry.answer, words.address)}", covers, f"{entry.total} free after it"]
    return "; ".join([*said, *filter(None, [entry.reason]), *(f"NOT RIGHT: {fault}" for fault in entry.faults)])
