"""The crates as boxes in layers, each above what it stands on: a drawing in SVG, the same on every machine."""
from collections import namedtuple

COLOURS = ("#fde68a", "#d1fae5", "#bbf7d0", "#86efac", "#bfdbfe", "#ddd6fe", "#fecaca", "#fca5a5", "#fed7aa", "#f5d0fe", "#e5e7eb")
LETTER, TALL, BESIDE, BETWEEN, EDGE = 7, 24, 14, 64, 20

Drawing = namedtuple("Drawing", "rows links")  # rows of boxes from below; pairs of (upper, lower) in neighbouring rows


def direct(used):
    """What each crate stands on, without what it reaches through another; each crate after those."""
    reached = {}
    while len(reached) < len(used):
        for name, below in used.items():
            if name not in reached and all(other in reached for other in below):
                reached[name] = set(below).union(*(reached[other] for other in below))
    return {name: [other for other in used[name] if not any(other in reached[third] for third in used[name] if third != other)]
            for name in reached}


def heights(below):
    """The row of each crate, as high as those that use it allow."""
    low = {}
    for name in below:
        low[name] = 1 + max((low[other] for other in below[name]), default=-1)
    high = dict(low)
    for name in reversed(list(below)):
        users = [high[user] for user in below if name in below[user]]
        high[name] = min(users) - 1 if users else low[name]
    return high


def threaded(below, high):
    """Links that cross a row pass through a place of their own there."""
    rows = [[] for _ in range(1 + max(high.values()))]
    for name, row in high.items():
        rows[row].append(name)
    links = []
    for upper in below:
        for lower in below[upper]:
            last = upper
            for row in range(high[upper] - 1, high[lower], -1):
                place = (upper, lower, row)
                rows[row].append(place)
                links.append((last, place))
                last = place
            links.append((last, lower))
    return Drawing(rows, links)


def neighbours(links):
    beside = {}
    for upper, lower in links:
        beside.setdefault(upper, []).append(lower)
        beside.setdefault(lower, []).append(upper)
    return beside


def wide(box):
    return 4 if isinstance(box, tuple) else LETTER * len(box) + 16


def spread(row, wanted):
    """Places of a row's boxes from left to right: each near where it is wanted, none over another."""
    places, right = [], None
    for box in row:
        left = wanted[box] - wide(box) // 2
        places.append(left if right is None else max(left, right + BESIDE))
        right = places[-1] + wide(box)
    back = sum(place + wide(box) // 2 - wanted[box] for place, box in zip(places, row)) // max(1, len(row))
    return {box: place + wide(box) // 2 - back for place, box in zip(places, row)}


def placed(drawing):
    """The middle of every box: rows are put in order and spread by turns, up and down, until they lie near what they touch."""
    beside, middle = neighbours(drawing.links), {}
    for row in drawing.rows:
        middle.update(spread(row, {box: 0 for box in row}))
    for turn in range(40):
        for row in drawing.rows if turn % 2 else reversed(drawing.rows):
            wanted = {box: sum(middle[other] for other in beside.get(box, [box])) // len(beside.get(box, [box])) for box in row}
            if turn < 30:
                row.sort(key=lambda box: (wanted[box], str(box)))
            middle.update(spread(row, wanted))
    left = min(place - wide(box) // 2 for box, place in middle.items())
    return {box: place - left + EDGE for box, place in middle.items()}


def line(start, end):
    half = (start[1] + end[1]) // 2
    return f'<path d="M{start[0]} {start[1]}C{start[0]} {half} {end[0]} {half} {end[0]} {end[1]}"/>'


def drawn(families, used):
    """The picture, families by colour with their titles below it."""
    drawing = threaded(direct(used), heights(direct(used)))
    middle = placed(drawing)
    depth = {box: EDGE + (len(drawing.rows) - 1 - number) * BETWEEN for number, row in enumerate(drawing.rows) for box in row}
    foot = EDGE + len(drawing.rows) * BETWEEN
    across, down = max(place + wide(box) // 2 for box, place in middle.items()) + EDGE, foot + 22 * len(families)
    text = [f'<svg xmlns="http://www.w3.org/2000/svg" viewBox="0 0 {across} {down}" font-family="monospace" font-size="12">',
            f'<rect width="{across}" height="{down}" fill="#fff"/>', '<g fill="none" stroke="#888">']
    for upper, lower in drawing.links:
        text.append(line((middle[upper], depth[upper] + (0 if isinstance(upper, tuple) else TALL)), (middle[lower], depth[lower])))
    text += ["</g>", '<g text-anchor="middle">']
    for number, family in enumerate(families):
        for name in (crate.name for crate in family.crates):
            text.append(f'<rect x="{middle[name] - wide(name) // 2}" y="{depth[name]}" width="{wide(name)}" height="{TALL}" rx="5" '
                        f'fill="{COLOURS[number % len(COLOURS)]}" stroke="#333"/><text x="{middle[name]}" y="{depth[name] + 16}">{name}</text>')
    text.append("</g>")
    for number, family in enumerate(families):
        text.append(f'<rect x="{EDGE}" y="{foot + 22 * number}" width="14" height="14" fill="{COLOURS[number % len(COLOURS)]}" stroke="#333"/>'
                    f'<text x="{EDGE + 22}" y="{foot + 22 * number + 12}">{family.title}</text>')
    return "\n".join(text + ["</svg>", ""])
