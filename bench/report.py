"""What the benchmark writes: a table and a plot, of ratios alone."""

import math
from html import escape

BAR, GAP, GROUP_GAP, TOP = 16, 4, 14, 76
LEFT, WIDTH, RIGHT = 216, 400, 44
COLOURS = ("#8a8f98", "#2f6f9f", "#7fa8c9", "#b5651d", "#4d7c4d", "#8fbf8f", "#9a6aa8")
MARKS = (0.1, 0.2, 0.5, 1, 2, 5, 10, 20, 50, 100, 200, 500)


CHECKED, UNCHECKED = "own state, checked", "own state, unchecked"


class Results:
    """The lines that the program prints, taken apart."""

    def __init__(self, printed):
        self.processor, self.effort, self.paths, self.compared = "", [], [], 0
        self.ratios, self.pairs, self.by_growth, self.by_length, self.long, self.stack, self.code = {}, {}, {}, {}, {}, {}, {}
        for line in printed.splitlines():
            kind, *fields = line.split("\t")
            if kind == "processor":
                self.processor = fields[0]
            elif kind == "effort":
                self.effort = fields
            elif kind in ("ratio", "pair"):
                ranges, path, ratio = fields
                {"ratio": self.ratios, "pair": self.pairs}[kind][self.known(path), int(ranges)] = float(ratio)
            elif kind == "growth":
                self.by_growth[fields[0]] = float(fields[1])
            elif kind == "length":
                length, path, ratio = fields
                self.by_length.setdefault(path, {})[int(length)] = float(ratio)
            elif kind == "long":
                *self.long_effort, path, ratio = fields
                self.long[path] = ratio
            elif kind in ("stack", "code"):
                {"stack": self.stack, "code": self.code}[kind][fields[0]] = int(fields[1])
            elif kind == "equal":
                _, path, answers = fields
                self.known(path)
                self.compared += int(answers)

    def known(self, path):
        if path not in self.paths:
            self.paths.append(path)
        return path

    def ranges(self):
        return sorted({ranges for _, ranges in self.ratios})


def shown(ratio):
    """Two digits are all that a repeated run confirms."""
    return f"{ratio:.0f}" if ratio >= 10 else f"{ratio:.1f}" if ratio >= 1 else f"{ratio:.2f}"


def rows_of(heads, rows):
    return "\n".join("| " + " | ".join(map(str, row)) + " |" for row in [heads, ["---"] * len(heads), *rows]).replace("| --- ", "|---").replace("|--- |", "|---|")


def table(results, ratios):
    """A row for each path, and one for what the check costs: a checked call less an unchecked one."""
    columns = results.ranges()
    rows = [[path, *(shown(ratios[path, ranges]) for ranges in columns)] for path in results.paths]
    checks = [ratios[CHECKED, ranges] - ratios[UNCHECKED, ranges] for ranges in columns]
    rows.append(["the exact check: the difference of the two above", *map(shown, checks)])
    return rows_of(["path", *(f"{ranges} free ranges" for ranges in columns)], ordered(rows))


def ordered(rows):
    """The difference stands below the two."""
    last = rows.pop()
    at = next(at for at, row in enumerate(rows) if row[0] == UNCHECKED)
    return rows[: at + 1] + [last] + rows[at + 1 :]


def growth(results):
    fewest, *_, most = results.ranges()
    heads = ["path", f"{most} free ranges against {fewest}"]
    return rows_of(heads, [[path, shown(ratio)] for path, ratio in results.by_growth.items()])


def lengths(results):
    """How the time grows with the length of a list."""
    columns = list(next(iter(results.by_length.values())))
    rows = [[path, *(shown(by_length[length]) for length in columns)] for path, by_length in results.by_length.items()]
    return rows_of(["calls in a list", *(f"{length:,}" for length in columns)], rows)


def long_lists(results):
    calls, ranges, _ = results.long_effort
    named = {"1000000": "a million"}.get(calls, calls)
    said = [f"{path}, {named} calls in one list, about {ranges} free ranges: {ratio} times the Rust's time" for path, ratio in results.long.items()]
    return "; ".join(said) + " (wanted: at most 1.5)"


def sizes(results):
    stack = rows_of(["path", "bytes of stack, at most"], list(results.stack.items()))
    code = rows_of(["object of the archive", "bytes of code"], list(results.code.items()))
    return f"{stack}\n\n{code}"


def markdown(results, versions):
    rounds, calls, stretch, slack = results.effort
    _, ranges_of_lists, rounds_of_the_long = results.long_effort
    baseline, c_call, plain, lists, checked, unchecked, own_lists = results.paths
    return f"""# Benchmark

Time as a multiple of that of {baseline}, the untouched module, on the same calls in one process, both optimised. Mixed calls:

{table(results, results.ratios)}

![The same as bars](benchmark.svg)

The everyday pair, a page allocated and freed at once:

{table(results, results.pairs)}

Measured on: {results.processor}. {versions}.

## The paths

- **{baseline}** works in place. Of its state it checks that a link it follows is the number of a record, and no more.
- **{c_call}** is what a program gets from the archive, and in the Rust crate `LentAllocator`, call by call. It reads the image
  and checks the whole state, works, and writes the image.
- **{plain}**: a box without a C library copies a word at a time, where this machine's `memcpy` has vector registers. Only what
  copies the image or the state can tell the difference.
- **{lists}** is `cinghjalofa_batch`, in the crate `LentAllocator::serve`: the same once for a list, and the calls of the
  list in place between reading and writing. The table has lists of {stretch} calls.
- **{checked}** is `MemoryAllocator`, in C `cinghjalofa_own_allocate` and the like: eleven fields in the caller's memory, which each
  call checks whole, and then works on in place.
- **{unchecked}** is `UncheckedAllocator`, in C `cinghjalofa_own_allocate_unchecked` and the like: the same without the check.
- **{own_lists}** is `MemoryAllocator::serve`, in C `cinghjalofa_own_batch`: one check for a list, and its calls in place.

## How the time grows

The mixed calls again: what each path takes around so many free ranges, as a multiple of what it takes itself around fewer.

{growth(results)}

## Lists

Lists of several lengths, about {ranges_of_lists} free ranges, and again as a multiple of the Rust's time for the same calls:

{lengths(results)}

{long_lists(results)}

## Stack and code

Of the archive that was measured. The bytes of stack are the most that a call took, refused ones among them, with all records in use
but one. Each object has all that it calls, so a program links those that it uses: `c_calls.o` has the calls over an image, `c_upgrade.o` the
upgrade of an older one, `c_holders.o` those with holders, `door_own.o` those on a state of one's own, `door_fields.o` a new one and its check, `door_lists.o` lists of calls on one, and images into
and out of it.

{sizes(results)}

## What the figures leave out

- The caller's own work: its lock, and the words of a list, which are written before the clock runs.
- Cold caches. All calls of a path come one after the other, and the state stays in the processor's nearest memory.
- An interrupted list: it holds the caller's lock for all of its calls.
- Record numbers that lie badly. A free or a reserve begins its walk at the nearest of every eighth record below the address; where all of these lie
  above it, the walk is as long as the module's. Here the ranges got their records from the lowest address on, and then as the calls came.
- The module's errors. Its total drifts, and some of its answers are wrong (docs/DIFFERENCES.md); the time for them counts as it is.
- Machines of another kind. Ratios are of one run on one processor; another one has others, and none is a promise.

## How it is measured

- `tools/bench` measures again and writes this page.
- {calls} calls (takes, reserves and frees, one in a few dozen refused; or pairs of a take and a free), the number of free ranges never
  more than {slack} from the one named; the least of {rounds} rounds, taken for each stretch of {stretch} calls and added up; in each round
  every path plays once. Lists of other lengths are timed in stretches of 10,000 calls, the long ones as a whole, the least of
  {rounds_of_the_long} rounds. Reading, checking and writing the image are in the time.
- Every answer of every round is compared with document 01's: addresses and acceptances of all paths, and the refusal numbers
  of all but the module, whose total drifts (docs/DIFFERENCES.md).
- The archive is the project's own. The one for Arm is for bare machines (`tools/archives`): no vector register, no
  unaligned access. The module is compiled as any program's Rust is.
- Under an emulator nothing is measured.
"""


class Scale:
    """Across the plot, logarithmic: as far from 1 to 2 as from 10 to 20."""

    def __init__(self, ratios):
        low = max(mark for mark in MARKS[:3] if mark <= min(ratios) or mark == MARKS[0])
        high = min(mark for mark in MARKS[4:] if mark >= max(ratios) or mark == MARKS[-1])
        self.marks = [mark for mark in MARKS if low <= mark <= high]

    def at(self, ratio):
        low, high = self.marks[0], self.marks[-1]
        return round(LEFT + WIDTH * math.log(ratio / low) / math.log(high / low))


def grid(scale, height):
    lines = []
    for mark in scale.marks:
        x, colour = scale.at(mark), "#222" if mark == 1 else "#ddd"
        lines += [
            f'<text x="{x}" y="{TOP - 14}" text-anchor="middle" fill="#666">{mark}</text>',
            f'<line x1="{x}" y1="{TOP - 8}" x2="{x}" y2="{height - 8}" stroke="{colour}"/>',
        ]
    return lines


def bars(results, scale):
    """The bars, each from 1 to its ratio, with their labels, and the height that they take."""
    lines, top = [], TOP
    for ranges in results.ranges():
        lines.append(f'<text x="8" y="{top + BAR - 4}" font-weight="bold">{ranges} free ranges</text>')
        top += BAR + GAP
        for at, path in enumerate(results.paths):
            ratio = results.ratios[path, ranges]
            left, right = sorted((scale.at(1), scale.at(ratio)))
            baseline = top + BAR - 4
            lines += [
                f'<text x="{LEFT - 8}" y="{baseline}" text-anchor="end">{escape(path)}</text>',
                f'<rect x="{left - 1}" y="{top}" width="{right - left + 2}" height="{BAR}" fill="{COLOURS[at % len(COLOURS)]}"/>',
                f'<text x="{right + 6}" y="{baseline}">{shown(ratio)}</text>',
            ]
            top += BAR + GAP
        top += GROUP_GAP
    return lines, top


def svg(results):
    scale = Scale(results.ratios.values())
    lines, height = bars(results, scale)
    width = LEFT + WIDTH + RIGHT
    title = f"Time as a multiple of that of {results.paths[0]}, logarithmic"
    return "\n".join(
        [
            f'<svg xmlns="http://www.w3.org/2000/svg" width="{width}" height="{height}" viewBox="0 0 {width} {height}" '
            'font-family="sans-serif" font-size="12" fill="#222">',
            f"<title>{escape(title)}</title>",
            f'<rect width="{width}" height="{height}" fill="#ffffff"/>',
            f'<text x="8" y="22" font-size="14">{escape(title)}</text>',
            f'<text x="8" y="40" fill="#666">{escape(results.processor)}</text>',
            *grid(scale, height),
            *lines,
            "</svg>\n",
        ]
    )
