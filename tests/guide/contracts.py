"""The entries of docs/CONTRACTS.md: the contract's text, its words, and at least two edits that are there and do what is said of them."""
import re
from dataclasses import dataclass, field

import mistakes
from names import crates

EDIT = re.compile(r"- `(\w+)/(\w+)`, .*: `(.+)`$")


@dataclass
class Entry:
    page: str
    line: int
    call: str
    crate: str = ""
    worded: bool = False
    edits: list = field(default_factory=list)


def quoted(project, block):
    """A block of kind rattle or antt is a part of the file that the line above it names."""
    path = project / block.name
    if not block.name or not path.is_file():
        return f"{block.where}: the line above must end with the name of the file that this is a part of, and a colon"
    if "\n".join(block.lines) + "\n" not in path.read_text("utf-8"):
        return f"{block.where}: {block.name} has no such lines, one after the other"
    return None


def entries(page):
    """The parts of the page whose heading is a call."""
    for line, level, words in page.headings():
        named = re.fullmatch(r"`([\w:]+)`", words)
        if level != 2 or not named:
            continue
        entry, end = Entry(page.name, line, named[1]), page.under(line)
        for block in page.blocks:
            if line < block.line < end and block.kind == "rattle":
                entry.crate = block.name.split("/")[1]
        for number in range(line, end - 1):
            text = page.text[number]
            entry.worded |= text.startswith("In words: ")
            if text.startswith("- "):
                entry.edits.append((number + 1, text))
        yield entry


def _stands_on(crate, below):
    """The crates below a crate, those that they stand on included."""
    found, ahead = set(), list(below.get(crate, []))
    while ahead:
        name = ahead.pop()
        if name not in found:
            found.add(name)
            ahead += below.get(name, [])
    return found


def _edit_problem(project, entry, line, text, below):
    parts = EDIT.fullmatch(text)
    if not parts:
        return f"{entry.page}:{line}: a wrong program is written as - `crate/edit`, what it does: `the line that it changes to`"
    crate, name, new = parts.groups()
    mistake = mistakes.find(project, crate, name)
    if not mistake:
        return f"{entry.page}:{line}: no edit in crates/{crate}/must-fail makes the mistake {name}"
    if mistake.new.strip() != new:
        return f"{entry.page}:{line}: {mistake.file.relative_to(project)} changes its line to `{mistake.new.strip()}`"
    if crate not in {entry.crate} | _stands_on(entry.crate, below):
        return f"{entry.page}:{line}: {entry.crate} does not stand on {crate}, so the edit says nothing of {entry.call}"
    return None


def held(project, page):
    """What is wrong with the entries."""
    below = crates(project)
    for entry in entries(page):
        if not entry.crate:
            yield f"{page.name}:{entry.line}: {entry.call} has no contract, a block of kind rattle"
        if not entry.worded:
            yield f"{page.name}:{entry.line}: {entry.call} has no line that begins with `In words:`"
        problems = [_edit_problem(project, entry, line, text, below) for line, text in entry.edits]
        yield from filter(None, problems)
        if len(entry.edits) < 2:
            yield f"{page.name}:{entry.line}: {entry.call} has fewer than two wrong programs"


def public(project, crate):
    """The functions that a crate gives to others: those of lib.rt and of its public modules, and what it hands on. A program gives none."""
    source = project / "crates" / crate / "src"
    if not (source / "lib.rt").is_file():
        return []
    lib = (source / "lib.rt").read_text("utf-8")
    texts = [lib] + [(source / f"{name}.rt").read_text("utf-8") for name in re.findall(r"^pub mod (\w+);", lib, re.M)]
    own = [name for text in texts for name in re.findall(r"^pub fn (\w+)", text, re.M)]
    return own + [name for module, name in re.findall(r"^pub use (\w+)::(\w+);", lib, re.M) if (source / f"{module}.rt").is_file()]


def unnamed(project, page):
    """Public functions, of the crates that the page has entries of, that it does not name."""
    named = {word for _, span in page.spans() for word in re.split(r"\W+", span)}
    for crate in sorted({entry.crate for entry in entries(page) if entry.crate}):
        for name in public(project, crate):
            if name not in named:
                yield f"{page.name}: it does not name {crate}::{name}, which is public"


def notes(project, pages, page):
    """What is no failure, and should be known."""
    for entry in entries(page):
        own = sum(text.startswith(f"- `{entry.crate}/") for _, text in entry.edits)
        if own < 2:
            yield f"{entry.crate}::{entry.call.split('::')[-1]} has {own} edit of its own crate, and {len(entry.edits) - own} of layers below"
    named = {span for each in pages for _, span in each.spans()}
    for mistake in mistakes.of_project(project):
        if f"{mistake.crate}/{mistake.name}" not in named:
            yield f"{mistake.name} of {mistake.file.relative_to(project)} is named on no page"
