"""A page of the guide taken apart: its blocks, and the headings, code spans, links and tables of its text."""
import re
from dataclasses import dataclass, field
from functools import cached_property

FILES = {"c", "rust", "toml", "text"}  # files of the reader's, where the line above names one
PARTS = {"rattle", "antt"}  # parts of the project's own files, which the line above names
KINDS = FILES | PARTS | {"sh"}
MACHINES = {"", "x86_64", "aarch64"}  # a block of kind sh may be for one kind of machine

NAMED = re.compile(r"`([^`]+)`:$")
SPAN = re.compile(r"`([^`]+)`")
HEADING = re.compile(r"(#+) (.*)")
LINK = re.compile(r"\[[^\]]*\]\(([^)]+)\)")


@dataclass
class Block:
    """What stands between two fences. `name` is the file that the line above names, `machine` the one that it is for."""

    page: str
    line: int
    kind: str
    machine: str
    name: str
    lines: list

    @property
    def where(self):
        return f"{self.page}:{self.line}"

    def is_known(self):
        """Whether there is something that tests a block of this kind."""
        return self.kind in KINDS and (self.machine in MACHINES if self.kind == "sh" else not self.machine)


@dataclass
class Page:
    """`text` has the page's lines with those of blocks left empty; `problems` is what keeps a page from being tested."""

    name: str
    blocks: list = field(default_factory=list)
    text: list = field(default_factory=list)
    problems: list = field(default_factory=list)

    def headings(self):
        """Line, level and words of each heading."""
        return self._headings

    @cached_property
    def _headings(self):
        """Asked for once the page is whole, and then at every name on it."""
        found = ((number, HEADING.match(line)) for number, line in enumerate(self.text, 1))
        return [(number, len(marks[1]), marks[2]) for number, marks in found if marks]

    def spans(self):
        """Line and words of each piece of text between backquotes."""
        return _found(self.text, SPAN)

    def plain(self):
        """Line and words of the text without what stands between backquotes, and of the pictures."""
        for number, line in enumerate(self.text, 1):
            yield number, SPAN.sub("", line)
        for block in self.blocks:
            if block.kind == "text" and not block.name:
                yield from enumerate(block.lines, block.line + 1)

    def links(self):
        return _found(self.text, LINK)

    def tables(self):
        """Each table: a list of rows, a row its line and its cells; the row of dashes is left out."""
        table = []
        for number, line in enumerate([*self.text, ""], 1):
            if line.startswith("|"):
                if not re.fullmatch(r"[|\s:-]+", line):
                    table.append((number, [cell.strip() for cell in line.strip().strip("|").split("|")]))
            elif table:
                yield table
                table = []

    def table(self, *header):
        """The rows below the header that begins with these words; nothing where there is no such table."""
        for rows in self.tables():
            if tuple(rows[0][1][: len(header)]) == header:
                return rows[1:]
        return []

    def under(self, number):
        """The line after the part that the heading in this line begins."""
        level = next(level for line, level, _ in self.headings() if line == number)
        below = [line for line, deep, _ in self.headings() if line > number and deep <= level]
        return below[0] if below else len(self.text) + 1


def _found(lines, pattern):
    """A piece of text may go on in the next line, but not past an empty one."""
    first = 1
    for paragraph in re.split(r"(\n\s*\n)", "\n".join(lines)):
        for hit in pattern.finditer(paragraph):
            yield first + paragraph[: hit.start()].count("\n"), " ".join(hit[1].split())
        first += paragraph.count("\n")


def _above(lines):
    """The file that the last line of text names, if it ends with a name and a colon."""
    written = [line for line in lines if line.strip()]
    named = NAMED.search(written[-1]) if written else None
    return named[1] if named else ""


def _opened(page, number, line):
    words = line[3:].split()
    if len(words) > 2:
        page.problems.append(f"{page.name}:{number}: a fence has a kind and at most a machine, not `{line[3:]}`")
    kind, machine = (words + ["", ""])[:2]
    return Block(page.name, number, kind, machine, _above(page.text), [])


def _look(page, number, line, before):
    """Forms in which a command would be seen by no test."""
    hidden = line.startswith("~~~") or "<pre" in line or re.match(r"\s+```", line)
    if hidden or (re.match(r"(    |\t)", line) and not before.strip()):
        page.problems.append(f"{page.name}:{number}: write this block between two lines of ``` at the line's start, with its kind")


def take_apart(name, text):
    page, block = Page(name), None
    for number, line in enumerate(text.split("\n"), 1):
        inside = block is not None
        if line.startswith("```"):
            if inside:
                page.blocks.append(block)
            block = None if inside else _opened(page, number, line)
        elif inside:
            block.lines.append(line)
        else:
            _look(page, number, line, page.text[-1] if page.text else "")
        page.text.append("" if inside or line.startswith("```") else line)
    if block is not None:
        page.problems.append(f"{block.where}: this block has no end")
    return page
