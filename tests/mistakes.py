"""The mistakes that the files in crates/*/must-fail make on purpose.

The kit tries each file in a check of its own. A file makes one mistake, and is named after it, or several, which the kit tries together: each then
begins with a line `# NAME, in FUNCTION: what is wrong`, or `# NAME, in FUNCTION at NEED: what is wrong` where two are in one function: NEED is the
declaration of the function's proof that fails. A mistake in a definition may be seen by a law instead: FUNCTION is the file of `proofs/` that
has it, and NEED the law. tests/edits has each mistake of such a file tried alone too (tests/tried.py).
"""
import re
from dataclasses import dataclass
from pathlib import Path

HEAD = re.compile(r"# (\w+), in (\w+)(?: at ([^\s:]+))?: (.+)")


@dataclass(frozen=True)
class Mistake:
    crate: str
    name: str
    file: Path  # the edit
    words: str  # its line
    source: str
    old: str
    new: str
    is_alone: bool  # in its file

    @property
    def edit(self):
        """The name of the edit that makes it alone."""
        return self.file.name if self.is_alone else f"{self.file.stem}.{self.name}.edit"

    def text(self):
        """What that edit says."""
        return "\n".join((self.words, f"file: {self.source}", f"old: {self.old}", f"new: {self.new}")) + "\n"


def _fields(path):
    """The lines of an edit, one mistake after the other: what is said of it, its file, the old text and the new one."""
    words = source = old = ""
    for line in path.read_text("utf-8").splitlines():
        if line.startswith("# "):
            words = line
        elif line.startswith("file: "):
            source = line[6:]
        elif line.startswith("old: "):
            old = line[5:]
        elif line.startswith("new:"):
            yield words, source, old, line[4:].removeprefix(" ")


def of_file(path, crate):
    found = list(_fields(path))
    for words, source, old, new in found:
        head = HEAD.fullmatch(words)
        yield Mistake(crate, head[1] if head else path.stem, path, words, source, old, new, len(found) == 1)


def of_crate(project, crate):
    for path in sorted((project / "crates" / crate / "must-fail").glob("*.edit")):
        yield from of_file(path, crate)


def of_project(project):
    for folder in sorted((project / "crates").glob("*/must-fail")):
        yield from of_crate(project, folder.parent.name)


def find(project, crate, name):
    """The mistake of this name, or None."""
    return next((mistake for mistake in of_crate(project, crate) if mistake.name == name), None)
