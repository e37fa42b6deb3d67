"""What the pages name is there: links, files, edits, functions, laws, and commands in the text."""
import re
from functools import lru_cache

import mistakes
from exceptions import ELSEWHERE, MADE

PROGRAMS = {"rt", "cargo", "gcc", "python3", "git", "bash"}
HERE = ("./", "tools/", "tests/")
ENDINGS = (".md", ".rt", ".antt", ".rs", ".py", ".c", ".h", ".txt", ".edit", ".toml", ".svg")
SOURCES = ("crates", "include", "rust", "bench", "tests", "tools", "run", "test")
A_PATH = re.compile(r"[\w.+*/-]+")
A_FORM = re.compile(r"\b(CRATE|FILE|NAME|CALLS|OUT)\b")  # the reader's own words
IN_TEXT = re.compile(r"(?<![\w/.-])(?:bench|crates|docs|include|rust|tests|tools)/[\w./-]*\w")  # without backquotes
AN_ITEM = re.compile(r"(\w+)::(\w+)")
A_WORD = re.compile(r"[A-Za-z][\w-]*")


def crates(project):
    """The crates of crates.txt with what each stands on, in its order."""
    lines = [line.split("#")[0] for line in (project / "crates.txt").read_text("utf-8").splitlines()]
    parted = [line.split(":") for line in lines if ":" in line]
    return {name.split()[0]: below.split() for name, below in parted}


@lru_cache
def _words(project):
    """Every word of the project's sources, this suite's own aside."""
    words = set()
    for name in SOURCES:
        top = project / name
        for path in [top] if top.is_file() else top.rglob("*"):
            if path.is_file() and not {"target", "guide"} & set(path.relative_to(project).parts):
                words.update(re.findall(r"[A-Za-z_][\w-]*", path.read_text("utf-8", errors="replace")))
    return words


@lru_cache(maxsize=None)
def _is_there(project, folder, span):
    """A path begins at the page, at the root or at crates/; one with `../` at the page; a bare name is looked for in all crates."""
    if span.startswith("../"):
        return (folder / span).exists()
    roots = [folder, project, project / "crates"]
    if "/" not in span.rstrip("/"):
        roots += [path for path in (project / "crates").rglob("*") if path.is_dir()]
    return any(next(root.glob(span.rstrip("/")), None) for root in roots)


def _anchor(heading):
    """The name that a heading has in links, as the usual renderers make it."""
    return re.sub(r"[^\w -]", "", heading.lower()).replace(" ", "-")


class Names:
    """`written` are the files that pages have the reader write, `called` the commands of all blocks."""

    def __init__(self, project, pages, written, called):
        self.project, self.pages, self.written, self.called = project, pages, written, called
        self.crates = crates(project)
        self.words = _words(project)

    def missing(self):
        """What is wrong, each with its place."""
        for page in self.pages:
            folder = (self.project / page.name).parent
            found = [(line, self._link(page, folder, target)) for line, target in page.links()]
            found += [(line, self._span(folder, span)) for line, span in page.spans()]
            found += [(line, self._path(self.project, path)) for line, text in page.plain() for path in IN_TEXT.findall(text)]
            for line, problem in sorted(pair for pair in found if pair[1]):
                yield f"{page.name}:{line}: {problem}"

    def _link(self, page, folder, target):
        if "://" in target:
            return None
        file, _, anchor = target.partition("#")
        if file and not (folder / file).exists():
            return f"the link leads to {file}, which is not there"
        if anchor and not file and anchor not in {_anchor(words) for _, _, words in page.headings()}:
            return f"the link leads to #{anchor}, and no heading of the page has that name"
        return None

    def _span(self, folder, span):
        if span in ELSEWHERE or span in MADE or span in self.written:
            return None
        if " " in span:
            return self._command(span)
        if A_PATH.fullmatch(span) and (re.search(r"\w/|/\w", span) or span.endswith(ENDINGS)):
            return None if A_FORM.search(span) else self._path(folder, span)
        item = AN_ITEM.fullmatch(span)
        if item and item[1] in self.crates:
            return self._item(*item.groups())
        if A_WORD.fullmatch(span) and re.search(r"[_-]|[a-z][A-Z]", span):
            return None if span in self.words else f"`{span}` stands in no source of the project"
        return None

    def _command(self, span):
        first = span.split()[0]
        if first not in PROGRAMS and not first.startswith(HERE):
            return None
        if first.startswith(HERE) and not (self.project / first).exists():
            return f"`{span}`: there is no {first}"
        if A_FORM.search(span) or span in self.called:
            return None
        return f"`{span}` is run by no block; show it in a block of kind sh"

    def _path(self, folder, span):
        crate, _, edit = span.partition("/")
        if crate in self.crates and mistakes.find(self.project, crate, edit):
            return None
        if _is_there(self.project, folder, span):
            return None
        if crate in self.crates and re.fullmatch(r"\w+", edit):
            return f"`{span}`: no edit in crates/{crate}/must-fail makes that mistake"
        return f"`{span}`: there is no such file or folder"

    def _item(self, crate, name):
        declared = re.compile(rf"\b(fn|struct|enum|const) {name}\b")
        sources = (self.project / "crates" / crate / "src").glob("*.rt")
        if any(declared.search(path.read_text("utf-8")) for path in sources):
            return None
        return f"`{crate}::{name}`: crates/{crate}/src declares no {name}"
