"""The definitions of crates/*/specs, and which of them cite which."""
import re
from dataclasses import dataclass, field
from pathlib import Path

import house

PROJECT = Path(__file__).resolve().parents[1]
IMPORT = re.compile(r"^(?:(?:unfoldable )?pub )?use Rattle\.([a-z_0-9]+)\.specs\.(\w+)(?: as ([\w-]+)|\.\{(.*)\})$")
BEGINS = re.compile(r"^( *)(?:abbrev |unfoldable )?(?:pub )?(?:(?:record|data) (\S+)|([^\s:(){}]+)(?: \{[^}]*\})? : )")
CONSTRUCTOR = re.compile(r"^ +(?:pub )?(\S+) : ")
MODULE = re.compile(r"^( *)module _ ")
A_FIELD = re.compile(r"(?<=\s)\.\S+")
A_NAME = re.compile(r"[^\s(){}\[\],;]+")


@dataclass(eq=False)
class Definition:
    """One definition with the comment above it; or what stands with it where it stands: the words at the head of a file, a heading, the head of a module."""

    place: str
    text: str
    names: list
    depth: int
    inside: list = field(default_factory=list)  # what stands with it

    @property
    def lines(self):
        return len(self.text.splitlines())

    def words(self):
        for line in self.text.splitlines():
            if not line.lstrip().startswith("--"):
                yield from A_NAME.findall(A_FIELD.sub("", line))


def _names(chunk):
    """What a chunk of lines defines: a function, or a type with its constructors."""
    found, begun = [], None
    for line in chunk:
        begun = begun or BEGINS.match(line)
        if begun:
            found += [name for name in begun.groups()[1:] if name] if not found else []
        if begun and " data " in f" {chunk[[bool(BEGINS.match(each)) for each in chunk].index(True)]}":
            found += CONSTRUCTOR.findall(line)
    return found


def _chunks(text):
    """The parts between blank lines, the head of a module apart from what follows it."""
    for part in re.split(r"\n\s*\n", text):
        lines = part.split("\n")
        heads = [number for number, line in enumerate(lines) if MODULE.match(line)]
        if heads and heads[0] < len(lines) - 1 and lines[heads[0]].endswith("where"):
            yield lines[: heads[0] + 1]
            yield lines[heads[0] + 1 :]
        else:
            yield lines


class File:
    """A file of specs/: its definitions, and where the names come from that it does not define."""

    def __init__(self, place, text):
        self.place, self.here, self.from_others, self.aliases = place, [], {}, {}
        open_modules, head, heading = [], None, None
        for chunk in _chunks("\n".join(line for line in text.split("\n") if not self._imports(line))):
            depth = len(chunk[0]) - len(chunk[0].lstrip())
            open_modules = [module for module in open_modules if module.depth < depth]
            found = Definition(place, "\n".join(chunk), _names(chunk), depth, [each for each in (head, heading, *open_modules) if each])
            self.here.append(found)
            if any(MODULE.match(line) for line in chunk):
                open_modules.append(found)
            elif not found.names:
                found.inside = [head] if head else []
                head, heading = (head, found) if head else (found, None)
        self.own = {name: each for each in self.here for name in each.names}

    def _imports(self, line):
        found = IMPORT.match(line)
        if found:
            crate, name, alias, names = found.groups()
            if alias:
                self.aliases[alias] = f"{crate}/{name}"
            for each in names.split(", ") if names else []:
                self.from_others[each] = f"{crate}/{name}"
        return found or re.match(r"^(?:(?:unfoldable )?pub )?use ", line)


class Known:
    """All of them, in the order of crates.txt."""

    def __init__(self, project=PROJECT):
        self.files, self.crates = {}, house.crates(project)
        for crate in self.crates:
            lib = project / "crates" / crate / "specs/Lib.antt"
            for name in re.findall(r"^pub mod (\w+)", lib.read_text("utf-8"), re.M) if lib.is_file() else []:
                path = project / "crates" / crate / f"specs/{name}.antt"
                self.files[f"{crate}/{name}"] = File(f"{crate}/{name}", path.read_text("utf-8"))

    def find(self, place, name):
        """The definition of a name as a file sees it, or none: a name of the kit's, a local one, or one of a type of the code. A field is read
        of what stands before the dot."""
        file = self.files[place]
        alias, _, rest = name.partition(".")
        if name in file.own:
            return file.own[name]
        if name in file.from_others:
            return self._of(place, file.from_others[name], name)
        if rest and alias in file.aliases:
            return self._of(place, file.aliases[alias], rest.partition(".")[0])
        return self.find(place, alias) if alias and rest else None

    def root(self, root):
        """The definition that a list begins with: there is one."""
        found = self.find(*root.split("#"))
        if not found:
            raise LookupError(f"there is no definition {root}")
        return found

    def _of(self, place, other, name):
        """What a file imports of the project is there, or this reading of the files is wrong."""
        if other.split("/")[0] not in self.crates:
            return None
        found = self.find(other, name) if other in self.files else None
        if not found:
            raise LookupError(f"crates/{place.replace('/', '/specs/')}.antt takes {name} from {other}, and it is not found there")
        return found

    def cited(self, roots, meant):
        """What the roots are, and all that they cite, but for what is cited by what is meant only."""
        stops = {self.root(root) for root in meant}
        ahead, found = [], set()
        for root in roots:
            place, _, name = root.partition("#")
            ahead += [self.root(root)] if name else [each for each in self.files[place].here if each.names]
        while ahead:
            each = ahead.pop()
            if each is None or each in found or each in stops:
                continue
            found.add(each)
            ahead += each.inside
            ahead += [self.find(each.place, word) for word in each.words()]
        return [each for file in self.files.values() for each in file.here if each in found]
