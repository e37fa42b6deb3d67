"""The crates as crates.txt has them: families, words, and what each stands on; and what their files name of each other."""
import re
from collections import namedtuple

Crate = namedtuple("Crate", "name words below")
Family = namedtuple("Family", "title crates")

IN_PROOFS = re.compile(r"\bRattle\.([a-z_0-9]+)")
IN_CODE = re.compile(r"(?<![:\w])([a-z_0-9]+)::|\buse ([a-z_0-9]+)[.:]")


def families(project):
    """`## title` begins a family; `# words` stands above the line `name: below ..` of each crate, or `name staticlib: below ..`."""
    found, words = [], ""
    for line in (project / "crates.txt").read_text("utf-8").splitlines():
        if line.startswith("## "):
            found.append(Family(line[3:], []))
        elif line.startswith("# "):
            words = line[2:]
        elif ":" in line:
            name, below = line.split(":")
            found[-1].crates.append(Crate(name.split()[0], words, below.split()))
            words = ""
    return found


def crates(project):
    return {crate.name: crate for family in families(project) for crate in family.crates}


def named_in(project, name):
    """Every word that stands where the files of a crate name another."""
    words = set()
    for path in (project / "crates" / name).rglob("*"):
        if path.suffix in (".rt", ".antt") and "must-fail" not in path.parts:
            text = path.read_text("utf-8")
            words.update(IN_PROOFS.findall(text))
            if path.suffix == ".rt":
                words.update(word for pair in IN_CODE.findall(text) for word in pair)
    return words - {name, ""}


def imports(project):
    """What each crate's files name of the others, in the order of crates.txt."""
    every = crates(project)
    named = {name: named_in(project, name) for name in every}
    return {name: [other for other in every if other in named[name]] for name in every}


def problems(project):
    """Where crates.txt and the files differ, or a crate has no words."""
    every, used = crates(project), imports(project)
    for name, crate in every.items():
        if not crate.words:
            yield f"crates.txt: no line of words stands above {name}"
        for other in crate.below:
            if other not in (used[name] if other in every else named_in(project, name)):
                yield f"crates.txt: {name} names {other}, and none of its files does"
        for other in used[name]:
            if other not in crate.below:
                yield f"crates.txt: {name} does not name {other}, and its files do"
