#!/usr/bin/env python3
"""Brings the definitions and lemmas of crates/ to the spelling of the library: words in snake case, a dash between two names.
A word that would then have the name of a function, a variable or another word gets `_lem` after it. Types, modules, constructors and the names of
src/ keep their spelling. It was run once, after the kit's own script; where nothing is left to turn it changes nothing.

usage: tools/respell.py [FILE..]    turns crates/ of the folder that it is run in; with files, turns these by the words of crates/ as they were
       tools/respell.py --words     prints the words, old and new, and turns nothing
"""
import collections
import re
import sys
from pathlib import Path

WORD = re.compile(r"[A-Za-z_ℕℤ◌][\w'←→≤<₀-₉-]*")
WORDS = Path(__file__).resolve().parent / "respelled.txt"  # the words of the one run
BY_NAME = {"getD-tab": "get_or-tab"}  # the library's `getD` is `get_or`


def part(name):
    if re.match(r"[a-z]", name) and re.search(r"[a-z0-9][A-Z]", name):
        return re.sub(r"(?<=[a-z0-9])[A-Z]", lambda letter: "_" + letter[0].lower(), name)
    return name


def snake(word):
    return BY_NAME.get(word) or "-".join(part(name) for name in word.split("-"))


def files():
    return [file for file in sorted(Path("crates").rglob("*")) if file.suffix in (".antt", ".rt") and "out" not in file.parts]


def words():
    """Each word that is to be turned, with its new spelling."""
    seen = collections.Counter(word for file in files() for word in WORD.findall(file.read_text("utf-8")))
    turned = {word: snake(word) for word in seen if snake(word) != word}
    return {word: new + "_lem" if new in seen else new for word, new in turned.items()}


def turn(file, new):
    text = file.read_text("utf-8")
    after = WORD.sub(lambda word: new.get(word[0], word[0]), text)
    if after != text:
        file.write_text(after, "utf-8")


def main(arguments):
    new = dict(line.split() for line in WORDS.read_text("utf-8").splitlines()) if WORDS.is_file() else words()
    if arguments == ["--words"]:
        print("\n".join(f"{word} {spelling}" for word, spelling in sorted(new.items())))
        return 0
    if len(set(new.values())) < len(new):
        print("respell: two words would have one name", file=sys.stderr)
        return 1
    for file in [Path(argument) for argument in arguments] or files():
        turn(file, new)
    return 0


if __name__ == "__main__":
    sys.exit(main(sys.argv[1:]))
