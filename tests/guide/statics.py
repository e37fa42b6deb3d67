"""All that can be held without running a command: what is wrong with the pages, each problem with its place."""
import os

import closing
import contracts
import determined
import figures
import promises
from exceptions import UNCALLED
from names import Names
from pages import FILES, KINDS, PARTS
from reader import commands

GUIDE, CONTRACTS = "README.md", "docs/CONTRACTS.md"
EXAMPLE = ("calls.txt", "./run calls.txt", "./run books calls.txt")  # the bookkeeper's calls, what answers them, and what closes the books


def commands_of(block):
    try:
        return commands(block)
    except ValueError:
        return []


def all_commands(pages):
    return [command for page in pages for block in page.blocks if block.kind == "sh" for command in commands_of(block)]


def _block_problem(project, block):
    if not block.is_known():
        kind = " ".join(filter(None, (block.kind, block.machine))) or "(none)"
        return f"{block.where}: a block of kind {kind}, which nothing tests; there are {', '.join(sorted(KINDS))}, and sh with x86_64 or aarch64"
    if block.kind in PARTS:
        return contracts.quoted(project, block)
    if block.kind == "sh":
        try:
            commands(block)
        except ValueError as problem:
            return str(problem)
    return None


def _exceptions(project, called):
    """An exception holds as long as a page shows its command, and the file that stands in for it does so."""
    for exception in UNCALLED:
        if exception.command not in called:
            yield f"tests/guide/exceptions.py: no page shows `{exception.command}` any more; drop the exception"
        for name in (exception.command.split()[0], exception.file):
            if not os.access(project / name, os.X_OK):
                yield f"tests/guide/exceptions.py: `{exception.command}`: {name} is not there, or cannot be run"
        if exception.text not in (project / exception.file).read_text("utf-8"):
            yield f"tests/guide/exceptions.py: `{exception.command}` is left to {exception.file}, which has no `{exception.text}`"


def _books(guide):
    calls = [block.lines for block in guide.blocks if block.name == EXAMPLE[0]]
    answers = [command.shown for command in all_commands([guide]) if command.words == EXAMPLE[1]]
    books = [command.shown for command in all_commands([guide]) if command.words.startswith(EXAMPLE[2])]
    if not calls or not answers or not books:
        yield f"{guide.name}: it shows no file {EXAMPLE[0]} with what `{EXAMPLE[1]}` and `{EXAMPLE[2]}` print"
    else:
        yield from closing.closes(guide, calls[0], answers[0], books[0])


def problems(project, pages):
    blocks = [block for page in pages.values() for block in page.blocks]
    called = {command.words for command in all_commands(pages.values())}
    written = {block.name for block in blocks if block.kind in FILES and block.name}
    for page in pages.values():
        yield from page.problems
    yield from filter(None, (_block_problem(project, block) for block in blocks))
    yield from _exceptions(project, called)
    yield from Names(project, pages.values(), written, called).missing()
    yield from figures.reading(project, pages[GUIDE])
    yield from figures.folder_map(project, pages[GUIDE])
    yield from contracts.held(project, pages[CONTRACTS])
    yield from contracts.unnamed(project, pages[CONTRACTS])
    yield from determined.held(project, pages[CONTRACTS])
    yield from promises.unshown(project)
    yield from _books(pages[GUIDE])
