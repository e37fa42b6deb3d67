"""The figures of the pages: what is to be read, the map of the folders, and the picture of the layers."""
import re
import subprocess
from functools import lru_cache

from pages import SPAN
from names import crates

HEADER = ("list", "lines", "read after")


@lru_cache
def _lists(project):
    """Each list of tools/reading: its lines, and those that it is read after."""
    told = subprocess.run([project / "tools" / "reading"], stdout=subprocess.PIPE, text=True, check=True).stdout
    return {name: (lines, after) for name, lines, *after in map(str.split, told.splitlines())}


def reading(project, page):
    """The table of what to read: its lists, their lines, and which is read after which, are those of tools/reading."""
    rows = {cells[0].strip("`"): (line, cells) for line, cells in page.table(*HEADER)}
    lists = _lists(project)
    for name in sorted(rows.keys() ^ lists.keys()):
        yield f"{page.name}: the table of what to read and tools/reading do not both have a list {name}"
    for name in rows.keys() & lists.keys():
        line, (_, figure, after, *_) = rows[name]
        lines, grounds = lists[name]
        if figure != lines:
            yield f"{page.name}:{line}: {name}: {lines} lines, so write {lines}, not {figure}"
        if SPAN.findall(after) != grounds:
            yield f"{page.name}:{line}: {name} is read after {', '.join(grounds) or 'nothing'}"


def _pictures(page):
    return [block for block in page.blocks if block.kind == "text" and not block.name]


def _map_rows(block):
    """Line, depth and names of each row of the map; a row that goes on with its words has neither."""
    for number, line in enumerate(block.lines, block.line + 1):
        row = re.match(r"(| {2})(\S+(?:, \S+)*)(  |$)", line)
        if row:
            yield number, len(row[1]), [name.rstrip("/") for name in row[2].split(", ")]


def folder_map(project, page):
    """Each folder that the map names is there, and the map names each folder, crate and suite."""
    blocks = [block for block in _pictures(page) if any(line.startswith("crates/") for line in block.lines)]
    if len(blocks) != 1:
        yield f"{page.name}: there is no map, a block of kind text with a line that begins with crates/"
        return
    block, top, named = blocks[0], "", set()
    for number, depth, names in _map_rows(block):
        top = top if depth else names[0]
        for path in [f"{top}/{name}" for name in names] if depth else names:
            named.add(path)
            if not (project / path).is_dir():
                yield f"{page.name}:{number}: the map names {path}, and there is no such folder"
    wanted = {f"crates/{name}" for name in crates(project)}
    wanted |= {f"tests/{path.parent.name}" for path in (project / "tests").glob("*/suite")}
    wanted |= {path.name for path in project.iterdir() if path.is_dir() and path.name != "target" and not path.name.startswith(".")}
    for path in sorted(wanted - named):
        yield f"{block.where}: the map does not name {path}"


def layers(project):
    """The picture and the two tables of the crates are those of crates.txt, and crates.txt is what the files name."""
    held = subprocess.run([project / "tools" / "layers", "--check"], stderr=subprocess.PIPE, text=True)
    yield from held.stderr.splitlines()
    if held.returncode and not held.stderr:
        yield f"tools/layers --check ended with {held.returncode}"
