"""The original Rust: where it is, and the copies made of it at test time. None of it is kept in the project."""

import json
import os
import re
from pathlib import Path

PROJECT = Path(__file__).resolve().parents[2]
USUAL_FOLDER = PROJECT / ".." / "shared" / "docs" / "src"
ACCESSOR = Path(__file__).with_name("accessor.rs")
SECOND_ADDITION = "self.free_size += size;"
PAGE_SHIFT = "pub const PAGE_SHIFT: usize = 12;"
FEWER_RECORDS = "const POOL_SIZE: usize = 64;"
RECORDS = "const POOL_SIZE: usize = 256;"


class Unusable(Exception):
    """The original is there but is not the text that the comparison was written for."""


def folder():
    """Where the original is looked for: in MINIVISOR_SRC, where it is set, and nowhere else."""
    named = os.environ.get("MINIVISOR_SRC")
    return Path(named) if named else USUAL_FOLDER


def find():
    """The module's file, or None."""
    module = folder() / "src" / "memory_allocator.rs"
    return module if module.is_file() else None


def with_more_records(text):
    """The original with 256 records, as request T-05 asks: one figure of one line is another."""
    lines = text.splitlines(keepends=True)
    found = [at for at, line in enumerate(lines) if "POOL_SIZE" in line and line.strip() == FEWER_RECORDS]
    if len(found) != 1:
        raise Unusable(f"the original has {len(found)} lines `{FEWER_RECORDS}`, not 1")
    lines[found[0]] = lines[found[0]].replace(FEWER_RECORDS, RECORDS)
    return "".join(lines)


def without_second_addition(text):
    """The counting copy: `pub fn free` without the line that adds the size a second time, and nothing else changed."""
    lines = text.splitlines(keepends=True)
    begin = next((at for at, line in enumerate(lines) if line.strip().startswith("pub fn free(")), None)
    if begin is None:
        raise Unusable("there is no `pub fn free` in the original")
    end = next(at for at in range(begin + 1, len(lines)) if re.match(r"    (pub )?fn |}", lines[at]))
    additions = [at for at in range(begin, end) if lines[at].strip() == SECOND_ADDITION]
    if len(additions) != 1:
        raise Unusable(f"`pub fn free` of the original has {len(additions)} lines `{SECOND_ADDITION}`, not 1")
    copy = lines[: additions[0]] + lines[additions[0] + 1 :]
    if len(copy) != len(lines) - 1:
        raise Unusable("the counting copy differs from the original in more than one line")
    return "".join(copy)


def with_accessor(text):
    """The text and, behind it, the read-only accessor."""
    return text + ACCESSOR.read_text()


def write_crate(module, out):
    """Writes the crate `original` to `out`: the copies of the module. Returns root and sources."""
    if PAGE_SHIFT not in (module.parent / "paging.rs").read_text():
        raise Unusable(f"paging.rs of the original does not say `{PAGE_SHIFT}`")
    text = with_more_records(module.read_text())
    counting = without_second_addition(text)
    copies = {
        "untouched": text,
        "counting": counting,
        "untouched_watched": with_accessor(text),
        "counting_watched": with_accessor(counting),
    }
    places = {}
    for name, content in copies.items():
        places[name] = out / f"{name}.rs"
        places[name].write_text(content)
    check_copies(module, places)
    modules = [f"#[path = {json.dumps(str(place))}]\npub mod {name};\n" for name, place in places.items()]
    root = out / "original.rs"
    root.write_text(f"mod paging {{\n    {PAGE_SHIFT}\n}}\n" + "".join(modules))
    return root, list(places.values())


def check_copies(module, places):
    """Reads the written files again: the figure of one line, one line dropped, and lines appended, are all that sets them apart."""
    lines = {name: place.read_text().splitlines() for name, place in places.items()}
    untouched, counting = lines["untouched"], lines["counting"]
    whole = module.read_text().splitlines()
    changed = [(one.strip(), other.strip()) for one, other in zip(whole, untouched) if one != other]
    if len(whole) != len(untouched) or changed != [(FEWER_RECORDS, RECORDS)]:
        raise Unusable("the copy with more records is not the original with one other figure")
    at = next(at for at, (one, other) in enumerate(zip(untouched, counting)) if one != other)
    if untouched[at].strip() != SECOND_ADDITION or untouched[:at] + untouched[at + 1 :] != counting:
        raise Unusable("the counting copy is not the original without the one line")
    for name in ("untouched", "counting"):
        watched = lines[f"{name}_watched"]
        if watched[: len(lines[name])] != lines[name]:
            raise Unusable(f"{name}_watched is not {name} with lines appended")
