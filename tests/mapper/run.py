#!/usr/bin/env python3
"""The stage 2 map on each machine. README.md beside this file says what is tried.

usage: run.py
The archive is the project's for each machine, or what the variable ORACLE_ARCHIVE names. Where MiniVisor's paging.rs is not to be found, as
tests/oracle looks for it, all but the comparison with it is run.
"""

import json
import os
import shutil
import subprocess
import sys
from pathlib import Path

sys.dont_write_bytecode = True  # no folders of compiled Python between the sources

HERE = Path(__file__).resolve().parent
sys.path.insert(0, str(HERE.parent))
sys.path.insert(0, str(HERE.parent / "oracle"))

import original
from machine import Failed, existing, machines

WHOLE_MAPS = 10000
BOUNDED_MAPS = 500
MODULES = ("paging", "registers", "memory_allocator")
NOT_RUN = "*** THE COMPARISON WAS NOT RUN: no src/paging.rs in {}; MINIVISOR_SRC may name its folder ***"

# The ports broken on purpose (driver/broken.rs), and the programs that must notice.
BOTH = ("refusals", "beside")
BROKEN = {
    "one-too-many": ("an entry too many is mapped", BOTH),
    "one-too-few": ("the last page of the range is not mapped", BOTH),
    "want-half-way": ("the first table is written before the want of the last is known", BOTH),
    "fresh-uncleared": ("a fresh table is not cleared", BOTH),
    "block-overwritten": ("a block in the way gives way to a table", BOTH),
    "exchanged": ("readable and writable are exchanged", BOTH),
    "image-before-numbers": ("a damaged image comes before the numbers", ("refusals",)),
    "table-without-af": ("the word of a table has no AF", ("beside",)),
    "page-lost": ("a page more is taken than is wanted", ("beside",)),
}


def module(name):
    path = original.folder() / "src" / f"{name}.rs"
    return path if path.is_file() else None


def build(machine, name, words, inputs):
    linked = machine.folder("mapper") / "libport.a"
    shutil.copyfile(existing(machine.archive), linked)
    words = ["--crate-name", name, HERE / "driver" / f"{name}.rs", "-L", f"native={linked.parent}", "-l", "static=port", *words]
    return machine.rustc(machine.folder("mapper") / name, words, [*sorted((HERE / "driver").glob("*.rs")), linked, *inputs])


def build_original(machine, modules):
    """The crate `stage2`: the modules where they are, untouched, over the mocks that the driver hands them."""
    root = machine.folder("mapper") / "stage2.rs"
    paths = "".join(f"#[path = {json.dumps(str(path))}]\npub mod {path.stem};\n" for path in modules)
    root.write_text((HERE / "driver" / "mocks.rs").read_text() + paths)
    words = ["--crate-type", "rlib", "--crate-name", "stage2", "--cap-lints", "allow", root]
    return machine.rustc(machine.folder("mapper") / "libstage2.rlib", words, [root, *modules])


def programs(machine):
    """The command line of each program, by name."""
    found = {"refusals": machine.command(build(machine, "refusals", [], []))}
    modules = [module(name) for name in MODULES]
    if all(modules):
        library = build_original(machine, modules)
        program = build(machine, "beside", ["--extern", f"stage2={library}"], [library])
        found["beside"] = machine.command(program, WHOLE_MAPS if machine.is_whole else BOUNDED_MAPS)
    else:
        print(NOT_RUN.format(original.folder()))
    return found


def run(name, words):
    code = subprocess.run(words).returncode
    if code < 0:
        print(f"{name}: ended by signal {-code}")
    return code == 0


def run_broken(known):
    """Whether each port broken on purpose is noticed: a program that notices says what is wrong and ends with 1."""
    missed = 0
    for mistake, (meaning, wanted) in BROKEN.items():
        tried = [name for name in wanted if name in known]
        unaware = [name for name in tried if subprocess.run([*known[name], mistake], capture_output=True).returncode != 1]
        missed += len(unaware)
        if tried:
            print(f"-- broken on purpose: {meaning}: {'NOT noticed' if unaware else 'noticed'} by {', '.join(unaware or tried)}", flush=True)
    return missed == 0


def try_machine(machine):
    print(machine.title(), flush=True)
    known = programs(machine)
    fine = all([run(name, words) for name, words in known.items()])
    return fine and run_broken(known)


if __name__ == "__main__":
    try:
        sys.exit(0 if all([try_machine(machine) for machine in machines(os.environ.get("ORACLE_ARCHIVE"))]) else 1)
    except Failed as failure:
        sys.exit(str(failure))
