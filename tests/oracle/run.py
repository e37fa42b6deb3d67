#!/usr/bin/env python3
"""The port against the original Rust as judge. README.md beside this file says what each mode does.

usage: run.py [--archive FILE] MODE [OPTIONS]
  replay                                        the stored answers of the Rust; needs no original
  exhaustive [--addresses N] [--depth N] [--unit-order N]
                                                every short history over few addresses, in units of 2^N bytes
  random [--calls N] [--seed N] [--history N]   random histories
  holders [--calls N] [--seed N]                random histories of an allocator with holders
  play < CALLS                                  one history from standard input
  differences [--markdown yes]                  the table of differences, on both sides
  broken                                        ports broken on purpose must be noticed
  counterparts                                  the functions of the port that name those of the module
  make-stored                                   writes stored/ anew from the original
  check-stored                                  stored/ must be what the original says today
  all                                           everything but play and make-stored, with the usual bounds
The archive is the project's for this machine, or what --archive or the variable ORACLE_ARCHIVE names. On an Arm machine
`all` runs once more, within narrower bounds, over the x86-64 archive under an emulator.
"""

import filecmp
import os
import subprocess
import sys
from pathlib import Path

sys.dont_write_bytecode = True  # no folders of compiled Python between the sources

HERE = Path(__file__).resolve().parent
sys.path.insert(0, str(HERE.parent))

import build
import counterparts
import original
from machine import Failed, machines

STORED = HERE / "stored"
TABLE = HERE / "differences.txt"
CASES = HERE.parent / "cases.txt"
LIVE_MODES = ("exhaustive", "random", "holders", "play", "differences", "broken")
OTHER_MODES = ("replay", "counterparts", "make-stored", "check-stored", "all")
USUAL_BOUNDS = (
    ("replay", []),
    ("counterparts", []),
    ("check-stored", []),
    ("differences", []),
    ("exhaustive", []),
    ("exhaustive", ["--unit-order", "12", "--depth", "3"]),
    ("random", []),
    ("holders", []),
    ("broken", []),
)
EMULATED_BOUNDS = (
    ("replay", []),
    ("differences", []),
    ("random", ["--calls", "20000"]),
    ("holders", ["--calls", "5000"]),
    ("broken", []),
)
NOT_RUN = """\
*** THE LIVE COMPARISON WAS NOT RUN: no src/memory_allocator.rs in {}; MINIVISOR_SRC may name its folder ***"""


def run_program(machine, program, words):
    """The program's exit code; one that a signal ended has failed as well."""
    code = subprocess.run(machine.command(program, *words)).returncode
    if code < 0:
        print(f"{program.name} {' '.join(words)}: ended by signal {-code}, most likely inside the port")
    return abs(code)


def build_original(machine, module):
    return build.build_original(machine, *original.write_crate(module, build.folder(machine)))


def replay(machine):
    return run_program(machine, build.build_program(machine, "replay"), [str(STORED)])


def live(machine, mode, options, module):
    if mode == "differences":
        options = ["--table", str(TABLE), *options]
    program = build.build_program(machine, "live", build_original(machine, module))
    return run_program(machine, program, [mode, *options])


def store(machine, folder, module):
    folder.mkdir(parents=True, exist_ok=True)
    program = build.build_program(machine, "store", build_original(machine, module), has_port=False)
    return run_program(machine, program, [str(folder), str(CASES)])


def check_stored(machine, module):
    again = build.folder(machine) / "stored"
    code = store(machine, again, module)
    names = sorted({path.name for folder in (again, STORED) for path in folder.glob("*.txt")})
    _, differing, missing = filecmp.cmpfiles(again, STORED, names, shallow=False)
    for name in differing + missing:
        print(f"STORED ANSWERS DIFFER from the original's of today: stored/{name}; `run.py make-stored` writes it anew")
    return 1 if code or differing or missing else 0


def run(machine, mode, options, module):
    print("--", mode, *options, flush=True)
    if mode in LIVE_MODES:
        return live(machine, mode, options, module)
    if mode == "replay":
        return replay(machine)
    if mode == "counterparts":
        return counterparts.held(module)
    if mode == "make-stored":
        return store(machine, STORED, module)
    return check_stored(machine, module)


def run_all(plan):
    """Runs each machine's modes; without the original only those that need none, with one loud line for the rest."""
    module = original.find()
    codes, left_out = {}, []
    for machine, wanted in plan:
        print(machine.title())
        able = [(mode, options) for mode, options in wanted if module or mode == "replay"]
        for mode, options in able:
            codes[" ".join([machine.name, mode, *options])] = run(machine, mode, options, module)
        left_out += [each for each in wanted if each not in able]
    if left_out:
        print(NOT_RUN.format(original.folder()))
    failed = "; ".join(name for name, code in codes.items() if code)
    print(f"oracle: FAILED: {failed}" if failed else f"oracle: {len(codes)} parts were run, all is as it must be")
    return max(codes.values(), default=0)


def main(words):
    archive = os.environ.get("ORACLE_ARCHIVE")
    if words[:1] == ["--archive"]:
        archive, words = "".join(words[1:2]), words[2:]
    if not words or words[0] not in LIVE_MODES + OTHER_MODES:
        print(__doc__, file=sys.stderr)
        return 2
    try:
        here = machines(archive)
        if words[0] == "all":
            return run_all([(machine, USUAL_BOUNDS if machine.is_whole else EMULATED_BOUNDS) for machine in here])
        return run_all([(here[0], [(words[0], words[1:])])])
    except (Failed, original.Unusable) as problem:
        print(f"oracle: {problem}", file=sys.stderr)
        return 2


if __name__ == "__main__":
    sys.exit(main(sys.argv[1:]))
