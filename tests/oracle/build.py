"""Makes the driver's programs, and the crate of the original that they judge by, for a machine."""

import shutil
from pathlib import Path

from machine import existing

DRIVER = Path(__file__).resolve().parent / "driver"


def folder(machine):
    return machine.folder("oracle")


def build_original(machine, root, sources):
    """The crate `original`, whose warnings are not ours to see."""
    words = ["--crate-type", "rlib", "--crate-name", "original", "--cap-lints", "allow", root]
    return machine.rustc(folder(machine) / "liboriginal.rlib", words, [root, *sources])


def build_program(machine, name, original=None, has_port=True):
    """driver/NAME.rs with the machine's archive as the port and the crate `original`, as far as they are wanted."""
    words = ["--crate-name", name, DRIVER / f"{name}.rs"]
    inputs = [DRIVER.parents[1] / "cases.rs", *sorted(DRIVER.glob("*.rs"))]
    if has_port:
        linked = folder(machine) / "libport.a"
        shutil.copyfile(existing(machine.archive), linked)
        words += ["-L", f"native={linked.parent}", "-l", "static=port"]
        inputs.append(linked)
    if original:
        words += ["--extern", f"original={original}"]
        inputs.append(original)
    return machine.rustc(folder(machine) / name, words, inputs)
