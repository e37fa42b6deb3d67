"""The machines that compiled tests run on, each with its archive of the C calls, its compilers, and how a program is run.

Rattle compiles for x86-64, and there everything is made and run on the machine itself. On Arm the tests run whole on the
machine itself, over the archive for bare machines that tools/archives makes of the same module; then a bounded part of them runs
over the one for machines with their MMU on, and over the x86-64 archive, compiled across and emulated.

Every Rust program of a test is made by Debian's own rustc, by its path: another one on the PATH need not have the standard library of another
machine, and a form that only a newer one takes is refused on every machine, not only where programs are compiled across.
"""

import hashlib
import platform
import shutil
import subprocess
from dataclasses import dataclass, replace
from pathlib import Path

PROJECT = Path(__file__).resolve().parents[1]

# As a release build of the hypervisor: sums wrap, and the module's own assertions stay.
OPTIMISED = ("--edition", "2021", "-O", "-C", "debug-assertions=off", "-C", "overflow-checks=off")


RUSTC = "/usr/bin/rustc"


class Failed(Exception):
    """Something could not be made or found; the text says what, and what to do."""


@dataclass(frozen=True)
class Machine:
    name: str
    archive: Path
    elf_number: int  # of the machine, in the header of every object file
    compiler: tuple = (RUSTC,)
    gcc_prefix: str = ""
    runner: tuple = ()  # the words before a program
    is_whole: bool = True  # otherwise a bounded part of the tests is run

    def title(self):
        how = f"by {self.runner[0]}" if self.runner else "on this machine"
        return f"# {self.name}, {how}, {'everything' if self.is_whole else 'a bounded part'}, with {self.archive}"

    def folder(self, suite):
        """Where a suite builds for this machine."""
        folder = PROJECT / "target" / suite / self.name
        folder.mkdir(parents=True, exist_ok=True)
        return folder

    def command(self, program, *words):
        """The words that run a program."""
        if self.runner and not shutil.which(self.runner[0]):
            raise Failed(f"there is no {self.runner[0]} here; tools/setup installs it")
        return [*self.runner, str(program), *map(str, words)]

    def rustc(self, output, words, inputs):
        """Makes `output` by rustc, unless it was made before by the same words from the same inputs."""
        command = [*self.compiler, *OPTIMISED, *map(str, words), "-o", str(output)]
        stamp = output.with_suffix(".stamp")
        wanted = fingerprint(command, inputs)
        if not (output.exists() and stamp.exists() and stamp.read_text() == wanted):
            compile_by(command)
            stamp.write_text(wanted)
        return output

    def gcc(self, output, words):
        """Makes `output` by gcc, or by g++ for words that ask for C++."""
        compiler = self.gcc_prefix + ("g++" if "c++" in words else "gcc")
        compile_by([compiler, *map(str, words), "-o", str(output)])
        return output


def archive_of(kind):
    """The library for a kind of machine; tools/archives decides where it is."""
    asked = subprocess.run([PROJECT / "tools" / "archives", "--where", kind], capture_output=True, text=True)
    if asked.returncode != 0:
        raise Failed(f"tools/archives does not know where the library for {kind} is: {asked.stderr}")
    return PROJECT / asked.stdout.strip()


X86_64 = Machine("x86-64", archive_of("x86_64"), 62)
ARM = Machine("aarch64", archive_of("aarch64"), 183)
ARM_MMU = Machine("aarch64-mmu", archive_of("aarch64-mmu"), 183, is_whole=False)

EMULATED_X86_64 = replace(
    X86_64,
    compiler=(RUSTC, "--target", "x86_64-unknown-linux-gnu", "-C", "linker=x86_64-linux-gnu-gcc"),
    gcc_prefix="x86_64-linux-gnu-",
    runner=("qemu-x86_64",),
    is_whole=False,
)


def machines(named_archive=None):
    """Those of this computer, its own first; with an archive that is named, the one that it is for, with that archive."""
    here = [ARM, EMULATED_X86_64] if platform.machine() == "aarch64" else [X86_64]
    if not named_archive:
        return here
    archive = Path(named_archive).resolve()
    number = elf_number(archive)
    fitting = [replace(machine, archive=archive) for machine in here if machine.elf_number == number]
    if not fitting:
        found = f"code for ELF machine {number}" if number else "no object file"
        wanted = " or ".join(f"{machine.elf_number} ({machine.name})" for machine in here)
        raise Failed(f"{archive} holds {found}; here an archive for {wanted} can be tested")
    return fitting


def existing(archive):
    if not archive.is_file():
        raise Failed(f"no archive at {archive}; `tools/archives` makes those of the project")
    return archive


def elf_number(archive):
    """The machine of the archive's first object file, or None where it has none."""
    content = existing(archive).read_bytes()
    at = content.find(b"\x7fELF")
    return int.from_bytes(content[at + 18 : at + 20], "little") if at >= 0 else None


def compile_by(command):
    try:
        done = subprocess.run(command)
    except FileNotFoundError:
        raise Failed(f"there is no {command[0]} here; tools/setup installs it") from None
    if done.returncode != 0:
        raise Failed(f"{command[0]} could not make {command[-1]}; its messages stand above")


def fingerprint(command, inputs):
    try:
        version = subprocess.run([command[0], "--version"], capture_output=True).stdout
    except FileNotFoundError:
        version = b""
    digest = hashlib.sha256(version + "\0".join(command).encode())
    for path in inputs:
        digest.update(path.read_bytes())
    return digest.hexdigest()
