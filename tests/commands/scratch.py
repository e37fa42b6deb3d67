"""A small project with the commands of this one and a kit that stands in for the real one, so that a build is a matter of a moment."""
import os
import platform
import re
import shutil
import subprocess
import tempfile
import time
from contextlib import contextmanager
from pathlib import Path

HERE = Path(__file__).resolve().parent
PROJECT = HERE.parents[1]
COMMANDS = ("run", "test", ".ci", "tools", "bench", "VERSION", "kit-id")
CRATES = "script:\nc_calls_c staticlib:\n"  # two lines, which are calls too
LIBRARY = ("c_calls_c", "door_fields_c", "door_own_c", "door_lists_c", "door_accounts_c", "mapper_c")  # what the archives are made of
MACHINE = platform.machine()
LONGEST_SECONDS = 60
BUILDING_SECONDS = 1200  # where a build is due, or another command builds
MOST_BYTES = 1 << 24

# a program whose one call says what it does; as a Rattle program, it has no status to tell how that went
OBEY = '#!/usr/bin/env bash\nread -r line && eval "$line"\nexit 0\n'
ANSWER = "#!/bin/sh\nexec sed 's/.*/ok/'\n"  # one that answers each line
DONE = "#!/bin/sh\nexit 0\n"
EMULATOR = '#!/bin/sh\nshift 3\nexec "$@"\n'


class Ended:
    """How a command ended, what it wrote, and what it said on standard error."""

    def __init__(self, status, out, said):
        self.status, self.out, self.said = status, out, said

    def problem(self, status, out, said):
        """What is wrong, or nothing. `out` and `said` are the whole of it, as a text or a compiled pattern; None is anything."""
        if self.status == status and _is(self.out, out) and _is(self.said, said):
            return None
        got = f"status {self.status}, output {self.out[:500]!r}, standard error {self.said[:1500]!r}"
        return f"wanted: status {status}, output {_shown(out)}, standard error {_shown(said)}\n  got:    {got}"


def like(pattern):
    """A text of this pattern, in which . stands for line ends too."""
    return re.compile(pattern, re.DOTALL)


def _is(text, wanted):
    return wanted is None or (text == wanted if isinstance(wanted, str) else wanted.fullmatch(text) is not None)


def _shown(wanted):
    return "of any kind" if wanted is None else repr(wanted) if isinstance(wanted, str) else f"like {wanted.pattern!r}"


class Running:
    """A command that has been started."""

    def __init__(self, words, **more):
        self.out, self.said = tempfile.TemporaryFile(), tempfile.TemporaryFile()
        settings = {"stdin": subprocess.DEVNULL, "stdout": self.out, "stderr": self.said, **more}
        self.process = subprocess.Popen(["env", *map(str, words)], **settings)

    def said_so_far(self):
        return os.pread(self.said.fileno(), MOST_BYTES, 0).decode()

    def end(self, seconds=LONGEST_SECONDS):
        """Gives it an end of input, where it has a pipe, and waits for its own."""
        if self.process.stdin:
            self.process.stdin.close()
        late = ""
        try:
            self.process.wait(timeout=seconds)
        except subprocess.TimeoutExpired:
            self.process.kill()
            self.process.wait()
            late = f"not ended after {seconds} s"
        out = os.pread(self.out.fileno(), MOST_BYTES, 0).decode()
        return Ended(self.process.returncode, out, self.said_so_far() + late)


def run(words, **more):
    return Running(words, **more).end()


def shell(text, **more):
    """A line of the shell."""
    return run(["bash", "-c", text], **more)


def until(is_so):
    """Waits for it, though not for ever."""
    end = time.monotonic() + LONGEST_SECONDS
    while not is_so() and time.monotonic() < end:
        time.sleep(0.02)


def write(path, text, mode=0o644):
    path.parent.mkdir(parents=True, exist_ok=True)
    path.write_text(text)
    path.chmod(mode)


class Scratch:
    """`root` is the project, with one program; `kit` stands in for the kit."""

    def __init__(self, program=ANSWER):
        self.above = Path(tempfile.mkdtemp(prefix="commands-")).resolve()
        self.above.chmod(0o755)
        self.root, self.kit = self.above / "project", self.above / "kit"
        self._make_project(program)
        self._make_kit()
        own = {name: value for name, value in os.environ.items() if name not in ("CINGHJALOFA_LOCK", "CDPATH")}
        self.settings = {**own, "PATH": f"{self.kit / 'bin'}:{os.environ['PATH']}"}

    def __enter__(self):
        return self

    def __exit__(self, *_):
        if (self.root / "target").exists():
            (self.root / "target").chmod(0o755)
        shutil.rmtree(self.above, ignore_errors=True)

    def _make_project(self, program):
        self.root.mkdir()
        for name in COMMANDS:
            source = PROJECT / name
            if source.is_dir():
                shutil.copytree(source, self.root / name)
            elif source.exists():
                shutil.copy(source, self.root / name)
        write(self.root / "crates.txt", CRATES)
        for name in LIBRARY:
            write(self.root / "crates" / name / "src" / "lib.rt", "// One call.\n")
        write(self.root / "crates" / "script" / "stdin", "l\n")
        write(self.root / "tests" / "done" / "suite", DONE, 0o755)
        self.write_program(program)

    def _make_kit(self):
        """The real kit's clang and linker; `rt`, `rattle`, the emulator and what installs packages are others."""
        told = subprocess.run([PROJECT / "tools" / "kit-folder"], capture_output=True, text=True, check=True).stdout
        real = Path(told.strip())
        write(self.kit / "KIT-ID", "a kit that stands in\n")
        for name in ("rt", "rattle"):
            write(self.kit / "bin" / name, (HERE / "kit" / "rt").read_text(), 0o755)
        for name in ("apt-get", "dpkg"):
            write(self.kit / "bin" / name, DONE, 0o755)
        if MACHINE != "x86_64":
            write(self.kit / "bin" / "qemu-x86_64", EMULATOR, 0o755)
        (self.kit / "bin" / "rattle-link").symlink_to(real / "bin" / "rattle-link")
        for name in ("toolchain", "c"):
            (self.kit / name).symlink_to(real / name)

    def write_program(self, text):
        write(self.root / "crates" / "script" / "src" / "main.rt", text)

    def start(self, words, settings={}, **more):
        return Running(words, **{"cwd": self.root, "env": {**self.settings, **settings}, **more})

    def run(self, words, **more):
        return self.start(words, **more).end()

    def shell(self, text, **more):
        return self.run(["bash", "-c", text], **more)

    @contextmanager
    def busy(self):
        """Meanwhile the stand-in comes to no end."""
        mark = self.root / "busy"
        mark.touch()
        try:
            yield
        finally:
            mark.unlink()

    def build(self):
        """So that no command has to."""
        self.run(["tools/program", "script"])
        self.asked()

    def asked(self, is_over=True):
        """What the stand-in was asked for, since this was last over."""
        log = self.root / "rt.log"
        lines = log.read_text().splitlines() if log.exists() else []
        if is_over:
            log.unlink(missing_ok=True)
        return lines
