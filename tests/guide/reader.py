"""The reader's place: a fresh copy of the project in a folder of its own, the files that a page has written, and what commands print."""
import fcntl
import os
import re
import shutil
import subprocess
import tempfile
import time
from contextlib import contextmanager
from dataclasses import dataclass
from pathlib import Path

LEFT_OUT = {".git", "target", "__pycache__"}
PROVED = ("proved", "obj", "staticlib", "module", "run")  # what is kept of proved crates and programs; all else is made anew
LONGEST_SECONDS = 900
OWN_SETTINGS = ("CARGO_TARGET_DIR", "CINGHJALOFA_ARCHIVE")  # of whoever starts the suite, not of a reader


@dataclass
class Said:
    """How a command ended."""

    status: int
    out: str
    errors: str
    seconds: float


@dataclass
class Command:
    """A command of a block, and the lines that the page shows below it."""

    where: str
    words: str
    shown: list


def commands(block):
    """The commands of a block of kind sh, or what is wrong with it."""
    found, number = [], block.line
    for line in block.lines:
        number += 1
        if found and found[-1].words.endswith("\\") and not found[-1].shown:
            found[-1].words = found[-1].words[:-1] + line
        elif line.startswith("$ "):
            found.append(Command(f"{block.page}:{number}", line[2:].strip(), []))
        elif found:
            found[-1].shown.append(line.rstrip())
        else:
            raise ValueError(f"{block.page}:{number}: a block of kind sh begins with a line `$ COMMAND`")
    return found


def is_shown(shown, printed):
    """Whether the page shows what was printed. `...` alone in a line stands for any lines, inside a line for any text."""
    pattern = ""
    for line in shown:
        pattern += r"(?:.*\n)*" if line == "..." else ".*".join(map(re.escape, line.split("..."))) + r"\n"
    lines = [line.rstrip() + "\n" for line in printed.splitlines()]
    return re.fullmatch(pattern, "".join(lines)) is not None


def _passed_over(folder, names):
    """Of a crate's folder out/ the library is kept, and what the gate has run; what its check would begin with is not."""
    if Path(folder).name == "out":
        return {"incremental"} & set(names)
    return LEFT_OUT & set(names)


def _copied(source, target):
    """What is proved are many bytes, which rt replaces and never changes: links to them, where the disk is the same."""
    return (_linked if "/out/" in str(source) else shutil.copy2)(source, target)


def _linked(source, target):
    try:
        os.link(source, target)
    except OSError:
        shutil.copy2(source, target)


@contextmanager
def _while_nothing_is_built(project):
    """Holds the lock of tools/building.sh."""
    descriptor = os.open(project, os.O_RDONLY)
    try:
        fcntl.flock(descriptor, fcntl.LOCK_EX)
        yield
    finally:
        os.close(descriptor)


class Place:
    """`root` is the copy; files that a page names by `../` lie beside it. Its crates must be proved where they come from."""

    def __init__(self, project):
        self.above = Path(tempfile.mkdtemp(prefix="guide-"))
        self.root = self.above / "cinghjalofa"
        with _while_nothing_is_built(project):
            shutil.copytree(project, self.root, ignore=_passed_over, copy_function=_copied)
            (self.root / "target").mkdir(exist_ok=True)
            for name in PROVED:
                made = project / "target" / name
                if made.is_dir():
                    shutil.copytree(made, self.root / "target" / name, symlinks=True)
                elif made.exists():
                    shutil.copy2(made, self.root / "target")

    def __enter__(self):
        return self

    def __exit__(self, *_):
        shutil.rmtree(self.above, ignore_errors=True)

    def write(self, name, lines):
        """Writes a file of the reader's; what is wrong with its name, or nothing."""
        path = Path(os.path.normpath(self.root / name))
        if self.above not in path.parents:
            return "lies neither in this folder nor beside it"
        if path.exists():
            return "is there already: a page writes files of the reader's own, and shows parts of others as rattle or antt"
        path.parent.mkdir(parents=True, exist_ok=True)
        path.write_text("".join(line + "\n" for line in lines), "utf-8")
        return None

    def run(self, words, **settings):
        environment = {name: value for name, value in os.environ.items() if name not in OWN_SETTINGS}
        environment.update(settings, CARGO_NET_OFFLINE="true")
        began = time.monotonic()
        try:
            done = subprocess.run(
                ["bash", "-c", words],
                cwd=self.root,
                env=environment,
                stdin=subprocess.DEVNULL,
                capture_output=True,
                encoding="utf-8",
                errors="replace",
                timeout=LONGEST_SECONDS,
            )
        except subprocess.TimeoutExpired:
            return Said(1, "", f"not ended after {LONGEST_SECONDS} s", LONGEST_SECONDS)
        return Said(done.returncode, done.stdout, done.stderr, time.monotonic() - began)
