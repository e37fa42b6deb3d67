"""What the tests stand on: the command, the modules behind it, the proved program by its own words, and how a command ended."""
import io
import platform
import re
import subprocess
import sys
import tempfile
from collections import namedtuple
from pathlib import Path

PROJECT = Path(__file__).resolve().parents[2]
RUN = PROJECT / "run"
sys.path[:0] = [str(PROJECT / "tools" / "books"), str(PROJECT / "tests")]

import cases as table
import held
import pieces
import turns
from desk import Desk
from progress import Progress
from words import Words

Ended = namedtuple("Ended", "status out said")
RECORDS = table.table().records


def program():
    """The words that run the proved program, without a shell between; None where it cannot be built."""
    if subprocess.run([*turns.PROGRAM], stdin=subprocess.DEVNULL).returncode:
        return None
    made = sorted((PROJECT / "target" / "run").glob(f"script.{platform.machine()}.*"))
    return [made[0]] if len(made) == 1 else list(turns.PROGRAM)


def bounded(words, files, few, is_few):
    """How many random files are tried: few, where each run of the program goes through a shell."""
    return few if is_few or len(words) > 1 else files


def answered(words, calls):
    """What the program prints for these lines, as lines."""
    given = "".join(line + "\n" for line in calls).encode("latin-1")
    return subprocess.run(words, input=given, stdout=subprocess.PIPE, check=True).stdout.decode().split("\n")[:-1]


def books(words, given):
    """The desk and its entries after a file of these bytes, answered by the program; and the file as it was read."""
    read = held.calls_of(io.BufferedReader(io.BytesIO(given)), Progress(None))
    desk = Desk(Words())
    return desk, [desk.enter(*turn) for turn in turns.by_program(read, words)], read


def run(*words, given=None, **more):
    settings = {"stdout": subprocess.PIPE, "stderr": subprocess.PIPE, **more}
    settings |= {"stdin": subprocess.DEVNULL} if given is None else {"input": given}
    ended = subprocess.run([RUN, *words], timeout=300, **settings)
    return Ended(ended.returncode, (ended.stdout or b"").decode(), (ended.stderr or b"").decode())


class Folder:
    """A folder for a while, in which files are written by their names."""

    def __enter__(self):
        self.held = tempfile.TemporaryDirectory()
        self.path = Path(self.held.name)
        return self

    def __exit__(self, *_):
        self.held.cleanup()

    def write(self, name, content):
        content = content if isinstance(content, bytes) else "".join(line + "\n" for line in content.split("|")).encode()
        (self.path / name).write_bytes(content)
        return self.path / name

    def __truediv__(self, name):
        return self.path / name


def judged(calls, answers):
    """The desk and its entries after a box's calls and answers, both bytes."""
    read = held.calls_of(io.BufferedReader(io.BytesIO(calls)), Progress(None))
    log = held.answers_of(io.BufferedReader(io.BytesIO(answers)), Progress(None))
    desk = Desk(Words())
    return desk, [desk.enter(*turn) for turn in turns.by_log(read, log)]


def without(line, ended):
    """A report without this line, which stands last where the books close, and otherwise before the last. Where it does not, that is said."""
    lines = ended.out.splitlines(keepends=True)
    place = len(lines) - (2 if ended.status == 2 else 1)
    if [at for at, each in enumerate(lines) if each == line] != [place]:
        return ended._replace(said=f"it has not, in its place, {line!r}: {ended.out[-1200:]!r}")
    del lines[place]
    return ended._replace(out="".join(lines))


def held_to(name, ended, status, out=None, said=None):
    """What is wrong with the end of a command: `out` and `said` are patterns of the whole."""
    for what, text, pattern in (("prints", ended.out, out), ("says", ended.said, said)):
        if pattern is not None and not re.fullmatch(pattern, text, re.DOTALL):
            return name, f"it {what} {text[:1200]!r}, and should {pattern!r}"
    return name, None if ended.status == status else f"it ends with {ended.status}, and should with {status}: {ended.said[:300]!r}"
