"""The files of journals and images, in this project and with its own programs: what is said where they are not as they must be."""
import os
import tempfile
from pathlib import Path

from scratch import BUILDING_SECONDS, PROJECT, Running, run, shell

RUN = PROJECT / "run"
CALLS = PROJECT / "crates" / "script" / "stdin"
OLD, NEW = (PROJECT / "crates" / "upgrade" / name for name in ("stdin", "stdout"))
FULL = "No space left on device"
EMPTY = "run: {} has no call that a journal keeps: the journal has none\n"


def counted(folder):
    """One line says what is wrong and the next how it is typed, and no more."""
    for word in ("audit", "show", "record"):
        for names, found in (([], "here are none"), (["one", "two"], "here are 2")):
            said = f"run: `{word}` takes one file, and {found}\nusage: ./run {word} FILE\n"
            yield f"{word} {names}", run([RUN, word, *names]).problem(2, "", said)
    for names, found in (([], "here are none"), (["one"], "here is 1"), (["one", "two", "three"], "here are 3")):
        said = f"run: `upgrade` takes two files, and {found}\nusage: ./run upgrade OLD NEW\n"
        yield f"upgrade {names}", run([RUN, "upgrade", *names]).problem(2, "", said)


def empty(folder):
    file = folder / "empty"
    file.touch()
    yield "record of an empty file", run([RUN, "record", file]).problem(0, "\1", EMPTY.format(file))
    file.write_text("holders\no 0 8\n")
    said = f"run: {file} begins the forms of the register, of which a journal keeps none\n"
    yield "record of the register's forms", run([RUN, "record", file]).problem(2, "", said)
    file.write_text("")
    yield "record of empty input", run([RUN, "record", "-"], stdin=open(file)).problem(0, "\1", EMPTY.format("standard input"))
    yield "record of an empty pipe", shell(f": | '{RUN}' record -").problem(0, "\1", EMPTY.format("standard input"))
    yield "record of calls", shell(f"'{RUN}' record '{CALLS}' >'{folder}/journal'").problem(0, "", "")


def unread():
    """A pipe that nobody reads any more."""
    reading, writing = os.pipe()
    os.close(reading)
    return writing


def full(folder):
    """Standard output, and the new image."""
    calls, journal = CALLS, folder / "of-calls"
    shell(f"'{RUN}' record '{calls}' >'{journal}'")
    for word, file in (("record", calls), ("show", journal), ("audit", journal)):
        for place, reason in (("/dev/full", FULL), ("&-", "Bad file descriptor")):
            ended = shell(f"'{RUN}' {word} '{file}' >{place}")
            yield f"{word} >{place}", ended.problem(2, "", f"run: standard output cannot be written: {reason}\n")
        yield f"{word} for whoever has seen enough", run([RUN, word, file], stdout=unread()).problem(141, "", "")
    for place, reason in (("/dev/full", FULL), (folder / "none" / "new", "No such file or directory")):
        yield f"upgrade to {place}", run([RUN, "upgrade", OLD, place]).problem(2, "", f"run: the file {place} cannot be written: {reason}\n")


def written_over(folder):
    """By its name, by another path, by a link of either kind: the old image stays."""
    old, soft, hard = folder / "old", folder / "soft", folder / "hard"
    old.write_bytes(OLD.read_bytes())
    soft.symlink_to(old)
    os.link(old, hard)
    for one, other in ((old, old), (old, f"{folder}/./old"), (old, soft), (old, hard), (soft, old)):
        said = f"run: {other} is the file of the old image, and would be written over\n"
        yield f"upgrade {one} {other}", run([RUN, "upgrade", one, other]).problem(2, "", said)
        yield "the old image stays", None if old.read_bytes() == OLD.read_bytes() else "it is another"
    yield "a copy of it is another file", run([RUN, "upgrade", old, folder / "copy"]).problem(0, "", "")
    yield "and is upgraded", None if (folder / "copy").read_bytes() == NEW.read_bytes() else "it is not"


def to_a_stream(folder):
    """Standard output, through a file and a pipe; not where messages go."""
    new, held = folder / "new", NEW.read_bytes()
    for place in ("/dev/stdout", "/dev/fd/1"):
        for way, command in (("a file", f">'{new}'"), ("a pipe", f"| cat >'{new}'")):
            new.unlink(missing_ok=True)
            ended = shell(f"set -o pipefail; '{RUN}' upgrade '{OLD}' {place} {command}")
            yield f"upgrade to {place}, {way}", ended.problem(0, "", "") or (None if new.read_bytes() == held else f"{new.stat().st_size} bytes came")
    yield "upgrade without standard output", shell(f"'{RUN}' upgrade '{OLD}' '{new}' >&-").problem(0, "", "")
    said = "run: /dev/stderr is where messages go, and an image is written to a file\n"
    yield "upgrade to /dev/stderr", shell(f"'{RUN}' upgrade '{OLD}' /dev/stderr").problem(2, "", said)
    yield "upgrade to nowhere", shell(f"'{RUN}' upgrade '{OLD}' /dev/null 2>/dev/null").problem(0, "", "")


def like_options(folder):
    """A word that begins with `-` is no file, but after `--`."""
    for words, word in ((["--help", "new"], "--help"), ([OLD, "--help"], "--help"), ([OLD, "-"], "-")):
        said = f"run: `upgrade` has no option {word}; a file of that name is named after `--`\nusage: ./run upgrade OLD NEW\n"
        yield f"upgrade {words}", run([RUN, "upgrade", *words], cwd=folder).problem(2, "", said)
    left = [path.name for path in folder.iterdir()]
    yield "then no file is made", f"{left} is" if left else None
    yield "upgrade --", run([RUN, "upgrade", "--", OLD, "-x"], cwd=folder).problem(0, "", "")
    yield "that file is made", None if (folder / "-x").read_bytes() == NEW.read_bytes() else "it is another"


def no_image(folder):
    """What is refused leaves nothing, and the refusal itself may be one that cannot be written."""
    place, made = folder / "temporary", folder / "made"
    place.mkdir()
    settings = {"env": {**os.environ, "TMPDIR": str(place)}}
    yield "upgrade of calls", run([RUN, "upgrade", CALLS, made], **settings).problem(1, "no 2\n", "")
    said = f"run: standard output cannot be written: {FULL}\n"
    yield "the same, to a full disk", shell(f"'{RUN}' upgrade '{CALLS}' '{made}' >/dev/full", **settings).problem(2, "", said)
    left = [path.name for path in place.iterdir()] + [path.name for path in (made,) if path.exists()]
    yield "then nothing is left behind", f"{left} is" if left else None


def cases():
    for program in ("audit", "show", "record", "upgrade"):
        built = Running([PROJECT / "tools" / "program", program]).end(BUILDING_SECONDS)
        if built.status:
            yield f"the program {program}", built.problem(0, None, None)
            return
    for group in (counted, empty, full, written_over, to_a_stream, like_options, no_image):
        with tempfile.TemporaryDirectory() as folder:
            for what, problem in group(Path(folder)):
                yield f"./run: {what}", problem
