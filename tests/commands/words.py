"""What `./run` is asked by words and by its input, in this project and with its own program."""
import os
import pty
import re
import tempfile
from pathlib import Path

from scratch import BUILDING_SECONDS, Running, PROJECT, like, run, shell

CALLS = PROJECT / "crates" / "script" / "stdin"
ANSWERS = (PROJECT / "crates" / "script" / "stdout").read_text()
RUN = PROJECT / "run"
EXAMPLE = like(r"An example session:\n  f 65536 65536         ok\n.*\nusage: ./run FILE.*")
USAGE = like(r"usage: ./run FILE .*Any other line prints `bad`.*")
MISUSED = re.compile(r"run: .*\nusage: \./run FILE; \./run --help has the other words\n")  # two lines, which stay in sight
CARRIAGE = "carriage return at the end of every line"
MARK = "begins with a byte-order mark"


def asked_by_words(folder):
    yield "--help", run([RUN, "--help"]).problem(0, USAGE, "")
    yield "-h", run([RUN, "-h"]).problem(0, USAGE, "")
    version, kit = ((PROJECT / name).read_text().strip() for name in ("VERSION", "kit-id"))
    printed = like(rf"cinghjalofa {version}, proved with {kit}\n(the kit here is .*\n)?")
    yield "--version", run([RUN, "--version"]).problem(0, printed, "")
    yield "example", run([RUN, "example"]).problem(0, EXAMPLE, "")
    yield "-", run([RUN, "-"], stdin=open(CALLS)).problem(0, ANSWERS, "")
    yield "-- alone", run([RUN, "--"], stdin=open(CALLS)).problem(0, ANSWERS, "")
    for name in ("-calls", "--help", "-", "example", "books", "check", "--"):
        (folder / name).write_bytes(CALLS.read_bytes())
        yield f"-- {name}, a file", run([RUN, "--", name], cwd=folder).problem(0, ANSWERS, "")
    yield "a file", run([RUN, CALLS]).problem(0, ANSWERS, "")


def misused(folder):
    for word in ("books", "check"):
        yield f"{word} alone", run([RUN, word]).problem(2, "", like(rf"run: {word} takes .*\nusage: ./run books FILE.*"))
    for words in (["--unknown"], ["-x"], ["-calls"], ["one", "two"], ["--help", "more"], ["--", "one", "two"]):
        yield f"{' '.join(words)}", run([RUN, *words], cwd=folder).problem(2, "", MISUSED)
    yield "a file that is not there", run([RUN, folder / "none"]).problem(1, "", f"run: there is no file {folder}/none\n")
    yield "a folder", run([RUN, folder]).problem(1, "", f"run: {folder} is a folder, and calls are read from a file\n")
    yield "a file without a name", run([RUN, ""]).problem(1, "", "run: the name of the file is empty\n")


def nothing_to_answer(folder):
    empty = folder / "empty"
    empty.touch()
    yield "an empty file", run([RUN, empty]).problem(0, "", "")
    yield "empty input", run([RUN], stdin=open(empty)).problem(0, "", "")
    yield "an empty pipe", shell(f": | '{RUN}'").problem(0, "", "")
    yield "/dev/null as input", run([RUN]).problem(0, "", EXAMPLE)
    yield "/dev/null by name", run([RUN, "/dev/null"]).problem(0, "", "")
    yield "/dev/null by -", run([RUN, "-"]).problem(0, "", "")
    master, terminal = pty.openpty()
    yield "a terminal", run([RUN], stdin=terminal).problem(0, EXAMPLE, "")
    os.close(master)
    os.close(terminal)


def invisible(folder):
    """What does not show on a screen; the answers are what they were."""
    texts = {
        "every line with a carriage return": (b"l\r\nl\r\n", "bad\nbad\n", CARRIAGE),
        "one line with a carriage return": (b"l\r\nl\n", "bad\nlist 0 0\n", "carriage return, as on Windows, at the end of 1 of its 2 lines"),
        "the last line without one": (b"l\r\nl", "bad\nlist 0 0\n", "at the end of 1 of its 2 lines"),
        "carriage returns for line ends": (b"l\rl\r", "bad\n", "carriage returns and no line ends"),
        "a carriage return inside a line": (b"l\rl\nl\n", "bad\nlist 0 0\n", None),
        "a byte-order mark": (b"\xef\xbb\xbfl\nl\n", "bad\nlist 0 0\n", MARK),
        "both": (b"\xef\xbb\xbfl\r\n", "bad\n", f"{MARK}.*{CARRIAGE}"),
        "UTF-16": ("\ufeffl\n".encode("utf-16-le"), "bad\nbad\n", f"{MARK} of UTF-16"),
    }
    file = folder / "calls"
    for what, (given, answers, remark) in texts.items():
        file.write_bytes(given)
        for where, words, whose in (("in a file", [file], str(file)), ("in the input", [], "standard input")):
            said = re.compile(rf"run: {re.escape(whose)} .*{remark}.*\n") if remark else ""  # in one line
            yield f"{what}, {where}", run([RUN, *words], stdin=open(file)).problem(0, answers, said)
    file.write_bytes(b"\xef\xbb\xbfl\nl\r\n")
    ended = shell(f"{{ read -r first; '{RUN}'; }} <'{file}'")
    yield "only the rest of the input counts", ended.problem(0, "bad\n", re.compile(rf"run: standard input has a {CARRIAGE}.*\n"))


def upgraded(folder):
    """An image of before into a new file, over itself and once more; one that is none, and one that is not there."""
    older, current = ((PROJECT / "crates" / "upgrade" / name).read_bytes() for name in ("stdin", "stdout"))
    old, new = folder / "old.image", folder / "new.image"
    old.write_bytes(older)
    new.write_bytes(b"kept")
    yield "upgrade", run([RUN, "upgrade", old, new]).problem(0, "", "") or _held(new, current) or _held(old, older)
    again = folder / "again.image"
    yield "upgrade of what was upgraded", run([RUN, "upgrade", "--", new, again]).problem(0, "", "") or _held(again, current)
    new.write_bytes(b"kept")
    for what, given in (("another total", older[:12] + bytes([older[12] ^ 1]) + older[13:]), ("a byte less", older[:-1]), ("no byte", b"")):
        old.write_bytes(given)
        yield f"upgrade of an image with {what}", run([RUN, "upgrade", old, new]).problem(1, "no 2\n", "") or _held(new, b"kept")
    missing = folder / "none"
    yield "upgrade of a file that is not there", run([RUN, "upgrade", missing, new]).problem(2, "", f"run: there is no file {missing}\n") or _held(new, b"kept")
    yield "upgrade into a folder", run([RUN, "upgrade", old, folder]).problem(2, "", f"run: {folder} is a folder, and an image is written to a file\n")


def _held(file, wanted):
    """What is wrong with the bytes of a file, or nothing."""
    return None if file.read_bytes() == wanted else f"{file.name} has other bytes than it must"


def one_version():
    manifest = (PROJECT / "rust" / "cinghjalofa" / "Cargo.toml").read_text()
    version = (PROJECT / "VERSION").read_text().strip()
    yield "the crate has the project's version", None if f'\nversion = "{version}"\n' in manifest else f"it has not {version}"


def cases():
    for program in ("script", "upgrade"):
        built = Running([PROJECT / "tools" / "program", program]).end(BUILDING_SECONDS)
        if built.status:
            yield f"the program {program}", built.problem(0, "", None)
            return
    with tempfile.TemporaryDirectory() as folder:
        for group in (asked_by_words, misused, nothing_to_answer, invisible, upgraded):
            for what, problem in group(Path(folder)):
                yield f"./run: {what}", problem
    yield from one_version()
