"""How the commands end: every end has a sentence and a status, whatever cannot be read or written."""
import os
import pty
import re
import shutil
import subprocess
import sys
import time

import turns
from ground import PROJECT, RUN, Ended, Folder, books, held_to, run
from progress import Progress

USAGE = r"usage: \./run books FILE .*\n"


def shell(text):
    ended = subprocess.run(["bash", "-c", text], capture_output=True, stdin=subprocess.DEVNULL)
    return Ended(ended.returncode, ended.stdout.decode(), ended.stderr.decode())


def asked_wrongly(folder):
    calls = folder.write("calls", "f 0 8")
    for words in (["books"], ["books", calls, calls], ["check", calls], ["check", calls, calls, calls], ["books", calls, "--no"], ["books", calls, "--html"], ["books", calls, "--svg", "-"]):
        yield held_to(" ".join(map(str, words)), run(*words), 2, "", rf"run: .*\n{USAGE}")
    for word in ("--html", "--svg"):
        ended = run("check", calls, folder.write("log", "ok"), word, folder / "page")
        yield held_to(f"check with {word}", ended, 2, "", rf"run: check has no option {word}\n{USAGE}")
        yield f"then nothing is written by {word}", "something is" if (folder / "page").exists() else None
    yield held_to("--help", run("books", "--help"), 0, USAGE, "")
    yield held_to("both from standard input", run("check", "-", "-"), 2, "", r"run: standard input cannot be both the calls and the answers\n")
    yield held_to("a page over the calls", run("books", calls, "--html", calls), 2, "", r"run: .* is the file of the calls, and would be written over\n")
    both = run("books", calls, "--html", folder / "page", "--svg", folder / "page")
    yield held_to("a page over its picture", both, 2, "", r"run: the page and its picture cannot be one file\n")
    yield "the calls are still there", None if calls.read_bytes() == b"f 0 8\n" else "they are not"


def named_like_words(folder):
    for name in ("books", "check", "--hex"):
        folder.write(name, "f 0 8")
        yield held_to(f"-- {name}, a file", run("--", name, cwd=folder.path), 0, "ok\n", "")
        yield held_to(f"books -- {name}", run("books", "--", name, cwd=folder.path), 0, r".*The books close: .* 8 bytes are free.*", "")


def unreadable(folder):
    calls = folder.write("c", "f 0 1")
    for words in ([], ["books"], ["check", calls], ["audit"], ["show"], ["record"]):
        ended = run(*words, folder / "none")
        yield held_to(f"no file, of {words[:1]}", ended, 2 if words else 1, "", rf"run: there is no file {folder / 'none'}\n")
    yield held_to("a folder below a file", run("books", calls / "none"), 2, "", r"run: there is no file .*/c/none\n")
    yield held_to("a folder", run("books", folder.path), 2, "", rf"run: {folder.path} is a folder, and calls are read from a file\n")
    yield held_to("a folder of answers", run("check", calls, folder.path), 2, "", rf"run: {folder.path} is a folder, and answers are read from a file\n")
    yield held_to("a file without a name", run("books", ""), 2, "", r"run: the name of the file is empty\n")
    yield held_to("a closed input", shell(f"'{RUN}' books - <&-"), 2, "", r"run: standard input cannot be read: Bad file descriptor\n")
    recorded = run("check", folder.write("c", b"\x01"), folder.write("a", "ok"))
    yield held_to("a journal as calls", recorded, 2, "", r"run: .*/c is a journal, which has its own answers: \./run books judges them\n")
    few = folder / "few"
    few.mkdir()
    for tool in ("bash", "dirname", "readlink", "env"):
        (few / tool).symlink_to(shutil.which(tool))
    ended = run("books", folder / "c", env={"PATH": str(few)})
    yield held_to("without python3", ended, 2, "", r"run: there is no `python3` here; tools/setup installs what is needed\n")
    secret = folder.write("secret", "f 0 8")
    secret.chmod(0)
    folder.path.chmod(0o755)
    shutil.copytree(PROJECT / "tools" / "books", folder / "tool", ignore=shutil.ignore_patterns("__pycache__"))
    other = ["setpriv", "--reuid=65534", "--regid=65534", "--clear-groups"] if os.getuid() == 0 else []
    ended = subprocess.run([*other, sys.executable, "-B", folder / "tool", "books", secret], capture_output=True, text=True)
    yield held_to("no permission", Ended(ended.returncode, ended.stdout, ended.stderr), 2, "", r"run: the file .*/secret cannot be read: Permission denied\n")


def unwritable(folder):
    calls, full = folder.write("calls", "f 0 8"), r"run: standard output cannot be written: No space left on device\n"
    yield held_to("a full disk", shell(f"'{RUN}' books '{calls}' >/dev/full"), 2, "", full)
    yield held_to("a full disk, of check", shell(f"'{RUN}' check '{calls}' <(echo ok) >/dev/full"), 2, "", full)
    yield held_to("a closed output", shell(f"'{RUN}' books '{calls}' >&-"), 2, "", r"run: standard output cannot be written: Bad file descriptor\n")
    for place, reason in (("/dev/full", "No space left on device"), (folder / "none" / "page", "No such file or directory"), (folder.path, "Is a directory")):
        ended = run("books", calls, "--html", place)
        yield held_to(f"a page at {place}", ended, 2, r"line .*The books close: .*", rf"run: .* cannot be written: {reason}\n")
    many = folder.write("many", "f 0 8|" + "|".join(["f 0 8"] * 20000))
    yield held_to("whoever has seen enough", shell(f"set -o pipefail; '{RUN}' books '{many}' | head -n 1"), 141, r" *line .*\n", "")
    yield held_to("no place to hold what is read", shell(f"ulimit -f 8; '{RUN}' books '{many}'"), 2, "", r"run: a file in .* cannot be written: File too large\n")
    strange = folder.write(os.fsdecode(b"\xff\xfe.txt"), "f 0 8\r")
    yield held_to("a name of any bytes", run("check", strange, folder.write("log", "ok"), "--hex"), 0, r"Read differently in .*\.txt: .*The books close: .*", "")
    yield held_to("its page", run("books", strange, "--html", folder / "page"), 0, r".*The books close: .*", "")
    yield held_to("standard error closed", shell(f"'{RUN}' books '{folder / 'none'}' 2>&-"), 2, "", "")


def far_and_empty(folder):
    yield held_to("an empty file", run("books", folder.write("calls", b"")), 0, r"line .*There is no call in it\.\nThe books close: .* 0 bytes are free\.\n", "")
    marked = run("books", folder.write("calls", b"\xef\xbb\xbf"))
    yield held_to("a byte-order mark alone", marked, 0, r"Read differently: a byte-order mark .*There is no call in it\.\n.*", "")
    yield held_to("comments alone", run("books", folder.write("calls", "# a|# b")), 0, r"Read differently: .*There is no call in it\.\n.*", "")
    nothing = run("check", folder.write("calls", b""), folder.write("log", b""))
    yield held_to("an empty log of nothing", nothing, 0, r"There is no call in it\.\nThe books close: .*", "")
    yield held_to("/dev/null", run("books", "/dev/null"), 0, r"line .*The books close: .*", "")
    yield held_to("from standard input", run("books", "-", given=b"f 0 8\n"), 0, r"line .* 8 bytes are free, in 1 range\.\n", "")
    whole = folder.write("calls", "f 0 9223372036854775808|l")
    yield held_to("2^63 bytes", run("books", whole), 0, r".* 0 to 9223372036854775807 .*\+9223372036854775808 .* 9223372036854775808 bytes are free.*", "")
    yield held_to("the last byte", run("books", folder.write("calls", "f 9223372036854775807 1|a 1 63|a 1 0")), 1, r".*ok 9223372036854775807 .* 0 bytes are free\.\n", "")
    huge = folder.write("calls", f"f {2**64 - 1} {2**64 - 1}|r {2**64 - 1} {2**64 - 1} {2**64 - 1}|f {10**300} 1")
    yield held_to("numbers past all", run("books", huge), 1, r".*Of 3 lines 3 were refused or bad\.\nThe books close: .*", "")


def false_programs(_):
    """A program that is not the proved one, and one that breaks off."""
    desk, entries, _ = books(["sed", "s/.*/ok/"], b"f 0 8\nf 4 2\n")
    yield "a program that says ok to everything", None if desk.first_fault == 2 and entries[2].faults else f"{entries}"
    for what, words in (("breaks off", ["sed", "-u", "s/.*/ok/;1q"]), ("says too much", ["sed", "s/.*/ok/;p"]), ("ends badly", ["false"]), ("says yes", ["sed", "s/.*/yes/"])):
        try:
            books(words, b"f 0 8\nf 4 2\n")
            yield f"a program that {what}", "it was believed"
        except turns.Unanswered:
            yield f"a program that {what}", None


class Terminal:
    def __init__(self, is_one):
        self.is_one, self.text = is_one, ""

    def isatty(self):
        return self.is_one

    def write(self, text):
        self.text += text

    def flush(self):
        pass


def progressing(_):
    for is_one in (True, False):
        terminal = Terminal(is_one)
        progress = Progress(terminal)
        progress.at(4096)
        time.sleep(0.6)
        progress.at(8192)
        progress.end()
        due = "\rrun: 8192 lines read\x1b[K\r\x1b[K" if is_one else ""
        yield f"progress {'at a' if is_one else 'without a'} terminal", None if terminal.text == due else f"it is {terminal.text!r}"


def said_to_terminal(words):
    """The status of a command whose standard error is a terminal, and all that it shows there."""
    ours, theirs = pty.openpty()
    running = subprocess.Popen([RUN, *words], stdin=subprocess.DEVNULL, stdout=subprocess.DEVNULL, stderr=theirs)
    os.close(theirs)
    said = b""
    while True:
        try:
            said += os.read(ours, 65536)
        except OSError:  # nobody writes to it any more
            break
    os.close(ours)
    return running.wait(timeout=300), said.decode()


def at_a_terminal(folder):
    """How far a long file is, and no trace of it at the end; of a short one, or where something fails, no more than that."""
    calls = folder.write("calls", b"f 0 4096\n" + b"a 16 0\nf 0 16\n" * 100000)
    log = folder.write("log", b"ok\n" + b"ok 0\nok\n" * 100000)
    for words, done in ((["books", calls], "entered"), (["check", calls, log], "judged")):
        status, said = said_to_terminal(words)
        is_right = status == 0 and re.fullmatch(rf"(\rrun: \d+ lines (read|{done})\x1b\[K)*\rrun: \d+ lines {done}\x1b\[K\r\x1b\[K", said)
        yield f"{words[0]} of a long file at a terminal", None if is_right else f"status {status}, {said[-500:]!r}"
    status, said = said_to_terminal(["books", folder.write("calls", "f 0 8")])
    yield "a short file at a terminal", None if (status, said) == (0, "") else f"status {status}, {said!r}"


def cases(words, is_few=False):
    for group in (asked_wrongly, named_like_words, unreadable, unwritable, far_and_empty, false_programs, progressing, at_a_terminal):
        with Folder() as folder:
            yield from group(folder)
